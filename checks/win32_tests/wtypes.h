/* A header that Wine makes of a description when it is built: of it no more is needed here. */
#include <guiddef.h>
