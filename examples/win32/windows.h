/* For source that was written for Windows. */
#include "win32.h"
