/* What the tests of Wine take from the header of this name, so that they are built without Wine: here each assertion is counted by count.c. */
#ifndef WINE_TEST_H
#define WINE_TEST_H

#include <stdarg.h>
#include <stdlib.h>
#include <string.h>
#include <windef.h>
#include <winbase.h>
#include <wine/debug.h>

#ifndef INVALID_FILE_ATTRIBUTES
#define INVALID_FILE_ATTRIBUTES (~0u)
#endif

extern int winetest_debug, winetest_interactive;
extern const char *winetest_platform;

void set_place(const char *file, int line, const char *function);
void count_assertion(int holds, const char *format, ...);
void ignore(const char *format, ...);
int is_chosen(const char *test);
int broken(int holds);
int winetest_get_mainargs(char ***words);
void winetest_wait_child_process(HANDLE process);
void run_tests(void);

#define START_TEST(name) void run_tests(void)
#define ok_(file, line) (set_place(file, line, __func__), 0) ? (void)0 : count_assertion
#define ok ok_(__FILE__, __LINE__)
#define skip ignore
#define win_skip ignore
#define trace ignore
#define skip_(file, line) ignore
#define win_skip_(file, line) ignore
#define trace_(file, line) ignore
#define winetest_push_context ignore
#define winetest_pop_context() ((void)0)
#define wait_child_process winetest_wait_child_process

/* What Wine still does otherwise than Windows is asserted as Windows does it. */
#define todo_if(holds)
#define todo_wine
#define todo_wine_if(holds)
#define flaky
#define flaky_if(holds)
#define flaky_wine
#define flaky_wine_if(holds)

#ifndef ARRAY_SIZE
#define ARRAY_SIZE(list) (sizeof(list) / sizeof((list)[0]))
#endif
#define U(x) (x)
#define U1(x) (x)
#define U2(x) (x)
#define U3(x) (x)
#define S(x) (x)
#define S1(x) (x)
#define S2(x) (x)
#define S3(x) (x)
#define debugstr_w wine_dbgstr_w
#define debugstr_a wine_dbgstr_a
#define debugstr_wn wine_dbgstr_wn
#define debugstr_an wine_dbgstr_an

/* Wide characters of 16 bits, which the C library of Linux hasn't. */
size_t length_of(const WCHAR *text);
int order_of(const WCHAR *one, const WCHAR *other);
int order_without_case(const WCHAR *one, const WCHAR *other, size_t most);
WCHAR *copy_of(WCHAR *to, const WCHAR *text);
WCHAR *first_of(const WCHAR *text, WCHAR c);
WCHAR *last_of(const WCHAR *text, WCHAR c);
int print_wide(WCHAR *to, size_t room, const WCHAR *format, ...);
#define wcslen length_of
#define wcscmp order_of
#define wcsicmp(one, other) order_without_case(one, other, ~(size_t)0)
#define wcsnicmp order_without_case
#define wcscpy copy_of
#define wcscat(to, text) (copy_of((to) + length_of(to), text), (to))
#define wcschr first_of
#define wcsrchr last_of
#define swprintf print_wide
#define _atoi64 atoll

#endif
