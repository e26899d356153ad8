/* Where the expression is 0, `FILE:LINE: assertion failed: TEXT` is written to the standard output, and the program ends with status 134. */
#undef assert
#ifdef NDEBUG
#define assert(expression) ((void)0)
#else
#define assert(expression) ((expression) ? (void)0 : rvcc_assert(#expression, __FILE__, __LINE__))
#endif

#ifndef RVCC_ASSERT_H
#define RVCC_ASSERT_H

#define static_assert _Static_assert

void rvcc_assert(const char *text, const char *file, int line);

#endif
