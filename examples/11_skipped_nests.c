/* Conditionals within a skipped group, with lines that would be wrong elsewhere. */
#if 0
#if 1
int a;
#else
int b;
#endif
#ifdef Z
#unknown directive
an ordinary line
#elif 1/0
#include <no such file>
#endif
#else
int c;
#endif
