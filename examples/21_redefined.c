/* Macros that are defined twice with one text, and ones that are undefined. */
#define A 1 + 2
#define A 1  +  2
#define f(x) x / 2
#define f( x ) x / 2
int a = A, b = f(4);
#undef A
#define A 3
#undef unknown
int c = A;
