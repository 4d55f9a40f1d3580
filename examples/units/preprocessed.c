/* Macros and headers in front of a unit. */
#include <assert.h>
#include <ctype.h>
#include <limits.h>
#include <stdbool.h>
#include <stdio.h>
#include <string.h>
#define MAX(a, b) ((a) > (b) ? (a) : (b))
#define EACH(i, n) for (int i = 0; i < (n); i++)
#define FIELD(type, name) type name;
#define FIELDS FIELD(int, x) FIELD(char *, text)
#ifdef FIELDS
struct fields { FIELDS };
#else
struct nothing { int x; };
#endif
#pragma cake diagnostic push
#pragma cake diagnostic ignored "F01"
int longest(const char *first, const char *second)
{
    assert(first && second);
    EACH(i, INT_MAX)
        if (!isalpha(first[i]))
            break;
    return (int)MAX(strlen(first), strlen(second));
}
#pragma cake diagnostic pop
#line 100 "elsewhere.c"
const char *where = __FILE__;
int line = __LINE__;
