/* Functions: declared in many ways, variadic, nested calls, pointers. */
#include <stdio.h>

int plain();
int none(void);
static int hidden(int, char *);
int variadic(const char *format, ...);
int (*returns_function(int which))(int, int);
int takes(int f(int), int (*g)(int), int a[], int b[3]);

static int hidden(int count, char *text)
{
    return variadic("%d %s", count, text) + plain() + none();
}

int add(int a, int b) { return a + b; }
int subtract(int a, int b) { return a - b; }

int (*returns_function(int which))(int, int)
{
    return which ? add : &subtract;
}

int main(int argc, char **argv)
{
    printf("%d\n", returns_function(argc)(hidden(1, argv[0]), (*add)(2, (**add)(3, 4))));
    return (returns_function)(0)(5, 5);
}
