/* Calls within calls, and names that a replacement makes. */
#define add(a, b) ((a) + (b))
#define twice(f, x) f(x, f(x, x))
#define apply(f, ...) f(__VA_ARGS__)
int n = twice(add, 1);
int m = apply(add, 2, 3);
int k = add(add(add(1, 2), 3), add(4, add(5, 6)));
