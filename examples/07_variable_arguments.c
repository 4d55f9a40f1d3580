/* __VA_ARGS__ and __VA_OPT__. */
#define call(f, ...) f(0 __VA_OPT__(,) __VA_ARGS__)
#define list(...) { __VA_ARGS__ }
#define named(name, ...) name __VA_OPT__((__VA_ARGS__))
#define EMPTY
int a = call(g);
int b = call(g, 1);
int c = call(g, 1, 2);
int d = call(g, EMPTY);
int e[] = list(1, 2, 3);
int f = named(x) + named(y, 1) + named(z, );
