/* Initializers: braces, designators, strings, nothing at all. */
struct inner { char name[8]; int values[3]; };
struct outer { struct inner one, two; struct inner *link; };

int none[4] = {};
int some[] = { 1, 2, [5] = 6, 7, };
char text[] = "text";
char exact[4] = { 't', 'e', 'x', 't' };
const char *const words[] = { "one", "two" "three", [3] = "four" };
struct outer whole = {
    { "a", { 1 } },
    .two = { .name = "b", .values[1] = 2, .values = { [2] = 3 } },
    .link = &whole.one,
};
struct outer parts = { .one.values[0] = 4, .two.name[1] = 'c' };
int (*function)(void) = 0;
int *pointer = &some[2];
