/* Macros with parameters; a name without its parenthesis stays. */
#define square(x) ((x) * (x))
#define first(a, b) a
#define pair() (1, 2)
int a = square(3 + 4);
int b = first(5, (6, 7));
int c = first pair ();
int square;
int d = square (8) + first(square(2), first);
