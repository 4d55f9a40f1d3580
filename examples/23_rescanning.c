/* Replacements that go on behind their end, and arguments that make calls. */
#define join(a, b) a ## b
#define give(x) x
#define swap(a, b) b a
#define tail give
#define self(x) x self
#define twice(x) x x
int a = give(swap)(1, 2);
int b = tail (3) tail(tail)(4);
int c = twice(give) (5);
int d = self(6)(7)(8);
int e = give(give(give)(join(1, 2)));
int f = swap(swap(1, 2), give(swap)(3, 4));
