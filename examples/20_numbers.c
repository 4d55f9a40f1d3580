/* Numbers as they are written. */
int a[] = { 0x1f, 017, 0b11, 1'000'000, 10u, 10UL, 10ll, 0xffffffffffffffff };
double b[] = { 1.5, 2e10, .5e-3, 0x1p+4, 1.f };
#define next(n) n + 1
int c = next(0x10) - next(1e2);
