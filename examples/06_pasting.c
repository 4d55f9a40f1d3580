/* The operator ##, also with an empty operand. */
#define paste(a, b) a ## b
#define name(n) item_ ## n
#define three(a, b, c) a ## b ## c
#define late(a, b) paste(a, b)
#define X x
int paste(x, 1);
int name(7) = paste(1, 23);
int three(p, q, r);
int paste(, y) = paste(0x, 1f);
int paste(z, ) = 1;
int late(X, 2);
int t = a paste(<, <=) 3;
