/* The operator defined. */
#define X
#if defined X && !defined(Y)
int a;
#endif
#undef X
#if defined(X) || defined Y
int b;
#else
int c;
#endif
#define VALUE 0
#if defined VALUE && !VALUE
int d;
#endif
