/* Lines that go on, within tokens too. */
#define long_macro(a, b) \
    ((a) + \
     (b))
int a = long_ma\
cro(1, 2);
int b = 1\
2;
// a comment that \
goes on
int c = /* a comment
over lines */ 3;
