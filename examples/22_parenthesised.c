/* Arguments with commas in parentheses, and empty ones. */
#define three(a, b, c) [a] [b] [c]
#define none() 0
#define one(x) <x>
int a = three((1, 2), , 3);
int b = none();
int c = one();
int d = three(one(()), ((,)), none ());
