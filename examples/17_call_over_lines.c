/* A call whose arguments stand on several lines. */
#define sum(a, b, c) a + b + c
int n = sum(1,
    2,
    sum(3,
        4, 5)) ;
int m
    = 6;
