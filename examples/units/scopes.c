/* Names of types that are hidden and come back. */
typedef int number;
typedef number *pointer;

number number_of(number number)
{
    return number;
}

int sizes(void)
{
    number a = 1;
    {
        int number = 2, b = number * a;
        a = b;
    }
    number c = sizeof(number);
    for (number number = 0; number < 3; number++)
        a += number;
    number d = (number)a + c;
    pointer p = &d;
    if (number e = d; e)
        d = (number){ e };
    struct number { number number; } n = { d };
    number *q = &n.number;
    return *q + *p;
}

int declared(int (number), int other(number));
void outer(void)
{
    typedef char number;
    extern number letters[];
    struct number;
    enum { first = sizeof(number) } e = first;
    (void)e;
}
