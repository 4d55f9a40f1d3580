/* Each operator, once at least. */
struct pair { int a; int b; };

int take(int x, ...);

int all(int x, int y, int *p, struct pair *q, struct pair s)
{
    int z = x + y - x * y / (y ? y : 1) % 7;
    z = x << 2 | y >> 1 & 3 ^ ~z;
    z += x, z -= y, z *= 2, z /= 3, z %= 5, z <<= 1, z >>= 1, z &= 7, z ^= 2, z |= 1;
    z = x < y || x > y && x <= y == (x >= y) != !z;
    z = ++x + --y - x++ - y--;
    z = *p + p[1] + q->a + s.b + (*q).a + -z + +z;
    z = *&z;
    z = (int)sizeof z + (int)sizeof(int) + (int)sizeof(struct pair) + (int)alignof(int *);
    z = (char)x + (int)(long)y;
    z = take(1, "one" " two", 'c', x ? y : z, (x, y));
    z = ((struct pair){ 1, 2 }).a + ((struct pair){ .b = 3 }).b + (int[2]){ 4, 5 }[1];
    return x == 1 ? 2 : y == 3 ? 4 : z;
}
