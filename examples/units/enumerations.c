/* Enumerations and structures in type specifiers. */
enum letters { a, b = a + 2, c, };
enum : short { low = -1, high } level = high;
enum byte : unsigned char { small, large = 255 };
enum forward : int;
enum forward : int { first };
enum byte stored = large;
struct with_enum {
    enum kind { is_int, is_text } kind;
    enum byte size;
};
struct { struct { int deep; } inner; } nameless;
int sizes = sizeof(enum { in_size, also }) + in_size;
enum letters give(enum { parameter } p, struct local { int x; } *q)
{
    (void)p, (void)q;
    return (enum letters)1;
}
