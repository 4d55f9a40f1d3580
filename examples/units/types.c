/* Types, storage, qualifiers and type specifiers. */
#include <stddef.h>
#include <stdint.h>

typedef unsigned char byte;
typedef struct point point_type, *point_pointer;

struct point {
    int x, y;
    struct {
        short width;
        const char *name;
    } label;
};

enum colour { red, green = 4, blue, };
enum small : unsigned char { zero, one };
enum wide : long;

static const int table[3] = { 1, 2, 3 };
extern long long counter;
bool flag = true;
_Bool old_flag = false;
void *nothing = nullptr;
signed char letter = 'a';
unsigned long long mask = 0xFFFF'FFFF'FFFFull;
short int bits = 0b1010'0101;
int matrix[2][3] = { { 1, 2, 3 }, { 4, 5, 6 } };
int (*handler)(int, const char *restrict);
int *(*handlers[2])(void);
size_t length = sizeof(struct point);
uint8_t raw = 255;
int alignment = alignof(struct point);
typeof(table[0]) first;
typeof_unqual(const int *) second;
constexpr int limit = 16;
static_assert(sizeof(int) == 4, "int has four bytes");
static_assert(limit == 16);
[[maybe_unused]] static inline int unused(void) { return 0; }
_Noreturn void stop(void);
