/* A unit that the command translates, behind macros and conditionals. */
#define RESULT(a, b) ((a) * (b) + 0x10)
#ifdef WIDE
#define FACTOR 4
#else
#define FACTOR 2
#endif
int main(void)
{
    return RESULT(3, FACTOR);
}
