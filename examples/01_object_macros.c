/* Macros without parameters, and one that names another. */
#define ONE 1
#define TWO (ONE + ONE)
#define NOTHING
#define EMPTY_TOO /* a comment alone */
int main(void) { return TWO * ONE NOTHING EMPTY_TOO; }
