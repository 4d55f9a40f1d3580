/* Conditions: operators, types, characters. */
#if 1 + 2 * 3 == 7 && (1 << 4 | 2) == 18
int a;
#endif
#if -1 > 0u
int b;
#endif
#if 'a' == 97 && '\n' == 10 && '\x41' == 'A'
int c;
#endif
#if 0x7fffffffffffffff + 0 > 0 && 0b101 == 5 && 1'000 == 1000
int d;
#endif
#if (2 ? 3 : 1 / 0) == 3 && (0 && 1 / 0) == 0
int e;
#endif
#if -7 / 2 == -3 && -7 % 2 == -1 && ~0 == -1
int f;
#endif
#if unknown || !unknown
int g;
#endif
