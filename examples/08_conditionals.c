/* Groups that are taken and groups that are skipped. */
#define A 1
#if A
int taken_1;
#else
int skipped_1;
#endif
#if !A
int skipped_2;
#elif A == 1
int taken_2;
#elif 1
int skipped_3;
#else
int skipped_4;
#endif
#ifdef B
#error B is defined
#elifdef A
int taken_3;
#endif
#ifndef A
int skipped_5;
#elifndef B
int taken_4;
#endif
