/* The names of the place. */
int a = __LINE__;
const char *b = __FILE__;
#define HERE __LINE__
int c = HERE + HERE;
int d = __STDC__ + __STDC_HOSTED__;
