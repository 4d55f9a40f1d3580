/* Comments are one space, but not within strings. */
int/**/a/* b */= /**/1;
const char *s = "/* no comment */ // none";
int c = 7 // up to the end of the line
+ 2;
#define/**/X/**/(1)
int d = X;
#define quote(x) #x
const char *t = quote(a/* */b);
