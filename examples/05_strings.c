/* The operator #: blanks, quotes and backslashes. */
#define quote(x) #x
#define quote_all(...) #__VA_ARGS__
#define show(x) quote(x)
#define VALUE 42
const char *a = quote(  a   +  b  );
const char *b = quote("text" '\n' "\\");
const char *c = quote_all(1, 2 ,3);
const char *d = quote(VALUE);
const char *e = show(VALUE);
const char *f = quote();
