/* A name isn't replaced within its own replacement. */
#define loop loop + 1
#define ping pong
#define pong ping
#define f(a) a*g
#define g(a) f(a)
int a = loop;
int b = ping pong;
int c = f(2)(9);
