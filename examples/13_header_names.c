/* A header whose name a macro makes. */
#define HEADER "include/point.h"
#define ANGLED <list.h>
#include HEADER
#include ANGLED
struct point p = ORIGIN;
