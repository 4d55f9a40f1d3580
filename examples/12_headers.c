/* Headers by both forms, with guards. */
#include "include/shape.h"
#include "include/shape.h"
#include <list.h>
struct shape first = { SIDE, SIDE };
int n = list_limit;
