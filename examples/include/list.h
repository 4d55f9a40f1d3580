#pragma once
#include "point.h"
enum { list_limit = 16 };
extern struct point list[list_limit];
