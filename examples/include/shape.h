#ifndef SHAPE_H
#define SHAPE_H
#define SIDE 4
struct shape { int width, height; };
#include "point.h"
#endif
