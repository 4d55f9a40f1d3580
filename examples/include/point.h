#pragma once
struct point { int x, y; };
#define ORIGIN { 0, 0 }
