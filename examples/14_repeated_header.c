/* A header that is included again and again, each time with another meaning. */
#define COLOURS(each) each(red) each(green) each(blue)
#define ITEM(name) name,
enum colour { COLOURS(ITEM) };
#undef ITEM
#define ENTRY red
#include "include/entry.h"
#define ENTRY green
#include "include/entry.h"
#define ENTRY blue
#include "include/entry.h"
