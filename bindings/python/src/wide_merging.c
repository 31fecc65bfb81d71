/* Merges and comparisons of Roaring bitmaps of 64-bit numbers. */
#define WIDE
#include "bitmap_merging.h"
