/* Merges and comparisons of Roaring bitmaps of 32-bit numbers. */
#include "bitmap_merging.h"
