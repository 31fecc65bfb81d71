/* The names by which a text that is compiled once for each kind of bitmaps calls what belongs to the kind: bitmaps of 32-bit
 * numbers, or of 64-bit numbers in a file that defines WIDE before. */
#ifndef BIT_SET_KIND_H
#define BIT_SET_KIND_H

#include "set.h"

#ifdef WIDE
#define OF(name) wide_##name
#define CALL(name) bit_roaring64_##name
#define IS is_wide
#define READ_EQUAL read_wide_equal
#define READ_MEMBER read_wide_member
#define HAS(self, number) bit_roaring64_contains(wide_of(self), number)
#define NAME "RoaringBitmap64"
#define GREATEST UINT64_MAX
#define ARRAY_KIND "Q"
typedef Wide object;
typedef bit_roaring64 handle;
typedef uint64_t number_held;
#else
#define OF(name) bitmap_##name
#define CALL(name) bit_roaring_##name
#define IS is_bitmap
#define READ_EQUAL read_equal
#define READ_MEMBER read_member
#define HAS has_number
#define NAME "RoaringBitmap"
#define GREATEST UINT32_MAX
#define ARRAY_KIND "I"
typedef Bitmap object;
typedef bit_roaring handle;
typedef uint32_t number_held;
#endif

#endif
