"""Sets of whole numbers as bits, matrices of bits, and Roaring bitmaps, over a library whose every call is proved.

A BitSet is a MutableSet of numbers from 0 to MAX_ELEMENT. It takes an eighth of a byte for each number up to its greatest
member. Its methods are those of set, and others for ranges, ends and searches. A new member is an int or another object with
an index; a look-up finds any object that equals a member, such as 4.0. Each row of a BitMatrix is a set of columns, such as
the edges of a graph. A RoaringBitmap is a MutableSet of numbers below 2^32 that may be few and far apart, and a
RoaringBitmap64 one of numbers below 2^64.
"""

from collections.abc import MutableSet

from ._bit_set import MAX_ELEMENT, BitMatrix, BitSet, RoaringBitmap, RoaringBitmap64

__all__ = ["MAX_ELEMENT", "BitMatrix", "BitSet", "RoaringBitmap", "RoaringBitmap64"]

MutableSet.register(BitSet)
MutableSet.register(RoaringBitmap)
MutableSet.register(RoaringBitmap64)
