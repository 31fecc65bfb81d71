"""Tests of RoaringBitmap64: random calls beside Python's own set, and what the calls raise.

python3 roaring64_tests.py       the module must be on PYTHONPATH
"""

import copy
import operator
import pickle
import random
import unittest
import weakref
from array import array
from collections.abc import MutableSet

from bit_set import BitSet, RoaringBitmap, RoaringBitmap64

GREATEST = 2**64 - 1


def drawn(rng):
    """Numbers of some bitmaps, few and many, around 2^32 and at both ends."""
    numbers = {rng.randrange(2**64) for _ in range(rng.randrange(50))}
    start = 2**32 - rng.randrange(5000)
    numbers.update(range(start, start + rng.randrange(9000)))
    numbers.update(rng.sample(range(2**16), rng.choice([0, 10, 6000])))
    numbers.update(GREATEST - number for number in rng.sample(range(2**16), rng.choice([0, 10])))
    return numbers


class Random(unittest.TestCase):
    def setUp(self):
        self.rng = random.Random(5)

    def test_single_numbers(self):
        bitmap, plain = RoaringBitmap64(), set()
        for _ in range(20000):
            number = self.rng.choice([self.rng.randrange(9000), GREATEST - self.rng.randrange(9), 2**40])
            call = self.rng.choice(["add", "add", "discard"])
            getattr(bitmap, call)(number)
            getattr(plain, call)(number)
            self.assertEqual(number in bitmap, number in plain)
        self.assertEqual(list(bitmap), sorted(plain))
        self.assertEqual(list(reversed(bitmap)), sorted(plain, reverse=True))

    def test_operators(self):
        pairs = [(name, getattr(operator, name)) for name in ("or_", "and_", "sub", "xor")]
        for _ in range(8):
            a, b = drawn(self.rng), drawn(self.rng)
            ours, theirs = RoaringBitmap64(a), RoaringBitmap64(b)
            for name, call in pairs:
                wanted = call(a, b)
                for made in (call(ours, theirs), call(ours, b), call(a, theirs)):
                    self.assertIs(type(made), RoaringBitmap64, name)
                    self.assertEqual(made, wanted, name)
                in_place = ours.copy()
                in_place = getattr(operator, "i" + name.rstrip("_"))(in_place, theirs)
                self.assertEqual(in_place, wanted, name)
            for name in ("eq", "ne", "le", "lt", "ge", "gt"):
                call = getattr(operator, name)
                for c, d in ((a, b), (a, a), (a & b, a), (a, a & b)):
                    self.assertEqual(call(RoaringBitmap64(c), RoaringBitmap64(d)), call(c, d), name)
                    self.assertEqual(call(RoaringBitmap64(c), d), call(c, d), name)

    def test_methods(self):
        for _ in range(8):
            a, b, c = drawn(self.rng), drawn(self.rng), drawn(self.rng)
            bitmap = RoaringBitmap64(a)
            for name in ("union", "intersection", "difference"):
                wanted = getattr(a, name)(b, c)
                self.assertEqual(getattr(bitmap, name)(b, RoaringBitmap64(c)), wanted, name)
                changed = bitmap.copy()
                getattr(changed, "update" if name == "union" else name + "_update")(b, c)
                self.assertEqual(changed, wanted, name)
            self.assertEqual(bitmap.symmetric_difference(b, c), a ^ b ^ c)
            for name in ("union", "intersection", "difference", "symmetric_difference"):
                self.assertEqual(getattr(bitmap, name + "_cardinality")(b), len(getattr(a, name)(b)))
            self.assertEqual(bitmap.isdisjoint(b), a.isdisjoint(b))
            self.assertEqual(bitmap.intersect(b), not a.isdisjoint(b))
            self.assertEqual((bitmap.issubset(a | b), bitmap.issuperset(a & b)), (True, True))
            self.assertEqual(bitmap.jaccard_index(a | {3}), len(a) / len(a | {3}))

    def test_searches(self):
        for _ in range(20):
            numbers = sorted(drawn(self.rng) | {7})
            bitmap = RoaringBitmap64(numbers)
            self.assertEqual((len(bitmap), bitmap.min(), bitmap.max()), (len(numbers), numbers[0], numbers[-1]))
            value = self.rng.choice([*numbers, self.rng.randrange(2**64)])
            below = [number for number in numbers if number < value]
            self.assertEqual(bitmap.next(value), min((number for number in numbers if number >= value), default=None))
            self.assertEqual(bitmap.previous(value), max(below, default=None))
            self.assertEqual(bitmap.rank(value), len(below) + (value in bitmap))
            place = self.rng.randrange(len(numbers))
            self.assertEqual((bitmap[place], bitmap[place - len(numbers)]), (numbers[place], numbers[place]))
            self.assertEqual(bitmap.to_array(), array("Q", numbers))

    def test_ranges(self):
        for _ in range(8):
            plain = drawn(self.rng)
            bitmap = RoaringBitmap64(plain)
            start = self.rng.choice([2**32 - self.rng.randrange(9000), GREATEST - self.rng.randrange(70000), 5])
            stop = min(start + self.rng.randrange(70000), 2**64)
            numbers = set(range(start, stop))
            self.assertEqual(bitmap.range_cardinality(start, stop), len(plain & numbers))
            self.assertEqual(bitmap.contains_range(start, stop), numbers <= plain)
            self.assertEqual(bitmap.clamp(start, stop), plain & numbers)
            self.assertEqual(bitmap.flip(start, stop), plain ^ numbers)
            bitmap.add_range(start, stop)
            self.assertEqual(bitmap, plain | numbers)
            self.assertTrue(bitmap.contains_range(start, stop))
            bitmap.flip_inplace(start, stop)
            self.assertEqual(bitmap, plain - numbers)
            bitmap.add_range(start, stop)
            bitmap.remove_range(start, stop)
            self.assertEqual(bitmap, plain - numbers)

    def test_statistics(self):
        for numbers in ([], [3], range(5000), range(0, 10000, 2), [*range(70000), 2**31]):
            one = RoaringBitmap(numbers)
            two = RoaringBitmap64(one) | RoaringBitmap64(number + 2**40 for number in numbers)
            doubled = {name: 2 * count for name, count in one.get_statistics().items()}
            self.assertEqual(two.get_statistics(), doubled)

    def test_bytes_and_copies(self):
        for _ in range(8):
            bitmap = RoaringBitmap64(drawn(self.rng))
            written = bitmap.serialize()
            self.assertEqual(RoaringBitmap64.deserialize(written + b"!"), bitmap)
            for again in (pickle.loads(pickle.dumps(bitmap)), copy.copy(bitmap), copy.deepcopy(bitmap), bitmap.copy()):
                self.assertEqual(again, bitmap)
                again.clear()
            with self.assertRaises(ValueError):
                RoaringBitmap64.deserialize(written[: self.rng.randrange(len(written))])


class Both(unittest.TestCase):
    """What bitmaps of both kinds have alike."""

    KINDS = ((RoaringBitmap, 2**32 - 1), (RoaringBitmap64, GREATEST))

    def test_ends_of_ranges(self):
        for kind, greatest in self.KINDS:
            bitmap = kind([3])
            for start, stop in ((9, 4), (5, 5), (-3, -9), (greatest + 5, greatest)):
                bitmap.add_range(start, stop)
                bitmap.remove_range(start, stop)
                self.assertEqual((bitmap.range_cardinality(start, stop), bitmap.clamp(start, stop)), (0, set()))
            self.assertEqual(bitmap, {3})
            self.assertTrue(bitmap.contains_range(4, 4) and bitmap.contains_range(3, 4))
            for start, stop in ((-1, 4), (greatest, greatest + 2), (2 * greatest, 3 * greatest), (-5, -3)):
                self.assertRaises(ValueError, bitmap.add_range, start, stop)
                self.assertRaises(ValueError, bitmap.flip, start, stop)
                self.assertFalse(bitmap.contains_range(start, stop))
            bitmap.add_range(greatest - 1, greatest + 1)
            self.assertEqual(bitmap.range_cardinality(-5, 2 * greatest), 3)
            self.assertEqual(bitmap.clamp(-5, 4), {3})
            self.assertEqual(bitmap.clamp(4, 2 * greatest), {greatest - 1, greatest})
            self.assertTrue(bitmap.contains_range(greatest - 1, greatest + 1))
            bitmap.remove_range(greatest, 2 * greatest)
            self.assertEqual(bitmap, {3, greatest - 1})
            self.assertRaises(TypeError, bitmap.add_range, 1.0, 2)

    def test_names_of_pyroaring(self):
        for kind, greatest in self.KINDS:
            bitmap = kind([1, 5, greatest])
            bitmap.add_checked(7)
            self.assertRaises(KeyError, bitmap.add_checked, 7)
            self.assertRaises(ValueError, bitmap.add_checked, greatest + 1)
            self.assertEqual((bitmap.next_set_bit(-3), bitmap.next_set_bit(6)), (1, 7))
            self.assertRaises(ValueError, bitmap.next_set_bit, greatest + 1)
            for start, walked in ((-2, [1, 5, 7, greatest]), (6, [7, greatest]), (greatest, [greatest]), (2**64, [])):
                self.assertEqual(list(bitmap.iter_equal_or_larger(start)), walked)
            self.assertRaises(TypeError, bitmap.iter_equal_or_larger, "1")
            bitmap.overwrite(bitmap)
            self.assertEqual(bitmap, {1, 5, 7, greatest})
            other = kind([2])
            bitmap.overwrite(other)
            other.add(3)
            self.assertEqual(bitmap, {2})
            bitmap.overwrite(range(4))
            self.assertRaises(ValueError, bitmap.overwrite, [-1])
            self.assertEqual(bitmap, {0, 1, 2, 3})

    def test_slices(self):
        numbers = [*range(0, 9000, 3), 2**20, 2**31]
        for kind, _ in self.KINDS:
            bitmap = kind(numbers)
            for part in (slice(None), slice(5, 9), slice(-3, None), slice(None, 100, 7), slice(9, 2), slice(None, None, -2)):
                self.assertEqual(bitmap[part], set(numbers[part]))
            self.assertIs(type(bitmap[:3]), kind)

    def test_what_goes_in(self):
        numbers = [3, 2**31, 1, 7]
        for kind, greatest in self.KINDS:
            for items in (numbers, tuple(numbers), set(numbers), array("Q", numbers), array("I", numbers), iter(numbers)):
                self.assertEqual(kind(items), set(numbers))
            self.assertEqual(kind(array("b", [5, 1] * 600)), {1, 5})
            self.assertEqual(kind(array("Q", [greatest])), {greatest})
            bitmap = kind()
            self.assertRaises(ValueError, bitmap.__init__, array("q", [*range(1000), -1, 5000]))
            self.assertEqual(bitmap, set(range(1000)))
            self.assertRaises(ValueError, kind, [greatest + 1])

    def test_forms(self):
        for kind, greatest in self.KINDS:
            numbers = {*range(5000), *range(7000, 16000, 2), greatest}
            bitmap = kind(numbers)
            bitmap.run_optimize()
            self.assertEqual((bitmap, bitmap.run_optimize()), (numbers, False))
            size, kinds = len(bitmap.serialize()), bitmap.get_statistics()
            self.assertEqual(kinds["n_run_containers"], 0)
            bitmap.remove_range(7000, 16000)
            bitmap.run_optimize()
            self.assertEqual(bitmap.get_statistics()["n_run_containers"], 1)
            self.assertLess(len(bitmap.serialize()), size)
            self.assertEqual((bitmap.remove_runs(), bitmap.remove_runs()), (True, False))
            self.assertEqual((bitmap, bitmap.get_statistics()["n_run_containers"]), ({*range(5000), greatest}, 0))

    def test_flips_to_the_greatest(self):
        for kind, greatest in self.KINDS:
            bitmap = kind([3, greatest - 1])
            self.assertEqual(bitmap.flip(greatest - 2, greatest + 1), {3, greatest - 2, greatest})
            bitmap.flip_inplace(greatest, greatest + 1)
            bitmap.flip_inplace(5, 5)
            self.assertEqual(bitmap, {3, greatest - 1, greatest})
            bitmap.flip_inplace(greatest - 1, greatest + 1)
            self.assertEqual(bitmap, {3})

    def test_memory_is_given_back(self):
        for kind, _ in self.KINDS:
            bitmap = kind(range(5000))
            bitmap.remove_range(0, 4000)
            self.assertIsNone(bitmap.shrink_to_fit())
            self.assertEqual(bitmap, set(range(4000, 5000)))


class Exact(unittest.TestCase):
    def test_ends(self):
        bitmap = RoaringBitmap64([GREATEST, 0, 2**32])
        self.assertEqual(repr(bitmap), "RoaringBitmap64([0, 4294967296, 18446744073709551615])")
        self.assertEqual((bitmap.next(2**32 + 1), bitmap.next(2**64), bitmap.next(-5)), (GREATEST, None, 0))
        self.assertEqual((bitmap.previous(2**70), bitmap.previous(GREATEST), bitmap.previous(0)), (GREATEST, 2**32, None))
        self.assertEqual((bitmap.rank(-1), bitmap.rank(0), bitmap.rank(2**64)), (0, 1, 3))
        self.assertEqual([bitmap.pop(), bitmap.pop(), bitmap.pop()], [0, 2**32, GREATEST])
        self.assertFalse(bitmap)
        for call in (bitmap.min, bitmap.max):
            self.assertRaises(ValueError, call)
        self.assertRaises(KeyError, bitmap.pop)
        self.assertRaises(IndexError, lambda: bitmap[0])

    def test_what_equals_a_member(self):
        bitmap = RoaringBitmap64([4, 2**62, 2**63, GREATEST])
        for number in (4.0, 2.0**62, 2.0**63, 4 + 0j, True + 3):
            self.assertIn(number, bitmap)
        for number in (4.5, 2.0**64, -4, "4", 2.0**61, 2**64):
            self.assertNotIn(number, bitmap)
        bitmap.discard(2.0**62)
        bitmap.remove(2.0**63)
        self.assertEqual(bitmap, {4, GREATEST})
        self.assertRaises(TypeError, lambda: [] in bitmap)
        self.assertRaises(KeyError, bitmap.remove, 5)

    def test_what_is_no_member(self):
        bitmap = RoaringBitmap64()
        for number in (-1, 2**64):
            self.assertRaises(ValueError, bitmap.add, number)
        self.assertRaises(TypeError, bitmap.add, 4.0)
        self.assertRaises(ValueError, bitmap.update, [1, 2, -1, 3])
        self.assertEqual(bitmap, set())
        self.assertRaises(TypeError, lambda: bitmap | [3])
        self.assertRaises(TypeError, hash, bitmap)

    def test_faults(self):
        one = b"\1\0\0\0\0\0\0\0\0\0\0\0\x3a\x30\0\0\1\0\0\0\0\0\0\0\x10\0\0\0\3\0"
        self.assertEqual(RoaringBitmap64.deserialize(one), {3})
        self.assertEqual(RoaringBitmap64([3]).serialize(), one)
        for broken, text in ((one[:7], "too early"), (one[:-1], "too early"), (one[:12] + b"x" + one[13:], "bitmap"),
                             (b"\2" + one[1:] + one[8:], "keys"), (one[:16] + bytes(4), "no members")):
            with self.assertRaisesRegex(ValueError, text):
                RoaringBitmap64.deserialize(broken)

    def test_kinds_of_sets(self):
        bitmap = RoaringBitmap64(BitSet([1, 5]))
        self.assertIsInstance(bitmap, MutableSet)
        self.assertEqual(bitmap | RoaringBitmap([2**31]), {1, 5, 2**31})
        self.assertEqual(RoaringBitmap64(numbers for numbers in (3, 1)), {1, 3})
        self.assertIsNotNone(weakref.ref(bitmap)())
        for number in bitmap:
            bitmap.discard(number)
        self.assertEqual((bitmap, list(iter(RoaringBitmap64(range(3000))))), (set(), list(range(3000))))

    def test_a_bitmap_and_itself(self):
        bitmap = RoaringBitmap64([1, GREATEST])
        bitmap |= bitmap
        bitmap &= bitmap
        bitmap.update(bitmap)
        self.assertEqual(bitmap, {1, GREATEST})
        bitmap ^= bitmap
        self.assertEqual(bitmap, set())

    def test_derived_classes(self):
        class Named(RoaringBitmap64):
            pass

        bitmap = Named([2**40])
        bitmap.name = "far"
        for again in (copy.copy(bitmap), copy.deepcopy(bitmap)):
            self.assertEqual((type(again), again, again.name), (Named, {2**40}, "far"))
        self.assertIs(type(bitmap - {1}), Named)


if __name__ == "__main__":
    unittest.main()
