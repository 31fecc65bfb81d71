"""Tests of RoaringBitmap: random calls beside Python's own set, and what the calls raise.

python3 roaring_tests.py       the module must be on PYTHONPATH
"""

import copy
import operator
import pickle
import random
import unittest
from array import array
from collections.abc import MutableSet

from bit_set import BitSet, RoaringBitmap

GREATEST = 2**32 - 1


def drawn(rng):
    """Numbers of some containers: few, many, and runs."""
    numbers = {rng.randrange(2**32) for _ in range(rng.randrange(50))}
    start = rng.randrange(2**17)
    numbers.update(range(start, start + rng.randrange(9000)))
    numbers.update(rng.sample(range(2**16), rng.choice([0, 10, 6000])))
    return numbers


class Random(unittest.TestCase):
    def setUp(self):
        self.rng = random.Random(5)

    def test_single_numbers(self):
        bitmap, plain = RoaringBitmap(), set()
        for _ in range(20000):
            number = self.rng.choice([self.rng.randrange(9000), GREATEST - self.rng.randrange(9)])
            call = self.rng.choice(["add", "add", "discard"])
            getattr(bitmap, call)(number)
            getattr(plain, call)(number)
            self.assertEqual(number in bitmap, number in plain)
        self.assertEqual(list(bitmap), sorted(plain))
        self.assertEqual(list(reversed(bitmap)), sorted(plain, reverse=True))

    def test_operators(self):
        pairs = [(name, getattr(operator, name)) for name in ("or_", "and_", "sub", "xor")]
        for _ in range(8):
            a, b = drawn(self.rng), drawn(self.rng)
            ours, theirs = RoaringBitmap(a), RoaringBitmap(b)
            for name, call in pairs:
                wanted = call(a, b)
                for made in (call(ours, theirs), call(ours, b), call(a, theirs)):
                    self.assertIs(type(made), RoaringBitmap, name)
                    self.assertEqual(made, wanted, name)
                in_place = ours.copy()
                in_place = getattr(operator, "i" + name.rstrip("_"))(in_place, theirs)
                self.assertEqual(in_place, wanted, name)
            for name in ("eq", "ne", "le", "lt", "ge", "gt"):
                call = getattr(operator, name)
                for c, d in ((a, b), (a, a), (a & b, a), (a, a & b)):
                    self.assertEqual(call(RoaringBitmap(c), RoaringBitmap(d)), call(c, d), name)
                    self.assertEqual(call(RoaringBitmap(c), d), call(c, d), name)
            self.assertEqual(ours.isdisjoint(theirs), a.isdisjoint(b))
            self.assertEqual(ours.intersection_cardinality(theirs), len(a & b))
            self.assertEqual(ours.union_cardinality(b), len(a | b))
            self.assertEqual(ours.difference_cardinality(theirs), len(a - b))
            self.assertEqual(ours.symmetric_difference_cardinality(theirs), len(a ^ b))

    def test_searches_and_ranges(self):
        for _ in range(8):
            plain = drawn(self.rng) | {7}
            bitmap, ordered = RoaringBitmap(plain), sorted(plain)
            self.assertEqual((bitmap.min(), bitmap.max(), len(bitmap)), (ordered[0], ordered[-1], len(ordered)))
            at = self.rng.choice(ordered)
            self.assertEqual(bitmap.rank(at), ordered.index(at) + 1)
            self.assertEqual((bitmap[bitmap.rank(at) - 1], bitmap[-1], bitmap[0]), (at, ordered[-1], ordered[0]))
            self.assertEqual(bitmap.next(at), at)
            self.assertEqual(bitmap.previous(at), max((n for n in ordered if n < at), default=None))
            start, stop = sorted(self.rng.randrange(2**18) for _ in range(2))
            inside = {n for n in plain if start <= n < stop}
            self.assertEqual(bitmap.range_cardinality(start, stop), len(inside))
            self.assertEqual(bitmap.clamp(start, stop), inside)
            self.assertEqual(bitmap.flip(start, stop), plain ^ set(range(start, stop)))
            self.assertEqual(bitmap.contains_range(start, stop), len(inside) == stop - start)
            bitmap.add_range(start, stop)
            self.assertEqual(bitmap, plain | set(range(start, stop)))
            bitmap.remove_range(start, stop)
            self.assertEqual(bitmap, plain - inside)

    def test_bytes(self):
        for _ in range(20):
            bitmap = RoaringBitmap(drawn(self.rng))
            bitmap.run_optimize()
            written = bitmap.serialize()
            self.assertEqual(RoaringBitmap.deserialize(written), bitmap)
            self.assertEqual(RoaringBitmap.deserialize(memoryview(written + b"more")), bitmap)
            self.assertRaises(ValueError, RoaringBitmap.deserialize, written[:-1])
            self.assertEqual(pickle.loads(pickle.dumps(bitmap)), bitmap)
            statistics = bitmap.get_statistics()
            self.assertEqual(statistics["cardinality"], len(bitmap))
            bitmap.remove_runs()
            self.assertEqual(bitmap.get_statistics()["n_run_containers"], 0)


class Cases(unittest.TestCase):
    def test_official_bytes(self):
        few = bytes.fromhex("3a30000001000000000002001000000005000700ffff")
        self.assertEqual(RoaringBitmap([5, 7, 65535]).serialize(), few)

    def test_is_a_set(self):
        self.assertIsInstance(RoaringBitmap(), MutableSet)
        self.assertEqual(repr(RoaringBitmap([3, 1])), "RoaringBitmap([1, 3])")
        self.assertRaises(TypeError, hash, RoaringBitmap())
        self.assertFalse(RoaringBitmap())

    def test_what_goes_in(self):
        numbers = [3, 1, GREATEST]
        for items in (numbers, tuple(numbers), set(numbers), array("I", numbers), iter(numbers), BitSet(numbers)):
            self.assertEqual(RoaringBitmap(items), set(numbers))
        self.assertEqual(BitSet(RoaringBitmap(numbers)), set(numbers))
        self.assertEqual(list(RoaringBitmap(numbers).to_array()), sorted(numbers))
        for wrong in (-1, 2**32, 2**64):
            self.assertRaises(ValueError, RoaringBitmap().add, wrong)
            self.assertRaises(ValueError, RoaringBitmap, [wrong])
            self.assertNotIn(wrong, RoaringBitmap(numbers))
        self.assertRaises(TypeError, RoaringBitmap().add, "a")
        self.assertRaises(ValueError, RoaringBitmap().add_range, 0, 2**32 + 1)
        self.assertIn(3.0, RoaringBitmap(numbers))

    def test_other_items(self):
        bitmap = RoaringBitmap([1, 2])
        self.assertEqual(bitmap & {2.0, "a"}, {2})
        self.assertEqual(bitmap - {2.0, "a"}, {1})
        self.assertEqual({1, 5} - bitmap, {5})
        self.assertTrue(bitmap <= {1, 2, "a"} and bitmap.issubset(["a", 2, 1.0]))
        self.assertRaises(TypeError, operator.or_, bitmap, {"a"})
        self.assertRaises(TypeError, operator.or_, bitmap, [1])

    def test_none(self):
        self.assertRaises(KeyError, RoaringBitmap().pop)
        self.assertRaises(KeyError, RoaringBitmap().remove, 1)
        self.assertRaises(ValueError, RoaringBitmap().min)
        self.assertRaises(IndexError, RoaringBitmap([1]).__getitem__, 1)
        self.assertIsNone(RoaringBitmap([1]).next(2))

    def test_copies(self):
        class Named(RoaringBitmap):
            pass

        bitmap = Named([1, 2])
        bitmap.name = ["it"]
        for made in (copy.copy(bitmap), copy.deepcopy(bitmap)):
            self.assertIs(type(made), Named)
            self.assertEqual((made, made.name), (bitmap, bitmap.name))
        self.assertIsNot(copy.deepcopy(bitmap).name, bitmap.name)

    def test_shift(self):
        class Named(RoaringBitmap):
            pass

        numbers = {0, 5, 70000, GREATEST}
        bitmap = Named(numbers)
        for offset in (0, 1, -1, 65536, -70000, 2**31, GREATEST, -GREATEST, 2**32, -(2**32), 2**63, -(2**63), 10**30):
            shifted = bitmap.shift(offset)
            self.assertIs(type(shifted), Named)
            self.assertEqual(shifted, {n + offset for n in numbers if 0 <= n + offset <= GREATEST})
        self.assertEqual((bitmap, bitmap.shift(True)), (numbers, {1, 6, 70001}))
        self.assertRaises(TypeError, bitmap.shift, 1.0)
        self.assertRaises(TypeError, bitmap.shift)

    def test_changed_while_walked(self):
        bitmap = RoaringBitmap(range(1000))
        for member in bitmap:
            bitmap.discard(member + 500)
        self.assertEqual(bitmap, set(range(500)))


if __name__ == "__main__":
    unittest.main()
