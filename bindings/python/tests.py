"""Compares the module with Python's own sets, by random calls from a fixed seed, and matrices as well."""

import array
import copy
import ctypes
import gc
import pickle
import random
import resource
import sys
import threading
import timeit
import unittest
import weakref
from collections.abc import MutableSet

from bit_set import MAX_ELEMENT, BitMatrix, BitSet
from matrix_tests import Index, MatrixTests, NamedMatrix

__all__ = ["MatrixTests", "Tests"]


class Named(BitSet):
    """A set with an attribute of its own."""


class Slotted(BitSet):
    """A set with an attribute of its own and no dictionary."""

    __slots__ = ("name",)


class Tests(unittest.TestCase):
    def test_calls_on_one_set(self):
        drawn, set_, model = random.Random(1), BitSet(), set()
        for _ in range(20000):
            number = drawn.choice((drawn.randrange(70), drawn.randrange(5000)))
            call = drawn.choice(("add", "add", "discard", "__contains__"))
            self.assertEqual(getattr(set_, call)(number), getattr(model, call)(number))
            self.assertEqual(len(set_), len(model))
        self.assertEqual(list(set_), sorted(model))

    def test_calls_on_two_sets(self):
        drawn = random.Random(2)
        for _ in range(300):
            numbers = [[drawn.randrange(drawn.choice((8, 300))) for _ in range(drawn.randrange(40))] for _ in range(2)]
            (a, b), (x, y) = map(BitSet, numbers), map(set, numbers)
            for call in ("__or__", "__and__", "__sub__", "__xor__"):
                self.assertEqual(list(getattr(a, call)(b)), sorted(getattr(x, call)(y)))
            for call in ("__le__", "__lt__", "__ge__", "__gt__", "__eq__", "isdisjoint"):
                self.assertEqual(getattr(a, call)(b), getattr(x, call)(y))
            for call in ("union", "intersection", "difference", "symmetric_difference"):
                count = len(getattr(x, call)(y))
                self.assertEqual(getattr(a, call + "_count")(b), count)
                self.assertEqual(getattr(a, call + "_count")(numbers[1]), count)
            a |= b
            x |= y
            a ^= BitSet(numbers[0])
            x ^= set(numbers[0])
            self.assertEqual(set(a), x)

    def test_one_set_twice(self):
        a = BitSet([1, 2])
        a |= a
        a &= a
        self.assertEqual(list(a), [1, 2])
        self.assertTrue(a == a and a <= a and not a.isdisjoint(a))
        self.assertEqual((a.union_count(a), a.difference_count(a)), (2, 0))
        a ^= a
        self.assertEqual(list(a), [])

    def test_what_is_no_member(self):
        a = BitSet([MAX_ELEMENT - 2**63] if MAX_ELEMENT < 2**63 else [])
        self.assertNotIn("x", a)
        self.assertNotIn(-1, a)
        self.assertRaises(ValueError, a.add, MAX_ELEMENT + 1)
        self.assertRaises(ValueError, a.add, -1)
        self.assertRaises(MemoryError, a.add, MAX_ELEMENT)
        self.assertRaises(KeyError, a.pop)
        self.assertRaises(ValueError, a.union_count, [-1])
        self.assertRaises(TypeError, a.union_count, 5)

    def test_both_with_a_set_of_others(self):
        self.assertEqual({1, 2, "x"} & BitSet([2, 3]), BitSet([2]))
        self.assertEqual(BitSet([2, 3]) & {1, 2, "x"}, BitSet([2]))
        self.assertRaises(TypeError, lambda: {1, "x"} | BitSet([2]))

    def test_a_class_that_makes_no_set(self):
        class Odd(BitSet):
            def __new__(cls, *_):
                return "no set"

        self.assertRaises(TypeError, Odd.from_range, 1, 3)
        self.assertRaises(TypeError, Odd.from_bytes, b"\x80")

    def test_a_set_that_changes_as_it_is_copied(self):
        class Cycle:
            def __init__(self, set_):
                self.itself, self.set_ = self, set_

            def __del__(self):
                self.set_.clear()

        threshold = gc.get_threshold()
        for call in (lambda set_: len(repr(set_).split(",")), lambda set_: len(set_.to_array())):
            set_ = BitSet(range(2000))
            gc.disable()
            Cycle(set_)
            gc.set_threshold(1)
            gc.enable()
            try:
                self.assertIn(call(set_), (0, 1, 2000))
            finally:
                gc.set_threshold(*threshold)

    def test_walks_in_groups(self):
        numbers = list(range(0, 9000, 3))
        self.assertEqual(list(BitSet(numbers)), numbers)
        self.assertEqual(repr(BitSet([3, 1])), "BitSet([1, 3])")

    def test_ranges(self):
        drawn = random.Random(3)
        set_, model = BitSet(), set()
        for _ in range(2000):
            start, stop = drawn.randrange(-5, 300), drawn.randrange(-5, 300)
            numbers = set(range(max(start, 0), max(stop, 0)))
            call = drawn.choice(("add_range", "discard_range", "toggle_range"))
            if call != "discard_range" and start < 0 and start < stop:
                self.assertRaises(ValueError, getattr(set_, call), start, stop)
            else:
                getattr(set_, call)(start, stop)
                change = {"add_range": model.update, "discard_range": model.difference_update}
                change.get(call, model.symmetric_difference_update)(numbers)
            self.assertEqual(set_, model)
            start, stop = drawn.randrange(300), drawn.randrange(300)
            numbers = set(range(start, stop))
            self.assertEqual(set_.count_in_range(start, stop), len(numbers & model))
            self.assertEqual(set_.any_in_range(start, stop), bool(numbers & model))
            self.assertEqual(set_.all_in_range(start, stop), numbers <= model)
        self.assertEqual(list(BitSet.from_range(3, 6)), [3, 4, 5])
        self.assertEqual(list(BitSet.from_range(6, 3)), [])
        self.assertRaises(ValueError, BitSet.from_range, 0, MAX_ELEMENT + 2)
        self.assertRaises(TypeError, BitSet.from_range, 0, 1.5)
        self.assertFalse(BitSet([0]).all_in_range(-1, 1))
        self.assertTrue(BitSet([0]).any_in_range(-(2**70), 2**70))
        self.assertEqual(BitSet([0, 9]).count_in_range(-(2**70), 2**70), 2)

    def test_ends_and_searches(self):
        a = BitSet([3, 70, 400])
        self.assertEqual((a.first(), a.last()), (3, 400))
        self.assertEqual((a.next(3), a.next(4), a.next(401), a.next(-5), a.next(2**80)), (3, 70, None, 3, None))
        self.assertEqual((a.previous(3), a.previous(4), a.previous(2**80), a.previous(-1)), (None, 3, 400, None))
        self.assertEqual((a.next_missing(3), a.next_missing(5)), (4, 5))
        self.assertEqual((a.nth(0), a.nth(2), a.nth(3)), (3, 400, None))
        self.assertRaises(ValueError, a.nth, -1)
        self.assertEqual((a.toggle(4), a.toggle(3)), (True, False))
        self.assertEqual((a.pop_last(), a.pop(), list(a)), (400, 4, [70]))
        a.clear()
        self.assertEqual((a.first(), a.last()), (None, None))
        self.assertRaises(KeyError, a.pop_last)
        self.assertRaises(KeyError, a.remove, 3)
        self.assertRaises(KeyError, a.remove, "x")
        with self.assertRaises(KeyError) as raised:
            a.remove((1, 2))
        self.assertEqual(raised.exception.args, ((1, 2),))

    def test_stretches_and_shifts(self):
        a = BitSet([1, 4, 5, 300])
        self.assertEqual((a.next_run(0), a.next_run(2), a.next_run(5), a.next_run(301)), ((1, 2), (4, 6), (5, 6), None))
        self.assertEqual((a.first_gap(0, 1), a.first_gap(0, 2), a.first_gap(4, 9), a.first_gap(9, 2**70)), (0, 2, 6, None))
        self.assertEqual((a.first_gap(-3, 0), a.next_run(-(2**70))), (0, (1, 2)))
        self.assertRaises(ValueError, a.first_gap, 0, -1)
        self.assertEqual((list(a.copy_range(4, 300)), type(a.copy_range(9, 3))), ([4, 5], BitSet))
        self.assertTrue(a.copy_range(0, 5) < a and not a < a and a > BitSet([1]))
        a.shift_up(70)
        self.assertEqual(list(a), [71, 74, 75, 370])
        self.assertRaises(ValueError, a.shift_up, MAX_ELEMENT)
        self.assertRaises(ValueError, a.shift_down, -1)
        a.shift_down(74)
        self.assertEqual(list(a), [0, 1, 296])
        a.shift_down(2**70)
        self.assertEqual(list(a), [])

    def test_walks_from_the_back(self):
        numbers = list(range(0, 900, 7))
        self.assertEqual(list(reversed(BitSet(numbers))), numbers[::-1])
        self.assertEqual(list(reversed(BitSet())), [])
        walk = iter(BitSet([1]))
        self.assertEqual(list(walk), [1])
        self.assertRaises(StopIteration, next, walk)

    def test_a_set_that_is_changed_while_it_is_walked(self):
        a = BitSet(range(100))
        seen = []
        for number in a:
            seen.append(number)
            a.discard_range(50, 100)
        self.assertEqual(seen[:50], list(range(50)))
        self.assertEqual(list(a), list(range(50)))

    def test_numbers_of_buffers(self):
        for code in "bBhHiIlLqQ":
            self.assertEqual(list(BitSet(array.array(code, [5, 100, 5, 0]))), [0, 5, 100])
        self.assertEqual(list(BitSet(b"\x03\x01")), [1, 3])
        self.assertEqual(list(BitSet(memoryview(array.array("Q", range(9)))[::2])), [0, 2, 4, 6, 8])
        self.assertRaises(ValueError, BitSet, array.array("b", [5, -1]))
        self.assertRaises(ValueError, BitSet, array.array("Q", [5, MAX_ELEMENT + 1]))
        self.assertRaises(TypeError, BitSet, array.array("d", [5.0]))
        a = BitSet()
        self.assertRaises(ValueError, a.update, array.array("q", [5, -1, 6]))
        self.assertEqual(list(a), [5])
        numbers = array.array("Q", range(0, 9000, 3))
        self.assertEqual(BitSet(numbers).to_array(), numbers)
        self.assertEqual(len(BitSet().to_array()), 0)

    def test_bytes(self):
        self.assertEqual(list(BitSet.from_bytes(b"\x4a")), [1, 4, 6])
        self.assertEqual(BitSet([1, 4, 6]).to_bytes(), b"\x4a")
        self.assertEqual(BitSet([8]).to_bytes(), b"\x00\x80")
        self.assertEqual(BitSet().to_bytes(), b"")
        self.assertRaises(TypeError, BitSet.from_bytes, 5)
        self.assertEqual(list(BitSet.from_bytes_lsb(b"\x52\x01")), [1, 4, 6, 8])
        self.assertEqual(BitSet([1, 4, 6, 8]).to_bytes_lsb(), b"\x52\x01")
        self.assertEqual(BitSet().to_bytes_lsb(), b"")
        self.assertRaises(TypeError, BitSet.from_bytes_lsb, 5)
        nowhere = (ctypes.c_char * 0).from_address(0)
        self.assertFalse(BitSet.from_bytes(nowhere) or BitSet.from_bytes_lsb(nowhere) or BitSet(nowhere))

    def test_items_that_cannot_go_in(self):
        for items in ([1, 2, "x", 3], (1, 2, -1, 3), iter([1, 2, 2**70, 3])):
            a = BitSet()
            self.assertRaises((TypeError, ValueError), a.update, items)
            self.assertEqual(list(a), [1, 2])
        self.assertEqual(list(BitSet([Index(4), True])), [1, 4])
        self.assertIn(Index(4), BitSet([4]))
        self.assertRaises(TypeError, BitSet, 5)
        self.assertRaises(TypeError, BitSet, [1], [2])

    def test_a_list_that_shrinks_while_it_is_read(self):
        items = []

        class Shrinks(Index):
            def __index__(self):
                items.clear()
                return self.number

        items += [1, Shrinks(2), 3]
        a = BitSet()
        self.assertRaises(IndexError, a.update, items)
        self.assertEqual(list(a), [1, 2])

    def test_sets_of_other_kinds(self):
        drawn = random.Random(4)
        for _ in range(300):
            x, y = ({drawn.randrange(40) for _ in range(drawn.randrange(30))} for _ in range(2))
            a = BitSet(x)
            for other in (y, frozenset(y), dict.fromkeys(y).keys(), BitSet(y)):
                self.assertEqual((a | other, a & other, a - other, a ^ other), (x | y, x & y, x - y, x ^ y))
                self.assertEqual((a == other, a != other), (x == y, x != y))
                self.assertEqual((a <= other, a < other, a >= other, a > other), (x <= y, x < y, x >= y, x > y))
                self.assertEqual((a.issubset(other), a.issuperset(other)), (x <= y, x >= y))
                self.assertEqual(a.isdisjoint(other), x.isdisjoint(y))
                b = a.copy()
                b &= other
                self.assertEqual(b, x & y)
            self.assertEqual((y | a, y & a, y - a, y ^ a), (x | y, x & y, y - x, x ^ y))
        a = BitSet([1, 2])
        self.assertEqual((a & {1, "x", -1, 2**70}, a - {1, "x"}), ({1}, {2}))
        self.assertEqual((a == {1, "x"}, a <= {1, 2, "x"}, a.isdisjoint(["x"])), (False, True, True))
        self.assertRaises(TypeError, lambda: a | [3])
        self.assertRaises(TypeError, lambda: a < 3)
        self.assertFalse(a == [1, 2])
        self.assertRaises(TypeError, hash, a)
        self.assertEqual(a.union([5], range(7, 9)), {1, 2, 5, 7, 8})
        self.assertEqual(a.intersection([2, 3], {2}), {2})
        self.assertEqual(a.difference([2], [1]), set())

    def test_results_beside_a_longer_set(self):
        for far in (300, 10**5, 10**7):
            for few, long_ in (([1, 5, 9], [5, far]), ([], [far]), ([1, 5, 9], range(5, far, 1000)), ([far - 70], [far])):
                a, b, x, y = Named(few), BitSet(long_), set(few), set(long_)
                common = [a & b, b & a, a & y, b & x, a.intersection(b), b.intersection(a), a.intersection(y), b.intersection(x)]
                others = [a - b, a - y, a.difference(b), a.difference(y)]
                self.assertEqual((common, others), ([x & y] * 8, [x - y] * 4))
                self.assertEqual([type(made) for made in common + others], [Named, BitSet] * 4 + [Named] * 4)
                for made in common + others:
                    self.assertLessEqual(sys.getsizeof(made), sys.getsizeof(a))
                self.assertEqual((a | b, b | a, a ^ b, b ^ a, b - a, a ^ y), (x | y, x | y, x ^ y, x ^ y, y - x, x ^ y))
                self.assertEqual((type(a | b), type(a ^ b), type(a ^ y)), (Named, Named, Named))
                self.assertEqual((a, b), (x, y))

    def test_merges_in_place_with_a_longer_set(self):
        for far in (300, 10**5, 10**7):
            few, long_ = {1, 5, 9}, {5, 8, far}
            for call in ("__iand__", "__isub__", "intersection_update", "difference_update"):
                for other in (BitSet(long_), long_):
                    a, x = BitSet(few), set(few)
                    getattr(a, call)(other)
                    getattr(x, call)(long_)
                    self.assertEqual(a, x)
                    self.assertLess(sys.getsizeof(a), 100)
                b, y = BitSet(long_), set(long_)
                getattr(b, call)(BitSet(few))
                getattr(y, call)(few)
                self.assertEqual(b, y)
                b.add(far + 1)
                self.assertEqual(b, y | {far + 1})

    def test_sets_made_of_far_numbers(self):
        numbers = list(range(0, 10**6, 997))
        random.Random(6).shuffle(numbers)
        for items in (numbers, tuple(numbers), set(numbers), frozenset(numbers), array.array("Q", numbers), BitSet(numbers)):
            self.assertEqual(list(BitSet(items)), sorted(numbers))

    def test_comparisons_that_need_no_count(self):
        a = BitSet(range(0, 10**7, 3))
        others = set(range(1, 10**7, 1000))
        names = ("__eq__", "__ne__", "__le__", "__lt__", "__ge__")
        calls = [lambda name=name, b=b: getattr(a, name)(b) for name in names for b in ({0, 5}, others)]
        self.assertEqual([call() for call in calls], [False, False, True, True] + [False] * 6)
        times = [min(timeit.repeat(call, number=10, repeat=9)) for call in [lambda: len(a), *calls]]
        self.assertLess(max(times[1:]), times[0] / 4)

    def test_copies(self):
        a = Named([1, 2])
        a.name = "x"
        for other in (pickle.loads(pickle.dumps(a)), copy.copy(a), copy.deepcopy(a), a.copy(), a | {3}):
            self.assertIs(type(other), Named)
            self.assertLessEqual(a, other)
            other.add(9)
        self.assertEqual((list(a), repr(a)), ([1, 2], "Named([1, 2])"))
        self.assertEqual(pickle.loads(pickle.dumps(a)).name, "x")
        self.assertIsInstance(a, MutableSet)
        self.assertGreaterEqual(sys.getsizeof(BitSet([10**6])), 10**6 // 8)

    def test_copies_with_attributes(self):
        a = Named([1, 2])
        a.names = ["x"]
        a.itself = a
        for other, names in ((copy.copy(a), a.names), (copy.deepcopy(a), None), (pickle.loads(pickle.dumps(a)), None)):
            self.assertEqual((list(other), other.names, type(other)), ([1, 2], ["x"], Named))
            self.assertEqual(other.names is a.names, names is a.names)
            self.assertIs(other.itself, a if names else other)
        self.assertFalse(hasattr(a.copy(), "names"))

    @unittest.skipIf(sys.version_info < (3, 11), "as with Python's own sets, __slots__ are left out before")
    def test_copies_with_slots(self):
        a = Slotted([1, 2])
        a.name = "x"
        for other in (copy.copy(a), copy.deepcopy(a), pickle.loads(pickle.dumps(a))):
            self.assertEqual((list(other), other.name), ([1, 2], "x"))

    def test_a_class_with_a_state_of_its_own(self):
        class Stateful(BitSet):
            def __getstate__(self):
                return "state"

            def __setstate__(self, state):
                self.name = state

        class Faulty(Named):
            def __setstate__(self, state):
                raise KeyError

        if sys.version_info >= (3, 11):
            self.assertEqual(copy.copy(Stateful([1])).name, "state")
            self.assertEqual(copy.deepcopy(Stateful([1])).name, "state")
        a = Faulty([1])
        a.name = "x"
        self.assertRaises(KeyError, copy.copy, a)
        self.assertRaises(KeyError, copy.deepcopy, a)

    def test_a_walk_is_made_by_a_set_alone(self):
        walk_type = type(iter(BitSet()))
        self.assertRaises(TypeError, walk_type)
        self.assertRaises(TypeError, object.__new__, walk_type)

    def test_a_class_whose_name_is_no_string(self):
        class Numbered(type):
            __name__ = 5

        self.assertEqual(repr(Numbered("Odd", (BitSet,), {})([1])), "5([1])")

    def test_classes_with_a_metaclass(self):
        method = vars(type)["mro"]
        count = sys.getrefcount(method)
        for base in (BitSet, BitMatrix):
            type("Meta", (type,), {})("Odd", (base,), {})
        self.assertEqual(sys.getrefcount(method), count)

    def test_ranges_of_numbers_that_are_no_ints(self):
        a = BitSet.from_range(Index(1), Index(4))
        self.assertEqual(list(a), [1, 2, 3])
        a.discard_range(Index(-(2**70)), Index(2))
        self.assertEqual((list(a), a.count_in_range(Index(3), 2**70)), ([2, 3], 1))
        self.assertRaises(ValueError, a.add_range, Index(-5), Index(-3))
        a.add_range(Index(-3), Index(-5))
        self.assertEqual(list(a), [2, 3])

    def test_equal_is_what_has_each_member(self):
        # By `==` such an item is not a member, so there are two items and only one member among them.
        self.assertNotEqual(BitSet([4, 5]), {Index(4), 4})
        self.assertEqual(BitSet([4, 5]), {4.0, 5})

    def test_a_class_of_buffers_that_walks_in_its_own_way(self):
        class Masked(array.array):
            def __iter__(self):
                return iter([7])

        class Moved(bytes):
            def __getitem__(self, at):
                return 9

        self.assertEqual(BitSet(Masked("B", [1, 2])), {7})
        self.assertEqual(BitSet(Moved(b"\x01")), {1})

    @unittest.skipIf(sys.version_info < (3, 9), "the stable ABI has no weak references before")
    def test_weak_references(self):
        a, matrix = Named([1]), NamedMatrix(2, 3)
        a.walk, matrix.itself = iter(a), matrix
        objects = [a, matrix, BitSet(), BitMatrix(2, 3)]
        del a, matrix
        while objects:
            seen = weakref.ref(objects[-1])
            self.assertIs(seen(), objects.pop())
            gc.collect()
            self.assertIsNone(seen())

    def test_threads_that_write_to_one_set(self):
        # The numbers lie far apart, so the set grows to some megabytes, and one thread moves its blocks while others write.
        numbers = range(0, 10**8, 1000)
        for writers in (2, 4):
            with self.subTest(writers=writers):
                shared = BitSet()

                def write(first):
                    for number in numbers[first::writers]:
                        shared.add(number)

                threads = [threading.Thread(target=write, args=(first,)) for first in range(writers)]
                for thread in threads:
                    thread.start()
                for thread in threads:
                    thread.join()
                self.assertEqual(list(shared), list(numbers))

    def test_init_again(self):
        a = BitSet([1, 2])
        a.__init__([2, 3])
        self.assertEqual(list(a), [2, 3])
        a.__init__()
        self.assertEqual(list(a), [])
        # A set of one megabyte, made five hundred times.
        a.__init__([8 * 10**6])
        before = resource.getrusage(resource.RUSAGE_SELF).ru_maxrss
        for _ in range(500):
            a.__init__([8 * 10**6])
        kilobytes = resource.getrusage(resource.RUSAGE_SELF).ru_maxrss - before
        self.assertLess(kilobytes, 50000)


if __name__ == "__main__":
    unittest.main()
