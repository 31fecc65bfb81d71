"""Calls each method while something fails or changes the set, and compares the outcome with that of Python's own sets.

    PYTHONPATH=MODULE python3 bindings/python/faults.py

It also looks for leaks, and, if Python has its module _testcapi, fails each of Python's requests for memory in turn.
"""

import array
import copy
import ctypes
import functools
import gc
import itertools
import os
import pickle
import resource
import sys
import threading
import unittest
from collections.abc import Set
from decimal import Decimal
from fractions import Fraction

from bit_set import MAX_ELEMENT, BitMatrix, BitSet

try:
    from _testcapi import remove_mem_hooks, set_nomemory
except ImportError:
    set_nomemory = None

MEMBERS = (1, 2, 3, 70, 400)


class MallInfo(ctypes.Structure):
    """What the C library reports of its memory."""

    _fields_ = [(str(at), ctypes.c_size_t) for at in range(10)]


c_library = ctypes.CDLL(None)
has_mallinfo = hasattr(c_library, "mallinfo2")
if has_mallinfo:
    c_library.mallinfo2.restype = MallInfo


class Fault(Exception):
    """The exception that the classes below raise."""


class Number(int):
    """An int of a derived class."""


class Index:
    """An object with an index, or one that raises when asked for it."""

    def __init__(self, number=None, act=None):
        self.number, self.act = number, act

    def __index__(self):
        if self.act:
            self.act()
        if self.number is None:
            raise Fault
        return self.number


class NoHash:
    """An object that raises when hashed."""

    def __hash__(self):
        raise Fault


class Equal:
    """An object with the hash of a member, which acts or raises when compared."""

    def __init__(self, act=None):
        self.act = act

    def __hash__(self):
        return 3

    def __eq__(self, other):
        if not self.act:
            raise Fault
        self.act()
        return True


class FaultySet(Set):
    """A set that raises in one of its methods."""

    def __init__(self, fault):
        self.fault = fault

    def __len__(self):
        return self._or_raise("len", 2)

    def __contains__(self, number):
        return self._or_raise("contains", number in (1, 2))

    def __iter__(self):
        return self._or_raise("iter", stops_after(1) if self.fault == "next" else iter((1, 2)))

    def _or_raise(self, call, answer):
        if self.fault == call:
            raise Fault
        return answer


def stops_after(*items):
    """An iterator that raises after these items."""
    yield from items
    raise Fault


def acts_after(act, *items):
    """An iterator that acts between two items."""
    yield from items
    act()
    yield 2


def raised(call):
    """The result of a call, or the class of the exception that it raises."""
    try:
        return call()
    except Exception as error:
        return type(error)


# Objects that equal a number and are no ints, or that equal none, or that raise. Python's sets treat each in the same way.
def items():
    numbers = (3, 5, True, Number(3), Number(9), -1, 2**70, -(2**70), MAX_ELEMENT, MAX_ELEMENT + 1)
    others = (3.0, 5.0, -1.0, float("nan"), float("inf"), 3 + 0j, Fraction(3), Fraction(7, 2), Decimal(3), "x", b"x", None)
    return [*numbers, *others, (1,), frozenset(), [], {}, NoHash(), Equal()]


# Iterables, new ones for each call.
def iterables(set_):
    for item in items():
        yield [1, item, 70]
        yield (item,)
        yield iter([1, 2, item])
    for part in ([], [1], [1, 2, 3], [2, 9, 70], list(MEMBERS), [*MEMBERS, 5]):
        yield from (part, tuple(part), iter(part), set(part), frozenset(part), dict.fromkeys(part), dict.fromkeys(part).keys())
        yield from (BitSet(part), array.array("q", part), (number for number in part))
    yield from (stops_after(), stops_after(1), stops_after(1, 2, 9), stops_after(*MEMBERS))
    yield from (range(3), range(-2, 3), "x", "", b"\1\2", 5, None, set_, {3.0, 2}, {1: 2, "x": 3}, array.array("d", [3.0]))


# Operands that change the set while they are read.
def restless(set_):
    acts = (set_.clear, lambda: set_.add(9000), lambda: set_.__init__([9]), lambda: set_.intersection_update([1]))
    for act in acts:
        yield from (acts_after(act), acts_after(act, 1, 400), [1, Index(2, act), 70], [Equal(act)], [Index(70, act)] * 600)


IN_PLACE = ("intersection_update", "difference_update")
NEW = ("intersection", "difference")
TESTS = ("issubset", "issuperset", "isdisjoint")
# Those that fetch no more items than they need, as Python's sets do from this version on.
EARLY = {"intersection": (3, 11), "intersection_update": (3, 11), "issuperset": (3, 11), "issubset": (3, 12)}
OPERATORS = ("__and__", "__sub__", "__rand__", "__rsub__", "__iand__", "__isub__")
COMPARISONS = ("__eq__", "__ne__", "__le__", "__lt__", "__ge__", "__gt__")
# Calls that add items accept only numbers.
GROWING = ("update", "union", "symmetric_difference_update", "symmetric_difference", "__or__", "__ior__", "__xor__", "__ixor__")
COUNTS = ("union_count", "intersection_count", "difference_count", "symmetric_difference_count")


def outcome(set_, name, *operands):
    """The outcome of a call, as a value that can be compared, and the members after it."""
    found = raised(lambda: getattr(set_, name)(*operands))
    return frozenset(found) if isinstance(found, (BitSet, set, frozenset)) else found, set(set_)


class Beside(unittest.TestCase):
    """Calls whose outcome must be that of a Python set."""

    def same(self, name, make, *places):
        """Makes the call with the operands at these places among those that `make` yields."""
        if sys.version_info < EARLY.get(name, (3, 0)):
            return
        outcomes = []
        for kind in (BitSet, set):
            set_ = kind(MEMBERS)
            outcomes.append(outcome(set_, name, *(next(itertools.islice(make(set_), place, None)) for place in places)))
        self.assertEqual(*outcomes, (name, places))

    def test_items(self):
        for name in ("__contains__", "discard", "remove"):
            for place in range(len(items())):
                self.same(name, lambda _: iter(items()), place)

    def test_one_iterable(self):
        for place in range(len(list(iterables(BitSet())))):
            for name in (*IN_PLACE, *NEW, *TESTS):
                self.same(name, iterables, place)

    def test_operators_and_comparisons(self):
        for place, other in enumerate(iterables(BitSet())):
            if isinstance(other, (set, frozenset)):
                for name in (*OPERATORS, *COMPARISONS):
                    self.same(name, iterables, place)

    def test_sets_with_items_that_raise(self):
        def make(_):
            for rest in ((), (1,), (1, 2), (2, 70), (1, 2, 70, 400), (1, 2, 70, 400, 500), range(100, 200)):
                yield from ({*rest, Equal()}, frozenset([Equal(), *rest]), {*rest, 3}, {*rest, 3.0})

        for place in range(len(list(make(None)))):
            for name in (*OPERATORS, *COMPARISONS, *IN_PLACE, *NEW, *TESTS):
                self.same(name, make, place)

    def test_several_iterables(self):
        places = [at for at, it in enumerate(iterables(BitSet())) if not isinstance(it, (list, tuple)) or at % 7 == 0]
        for name in (*IN_PLACE, *NEW):
            for two in itertools.product(places[::2], places[::3]):
                self.same(name, iterables, *two)
            self.same(name, iterables)

    def test_growing(self):
        def make(_):
            yield from ([1, 9], (9,), {9, 1}, BitSet([9]), range(5), stops_after(1, 9), stops_after(), 5, NoIter())

        for name in GROWING:
            for place in range(9):
                if name[:2] != "__" or place == 2:
                    self.same(name, make, place)
        for two in itertools.product(range(9), repeat=2):
            self.same("update", make, *two)
            self.same("union", make, *two)


class NoIter:
    """An object that raises when asked for an iterator."""

    def __iter__(self):
        raise Fault


def bound(set_, name, *operands):
    """A call without arguments."""
    return functools.partial(getattr(set_, name), *operands)


def calls_with_items():
    """Names of methods, and for each a function that prepares a call on a new set or matrix."""
    number = [*items(), 4, Index(), Index(4), Index(-(2**70)), object()]
    hidden = ("__class__", "__init_subclass__", "__subclasshook__", "__new__", "__getattribute__", "__delattr__")
    for make in (lambda: BitSet(MEMBERS), lambda: BitMatrix(5, 80)):
        for name in dir(make()):
            if name not in hidden and callable(getattr(make(), name)):
                yield name, lambda make=make, name=name: bound(make(), name)
                for at, before in itertools.product(range(len(number)), ((), (1,))):
                    yield name, lambda make=make, name=name, at=at, before=before: bound(make(), name, *before, number[at])
                    yield name, lambda make=make, name=name, at=at, before=before: bound(make(), name, number[at], *before)


def calls_with_iterables():
    names = (*IN_PLACE, *NEW, *TESTS, *OPERATORS, *COMPARISONS, *GROWING, *COUNTS, "__init__")

    def ready(name, make, place):
        set_ = BitSet(MEMBERS)
        return bound(set_, name, next(itertools.islice(make(set_), place, None)))

    for make in (iterables, restless, lambda _: map(FaultySet, ("len", "contains", "iter", "next"))):
        for place, name in itertools.product(range(len(list(make(BitSet())))), names):
            yield name, lambda name=name, make=make, place=place: ready(name, make, place)


def calls_that_make():
    class Faulty(BitSet):
        def __setstate__(self, state):
            raise Fault

        def __reduce__(self):
            raise Fault

    def faulty():
        made = Faulty(MEMBERS)
        made.name = "x"
        return made

    for call in (copy.copy, copy.deepcopy, pickle.dumps, repr, list, reversed, sorted, BitSet, set, iter, len, bool):
        for make in (lambda: BitSet(MEMBERS), faulty):
            yield call.__name__, lambda call=call, make=make: functools.partial(call, make())
    for call in (copy.copy, copy.deepcopy, pickle.dumps, repr):
        yield call.__name__, lambda call=call: functools.partial(call, BitMatrix(3, 90))
    for kind, name, rest in ((BitSet, "from_range", (0, 9)), (BitSet, "from_bytes", (b"\1",)), (BitMatrix, "from_row", ([1], 2))):
        yield name, lambda kind=kind, name=name, rest=rest: bound(kind, name, *rest)
        for item in (*items(), Index(), memoryview(b"123")[::2], NoIter()):
            yield name, lambda kind=kind, name=name, rest=rest, item=item: bound(kind, name, item, *rest[1:])
            yield name, lambda kind=kind, name=name, rest=rest, item=item: bound(kind, name, *rest[:-1], item)
    yield "BitMatrix", lambda: functools.partial(BitMatrix, 2**40, 2**40)


class Everything(unittest.TestCase):
    """Every method with every operand: it must return or raise, and release what it took."""

    def setUp(self):
        # Exceptions that an iterator raises when released.
        hook = sys.unraisablehook
        self.addCleanup(setattr, sys, "unraisablehook", hook)
        sys.unraisablehook = lambda _: None

    def test_what_is_not_given_back(self):
        # A collection would free what Python keeps for later calls.
        gc.disable()
        self.addCleanup(gc.enable)
        for name, make_ready in itertools.chain(calls_with_items(), calls_with_iterables(), calls_that_make()):
            # After the first calls Python has what it keeps for later ones.
            held(make_ready, 5)
            if max(held(make_ready, 10)) >= 10:
                with self.subTest(name=name):
                    held(make_ready, 100)
                    self.assertLess(max(held(make_ready, 100)), 100)

    @unittest.skipUnless(set_nomemory and sys.version_info >= (3, 11), "older versions break themselves where there is none")
    def test_each_request_for_memory_of_pythons_fails(self):
        some = itertools.islice(calls_with_iterables(), 0, None, 5)
        for _, make_ready in itertools.chain(calls_with_items(), some, calls_that_make()):
            for at in range(12):
                call = make_ready()
                set_nomemory(at, at + 1)
                try:
                    call()
                except Exception:
                    pass
                finally:
                    remove_mem_hooks()


def in_use():
    """How many blocks Python has allocated, and how many bytes the C library, if it reports that."""
    return sys.getallocatedblocks(), getattr(c_library.mallinfo2(), "7") if has_mallinfo else 0


def held(make_ready, times):
    """How many more blocks and bytes are in use after this many calls."""
    before = in_use()
    for _ in range(times):
        raised(make_ready())
    return tuple(after - had for after, had in zip(in_use(), before))


class Memory(unittest.TestCase):
    @unittest.skipIf("asan" in os.environ.get("LD_PRELOAD", ""), "the sanitizer ends the process")
    @unittest.skipUnless(os.path.exists("/proc/self/statm"), "the system does not tell how much memory there is")
    def test_the_library_finds_no_memory(self):
        """Calls with sets of some 60 megabytes when a sixteenth of that is left: the operands are unchanged."""
        far = 5 * 10**8
        models = {1, 5}, {1, far}, {2, far + 10**6}
        few, one, other = sets = [BitSet(model) for model in models]
        failing = ("__or__", "__xor__", "__ior__", "__ixor__", "union", "symmetric_difference", "update")
        calls = [bound(a, name, b) for name in failing for a, b in ((few, one), (one, other), (few, {far}))]
        calls += [bound(one, name, other) for name in (*OPERATORS, *NEW, *IN_PLACE) if name[2] != "r"]
        calls += [one.copy, functools.partial(BitSet, one), bound(BitSet(), "__init__", one), bound(BitSet, "from_range", 0, far)]
        with open("/proc/self/statm", encoding="ascii") as numbers:
            size = int(numbers.read().split()[0]) * resource.getpagesize()
        limits = resource.getrlimit(resource.RLIMIT_AS)
        resource.setrlimit(resource.RLIMIT_AS, (size + 2**22, limits[1]))
        try:
            outcomes = [raised(call) for call in calls]
            found = few & one, one & few, few - one, few <= one, one.isdisjoint(other)
        finally:
            resource.setrlimit(resource.RLIMIT_AS, limits)
        self.assertEqual(outcomes, [MemoryError] * len(calls))
        self.assertEqual(found, ({1}, {1}, {5}, False, True))
        self.assertEqual([sorted(set_) for set_ in sets], [[1, 5], [1, far], [2, far + 10**6]])


class Threads(unittest.TestCase):
    def test_threads_that_change_shared_sets(self):
        """Whatever threads do to shared sets, each call sees complete ones."""
        sets = [BitSet(range(0, 3000, step)) for step in (1, 2, 7)]
        faults = []

        def work(seed):
            calls = itertools.cycle(
                (
                    lambda a, b: a.intersection_update(iter(b), b),
                    lambda a, b: a.update(number for number in b),
                    lambda a, b: a.difference_update(list(b)[::3]),
                    lambda a, b: a.symmetric_difference_update(b),
                    lambda a, b: a.__init__(range(0, 3000, 5)),
                    lambda a, b: [a.pop() for _ in range(3)],
                    lambda a, b: (a | b, a & b, a - b, a ^ b, a == b, a <= set(b), len(a), repr(a), a.to_array()),
                )
            )
            for at in range(seed, seed + 700):
                try:
                    next(calls)(sets[at % 3], sets[(at // 3) % 3])
                except (KeyError, RuntimeError):
                    pass
                except BaseException as error:
                    faults.append(error)
                    raise

        interval = sys.getswitchinterval()
        sys.setswitchinterval(1e-6)
        try:
            threads = [threading.Thread(target=work, args=(seed,)) for seed in range(4)]
            for thread in threads:
                thread.start()
            for thread in threads:
                thread.join()
        finally:
            sys.setswitchinterval(interval)
        self.assertEqual(faults, [])
        for each in sets:
            self.assertTrue(all(number < 9001 for number in each))


if __name__ == "__main__":
    unittest.main()
