"""Times calls of the module beside Python's own sets: the least of many rounds, taken in turns; also beside `intbitset` and
`bitarray`, if these can be imported.

    PYTHONPATH=MODULE python3 bindings/python/speed.py
    PYTHONPATH=MODULE python3 bindings/python/speed.py shapes    the calls that take over five times as long as with
                                                                 `set`, on sets of several shapes
"""

import array
import copy
import pickle
import random
import sys
import time

from bit_set import BitSet

LIMIT = 1_000_000
ROUNDS = 15


def least(*calls):
    """The least time of each call, in seconds."""
    times = [float("inf")] * len(calls)
    for _ in range(ROUNDS):
        for at, call in enumerate(calls):
            start = time.perf_counter()
            call()
            times[at] = min(times[at], time.perf_counter() - start)
    return times


def row(name, ours, theirs, peer="set"):
    """Writes a line of the table."""
    time_of_ours, time_of_theirs = least(ours, theirs)
    print(f"| {name} | {peer} | {time_of_ours * 1e3:.4f} | {time_of_theirs * 1e3:.4f} | {time_of_ours / time_of_theirs:.3f} |")


def look_up(members, numbers):
    for number in numbers:
        number in members


def add_each(kind, numbers):
    add = kind().add
    for number in numbers:
        add(number)


def walk(members):
    for _ in members:
        pass


def beside_sets(numbers, halves):
    """The rows beside Python's own sets, of random numbers unless stated otherwise."""
    ascending = list(range(LIMIT))
    packed = array.array("Q", numbers)
    ours, theirs = ([kind(half) for half in halves] for kind in (BitSet, set))
    row("in", lambda: look_up(ours[0], halves[1]), lambda: look_up(theirs[0], halves[1]))
    row("add", lambda: add_each(BitSet, halves[0]), lambda: add_each(set, halves[0]))
    row("from a list", lambda: BitSet(numbers), lambda: set(numbers))
    row("from an array", lambda: BitSet(packed), lambda: set(packed))
    row("a walk", lambda: walk(ours[0]), lambda: walk(theirs[0]))
    row("|", lambda: ours[0] | ours[1], lambda: theirs[0] | theirs[1])
    row("&", lambda: ours[0] & ours[1], lambda: theirs[0] & theirs[1])
    for what, members in [("0, 1, 2, ..", ascending), ("100 numbers", ascending[:200:2])]:
        x, y = BitSet(members), set(members)
        row(f"in, of {what}", lambda: look_up(x, members), lambda: look_up(y, members))
        row(f"add, of {what}", lambda: add_each(BitSet, members), lambda: add_each(set, members))
        row(f"from a list of {what}", lambda: BitSet(members), lambda: set(members))
        row(f"a walk over {what}", lambda: walk(x), lambda: walk(y))
    # A range also makes each int.
    whole = set(ascending)
    row("a walk over a range of 0, 1, 2, ..", lambda: walk(range(LIMIT)), lambda: walk(whole))


def beside_intbitset(numbers, halves):
    """The rows beside `intbitset`."""
    from intbitset import intbitset

    ours, theirs = ([kind(half) for half in halves] for kind in (BitSet, intbitset))
    row("in", lambda: look_up(ours[0], halves[1]), lambda: look_up(theirs[0], halves[1]), "intbitset")
    row("add", lambda: add_each(BitSet, halves[0]), lambda: add_each(intbitset, halves[0]), "intbitset")
    row("from a list", lambda: BitSet(numbers), lambda: intbitset(numbers), "intbitset")
    row("a walk", lambda: walk(ours[0]), lambda: walk(theirs[0]), "intbitset")
    row("|", lambda: ours[0] | ours[1], lambda: theirs[0] | theirs[1], "intbitset")
    row("&", lambda: ours[0] & ours[1], lambda: theirs[0] & theirs[1], "intbitset")


def beside_bitarray(_, halves):
    """The rows beside `bitarray`."""
    from bitarray import bitarray

    one = bitarray("1")

    def bits_of(numbers):
        bits = bitarray(LIMIT)
        bits.setall(False)
        for number in numbers:
            bits[number] = True
        return bits

    ours, theirs = ([kind(half) for half in halves] for kind in (BitSet, bits_of))
    row("a walk", lambda: walk(ours[0]), lambda: walk(theirs[0].itersearch(one)), "bitarray")
    row("|", lambda: ours[0] | ours[1], lambda: theirs[0] | theirs[1], "bitarray")
    row("&", lambda: ours[0] & ours[1], lambda: theirs[0] & theirs[1], "bitarray")


def shapes(draws):
    """Pairs of lists, by the names of their shapes."""

    def drawn(count, limit):
        return draws.sample(range(limit), count)

    return {
        "empty": ([], []),
        "few": (drawn(5, 100), drawn(5, 100)),
        "many": (drawn(LIMIT // 10, LIMIT), drawn(LIMIT // 10, LIMIT)),
        "sparse": (drawn(1000, LIMIT), drawn(1000, LIMIT)),
        "one far": ([1, 2, 3, 4, LIMIT], [2, 3, 5, 7, LIMIT]),
        "dense": (list(range(LIMIT // 10)), list(range(LIMIT // 20, LIMIT // 10 * 2))),
        "few beside long": (drawn(10, 1000), drawn(LIMIT // 10, LIMIT)),
        "long beside few": (drawn(LIMIT // 10, LIMIT), drawn(10, 1000)),
        "equal": (list(range(0, LIMIT, 10)), list(range(0, LIMIT, 10))),
    }


OPERATORS = ("or", "and", "sub", "xor", "eq", "ne", "le", "lt", "ge", "gt")
METHODS = ("union", "intersection", "difference", "symmetric_difference", "issubset", "issuperset", "isdisjoint")
# These change a set, so each round has its own copy, whose time is in neither column.
IN_PLACE = ("update", "intersection_update", "difference_update", "symmetric_difference_update", "clear")
ALONE = (len, bool, list, sorted, repr, copy.copy, pickle.dumps)


def calls_of(kind, one, other):
    """Names of calls, and for each a function that prepares it."""
    own, others = kind(one), kind(other)
    for operand, name in ((others, "its kind"), (set(other), "a set"), (other, "a list")):
        for method in METHODS if operand is other else [*(f"__{operator}__" for operator in OPERATORS), *METHODS]:
            yield f"{method} with {name}", lambda method=method, operand=operand: lambda: getattr(own, method)(operand)
        yield f"made of {name}", lambda operand=operand: lambda: kind(operand)
    for method in IN_PLACE:
        operands = () if method == "clear" else (others,)
        yield method, lambda method=method, operands=operands: lambda made=own.copy(): getattr(made, method)(*operands)
    for call in ALONE:
        yield call.__name__, lambda call=call: lambda: call(own)


def least_of(make_ready):
    """The least time of a call in seconds, each time on its own copy."""
    best, spent = float("inf"), 0
    while spent < 0.01:
        call = make_ready()
        start = time.perf_counter()
        call()
        taken = time.perf_counter() - start
        best, spent = min(best, taken), spent + max(taken, 1e-5)
    return best


def slow_calls(draws):
    """Writes a line for each call that takes more than five times as long as that of `set`, and 50 ns more."""
    print("| call | shape | ours, us | theirs, us | ratio |\n|---|---|---|---|---|")
    for shape, lists in shapes(draws).items():
        for (name, ours), (_, theirs) in zip(calls_of(BitSet, *lists), calls_of(set, *lists)):
            times = least_of(ours) * 1e6, least_of(theirs) * 1e6
            if times[0] > 5 * times[1] and times[0] - times[1] > 0.05:
                print(f"| {name} | {shape} | {times[0]:.2f} | {times[1]:.2f} | {times[0] / times[1]:.0f} |")


def main():
    """Writes the table."""
    draws = random.Random(5)
    if sys.argv[1:] == ["shapes"]:
        slow_calls(draws)
        return
    numbers = [draws.randrange(LIMIT) for _ in range(LIMIT)]
    halves = numbers[: LIMIT // 2], numbers[LIMIT // 2 :]
    print("| call | beside | ours, ms | theirs, ms | ratio |\n|---|---|---|---|---|")
    for rows in (beside_sets, beside_intbitset, beside_bitarray):
        try:
            rows(numbers, halves)
        except ImportError as error:
            print(f"left out: {error.name}")


if __name__ == "__main__":
    main()
