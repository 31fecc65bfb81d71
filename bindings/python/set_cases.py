"""Runs the cases of Python's own test.test_set on sets of numbers, with BitSet in place of set.

python3 set_cases.py          needs the package test of Python's library
"""

import sys
import unittest

from test import test_set

from bit_set import BitSet

# The classes whose sets have only numbers.
CLASSES = (
    "TestBasicOpsEmpty",
    "TestBasicOpsSingleton",
    "TestBinaryOps",
    "TestUpdateOps",
    "TestSubsetEqualEmpty",
    "TestSubsetEqualNonEmpty",
    "TestSubsetEmptyNonEmpty",
    "TestSubsetPartial",
    "TestSubsetNonOverlap",
    "TestOnlySetsNumeric",
    "TestOnlySetsOperator",
    "TestCopyingEmpty",
)

# Their cases for what is not part of a MutableSet: how `set` is printed, and the length hint of its iterator.
OTHERS = ("test_repr", "test_iteration")


def main():
    test_set.set = BitSet
    test_set.empty_set = BitSet()
    suite = unittest.TestSuite()
    for name in CLASSES:
        for case in unittest.defaultTestLoader.loadTestsFromTestCase(numbers_of(getattr(test_set, name))):
            if case.id().rsplit(".", 1)[1] not in OTHERS:
                suite.addTest(case)
    return 0 if unittest.TextTestRunner(verbosity=0).run(suite).wasSuccessful() else 1


# The class with a BitSet in place of each of its sets.
def numbers_of(cases):
    for name in ("left", "right"):
        if hasattr(cases, name):
            setattr(cases, name, BitSet(getattr(cases, name)))
    return cases


if __name__ == "__main__":
    sys.exit(main())
