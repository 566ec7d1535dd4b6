#!/usr/bin/env python3
"""Tests of erlay.py, and of the shared library against the definition of a sketch.

  ERLAY_LIBRARY=FOLDER/lib/liberlay.so python/test_erlay.py
"""
import os
import random
import re
import unittest

import erlay
from erlay import Code, Sketch

TOP = os.path.dirname(os.path.dirname(os.path.abspath(__file__)))


def times_x(a: int) -> int:
    """The product with x in the field of 2^32 elements, modulo x^32 + x^7 + x^3 + x^2 + 1."""
    return a << 1 ^ (0x1_0000_008D if a >> 31 else 0)


def multiples(factor: int) -> list[list[int]]:
    """The products of the factor with each value of each nibble."""
    rows = []
    for _ in range(8):
        row = [0]
        for _ in range(4):
            row += [entry ^ factor for entry in row]
            factor = times_x(factor)
        rows.append(row)
    return rows


def product(rows: list[list[int]], a: int) -> int:
    """The product of the factor of these multiples and an element."""
    result = 0
    for row in rows:
        result ^= row[a & 15]
        a >>= 4
    return result


def sketch_of(elements: list[int], capacity: int) -> bytes:
    """The sums of the odd powers 1, 3, 5, .. of the elements, as many as the capacity, each of four bytes, lowest first."""
    sums = [0] * capacity
    for element in elements:
        square, power = multiples(product(multiples(element), element)), element
        for place in range(capacity):
            sums[place] ^= power
            power = product(square, power)
    return b"".join(number.to_bytes(4, "little") for number in sums)


class Worked(unittest.TestCase):
    CASES = [
        ([1, 2, 3], 4, "0000000006000000120000007e000000"),
        ([2, 1], 2, "0300000009000000"),
        ([0x80000000], 2, "00000080726d0420"),
        ([1], 3, "010000000100000001000000"),
        ([], 2, "0000000000000000"),
    ]

    def test_sketches(self) -> None:
        for elements, capacity, digits in self.CASES:
            sketch = Sketch.of(elements, capacity)
            self.assertEqual(bytes(sketch).hex(), digits)
            self.assertEqual(sketch, Sketch.from_bytes(bytes.fromhex(digits)))
            self.assertEqual(sketch.decode(), set(elements))
            self.assertEqual(sketch.capacity, capacity)
            one_by_one = Sketch(capacity)
            for element in elements:
                one_by_one.toggle(element)
            self.assertEqual(one_by_one, sketch)

    def test_differences(self) -> None:
        ours = Sketch.of({1, 2, 3}, 4)
        theirs = Sketch.of({2, 3, 0x89abcdef}, 4)
        self.assertEqual(ours.merged(theirs).decode(), {1, 0x89abcdef})
        before = bytes(ours)
        ours.merge(ours)
        self.assertEqual(ours.decode(), set())
        self.assertNotEqual(before, bytes(ours))
        # one sum of 1 and 2 is that of 3
        self.assertEqual(Sketch.of({1, 2}, 1).decode(), {3})


class Refusals(unittest.TestCase):
    def test_codes_are_the_headers(self) -> None:
        with open(os.path.join(TOP, "c/erlay.h")) as header:
            text = header.read()
        self.assertEqual({name: int(number) for name, number in re.findall(r"ERLAY_([A-Z_]+) = (\d+)", text)}, {code.name: code.value for code in Code})
        self.assertEqual(erlay.MAX_CAPACITY, int(re.search(r"define ERLAY_MAX_CAPACITY (\d+)", text)[1]))
        self.assertEqual({code.name.title().replace("_", "") for code in Code} - {"Done"}, {error.__name__ for error in erlay.ERRORS.values()})

    def test_each(self) -> None:
        sketch = Sketch.of({1, 2, 3}, 4)
        before = bytes(sketch)
        for error, call in [
            (erlay.CapacityOutOfRange, lambda: Sketch(0)),
            (erlay.CapacityOutOfRange, lambda: Sketch(-1)),
            (erlay.CapacityOutOfRange, lambda: Sketch.of([1], 4097)),
            (erlay.CapacityOutOfRange, lambda: Sketch.of([1], 1 << 70)),
            (erlay.SketchSize, lambda: Sketch.from_bytes(b"")),
            (erlay.SketchSize, lambda: Sketch.from_bytes(b"12345")),
            (erlay.SketchSize, lambda: Sketch.from_bytes(bytes(16388))),
            (erlay.SizesDiffer, lambda: sketch.merge(Sketch(3))),
            (erlay.ZeroElement, lambda: Sketch.of([5, 0, 5], 4)),
            (erlay.ZeroElement, lambda: sketch.toggle(0)),
            (erlay.RepeatedElement, lambda: Sketch.of([5, 6, 5], 4)),
            (OverflowError, lambda: Sketch.of([1 << 32], 4)),
            (OverflowError, lambda: sketch.toggle(-1)),
            (erlay.NoSet, Sketch.of({1, 2, 3}, 2).decode),
        ]:
            with self.assertRaises(error):
                call()
        self.assertEqual(bytes(sketch), before)


class AgainstTheDefinition(unittest.TestCase):
    def test_random_sets(self) -> None:
        source = random.Random(20)
        for capacity, size, differing in [(1, 0, 0), (1, 3, 1), (2, 10, 2), (3, 7, 6), (8, 200, 8), (20, 50, 19), (33, 1000, 40), (64, 2000, 64), (256, 300, 255), (511, 600, 511), (700, 20, 1400)]:
            elements = source.sample(range(1, 1 << 32), size + differing)
            part = source.randint(0, differing)
            ours, theirs = elements[:size + part], elements[:size] + elements[size + part:]
            sketches = [Sketch.of(numbers, capacity) for numbers in (ours, theirs)]
            self.assertEqual([bytes(sketch) for sketch in sketches], [sketch_of(numbers, capacity) for numbers in (ours, theirs)])
            merged = sketches[0].merged(sketches[1])
            self.assertEqual(bytes(merged), sketch_of(elements[size:], capacity))
            if differing <= capacity:
                self.assertEqual(merged.decode(), set(elements[size:]))
            else:
                with self.assertRaises(erlay.NoSet):
                    merged.decode()

    def test_random_bytes(self) -> None:
        source = random.Random(21)
        sets = 0
        for capacity in [1] * 4 + [2] * 20 + [3] * 40 + [9, 40]:
            sketch = Sketch.from_bytes(source.randbytes(4 * capacity))
            try:
                found = sorted(sketch.decode())
            except erlay.NoSet:
                self.assertNotEqual(capacity, 1)
                continue
            sets += 1
            self.assertLessEqual(len(found), capacity)
            self.assertEqual(bytes(sketch), sketch_of(found, capacity))
        # each of capacity 1 has a set, about a half of capacity 2, and a sixth of capacity 3
        self.assertGreater(sets, 12)


if __name__ == "__main__":
    unittest.main()
