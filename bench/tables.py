#!/usr/bin/env python3
"""Computes what the checker tests of a field of 2^width elements: a table and an element of trace 1.

    bench/tables.py WIDTH MODULUS       bench/tables.py 32 0x10000008d

The table has one number for each place of an element. Adding up (by exclusive or) the numbers at the places where
e^2 + e has a 1 gives e without its lowest bit.
"""
import sys


def times(a, b, width, modulus):
    r = 0
    for i in range(width):
        if b >> i & 1:
            r ^= a << i
    for i in reversed(range(width)):
        if r >> (width + i) & 1:
            r ^= modulus << i
    return r


def solver(width, modulus):
    rows = []  # (image, element), each image with a place that no other has
    for j in range(1, width):
        e = 1 << j
        image = times(e, e, width, modulus) ^ e
        for other, origin in rows:
            if image >> (other.bit_length() - 1) & 1:
                image, e = image ^ other, e ^ origin
        assert image, "not a field"
        top = image.bit_length() - 1
        rows = [(o ^ image, p ^ e) if o >> top & 1 else (o, p) for o, p in rows] + [(image, e)]
    table = [0] * width
    for image, e in rows:
        table[image.bit_length() - 1] = e
    return table


def selected(table, image):
    total = 0
    for i, t in enumerate(table):
        if image >> i & 1:
            total ^= t
    return total


def trace(a, width, modulus):
    total = 0
    for _ in range(width):
        total, a = total ^ a, times(a, a, width, modulus)
    return total


if __name__ == "__main__":
    width, modulus = int(sys.argv[1]), int(sys.argv[2], 0)
    table = solver(width, modulus)
    for j in range(1, width):
        e = 1 << j
        assert selected(table, times(e, e, width, modulus) ^ e) == e
    print("table:", " ∷ ".join(f"0x{t:X}" for t in table) + " ∷ []")
    print("trace 1:", hex(next(1 << j for j in range(width) if trace(1 << j, width, modulus) == 1)))
