#!/usr/bin/env python3
"""Times `erlay_decode` of the library for C: calls in one process, without a process's start and without text.

  bench/c_library.py --yardstick FOLDER [--seconds N] [--capacities C,..]

For each capacity a sketch of as many elements is decoded again and again for N seconds, and the best processor time of a
call is printed in milliseconds. FOLDER holds C++ programs of the same job with a Makefile that builds `yard`. Its own
in-process times of the same sets stand behind, each with our time over it; `yard` runs between two runs of ours, of
which the better counts. What is decoded is compared with the elements in every call.

Needs the packages python3, gcc and binutils, and g++ and make for the yardstick.
"""
import argparse, os, subprocess, tempfile
from commands import TOP, yard

TIMED = r"""
#define _POSIX_C_SOURCE 200809L
#include <erlay.h>
#include <stdio.h>
#include <stdlib.h>
#include <string.h>
#include <time.h>

static double now(void) {
    struct timespec t;
    clock_gettime(CLOCK_PROCESS_CPUTIME_ID, &t);
    return (double)t.tv_sec + (double)t.tv_nsec / 1e9;
}

static int ascending(const void *a, const void *b) {
    uint32_t x = *(const uint32_t *)a, y = *(const uint32_t *)b;
    return (x > y) - (x < y);
}

/* timed CAPACITY SECONDS: the best time of a call, for the elements on the standard input */
int main(int argc, char **argv) {
    static uint32_t elements[ERLAY_MAX_CAPACITY], found[ERLAY_MAX_CAPACITY];
    static uint8_t sketch[ERLAY_MAX_SKETCH_SIZE];
    size_t capacity = argc == 3 ? strtoul(argv[1], NULL, 10) : 0, count = 0, decoded = 0;
    while (count < capacity && scanf("%x", &elements[count]) == 1)
        count++;
    if (erlay_make(elements, count, capacity, sketch, sizeof sketch) != ERLAY_DONE)
        return 1;
    qsort(elements, count, sizeof *elements, ascending);
    double best = 1e9, end = now() + atof(argv[2]);
    for (int round = 0; round < 5 || now() < end; round++) {
        double begun = now();
        erlay_code code = erlay_decode(sketch, erlay_sketch_size(capacity), found, capacity, &decoded);
        double taken = now() - begun;
        if (code != ERLAY_DONE || decoded != count || memcmp(found, elements, count * sizeof *found) != 0)
            return 1;
        if (taken < best)
            best = taken;
    }
    printf("%.9f\n", best);
    return 0;
}
"""


def built_library(folder):
    """The program that times the library's call."""
    subprocess.run([os.path.join(TOP, "c/build.sh"), folder], check=True)
    source, program = os.path.join(folder, "timed.c"), os.path.join(folder, "timed")
    with open(source, "w") as file:
        file.write(TIMED)
    subprocess.run(["gcc", "-std=c11", "-O2", "-I", os.path.join(folder, "include"), source, "-o", program,
                    os.path.join(folder, "lib/liberlay.a")], check=True)
    return program


def main():
    words = argparse.ArgumentParser(description=__doc__, formatter_class=argparse.RawDescriptionHelpFormatter)
    words.add_argument("--yardstick", metavar="FOLDER", required=True)
    words.add_argument("--seconds", type=float, default=1.0)
    words.add_argument("--capacities", default="128,1024", help="of the yardstick's: 8, 32, 128, 511, 1024, 2048")
    words = words.parse_args()
    capacities = [int(word) for word in words.capacities.split(",")]
    with tempfile.TemporaryDirectory() as folder:
        own, other = built_library(os.path.join(folder, "library")), yard(words.yardstick, folder)
        sets = {c: subprocess.run([other, "set", str(7 * c), str(c)], stdout=subprocess.PIPE, check=True).stdout for c in capacities}

        def best():
            return {c: float(subprocess.run([own, str(c), str(words.seconds)], input=sets[c], stdout=subprocess.PIPE, check=True).stdout) for c in capacities}

        before = best()
        lines = [line.split() for line in subprocess.run([other, "bench", str(words.seconds)], stdout=subprocess.PIPE, text=True, check=True).stdout.splitlines()]
        after = best()
        print("capacity ms yardstick:ms(ratio)")
        for c in capacities:
            taken = min(before[c], after[c])
            theirs = {name: float(seconds) for job, size, capacity, name, seconds in (line for line in lines if len(line) == 5)
                      if job == "decode" and int(size) == int(capacity) == c}
            print(c, f"{taken * 1e3:.2f}", *(f"{name}:{seconds * 1e3:.2f}({taken / seconds:.2f})" for name, seconds in theirs.items()))


if __name__ == "__main__":
    main()
