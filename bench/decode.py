#!/usr/bin/env python3
"""Times `erlay decode`, the proved program from the process's start to its end.

  bench/decode.py [--rounds N] [--yardstick FOLDER] [--paths NAME,..] [--only CAPACITY,..] [--program FILE]

Sketches of as many elements as their capacity are decoded, and then sketches of twice as many, which have no set. In
each round all jobs take turns; a turn is several runs where one is short. A row has the processor time of a run (user
and system), the median of the rounds and the best, the nanoseconds of the best for each square of the capacity, by
which the work grows, and the peak memory. Where there is no set, `full` is the time over that of a full sketch of
the same capacity.

With --yardstick, FOLDER holds C++ programs of the same job with a Makefile that builds `yard`; its paths of these
names (`generic` and `lanes-v2` where none are named) take turns with the program, and the last columns are the
program's time over theirs. With --program the program in that file takes turns as well. All ratios are the medians of
those of each round.

What is written is compared in every run: the elements that the sketch was made of, ascending, or that there is no set.

Needs the packages python3 and time, and g++ and make for a yardstick.
"""
import argparse, os, random, statistics, subprocess, sys, tempfile
from typing import NamedTuple
from commands import PROGRAM, YARD_PATHS, build, peak_megabytes, run, yard

CAPACITIES = (8, 32, 128, 511, 1_024, 2_048)
FAILING = (4, 16, 64, 256, 512, 1_024)
TURN_SECONDS = 0.03
NO_SET = 3


class Sketch(NamedTuple):
    """The file of a sketch, and what decoding it must answer."""
    path: str
    status: int
    text: bytes


class Job(NamedTuple):
    command: list
    sketch: Sketch


def sketch_of(folder, capacity, count):
    elements = sorted(random.Random(capacity + count).sample(range(1, 1 << 32), count))
    text = "".join(f"{element:08x}\n" for element in elements).encode()
    path = os.path.join(folder, f"{capacity}-{count}")
    with open(path, "wb") as file:
        subprocess.run([PROGRAM, "make", str(capacity)], input=text, stdout=file, check=True)
    return Sketch(path, 0, text) if count <= capacity else Sketch(path, NO_SET, b"no set\n")


def turn(job, times):
    """The mean processor time of these runs, each of which must give the right answer."""
    total = 0.0
    for _ in range(times):
        seconds, text = run(job.command, job.sketch.path, job.sketch.status)
        if text != job.sketch.text:
            sys.exit(f"another answer: {' '.join(job.command)}")
        total += seconds
    return total / times


def row(capacity, differences, jobs, rounds):
    """Times the jobs, the first of which is the program's, and prints their line."""
    times = {name: max(1, min(40, int(TURN_SECONDS / max(turn(job, 1), 1e-4)))) for name, job in jobs.items()}
    seen = {name: [] for name in jobs}
    for _ in range(rounds):
        for name, job in jobs.items():
            seen[name].append(turn(job, times[name]))
    own = seen["erlay"]
    print(differences, capacity, f"{statistics.median(own) * 1e3:.2f}", f"{min(own) * 1e3:.2f}",
          f"{min(own) * 1e9 / capacity ** 2:.1f}", f"{peak_megabytes(jobs['erlay'].command, jobs['erlay'].sketch.path):.1f}",
          *(f"{name}:{statistics.median(a / b for a, b in zip(own, seen[name])):.2f}" for name in jobs if name != "erlay"),
          flush=True)


def main():
    words = argparse.ArgumentParser(description=__doc__, formatter_class=argparse.RawDescriptionHelpFormatter)
    words.add_argument("--rounds", type=int, default=7)
    words.add_argument("--yardstick", metavar="FOLDER")
    words.add_argument("--paths", default=",".join(YARD_PATHS), help="the yardstick's, with commas")
    words.add_argument("--only", help="capacities, with commas")
    words.add_argument("--program", metavar="FILE", help="another program, to compare two")
    words = words.parse_args()
    build()
    only = [int(word) for word in words.only.split(",")] if words.only else CAPACITIES + FAILING
    with tempfile.TemporaryDirectory() as folder:
        commands = {"erlay": [PROGRAM, "decode"]}
        if words.program:
            commands["program"] = [os.path.abspath(words.program), "decode"]
        if words.yardstick:
            program = yard(words.yardstick, folder)
            commands.update((name, [program, "--path", name, "decode"]) for name in words.paths.split(","))
        print("differences capacity ms-median ms-best ns/capacity^2 peak-MB over:")
        for capacity in (c for c in CAPACITIES if c in only):
            full = sketch_of(folder, capacity, capacity)
            row(capacity, capacity, {name: Job(command, full) for name, command in commands.items()}, words.rounds)
        for capacity in (c for c in FAILING if c in only):
            full, none = (sketch_of(folder, capacity, count) for count in (capacity, 2 * capacity))
            jobs = {name: Job(command, none) for name, command in commands.items()}
            row(capacity, 2 * capacity, {**jobs, "full": Job(commands["erlay"], full)}, words.rounds)


if __name__ == "__main__":
    main()
