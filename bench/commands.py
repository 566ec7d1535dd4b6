#!/usr/bin/env python3
"""Times `erlay make` and `erlay merge`, the proved program from the process's start to its end.

  bench/commands.py [--rounds N] [--yardstick FOLDER] [--quick]

For each size and capacity it prints the processor time (user and system, the best of N rounds), the
element-places a second (elements times capacity, over that time), and the peak memory beside the
size of the input. The last row of `make` is an input at the limit of 67,108,864 bytes. `merge` is of
two sketches, and the sums of both are counted as its places.

With --yardstick, FOLDER holds C++ programs of the same job with a Makefile that builds `yard`; its
paths `generic` and `lanes-v2` take turns with the program in each round, their answers are
compared, and the last columns are the program's time over theirs.

Needs the packages python3 and time, and g++ and make for a yardstick.
"""
import argparse, os, random, subprocess, sys, tempfile

TOP = os.path.dirname(os.path.dirname(os.path.abspath(__file__)))
PROGRAM = os.path.join(TOP, "crates/erlay/out/erlay")
LIMIT_ELEMENTS = 7_456_540
YARD_PATHS = ("generic", "lanes-v2")


def write_sketches(path, capacity, seed):
    """Two sketch lines of that capacity."""
    source = random.Random(seed)
    with open(path, "w") as file:
        for _ in range(2):
            file.write(source.randbytes(4 * capacity).hex() + "\n")


def write_elements(path, count, seed):
    """Distinct elements from 1 below 2^32, one a line."""
    if count < 1_000_000:
        elements = random.Random(seed).sample(range(1, 1 << 32), count)
    else:
        # an odd factor permutes the numbers modulo 2^32, and only 0 goes to 0
        elements = (i * 2654435761 & 0xFFFFFFFF for i in range(1, count + 1))
    with open(path, "w") as file:
        for element in elements:
            file.write(f"{element:08x}\n")


def run(command, path, wanted=0):
    """The processor time in seconds, and what was written. It must end with the status that is wanted."""
    with open(path, "rb") as elements:
        process = subprocess.Popen(command, stdin=elements, stdout=subprocess.PIPE)
    text = process.stdout.read()
    _, status, usage = os.wait4(process.pid, 0)
    process.returncode = 0
    if os.waitstatus_to_exitcode(status) != wanted:
        sys.exit(f"{' '.join(command)} ended with {os.waitstatus_to_exitcode(status)}")
    return usage.ru_utime + usage.ru_stime, text


def peak_megabytes(command, path):
    """The most memory that a run holds. A process of its own measures it, since Python's would count."""
    with open(path, "rb") as elements:
        timed = subprocess.run(["time", "-f", "%M", *command], stdin=elements,
                               stdout=subprocess.DEVNULL, stderr=subprocess.PIPE)
    return int(timed.stderr.split()[-1]) / 1024


def build():
    """Builds the program, which proves it, where it isn't current."""
    subprocess.run([os.path.join(TOP, "erlay"), "make", "1"], stdin=subprocess.DEVNULL,
                   stdout=subprocess.DEVNULL, check=True)


def yard(folder, built):
    program = os.path.join(built, "yard")
    subprocess.run(["make", "-s", "-C", folder, f"BUILD={built}", program], check=True)
    return program


def row(what, words, path, places, others, rounds):
    """Times one command over an input file, and prints its line."""
    best, texts = {}, set()
    for _ in range(rounds):
        for name, command in {"erlay": [PROGRAM], **others}.items():
            seconds, text = run(command + words, path)
            best[name] = min(seconds, best.get(name, seconds))
            texts.add(text)
    if len(texts) != 1:
        sys.exit(f"the answers differ: {what}")
    seconds = best["erlay"]
    print(what, f"{seconds:.4f}", f"{places / seconds / 1e6:.1f}", f"{seconds / places * 1e9:.2f}",
          f"{peak_megabytes([PROGRAM] + words, path):.1f}", f"{os.path.getsize(path) / 2**20:.2f}",
          *(f"{seconds / best[name]:.2f}" for name in others), flush=True)


def main():
    words = argparse.ArgumentParser(description=__doc__, formatter_class=argparse.RawDescriptionHelpFormatter)
    words.add_argument("--rounds", type=int, default=5)
    words.add_argument("--yardstick", metavar="FOLDER")
    words.add_argument("--quick", action="store_true", help="leave out the largest sizes")
    words = words.parse_args()
    build()
    with tempfile.TemporaryDirectory() as folder:
        others = {}
        if words.yardstick:
            program = yard(words.yardstick, folder)
            others = {name: [program, "--path", name] for name in YARD_PATHS}
        sizes = [(n, c) for n in (2_000, 20_000, 200_000) for c in (8, 511, 4_096)]
        sizes = sizes[:-1] if words.quick else sizes + [(LIMIT_ELEMENTS, 1)]
        print("command elements capacity seconds places/s(million) ns/place peak-MB input-MB",
              *(f"over-{name}" for name in others))
        for capacity in (8, 511, 4_096):
            path = os.path.join(folder, "sketches")
            write_sketches(path, capacity, capacity)
            row(f"merge - {capacity}", ["merge"], path, 2 * capacity, others, words.rounds)
        for count, capacity in sizes:
            path = os.path.join(folder, f"{count}")
            if not os.path.exists(path):
                write_elements(path, count, count)
            row(f"make {count} {capacity}", ["make", str(capacity)], path, count * capacity, others, words.rounds)


if __name__ == "__main__":
    main()
