#!/usr/bin/env python3
"""Times `erlay make` over the capacity and draws the times: a table as text, and a plot as SVG.

  bench/plot.py [--yardstick FOLDER] [--rounds N] [--program FILE]     measures, and writes docs/make.tsv and docs/make.svg
  bench/plot.py --draw                                                 draws docs/make.svg from docs/make.tsv alone

Each capacity has a sketch of 10,000 elements. A time is processor time (user and system) from the start of the process
to its end, the best of N rounds in which all programs take turns, in nanoseconds for each place of each element.

With --yardstick, FOLDER holds C++ programs of the same job with a Makefile that builds `yard`; its paths `generic`,
`clmul` and `lanes-v2` take turns with the program, and their answers are compared with its.

Needs the package python3, and g++ and make for a yardstick.
"""
import argparse, math, os, sys, tempfile

sys.dont_write_bytecode = True
from commands import PROGRAM, TOP, build, run, write_elements, yard

ELEMENTS = 10_000
CAPACITIES = (8, 16, 32, 64, 128, 256, 511, 1_024, 2_048, 4_096)
PATHS = ("generic", "clmul", "lanes-v2")
TABLE = os.path.join(TOP, "docs/make.tsv")
PICTURE = os.path.join(TOP, "docs/make.svg")
COLOURS = {"erlay": "#c0392b", "generic": "#7f8c8d", "clmul": "#2471a3", "lanes-v2": "#1e8449"}
WIDE, HIGH, LEFT, RIGHT, TOP_EDGE, BOTTOM = 720, 440, 70, 110, 50, 60


def measured(words):
    """The nanoseconds of each program, by capacity."""
    build() if words.program == PROGRAM else None
    times = {}
    with tempfile.TemporaryDirectory() as folder:
        others = {}
        if words.yardstick:
            program = yard(words.yardstick, folder)
            others = {name: [program, "--path", name] for name in PATHS}
        path = os.path.join(folder, "elements")
        write_elements(path, ELEMENTS, ELEMENTS)
        for capacity in CAPACITIES:
            best, texts = {}, set()
            for _ in range(words.rounds):
                for name, command in {"erlay": [words.program], **others}.items():
                    seconds, text = run(command + ["make", str(capacity)], path)
                    best[name] = min(seconds, best.get(name, seconds))
                    texts.add(text)
            if len(texts) != 1:
                sys.exit(f"the answers differ at capacity {capacity}")
            times[capacity] = {name: seconds / ELEMENTS / capacity * 1e9 for name, seconds in best.items()}
            print(capacity, *(f"{name} {time:.2f}" for name, time in times[capacity].items()), flush=True)
    return times


def write_table(times):
    names = list(next(iter(times.values())))
    with open(TABLE, "w") as file:
        file.write("\t".join(["capacity", *names]) + "\n")
        for capacity, row in times.items():
            file.write("\t".join([str(capacity), *(f"{row[name]:.3f}" for name in names)]) + "\n")


def read_table():
    with open(TABLE) as file:
        head, *rows = [line.rstrip("\n").split("\t") for line in file]
    return {int(row[0]): dict(zip(head[1:], map(float, row[1:]))) for row in rows}


def text(x, y, words, anchor="middle", more=""):
    return f'<text x="{x:.1f}" y="{y:.1f}" text-anchor="{anchor}"{more}>{words}</text>'


def line(x1, y1, x2, y2, colour="#dddddd"):
    return f'<line x1="{x1:.1f}" y1="{y1:.1f}" x2="{x2:.1f}" y2="{y2:.1f}" stroke="{colour}"/>'


def drawn(times):
    """Both axes are logarithmic."""
    every = [time for row in times.values() for time in row.values()]
    low, high = 10 ** math.floor(math.log10(min(every))), 10 ** math.ceil(math.log10(max(every)))
    first, last = min(times), max(times)
    across = lambda c: LEFT + (WIDE - LEFT - RIGHT) * math.log(c / first) / math.log(last / first)
    up = lambda t: HIGH - BOTTOM - (HIGH - BOTTOM - TOP_EDGE) * math.log(t / low) / math.log(high / low)
    parts = [f'<svg xmlns="http://www.w3.org/2000/svg" width="{WIDE}" height="{HIGH}" viewBox="0 0 {WIDE} {HIGH}" '
             'font-family="sans-serif" font-size="12">', f'<rect width="{WIDE}" height="{HIGH}" fill="white"/>',
             text(WIDE / 2, 24, f"make, {ELEMENTS:,} elements: nanoseconds for each place of each element", more=' font-size="15"')]
    for power in range(round(math.log10(low)), round(math.log10(high)) + 1):
        for digit in (1, 2, 5):
            time = digit * 10 ** power
            if time <= high:
                parts += [line(LEFT, up(time), WIDE - RIGHT, up(time)), text(LEFT - 8, up(time) + 4, f"{time:g}", "end")]
    for capacity in times:
        parts += [line(across(capacity), TOP_EDGE, across(capacity), HIGH - BOTTOM),
                  text(across(capacity), HIGH - BOTTOM + 18, str(capacity))]
    parts.append(text((LEFT + WIDE - RIGHT) / 2, HIGH - 16, "capacity"))
    for name in next(iter(times.values())):
        colour = COLOURS[name]
        points = [(across(capacity), up(row[name])) for capacity, row in times.items()]
        parts.append(f'<polyline fill="none" stroke="{colour}" stroke-width="2" points="' +
                     " ".join(f"{x:.1f},{y:.1f}" for x, y in points) + '"/>')
        parts += [f'<circle cx="{x:.1f}" cy="{y:.1f}" r="3" fill="{colour}"/>' for x, y in points]
        parts.append(text(points[-1][0] + 8, points[-1][1] + 4, name, "start", f' fill="{colour}"'))
    return "\n".join(parts + ["</svg>"]) + "\n"


def main():
    words = argparse.ArgumentParser(description=__doc__, formatter_class=argparse.RawDescriptionHelpFormatter)
    words.add_argument("--yardstick", metavar="FOLDER")
    words.add_argument("--rounds", type=int, default=15)
    words.add_argument("--program", metavar="FILE", default=PROGRAM)
    words.add_argument("--draw", action="store_true")
    words = words.parse_args()
    if not words.draw:
        write_table(measured(words))
    with open(PICTURE, "w") as file:
        file.write(drawn(read_table()))


if __name__ == "__main__":
    main()
