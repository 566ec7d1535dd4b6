#!/usr/bin/env python3
"""What the modules of a crate took to check: bench/check_times.py NAME [HOW_MANY]

A check writes a file for each module into crates/NAME/out as it ends with it. So, after a check from nothing by one job
(no crates/NAME/out in any checkout on the machine, then `rt check --jobs 1` in the crate), the times of two files that
follow one another say how long the second module took. `Proof` holds the searches for goals without an answer, `Lts` the
steps of the function, which grow with the variables that are alive at each `?`. After a check of a few modules, the first
of them has the time since the check before.
"""

import collections
import pathlib
import sys


def seconds(crate: str) -> collections.Counter:
    """For each module the seconds since the one before it."""
    out = pathlib.Path(__file__).resolve().parent.parent / "crates" / crate / "out" / "incremental"
    files = sorted((f.stat().st_mtime, f.name) for f in out.rglob("*.oantt"))
    if not files:
        sys.exit(f"no check of {crate} is kept: run rt check --jobs 1 in crates/{crate}")
    took = collections.Counter()
    before = files[0][0]
    for at, name in files:
        module = name.removesuffix(".oantt").removesuffix(".decls").removeprefix(f"Rattle-{crate}-")
        took[module] += at - before
        before = at
    return took


def main() -> None:
    if len(sys.argv) not in (2, 3):
        sys.exit(__doc__)
    took = seconds(sys.argv[1])
    for module, time in took.most_common(int(sys.argv[2]) if len(sys.argv) == 3 else 30):
        print(f"{time:7.1f}  {module}")
    kinds = collections.Counter()
    for module, time in took.items():
        kinds[module.rsplit(".", 1)[-1].split("-")[0]] += time
    print(f"{sum(took.values()):7.1f}  in all: " + ", ".join(f"{kind} {time:.1f}" for kind, time in kinds.most_common(5)))


if __name__ == "__main__":
    main()
