"""What two sets differ in, found from the sketch that one side sends to the other.

    c/build.sh build
    PYTHONPATH=python ERLAY_LIBRARY=build/lib/liberlay.so python3 examples/difference.py
"""
from erlay import NoSet, Sketch

ours, theirs = {1, 2, 3}, {2, 3, 0x89abcdef}

received = bytes(Sketch.of(theirs, capacity=4))  # at the peer, who sends 16 bytes

try:
    differences = Sketch.of(ours, capacity=4).merged(Sketch.from_bytes(received)).decode()
except NoSet:
    raise SystemExit("no set: take a larger capacity")
for element in sorted(differences):
    print(f"{element:08x}", "ours" if element in ours else "theirs")
