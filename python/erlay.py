"""Sketches of sets of numbers from 1 below 2^32, over the shared library of c/build.sh.

    from erlay import Sketch

    ours = Sketch.of({1, 2, 3}, capacity=4)
    theirs = Sketch.from_bytes(received)          # 16 bytes that a peer sent
    differences = ours.merged(theirs).decode()    # a set, what is in exactly one of the two sets

The library is sought in the file that the environment variable ERLAY_LIBRARY names, then beside this file, then as the
system finds `liberlay.so`. Each call gives its error as a subclass of ErlayError that is named after its code.
"""
from __future__ import annotations

import ctypes
import enum
import os
from array import array
from collections.abc import Iterable

__all__ = ["Code", "ErlayError", "MAX_CAPACITY", "Sketch", "CapacityOutOfRange", "SketchSize", "SizesDiffer", "ZeroElement",
           "RepeatedElement", "BufferTooShort", "NoSet", "OutOfMemory"]


class Code(enum.IntEnum):
    """What a call of the library answers: the ERLAY_ names of erlay.h."""
    DONE = 0
    CAPACITY_OUT_OF_RANGE = 1
    SKETCH_SIZE = 2
    SIZES_DIFFER = 3
    ZERO_ELEMENT = 4
    REPEATED_ELEMENT = 5
    BUFFER_TOO_SHORT = 6
    NO_SET = 7
    OUT_OF_MEMORY = 8


class ErlayError(Exception):
    """A call was refused. Nothing was changed by it."""
    code: Code


class CapacityOutOfRange(ErlayError, ValueError):
    """A capacity is 1 to MAX_CAPACITY."""
    code = Code.CAPACITY_OUT_OF_RANGE


class SketchSize(ErlayError, ValueError):
    """A sketch is 4 bytes for each sum, of which there are 1 to MAX_CAPACITY."""
    code = Code.SKETCH_SIZE


class SizesDiffer(ErlayError, ValueError):
    """Two sketches are merged only where their capacities are equal."""
    code = Code.SIZES_DIFFER


class ZeroElement(ErlayError, ValueError):
    """0 is no element."""
    code = Code.ZERO_ELEMENT


class RepeatedElement(ErlayError, ValueError):
    """An element comes twice in a list."""
    code = Code.REPEATED_ELEMENT


class BufferTooShort(ErlayError):
    """No call of this module's own comes to this: its buffers have room for every answer."""
    code = Code.BUFFER_TOO_SHORT


class NoSet(ErlayError):
    """No set of at most as many elements as the capacity has the sketch: take a larger capacity."""
    code = Code.NO_SET


class OutOfMemory(ErlayError, MemoryError):
    """The library found no memory."""
    code = Code.OUT_OF_MEMORY


ERRORS: dict[Code, type[ErlayError]] = {error.code: error for error in (
    CapacityOutOfRange, SketchSize, SizesDiffer, ZeroElement, RepeatedElement, BufferTooShort, NoSet, OutOfMemory)}


def _load() -> ctypes.CDLL:
    beside = os.path.join(os.path.dirname(os.path.abspath(__file__)), "liberlay.so")
    library = ctypes.CDLL(os.environ.get("ERLAY_LIBRARY") or (beside if os.path.exists(beside) else "liberlay.so"))
    code, size, pointer = ctypes.c_uint32, ctypes.c_size_t, ctypes.c_void_p
    for name, result, arguments in (
            ("erlay_max_capacity", size, []),
            ("erlay_sketch_size", size, [size]),
            ("erlay_make", code, [pointer, size, size, pointer, size]),
            ("erlay_toggle", code, [pointer, size, ctypes.c_uint32]),
            ("erlay_merge", code, [pointer, size, pointer, size]),
            ("erlay_decode", code, [pointer, size, pointer, size, ctypes.POINTER(size)])):
        function = getattr(library, name)
        function.restype, function.argtypes = result, arguments
    return library


_library = _load()

MAX_CAPACITY: int = _library.erlay_max_capacity()


def _require(code: int) -> None:
    if code != Code.DONE:
        raise ERRORS[Code(code)]


def _element(number: int) -> int:
    if not 0 <= number < 1 << 32:
        raise OverflowError(f"{number} is not below 2^32")
    return number


def _sketch_size(capacity: int) -> int:
    size: int = _library.erlay_sketch_size(capacity) if 0 <= capacity < 1 << 63 else 0
    if size == 0:
        raise CapacityOutOfRange
    return size


class Sketch:
    """The sketch of a set of numbers from 1 below 2^32.

    One sketch may be read by several threads at once; while one changes it, no other uses it.
    """
    __slots__ = ("_bytes",)

    def __init__(self, capacity: int) -> None:
        """The sketch of the empty set."""
        self._bytes = bytearray(_sketch_size(capacity))

    @classmethod
    def of(cls, elements: Iterable[int], capacity: int) -> Sketch:
        """The sketch of these elements, in any order, each once."""
        sketch = cls(capacity)
        numbers = array("I", [_element(number) for number in elements])
        count = len(numbers)
        numbers.append(0)  # behind the elements, so that there is an address of none as well
        _require(_library.erlay_make(numbers.buffer_info()[0], count, capacity, sketch._address(), len(sketch._bytes)))
        return sketch

    @classmethod
    def from_bytes(cls, serialized: bytes) -> Sketch:
        """The sketch of these bytes: 4 for each sum, the lowest first."""
        if len(serialized) % 4 or not 0 < len(serialized) <= 4 * MAX_CAPACITY:
            raise SketchSize
        sketch = cls(len(serialized) // 4)
        sketch._bytes[:] = serialized
        return sketch

    def __bytes__(self) -> bytes:
        """The sketch as bytes: 4 for each sum, the lowest first."""
        return bytes(self._bytes)

    def __eq__(self, other: object) -> bool:
        return self._bytes == other._bytes if isinstance(other, Sketch) else NotImplemented

    __hash__ = None  # type: ignore[assignment]  # a sketch changes

    def __repr__(self) -> str:
        return f"Sketch.from_bytes(bytes.fromhex('{self._bytes.hex()}'))"

    @property
    def capacity(self) -> int:
        """The number of sums, and of the elements that can be told."""
        return len(self._bytes) // 4

    def copy(self) -> Sketch:
        return Sketch.from_bytes(bytes(self._bytes))

    def toggle(self, element: int) -> None:
        """Puts the element into the set, or takes it out where the set has it."""
        _require(_library.erlay_toggle(self._address(), len(self._bytes), _element(element)))

    def merge(self, other: Sketch) -> None:
        """Makes this the sketch of what is in exactly one of the two sets."""
        theirs = bytearray(other._bytes) if other is self else other._bytes
        _require(_library.erlay_merge(self._address(), len(self._bytes), _address(theirs), len(theirs)))

    def merged(self, other: Sketch) -> Sketch:
        """The sketch of what is in exactly one of the two sets."""
        sketch = self.copy()
        sketch.merge(other)
        return sketch

    def decode(self) -> set[int]:
        """The set that has the sketch, of at most as many elements as the capacity; NoSet where there is none.

        Of a set of more elements the answer is NoSet or a false one, a smaller set with the same sketch (erlay.h).
        """
        numbers = (ctypes.c_uint32 * self.capacity)()
        count = ctypes.c_size_t()
        _require(_library.erlay_decode(self._address(), len(self._bytes), numbers, self.capacity, ctypes.byref(count)))
        return set(numbers[:count.value])

    def _address(self) -> int:
        return _address(self._bytes)


def _address(held: bytearray) -> int:
    """Where the bytes lie. They do so while they are held and their length stays."""
    return ctypes.addressof(ctypes.c_char.from_buffer(held))
