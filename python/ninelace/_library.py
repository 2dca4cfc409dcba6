"""The C interface, by ctypes: each call of ninelace.h, with a buffer that grows to what is needed."""

import ctypes
import os
from ctypes import POINTER, byref, c_char_p, c_size_t, c_uint8, c_uint32, c_uint64, c_void_p
from dataclasses import dataclass
from pathlib import Path
from typing import Union

DONE, USAGE, INPUT, MEMORY, SAVED, LIMIT, UNFINISHED, NONE, REFUSED, UNSETTLED, SHORT, NO_JOB = 0, 2, 3, 7, 8, 9, 10, 11, 12, 13, 20, 21

# How many byte strings each command takes.
INPUTS = {"coins": 2, "fund": 3, "resume": 4, "wide": 3, "share": 3, "sweep": 3, "check": 5, "settle": 4}

# How many bytes the first buffer of a call has.
ROOM = 65536


class Sizes(ctypes.Structure):
    """How many bytes the parts of an answer have, as `ninelace_sizes`."""

    _fields_ = [("printed", c_size_t), ("log", c_size_t), ("job", c_size_t)]


@dataclass(frozen=True)
class Answer:
    """What a call came to: its code, what the command printed, its log, and the packed job of an unfinished run."""

    code: int
    printed: bytes
    log: bytes
    job: bytes


def _path() -> str:
    """Where the library is: as NINELACE_LIBRARY says, beside this file, or where c/build.sh of a clone writes it."""
    given = os.environ.get("NINELACE_LIBRARY")
    if given:
        return given
    here = Path(__file__).resolve().parent
    for place in (here / "libninelace.so", here.parent.parent / "c" / "out" / "libninelace.so"):
        if place.is_file():
            return str(place)
    return "libninelace.so"


def _load() -> ctypes.CDLL:
    library = ctypes.CDLL(_path())
    library.ninelace_abi_version.argtypes = []
    library.ninelace_abi_version.restype = c_uint32
    if library.ninelace_abi_version() != 1:
        raise ImportError(f"libninelace has version {library.ninelace_abi_version()} of its interface, and this package needs 1")
    for name, inputs in INPUTS.items():
        function = getattr(library, "ninelace_" + name)
        function.argtypes = [c_char_p, c_size_t] * inputs + [c_void_p, c_size_t, POINTER(Sizes)]
        function.restype = c_uint8
    library.ninelace_work.argtypes = [c_uint64, c_uint32, c_void_p, c_size_t, POINTER(Sizes)]
    library.ninelace_work.restype = c_uint8
    return library


_LIBRARY = _load()


def abi_version() -> int:
    """The version of the library's interface."""
    return int(_LIBRARY.ninelace_abi_version())


def _given(name: str, inputs: "tuple[Union[bytes, int], ...]") -> list:
    """The C arguments of these inputs."""
    if name == "work":
        number, count = inputs
        if not (isinstance(number, int) and isinstance(count, int)):
            raise TypeError("work takes a number and a count")
        if not (0 <= number < 2**64 and 0 <= count < 2**32):
            raise OverflowError("a number has 64 bits, and a count 32")
        return [number, count]
    if len(inputs) != INPUTS[name]:
        raise TypeError(f"{name} takes {INPUTS[name]} byte strings")
    given: list = []
    for one in inputs:
        if not isinstance(one, bytes):
            raise TypeError(f"{name} takes bytes, and not {type(one).__name__}")
        given += [one, len(one)]
    return given


def call(name: str, *inputs: Union[bytes, int], room: int = ROOM) -> Answer:
    """Does the command of this name on these inputs, in the order of ninelace.h. The first buffer has `room` bytes."""
    function = getattr(_LIBRARY, "ninelace_" + name)
    given = _given(name, inputs)
    sizes = Sizes()
    while True:
        into = ctypes.create_string_buffer(max(room, 1))
        code = function(*given, into, room, byref(sizes))
        if code != SHORT:
            break
        room = sizes.printed + sizes.log + sizes.job
    ends = sizes.printed, sizes.printed + sizes.log, sizes.printed + sizes.log + sizes.job
    held = memoryview(into)
    return Answer(code, bytes(held[: ends[0]]), bytes(held[ends[0] : ends[1]]), bytes(held[ends[1] : ends[2]]))
