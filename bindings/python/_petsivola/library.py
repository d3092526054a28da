"""The shared library: where it is, what its calls take and answer, and their refusals."""
from __future__ import annotations

import ctypes
import ctypes.util
import functools
import os
import pathlib
from typing import Any, Iterator, Sequence, Union

# Whole numbers 0 to 255. Any stands for numpy's arrays, which have no type here where numpy may be absent.
Octets = Union[bytes, bytearray, memoryview, Sequence[int], Sequence[Sequence[int]], Any]

# What happened, by number, in the words of petsivola_number_text. All but 0, 1 and 20 are refusals.
TEXTS = {
    0: "accepted; of a decoding: found",
    1: "not found: the symbols do not satisfy every check",
    2: "symbol or output buffer too short",
    3: "cost buffer too short",
    4: "record buffer or store too short",
    5: "bytes of the code line missing or left over",
    6: "first byte with a high digit above 3, or p not 2 to 6",
    7: "N not 1 to 256, or M not 1 to 128",
    8: "g not 1 to 16, or I not 1 to 255",
    9: "degree not 2 to 32, or more than 1,024 edges",
    10: "column not below N, or not above the one before",
    11: "weight 0, or a weight or element not below q",
    12: "wrong number of costs",
    13: "column without a cost of 0, or in the window a cost above 510",
    14: "odd digit count, or a byte other than 0-9 and A-F",
    15: "line of more than 32,768 bytes",
    16: "record of a wrong length or form",
    17: "code line not of the form that encoding needs",
    18: "message length not N - M, or a symbol not below q",
    19: "margin buffer too short",
    20: "still running when the allowance was spent",
    21: "channel count not 1 to 8",
    22: "allowance 0",
    23: "second frame: wrong number of costs, or a column without a 0",
}


class Refusal(Exception):
    """A call refused its input, by the number of include/petsivola.h; nothing was written."""

    def __init__(self, number: int) -> None:
        super().__init__(number)
        self.number = number
        self.text = TEXTS.get(number, "unknown number")

    def __str__(self) -> str:
        return f"refused by {self.number}: {self.text}"


class Registers(ctypes.Structure):
    """struct petsivola_window"""

    _fields_ = [(name, ctypes.c_uint8) for name in ("state", "refusal", "iterations", "mask", "pending")]


class Served(ctypes.Structure):
    """struct petsivola_served"""

    _fields_ = [
        ("number", ctypes.c_uint8),
        ("spent", ctypes.c_uint16),
        ("status", ctypes.c_uint8 * 8),
        ("iterations", ctypes.c_uint8 * 8),
    ]


class CodeNumbers(ctypes.Structure):
    """struct petsivola_code"""

    _fields_ = [
        ("number", ctypes.c_uint8),
        ("first", ctypes.c_uint8),
        ("columns", ctypes.c_uint16),
        ("checks", ctypes.c_uint8),
        ("scale", ctypes.c_uint8),
        ("limit", ctypes.c_uint8),
        ("store", ctypes.c_uint32),
    ]


# The parameters of each call, a letter each: b a byte, n a 32-bit number, w the window's registers; and with a length
# r bytes that are read, o lent bytes, h lent 16-bit numbers.
_CALLS = {
    "product": "bbb",
    "check": "brro",
    "sweep": "brro",
    "expand": "brro",
    "display": "brro",
    "line": "ro",
    "encode": "rro",
    "combine": "rrro",
    "decode": "rrohoh",
    "decode_early": "rrohoh",
    "channels": "bnrrohoh",
    "window_write": "wbbrrohoh",
    "window_read": "wb",
    "window_interrupt": "w",
    "code_line": "r",
}
_PARAMETERS: dict[str, list[Any]] = {
    "b": [ctypes.c_uint8],
    "n": [ctypes.c_uint32],
    "w": [Registers],
    "r": [ctypes.c_char_p, ctypes.c_size_t],
    "o": [ctypes.POINTER(ctypes.c_uint8), ctypes.c_size_t],
    "h": [ctypes.POINTER(ctypes.c_uint16), ctypes.c_size_t],
}
# Every other call answers one 32-bit number.
_ANSWERS: dict[str, Any] = {
    "channels": Served,
    "window_write": Registers,
    "window_read": ctypes.c_uint8,
    "window_interrupt": ctypes.c_uint8,
    "code_line": CodeNumbers,
}


def _opened() -> ctypes.CDLL:
    """The file that PETSIVOLA_LIBRARY names, else the one beside the module, else the system's."""
    beside = pathlib.Path(__file__).resolve().parent.parent / "libpetsivola.so"
    named = os.environ.get("PETSIVOLA_LIBRARY") or (str(beside) if beside.exists() else None)
    try:
        return ctypes.CDLL(named or "libpetsivola.so")
    except OSError as error:
        # The name without a version is there only where the files for compiling are installed.
        installed = None if named else ctypes.util.find_library("petsivola")
        if installed is None:
            raise OSError(f"no shared library: {error}; PETSIVOLA_LIBRARY can name the file") from error
        return ctypes.CDLL(installed)


@functools.lru_cache(maxsize=None)
def library() -> ctypes.CDLL:
    """The shared library with the types of its calls; loaded once, at the first call."""
    found = _opened()
    for name, kinds in _CALLS.items():
        if name != "code_line" or hasattr(found, "petsivola_code_line"):
            function = getattr(found, "petsivola_" + name)
            function.restype = _ANSWERS.get(name, ctypes.c_uint32)
            function.argtypes = [parameter for kind in kinds for parameter in _PARAMETERS[kind]]
    return found


def flat(values: Any) -> Iterator[Any]:
    """The numbers of nested sequences, or of an array of any shape, row by row."""
    for value in values.tolist() if hasattr(values, "tolist") else values:
        if hasattr(value, "__len__") and not isinstance(value, str):
            yield from flat(value)
        else:
            yield value


def octets(values: Octets) -> bytes:
    """Whole numbers 0 to 255 as bytes; another number is a ValueError, and one with a point a TypeError."""
    try:
        view = memoryview(values)
    except TypeError:
        # A CodeLine says itself what its bytes are.
        return bytes(values) if hasattr(values, "__bytes__") else bytes(flat(values))
    return view.tobytes() if view.format == "B" else bytes(flat(values))


def _lent(element: Any, letter: str, buffer: Any) -> list[Any]:
    """A buffer to be written, as pointer and length in elements."""
    view = memoryview(buffer)
    if view.format != letter:
        raise TypeError(f"a buffer of format {view.format!r} is lent, not {letter!r}")
    length = view.nbytes // view.itemsize
    return [(element * length).from_buffer(buffer), length]


def call(name: str, *arguments: Any) -> Any:
    """Calls petsivola_<name>, each argument as its letter says."""
    given: list[Any] = []
    for kind, argument in zip(_CALLS[name], arguments):
        if kind == "r":
            read = octets(argument)
            given += [read, len(read)]
        elif kind == "o":
            given += _lent(ctypes.c_uint8, "B", argument)
        elif kind == "h":
            given += _lent(ctypes.c_uint16, "H", argument)
        else:
            # ctypes would cut a greater number to a byte in silence.
            given.append(bytes([argument])[0] if kind == "b" else argument)
    return getattr(library(), "petsivola_" + name)(*given)


def accepted(result: int) -> int:
    """The value of an answer that is no refusal."""
    number, value = divmod(result, 1 << 16)
    if number:
        raise Refusal(number)
    return value


def filled(most: int, name: str, *arguments: Any) -> bytes:
    """The bytes that a call writes into its one buffer; most is enough for every accepted input."""
    out = bytearray(most)
    return bytes(out[:accepted(call(name, *arguments, out))])
