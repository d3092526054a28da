"""Petsivola from Python: decoder and encoder for nonbinary LDPC frames, over the shared library.

    >>> import petsivola
    >>> code = petsivola.CodeLine(p=2, columns=3, checks=[[(0, 1), (1, 1), (2, 1)]], g=16, limit=1)
    >>> petsivola.decode(code, [5, 0, 9, 7, 0, 4, 8, 3, 0, 6, 2, 10]).symbols.hex()
    '010100'

The calls are those of include/petsivola.h without their prefix; what they mean is said there. Lengths are worked out
here, and a refusal is an exception with the header's number. Code lines, frames, symbols and records go in as bytes,
lists or arrays of whole numbers, nested or not, read row by row. Bytes come out as bytes and 16-bit numbers as
array("H"). numpy is not needed: its arrays are taken as they are, and arrays() of a result gives them back.

The library is libpetsivola.so: the file that PETSIVOLA_LIBRARY names, else the one beside this module, else the
system's. It is loaded at the first call. A call keeps nothing and lets other threads run meanwhile.
"""
from __future__ import annotations

import enum
import itertools
import struct
from array import array
from dataclasses import dataclass, replace
from typing import Any, Optional, Sequence, Union

from _petsivola import library as _library
from _petsivola.codes import Code, CodeLine, Edition, code_line, first_byte, record_lengths, records
from _petsivola.costs import costs_from_likelihoods, costs_from_llr, costs_from_log_likelihoods
from _petsivola.library import TEXTS, Octets, Refusal, accepted as _accepted, call as _call, filled as _filled
from _petsivola.library import octets as _octets

__all__ = [
    "TEXTS", "Channel", "Code", "CodeLine", "Decoded", "DecodedEarly", "Edition", "Octets", "Refusal", "Result",
    "Served", "State", "Window", "channels", "check", "code_line", "combine", "costs_from_likelihoods",
    "costs_from_llr", "costs_from_log_likelihoods", "decode", "decode_early", "display", "encode", "expand",
    "first_byte", "line", "product", "records", "sweep",
]


def product(p: int, a: int, b: int) -> int:
    """The product of two elements of the field with 2^p elements. Refusals: 6, 11."""
    return _accepted(_call("product", p, a, b))


def check(first: int, weights: Octets, costs: Octets) -> bytes:
    """The packed record of one check's messages. Refusals: 6, 9, 11, 12, 13."""
    return _filled(473, "check", first, weights, costs)


def sweep(first: int, weights: Octets, costs: Octets) -> bytes:
    """The same record, by the engine that can be followed on paper. Refusals: 6, 9, 11, 12, 13."""
    return _filled(473, "sweep", first, weights, costs)


def expand(first: int, weights: Octets, record: Octets) -> bytes:
    """The sent costs that a record stands for, q for each column. Refusals: 6, 9, 11, 16."""
    return _filled(2048, "expand", first, weights, record)


def display(first: int, weights: Octets, record: Octets) -> bytes:
    """The symbol that each column of a record was urged towards. Refusals: 6, 9, 11, 16."""
    return _filled(32, "display", first, weights, record)


def line(text: Union[str, bytes]) -> bytes:
    """The bytes of a line of hexadecimal digits, 0-9 and A-F. Refusals: 15, 14."""
    digits = text.encode() if isinstance(text, str) else bytes(text)
    return _filled(len(digits) // 2, "line", digits)


def encode(code: Octets, message: Octets) -> bytes:
    """The N symbols of a message of N - M symbols. Refusals: 5 to 11, 17, 18."""
    return _filled(256, "encode", code, message)


def combine(code: Octets, first: Octets, second: Octets) -> bytes:
    """One frame of two that carry the same symbols. Refusals: 5 to 11, 12, 13, 23."""
    return _filled(16384, "combine", code, first, second)


@dataclass(frozen=True)
class Result:
    """What a decoding leaves: N symbols and margins, N q costs, and the records of the checks that were updated, end
    to end; records() takes them apart. A decoding without an update has none."""

    found: bool
    symbols: bytes
    margins: array[int]
    costs: array[int]
    store: bytes

    def arrays(self) -> Any:
        """The same with numpy's arrays over the same memory; the costs have a row for each column."""
        import numpy

        parts = (self.symbols, self.margins, self.costs, self.store)
        symbols, margins, costs, store = (numpy.asarray(memoryview(part)) for part in parts)
        if len(symbols):
            costs = costs.reshape(len(symbols), -1)
        return replace(self, symbols=symbols, margins=margins, costs=costs, store=store)


@dataclass(frozen=True)
class Decoded(Result):
    """What decode leaves, after so many iterations."""

    iterations: int


@dataclass(frozen=True)
class DecodedEarly(Result):
    """What decode_early leaves, after so many check updates."""

    updates: int


@dataclass(frozen=True)
class Channel(Result):
    """What one channel receives. The status is 0 found, 1 not found, 20 spent, or 13 with nothing else filled."""

    status: int
    iterations: int


@dataclass(frozen=True)
class Served:
    """What channels leaves; spent is the sum of the channels' iterations."""

    spent: int
    channels: list[Channel]


def _buffers(code: bytes, count: int = 1) -> tuple[bytearray, array[int], bytearray, array[int]]:
    """The symbol, cost, store and margin buffers of a decoding; empty ones for a code line that is refused anyway."""
    numbers = _call("code_line", code)
    columns = count * numbers.columns
    costs = array("H", bytes(2 * (columns << (numbers.first & 15))))
    return bytearray(columns), costs, bytearray(count * numbers.store), array("H", bytes(2 * columns))


def _decoded(name: str, code: bytes, frame: Octets) -> tuple[dict[str, Any], int]:
    """The fields of a result, and the iterations or updates."""
    symbols, costs, store, margins = lent = _buffers(code)
    number, value = divmod(_call(name, code, frame, *lent), 1 << 16)
    if number > 1:
        raise Refusal(number)
    updates = value if name == "decode_early" else value * code[3]
    used = sum(itertools.islice(record_lengths(code), updates))
    parts = {"symbols": bytes(symbols), "margins": margins, "costs": costs, "store": bytes(store[:used])}
    return {"found": number == 0, **parts}, value


def decode(code: Octets, frame: Octets) -> Decoded:
    """Decodes one frame. Refusals: 5 to 11, 12, 13."""
    parts, iterations = _decoded("decode", _octets(code), frame)
    return Decoded(**parts, iterations=iterations)


def decode_early(code: Octets, frame: Octets) -> DecodedEarly:
    """Decodes one frame and stops as soon as every check is satisfied. Refusals: 5 to 11, 12, 13."""
    parts, updates = _decoded("decode_early", _octets(code), frame)
    return DecodedEarly(**parts, updates=updates)


def channels(code: Octets, frames: Sequence[Octets], allowance: Optional[int] = None) -> Served:
    """Decodes up to eight frames with one allowance of iterations; if none is given it is enough for all of them.
    Refusals: 21, 22, 5 to 11, 12. A frame with a column without a cost of 0 is its channel's status, 13."""
    packed, each = _octets(code), [_octets(frame) for frame in frames]
    if len(set(map(len, each))) > 1:
        raise ValueError("the channels' frames differ in length")
    count = len(each)
    left = 8 * 255 if allowance is None else allowance
    if not 0 <= left < 1 << 32:
        raise ValueError(f"an allowance of {left} is no 32-bit number")
    lent = _buffers(packed, count)
    # The library takes the count as a byte; 255 is refused like every other count above 8.
    served = _call("channels", min(count, 255), left, packed, b"".join(each), *lent)
    if served.number:
        raise Refusal(served.number)
    return Served(served.spent, [_channel(served, number, count, lent) for number in range(count)])


def _channel(served: _library.Served, number: int, count: int, lent: Sequence[Any]) -> Channel:
    """One channel's parts of the buffers. A refused one has none, and one without an iteration no records."""
    status, iterations = served.status[number], served.iterations[number]
    lengths = [0 if status == 13 else len(part) // count for part in lent]
    symbols, costs, store, margins = (
        part[number * length:(number + 1) * length] for part, length in zip(lent, lengths))
    kept = bytes(store) if iterations else b""
    return Channel(status == 0, bytes(symbols), margins, costs, kept, status, iterations)


class State(enum.IntEnum):
    """The states of the register window."""

    IDLE, RUNNING, FOUND, NOT_FOUND, REFUSED = range(5)


class Window:
    """The register window with the buffers that are lent to it. They are attributes, and may be read, changed and
    replaced between writes: code, frame, symbols and store of bytes, costs and margins of 16-bit numbers.

    write() answers in the registers alone, as a board sees it; load() and iterate() raise a refusal besides."""

    COMMAND, STATE, REFUSAL, ITERATIONS, MASK, PENDING = range(6)
    LOAD, ITERATE, CLEAR = 1, 2, 3
    RESULT_BIT, REFUSAL_BIT = 1, 2

    def __init__(self, code: Octets, frame: Octets) -> None:
        self._registers = _library.Registers()
        self.lend(code, frame)

    def lend(self, code: Octets, frame: Octets) -> None:
        """Lends a code line and a frame, with new buffers, for the next load."""
        self.code, self.frame = _octets(code), _octets(frame)
        self.symbols, self.costs, self.store, self.margins = _buffers(self.code)

    def write(self, address: int, value: int) -> None:
        """Writes a command (address 0) or the mask (address 4)."""
        lent = (self.symbols, self.costs, self.store, self.margins)
        self._registers = _call("window_write", self._registers, address, value, self.code, self.frame, *lent)

    def read(self, address: int) -> int:
        """Reads one byte of the window."""
        return _call("window_read", self._registers, address)

    @property
    def registers(self) -> bytes:
        """Bytes 1 to 5, which are all that a window keeps beside its buffers."""
        return bytes(self._registers)

    @registers.setter
    def registers(self, registers: Octets) -> None:
        self._registers = _library.Registers(*struct.unpack("5B", _octets(registers)))

    @property
    def interrupt(self) -> bool:
        """Whether mask and pending share a bit."""
        return bool(_call("window_interrupt", self._registers))

    @property
    def state(self) -> State:
        return State(self.read(self.STATE))

    @property
    def iterations(self) -> int:
        return self.read(self.ITERATIONS)

    def load(self) -> State:
        """Starts on the lent code line and frame. Refusals: 5 to 11, 12, 13, 2, 3, 4, 19."""
        return self._command(self.LOAD)

    def iterate(self) -> State:
        """Runs one iteration if the window is running. Refusals: those of load, then 13 and 16."""
        return self._command(self.ITERATE)

    def clear(self) -> None:
        """Sets pending to 0."""
        self.write(self.COMMAND, self.CLEAR)

    def _command(self, command: int) -> State:
        self.write(self.COMMAND, command)
        if self.state is State.REFUSED:
            raise Refusal(self.read(self.REFUSAL))
        return self.state
