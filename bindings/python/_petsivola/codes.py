"""Code lines: their numbers, the lengths that follow from them, and a builder."""
from __future__ import annotations

import enum
import itertools
import struct
from dataclasses import dataclass
from typing import Iterator, Sequence, Union

from _petsivola.library import CodeNumbers, Octets, Refusal, call, octets


class Edition(str, enum.Enum):
    """How the costs of a choice are joined: added, or the greatest of them."""

    SUM = "sum"
    MIN_MAX = "min-max"


@dataclass(frozen=True)
class Code:
    """The numbers of a code line; store is the length of the records of all its checks."""

    first: int
    columns: int
    checks: int
    scale: int
    limit: int
    store: int


def first_byte(p: int, k: int = 2, edition: Union[Edition, str] = Edition.SUM) -> int:
    """The first byte of a code line, which check, sweep, expand and display take too."""
    if not 0 <= p < 16 or k not in (2, 3):
        raise ValueError(f"p = {p}, k = {k}: p is one hexadecimal digit, and k is 2 or 3")
    return (k - 2) << 5 | (Edition(edition) is Edition.MIN_MAX) << 4 | p


def record_lengths(code: bytes) -> Iterator[int]:
    """The length of each check's record under an accepted code line."""
    of_symbols = (5 + 2 * (code[0] >> 5)) * ((1 << (code[0] & 15)) - 1)
    at = 6
    for _ in range(code[3]):
        yield code[at] + of_symbols
        at += 1 + 3 * code[at]


def code_line(code: Octets) -> Code:
    """The numbers of a code line, which is read to its end. Refusals: 5 to 11."""
    read: CodeNumbers = call("code_line", octets(code))
    if read.number:
        raise Refusal(read.number)
    return Code(read.first, read.columns, read.checks, read.scale, read.limit, read.store)


def records(code: Octets, store: Octets) -> list[bytes]:
    """The records that a store holds, one for each check that was updated. Refusals: 5 to 11."""
    code_line(code)
    kept, ends = octets(store), [0, *itertools.accumulate(record_lengths(octets(code)))]
    return [kept[start:end] for start, end in zip(ends, ends[1:]) if end <= len(kept)]


@dataclass(frozen=True)
class CodeLine:
    """A code line from its parts: the checks are lists of edges (column, weight), in any order. The library reads it
    when it is made, so a CodeLine is always accepted. bytes() of it is the line, and every call takes it as it is."""

    p: int
    columns: int
    checks: Sequence[Sequence[tuple[int, int]]]
    g: int
    limit: int
    k: int = 2
    edition: Union[Edition, str] = Edition.SUM

    def __post_init__(self) -> None:
        checks = tuple(tuple(sorted((column, weight) for column, weight in edges)) for edges in self.checks)
        object.__setattr__(self, "checks", checks)
        object.__setattr__(self, "edition", Edition(self.edition))
        # Packed once, because every decoding takes it.
        object.__setattr__(self, "_packed", self._pack())
        code_line(self)

    def _pack(self) -> bytes:
        first = first_byte(self.p, self.k, self.edition)
        try:
            packed = struct.pack(">BHBBB", first, self.columns, len(self.checks), self.g, self.limit)
            for edges in self.checks:
                packed += struct.pack("B", len(edges)) + b"".join(struct.pack(">HB", *edge) for edge in edges)
        except struct.error as error:
            raise ValueError(f"a number that has no room in a code line: {error}") from error
        return packed

    def __bytes__(self) -> bytes:
        return self._packed  # type: ignore[attr-defined, no-any-return]

    @classmethod
    def read(cls, code: Octets) -> CodeLine:
        """The parts of a code line. Refusals: 5 to 11."""
        numbers, line, checks, at = code_line(code), octets(code), [], 6
        for _ in range(numbers.checks):
            end = at + 1 + 3 * line[at]
            checks.append(list(struct.iter_unpack(">HB", line[at + 1:end])))
            at = end
        p, k = numbers.first & 15, 2 + (numbers.first >> 5)
        edition = Edition.MIN_MAX if numbers.first >> 4 & 1 else Edition.SUM
        return cls(p, numbers.columns, checks, numbers.scale, numbers.limit, k, edition)

    @property
    def q(self) -> int:
        return 1 << self.p

    @property
    def encodable(self) -> bool:
        """Whether it has the form for encoding: if so encode refuses an empty message by 18, and else by 17."""
        return call("encode", self, b"", bytearray()) >> 16 == 18
