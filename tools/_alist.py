"""Parity-check matrices over GF(q) in alist form, and their values as weights of a code line.

    N M q                              columns, checks, field size
    greatest column weight, greatest check degree
    the N column weights
    the M check degrees
    N lines, one for each column:      pairs of check (from 1) and value, filled up with pairs 0 0
    M lines, one for each check:       pairs of column (from 1) and value, filled up with pairs 0 0
"""
from __future__ import annotations

import argparse
from dataclasses import dataclass
from typing import Sequence

from _common import POLYNOMIALS, InputError, powers

Entries = list[list[tuple[int, int]]]

VALUES_HELP = """values of the matrix:
  elements    field elements 1 to q - 1, as polynomials over GF(2) with the lowest bit constant
  exponents   e = 0 to q - 2 stands for the power e of the primitive element, which is 2 (the polynomial x)

The field polynomial. Here it is, in hexadecimal, 7, B, 13, 25, 43 for q = 4, 8, 16, 32, 64. In a system with
another polynomial the same numbers, elements or exponents, mean other weights, and so do the symbols of its words:
the line that comes out would be another code, and no test shows it. Find out which polynomial the other system
has, and name it by --polynomial; if it is not the one above, the tool says so and stops."""
LIMITS_HELP = """limits of a code line: q = 4, 8, 16, 32 or 64; N up to 256; M up to 128; checks of degree 2 to 32;
at most 1,024 edges. A matrix beyond them is refused, not cut."""


@dataclass(frozen=True)
class Matrix:
    """For each check its entries (column, value), columns from 0."""

    q: int
    columns: int
    checks: Entries


def add_arguments(parser: argparse.ArgumentParser) -> None:
    """The arguments about values, for both directions."""
    parser.add_argument("--values", choices=("elements", "exponents"), default="elements",
                        help="what the values of the alist are (default: elements)")
    parser.add_argument("--polynomial", metavar="HEX", type=hexadecimal,
                        help="the other system's field polynomial; an error if it is not ours")


def hexadecimal(digits: str) -> int:
    return int(digits, 16)


def require_polynomial(q: int, polynomial: int | None) -> None:
    """Stops where the other system's field is known to be written in another way."""
    ours = POLYNOMIALS.get(q.bit_length() - 1)
    if polynomial is not None and polynomial != ours:
        raise InputError(f"the other system's polynomial is {polynomial:X}, ours for q = {q} is {ours or 0:X}: "
                         "the same numbers mean other elements")


def field_exponent(q: int) -> int:
    """p with q = 2^p."""
    p = q.bit_length() - 1
    if q < 1 or 1 << p != q:
        raise InputError(f"q = {q} is no power of 2")
    return p


def weight(p: int, value: int, values: str) -> int:
    """The weight that a value stands for."""
    first, last = (0, (1 << p) - 2) if values == "exponents" else (1, (1 << p) - 1)
    if not first <= value <= last:
        raise InputError(f"value {value} is not {first} to {last}, which {values} of GF({1 << p}) are")
    return powers(p)[value] if values == "exponents" else value


def _numbers(line: str, number: int) -> list[int]:
    for word in line.split():
        if not word.isdecimal():
            raise InputError(f"line {number}: {word!r} is no whole number from 0 on")
    return [int(word) for word in line.split()]


def _counted(line: str, number: int, count: int, what: str) -> list[int]:
    found = _numbers(line, number)
    if len(found) != count:
        raise InputError(f"line {number}: {len(found)} numbers, not {count} ({what})")
    return found


def _pairs(line: str, number: int, weight: int, below: int) -> list[tuple[int, int]]:
    """The entries of a column or a check: indices from 1 in the file, from 0 here."""
    numbers = _numbers(line, number)
    if len(numbers) % 2:
        raise InputError(f"line {number}: {len(numbers)} numbers are no pairs of index and value")
    pairs = list(zip(numbers[::2], numbers[1::2]))
    entries, filling = pairs[:weight], pairs[weight:]
    if len(entries) < weight or any(not 1 <= index <= below for index, _ in entries):
        raise InputError(f"line {number}: not {weight} entries with an index of 1 to {below}")
    if any(pair != (0, 0) for pair in filling):
        raise InputError(f"line {number}: more than the {weight} entries that its weight says")
    if len({index for index, _ in entries}) < weight:
        raise InputError(f"line {number}: an index twice")
    return [(index - 1, value) for index, value in entries]


def parse(lines: Sequence[str]) -> Matrix:
    """Reads an alist. Everything that it says twice has to agree."""
    columns, checks, q = _counted(lines[0] if lines else "", 1, 3, "N M q; a binary alist has no q")
    wanted = 4 + columns + checks
    while lines and not lines[-1].strip():
        lines = lines[:-1]
    # A blank line is a column in no check where the count shows it, and else no part of the form.
    used = [(number, line) for number, line in enumerate(lines, 1) if line.strip() or len(lines) == wanted]
    if len(used) != wanted:
        raise InputError(f"{len(used)} lines, not 4 + N + M = {wanted}")
    (number, line), (_, weight_line), (_, degree_line) = used[1:4]
    most = _counted(line, number, 2, "the greatest column weight and check degree")
    weights = _counted(weight_line, used[2][0], columns, "N column weights")
    degrees = _counted(degree_line, used[3][0], checks, "M check degrees")
    if max(weights, default=0) > most[0] or max(degrees, default=0) > most[1]:
        raise InputError(f"line {number}: a column weight or a check degree is greater than the greatest")
    by_column = [_pairs(line, number, weight, checks) for (number, line), weight in zip(used[4:], weights)]
    by_check = [_pairs(line, number, degree, columns) for (number, line), degree in zip(used[4 + columns:], degrees)]
    _compare(by_column, by_check)
    return Matrix(q, columns, by_check)


def _compare(by_column: Entries, by_check: Entries) -> None:
    """The two lists of entries have to be one matrix."""
    ours = {(check, column, value) for check, entries in enumerate(by_check) for column, value in entries}
    theirs = {(check, column, value) for column, entries in enumerate(by_column) for check, value in entries}
    for entry in sorted(ours ^ theirs):
        check, column, value = entry
        place = "check" if entry in ours else "column"
        found = f"check {check + 1}, column {column + 1}, value {value}"
        raise InputError(f"{found} stands in the list of its {place} alone")


def text(matrix: Matrix) -> str:
    """An alist with all its lines filled up, which every reader takes."""
    by_column: Entries = [[] for _ in range(matrix.columns)]
    for check, entries in enumerate(matrix.checks):
        for column, value in entries:
            by_column[column].append((check, value))
    lines = [f"{matrix.columns} {len(matrix.checks)} {matrix.q}"]
    sides = (by_column, matrix.checks)
    lines.append(" ".join(str(max(map(len, side))) for side in sides))
    lines += [" ".join(str(len(entries)) for entries in side) for side in sides]
    for side in sides:
        most = max(map(len, side))
        for entries in side:
            filled = [f"{index + 1} {value}" for index, value in entries] + ["0 0"] * (most - len(entries))
            lines.append(" ".join(filled))
    return "\n".join(lines) + "\n"
