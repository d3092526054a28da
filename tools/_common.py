"""What the tools share: the binding, exit statuses, files of lines, and arithmetic over the field."""
from __future__ import annotations

import argparse
import functools
import pathlib
import signal
import sys
from typing import Callable

_BINDING = pathlib.Path(__file__).resolve().parent.parent / "bindings" / "python"
if _BINDING.is_dir():
    sys.path.insert(0, str(_BINDING))

import petsivola  # noqa: E402: from beside the tools where it stands there, else as installed

STATUSES = "Exit status: 0; 1 if something is refused by the library's numbers; 2 for bad input or bad arguments."
# Of p = 2 to 6, the lowest bit constant.
POLYNOMIALS = {2: 0x07, 3: 0x0B, 4: 0x13, 5: 0x25, 6: 0x43}


class InputError(Exception):
    """Input that a tool cannot read; the message says what and where."""


def parser(description: str, *paragraphs: str) -> argparse.ArgumentParser:
    """A parser whose help keeps the lines of its paragraphs."""
    epilog = "\n\n".join([*paragraphs, STATUSES])
    return argparse.ArgumentParser(description=description, epilog=epilog,
                                   formatter_class=argparse.RawDescriptionHelpFormatter)


def run(main: Callable[[], int]) -> None:
    """Ends the program with the status of main, or that of what it raises, and a message on standard error."""
    # A reader that has seen enough, as head, ends a filter without a word.
    signal.signal(signal.SIGPIPE, signal.SIG_DFL)
    name = pathlib.Path(sys.argv[0]).name
    try:
        sys.exit(main())
    except petsivola.Refusal as refusal:
        print(f"{name}: {refusal}", file=sys.stderr)
        sys.exit(1)
    except (InputError, OSError) as error:
        print(f"{name}: {error}", file=sys.stderr)
        sys.exit(2)


def read_lines(path: str) -> list[str]:
    """The lines of a file, or of standard input for "-". They are cut at 0A and only there, as the program does."""
    data = sys.stdin.buffer.read() if path == "-" else pathlib.Path(path).read_bytes()
    try:
        lines = data.decode("ascii").split("\n")
    except UnicodeDecodeError as error:
        raise InputError(f"{path}: byte {error.start} is not ASCII text") from error
    return lines if lines[-1] else lines[:-1]


def read_code(path: str) -> petsivola.CodeLine:
    """The code line that is the first line of a file, as in the program's input."""
    return petsivola.CodeLine.read(petsivola.line("".join(read_lines(path)[:1])))


def digits(data: bytes) -> str:
    """Bytes as the program reads and prints them."""
    return data.hex().upper()


@functools.lru_cache(maxsize=None)
def powers(p: int) -> list[int]:
    """The powers 0 to q - 2 of the primitive element, which is 2. Refusal: 6."""
    found = [1]
    while len(found) < (1 << p) - 1:
        found.append(petsivola.product(p, found[-1], 2))
    return found


def rank(code: petsivola.CodeLine) -> int:
    """The rank of the parity-check matrix, by elimination: the code has q^(N - rank) words."""
    elements = range(code.q)
    # Tables for bytes.translate, which multiplies a whole row at once.
    times = [bytes(petsivola.product(code.p, a, b) for b in elements).ljust(256, b"\0") for a in elements]
    rows = []
    for edges in code.checks:
        weights = dict(edges)
        rows.append(bytes(weights.get(column, 0) for column in range(code.columns)))
    found = 0
    for column in range(code.columns):
        pivot = next((row for row in rows if row[column]), None)
        if pivot is None:
            continue
        rows.remove(pivot)
        found += 1
        unit = pivot.translate(times[times[pivot[column]].index(1)])
        rows = [_sum(row, unit.translate(times[row[column]])) if row[column] else row for row in rows]
    return found


def _sum(first: bytes, second: bytes) -> bytes:
    """Two rows added, symbol by symbol."""
    return (int.from_bytes(first, "big") ^ int.from_bytes(second, "big")).to_bytes(len(first), "big")
