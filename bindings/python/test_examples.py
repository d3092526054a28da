"""The programs and frames of examples/ through the binding: what it prints is what stands in the .out files, and what
the program decode prints."""
import concurrent.futures
import subprocess
import unittest
from typing import Sequence

import temporary_library

temporary_library.provide()

import petsivola  # noqa: E402: the library has to be there first
from petsivola import State, Window  # noqa: E402

EXAMPLES = temporary_library.ROOT / "examples"
PROGRAM = temporary_library.ROOT / "target" / "bin" / "decode"

# The code and the frames of window.c, channels.c, combine.c and early.c.
CODE = petsivola.CodeLine(p=2, columns=6, g=12, limit=8, checks=[
    [(0, 1), (1, 2), (3, 1)],
    [(1, 1), (2, 3), (4, 1)],
    [(0, 2), (2, 1), (5, 1)],
    [(3, 1), (4, 2), (5, 3)],
])
REST = [7, 0, 13, 10, 11, 10, 0, 8, 8, 7, 10, 0]
CLEAN = [9, 11, 0, 12, 14, 8, 0, 10, 0, 9, 13, 12] + REST
ONE_WRONG = [0, 11, 2, 12, 14, 8, 0, 10, 0, 9, 13, 12] + REST
THREE_WRONG = [0, 9, 3, 11, 4, 15, 2, 0, 4, 8, 0, 13, 6] + REST[1:]
NO_ZERO = [9, 11, 1, 12] + CLEAN[4:]


def expected(name: str) -> list[str]:
    return (EXAMPLES / name).read_text().splitlines()


def digits(data: Sequence[int]) -> str:
    return bytes(data).hex().upper()


class CPrograms(unittest.TestCase):
    def test_decode(self) -> None:
        code, frame = map(petsivola.line, expected("first.hex"))
        self.assertEqual(printed(code, frame), "0001010100")

    def test_encode(self) -> None:
        code = petsivola.CodeLine(p=4, columns=12, g=14, limit=20, checks=[
            [(0, 1), (1, 7), (6, 3)],
            [(2, 5), (3, 2), (6, 9), (7, 12)],
            [(4, 11), (5, 6), (7, 1), (8, 14)],
            [(0, 8), (3, 13), (8, 4), (9, 1)],
            [(1, 10), (4, 3), (9, 15), (10, 7)],
            [(2, 2), (5, 9), (10, 5), (11, 8)],
        ])
        lines = dict(line.split(maxsplit=1) for line in expected("encode.out"))
        self.assertTrue(code.encodable)
        self.assertEqual(digits(petsivola.encode(code, petsivola.line(lines["message"]))), lines["sent"])

    def test_window(self) -> None:
        window, lines = Window(CODE, THREE_WRONG), []

        def command(name: str, value: int) -> None:
            window.write(Window.COMMAND, value)
            state, refusal, t, mask, pending = window.registers
            lines.append(f"{name:<9} state {state}, refusal {refusal}, t {t}, mask {mask}, pending {pending}, "
                         f"symbols {digits(window.symbols)}")

        window.write(Window.MASK, Window.RESULT_BIT | Window.REFUSAL_BIT)
        for frame in (THREE_WRONG, [1] + THREE_WRONG[1:]):
            window.frame = bytes(frame)
            command("load", Window.LOAD)
            while not window.interrupt:
                command("iterate", Window.ITERATE)
            found = window.state is State.FOUND
            lines.append(f"interrupt found, t = {window.iterations}" if found else
                         f"interrupt refused by {window.read(Window.REFUSAL)}")
            command("clear", Window.CLEAR)
        self.assertEqual(lines, expected("window.out"))

    def test_channels(self) -> None:
        names, lines = {0: "found", 1: "not found", 13: "refused", 20: "spent"}, []
        for allowance in (3, 32):
            served = petsivola.channels(CODE, [CLEAN, THREE_WRONG, NO_ZERO, ONE_WRONG], allowance)
            lines.append(f"allowance {allowance}: spent {served.spent}")
            for number, channel in enumerate(served.channels):
                lines.append(f"channel {number}: status {channel.status:2}, {names[channel.status]:<7} iterations "
                             f"{channel.iterations}, symbols {digits(channel.symbols or bytes(6))}")
        self.assertEqual(lines, expected("channels.out"))

    def test_combine(self) -> None:
        first = [9, 11, 5, 0, 12, 0, 4, 8, 5, 0, 11, 9, 12, 0, 8, 7, 13, 4, 0, 9, 11, 7, 11, 0]
        second = [0, 11, 4, 5, 14, 0, 1, 9, 0, 15, 7, 15, 12, 0, 4, 5, 8, 13, 0, 7, 4, 0, 5, 5]
        combined = petsivola.combine(CODE, first, second)
        wanted = expected("combine.out")
        for frame, line in zip((first, second, combined), (wanted[1], wanted[2], wanted[4])):
            decoded = petsivola.decode(CODE, frame)
            told = f"number {not decoded.found:d}, iterations {decoded.iterations}, symbols {digits(decoded.symbols)}"
            self.assertEqual(told, line.split(maxsplit=1)[1])
        with self.assertRaises(petsivola.Refusal) as refused:
            petsivola.combine(CODE, first, second[:-1])
        self.assertEqual(f"combine  number {refused.exception.number}, costs 0", wanted[5])

    def test_display(self) -> None:
        lines = []
        for costs in ([5, 0, 9, 7, 8, 0, 4, 3, 6, 2, 0, 10], [1, 0, 2, 2, 1, 0, 1, 3, 3, 1, 0, 1]):
            record = petsivola.check(2, [1, 2, 3], costs)
            views = record, petsivola.display(2, [1, 2, 3], record), petsivola.expand(2, [1, 2, 3], record)
            lines += [f"{name:<7} number 0, bytes {view.hex(' ').upper()}"
                      for name, view in zip(("record", "display", "bench"), views)]
        self.assertEqual(lines, expected("display.out")[:6])

    def test_early(self) -> None:
        lines = []
        for frame in (THREE_WRONG, ONE_WRONG):
            whole, early = petsivola.decode(CODE, frame), petsivola.decode_early(CODE, frame)
            told = ("decode", 4 * whole.iterations, whole), ("decode_early", early.updates, early)
            for name, updates, result in told:
                count = len(petsivola.records(CODE, result.store))
                lines.append(f"{name:<12} number {not result.found:2d}, updates {updates:2}, records {count}, "
                             f"symbols {digits(result.symbols)}")
        self.assertEqual(lines, expected("early.out")[:4])


def printed(code: petsivola.Octets, frame: petsivola.Octets) -> str:
    """The line that the program prints for a frame."""
    decoded = petsivola.decode(code, frame)
    return digits([not decoded.found, decoded.iterations]) + digits(decoded.symbols)


class NoisyFrames(unittest.TestCase):
    """The (248,137) code over GF(32)."""

    code: bytes
    frames: list[bytes]

    @classmethod
    def setUpClass(cls) -> None:
        cls.code, *cls.frames = map(petsivola.line, expected("gf32-248-137.hex"))

    def test_as_the_program(self) -> None:
        with open(EXAMPLES / "gf32-248-137.hex", "rb") as frames:
            output = subprocess.run([PROGRAM], stdin=frames, stdout=subprocess.PIPE, check=False).stdout
        lines = [printed(self.code, frame) for frame in self.frames]
        self.assertEqual(lines, output.decode().splitlines())
        self.assertEqual(lines, expected("gf32-248-137.out"))

    def test_window_and_channels(self) -> None:
        served = petsivola.channels(self.code, self.frames[:8])
        for frame, channel in zip(self.frames, served.channels):
            decoded, window = petsivola.decode(self.code, frame), Window(self.code, frame)
            window.load()
            while window.state is State.RUNNING:
                window.iterate()
            for other in (window, channel):
                self.assertEqual(other.iterations, decoded.iterations)
                for name in ("symbols", "margins", "costs", "store"):
                    self.assertEqual(getattr(other, name), getattr(decoded, name))

    def test_early(self) -> None:
        for frame, sent in zip(self.frames, expected("gf32-248-137.sent")):
            whole, early = petsivola.decode(self.code, frame), petsivola.decode_early(self.code, frame)
            self.assertLessEqual(early.updates, 124 * whole.iterations)
            self.assertEqual(digits(early.symbols) == sent, whole.found)

    def test_threads(self) -> None:
        with concurrent.futures.ThreadPoolExecutor(4) as pool:
            lines = list(pool.map(lambda frame: printed(self.code, frame), self.frames))
        self.assertEqual(lines, expected("gf32-248-137.out"))

    def test_clean(self) -> None:
        """A word received without noise is found at once, and its numbers are those of the code line."""
        word = petsivola.line(expected("gf32-248-137.sent")[0])
        decoded = petsivola.decode(self.code, [[0 if x == symbol else 9 for x in range(32)] for symbol in word])
        self.assertEqual((decoded.found, decoded.iterations, decoded.symbols), (True, 0, word))
        self.assertEqual(petsivola.code_line(self.code), petsivola.Code(5, 248, 124, 8, 15, 992 + 124 * 5 * 31))


if __name__ == "__main__":
    unittest.main()
