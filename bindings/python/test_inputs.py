"""What stands around the calls: kinds of buffers, numpy, code lines, costs, the search for the library."""
import dataclasses
import math
import os
import pathlib
import random
import shutil
import subprocess
import sys
import tempfile
import unittest
from array import array

import temporary_library

temporary_library.provide()

import petsivola  # noqa: E402: the library has to be there first
from petsivola import CodeLine, Edition  # noqa: E402

try:
    import numpy
except ImportError:
    numpy = None

CODE = CodeLine(p=2, columns=3, checks=[[(0, 1), (1, 1), (2, 1)]], g=16, limit=1)
FRAME = [5, 0, 9, 7, 0, 4, 8, 3, 0, 6, 2, 10]


def tearDownModule() -> None:
    print(f"numpy {numpy.__version__}: its paths ran" if numpy else "no numpy: its paths did not run", file=sys.stderr)


class Buffers(unittest.TestCase):
    def test_kinds(self) -> None:
        expected = petsivola.decode(CODE, bytes(FRAME))
        # Elements of eight bytes and every second byte are what numpy's arrays look like from here.
        spread = bytes(value for cost in FRAME for value in (cost, 99))
        for frame in (FRAME, tuple(FRAME), bytearray(FRAME), array("B", FRAME), array("q", FRAME),
                      memoryview(bytes(FRAME)).cast("B", (3, 4)), memoryview(spread)[::2],
                      [FRAME[:4], FRAME[4:8], FRAME[8:]], [array("H", FRAME[:4]), FRAME[4:]]):
            self.assertEqual(petsivola.decode(bytes(CODE), frame), expected)
        self.assertEqual(petsivola.channels(CODE, [FRAME, bytes(FRAME)]).channels[1].symbols, expected.symbols)

    def test_no_bytes(self) -> None:
        for error, frame in ((ValueError, [256] + FRAME[1:]), (ValueError, [-1] + FRAME[1:]), (TypeError, "0500"),
                             (TypeError, [5.0] + FRAME[1:]), (TypeError, array("d", FRAME)), (TypeError, 12)):
            with self.assertRaises(error):
                petsivola.decode(CODE, frame)

    def test_numbers_are_not_cut(self) -> None:
        """A byte of C would take 258 as 2."""
        for call in (lambda: petsivola.product(258, 1, 1), lambda: petsivola.check(0x102, [1, 1, 1], FRAME),
                     lambda: petsivola.channels(CODE, [FRAME], 1 << 32), lambda: petsivola.channels(CODE, [FRAME], -1),
                     lambda: petsivola.channels(CODE, [FRAME[:8], FRAME + FRAME[:4]]),
                     lambda: petsivola.Window(CODE, FRAME).write(256, 1)):
            with self.assertRaises(ValueError):
                call()

    def test_lent_buffers(self) -> None:
        window = petsivola.Window(CODE, FRAME)
        for wrong in (array("B", bytes(24)), array("I", [0] * 12), bytes(24)):
            window.costs = wrong
            with self.assertRaises(TypeError):
                window.load()

    @unittest.skipUnless(numpy, "numpy is not installed")
    def test_numpy(self) -> None:
        expected = petsivola.decode(CODE, FRAME)
        for kind in (numpy.uint8, numpy.int64):
            self.assertEqual(petsivola.decode(CODE, numpy.array(FRAME, kind).reshape(3, 4)), expected)
        self.assertEqual(petsivola.decode(CODE, numpy.array(FRAME, numpy.uint8).reshape(3, 4).T.copy().T), expected)
        arrays = expected.arrays()
        self.assertEqual((arrays.costs.shape, arrays.costs.dtype, arrays.symbols.dtype),
                         ((3, 4), numpy.dtype("uint16"), numpy.dtype("uint8")))
        self.assertEqual(arrays.costs.ravel().tolist(), expected.costs.tolist())
        self.assertEqual(arrays.margins.tolist(), expected.margins.tolist())
        self.assertEqual((bytes(arrays.symbols), bytes(arrays.store)), (expected.symbols, expected.store))
        refused = petsivola.channels(CODE, numpy.ones((1, 12), numpy.uint8)).channels[0].arrays()
        self.assertEqual(refused.costs.size, 0)
        ratios = numpy.linspace(-3, 3, 12).reshape(6, 2)
        self.assertEqual(petsivola.costs_from_llr(2, ratios), petsivola.costs_from_llr(2, ratios.tolist()))


class CodeLines(unittest.TestCase):
    def test_round_trip(self) -> None:
        generator = random.Random(1)
        for _ in range(50):
            p, columns = generator.randint(2, 6), generator.randint(32, 256)
            checks = [[(column, generator.randrange(1, 1 << p))
                       for column in generator.sample(range(columns), generator.randint(2, 32))]
                      for _ in range(generator.randint(1, 32))]
            code = CodeLine(p, columns, checks, generator.randint(1, 16), generator.randint(1, 255),
                            generator.choice((2, 3)), generator.choice(list(Edition)))
            self.assertEqual(CodeLine.read(bytes(code)), code)
            self.assertEqual(code.checks, tuple(tuple(sorted(edges)) for edges in checks))
            numbers = petsivola.code_line(code)
            edges = sum(map(len, checks))
            self.assertEqual(numbers.store, edges + len(checks) * (1 + 2 * code.k) * (code.q - 1))
            self.assertEqual(len(bytes(code)), 6 + len(checks) + 3 * edges)
            self.assertEqual(numbers.first, petsivola.first_byte(p, code.k, code.edition))

    def test_first_byte(self) -> None:
        cases = [(5, 2, "sum", 0x05), (5, 2, "min-max", 0x15), (5, 3, "sum", 0x25), (5, 3, Edition.MIN_MAX, 0x35)]
        for p, k, edition, expected in cases:
            self.assertEqual(petsivola.first_byte(p, k, edition), expected)
        for wrong in ((16, 2, "sum"), (2, 4, "sum"), (2, 2, "greatest")):
            self.assertRaises(ValueError, petsivola.first_byte, *wrong)

    def test_refused_when_made(self) -> None:
        edges = [(0, 1), (1, 1)]
        for number, line in ((6, (7, 3, [edges], 16, 1)), (7, (2, 300, [edges], 16, 1)), (7, (2, 3, [], 16, 1)),
                             (8, (2, 3, [edges], 17, 1)), (9, (2, 3, [edges[:1]], 16, 1)),
                             (10, (2, 1, [edges], 16, 1)), (10, (2, 3, [edges + edges], 16, 1)),
                             (11, (2, 3, [[(0, 1), (1, 4)]], 16, 1))):
            with self.assertRaises(petsivola.Refusal) as refused:
                CodeLine(*line)
            self.assertEqual(refused.exception.number, number)
        for line in ((2, 70000, [edges], 16, 1), (2, 3, [edges] * 256, 16, 1), (2, 3, [[(0, -1), (1, 1)]], 16, 1)):
            self.assertRaises(ValueError, CodeLine, *line)

    def test_form_for_encoding(self) -> None:
        code = CodeLine(2, 5, [[(0, 1), (1, 2), (3, 3)], [(1, 1), (2, 1), (3, 1), (4, 2)]], 16, 1)
        self.assertTrue(code.encodable)
        self.assertFalse(dataclasses.replace(code, columns=6).encodable)
        self.assertTrue(CODE.encodable)


class Costs(unittest.TestCase):
    def test_llr(self) -> None:
        """Bit 0 is likelier 0 by 1 nat, bit 1 likelier 1 by 0.25: symbol 2 costs nothing."""
        self.assertEqual(list(petsivola.costs_from_llr(2, [1.0, -0.25])), [2, 10, 0, 8])
        self.assertEqual(list(petsivola.costs_from_llr(2, [1.0, -0.25], 4)), [1, 5, 0, 4])
        self.assertEqual(list(petsivola.costs_from_llr(2, [[0, 0], [math.inf, -100]])), [0] * 4 + [255, 255, 0, 255])

    def test_rounding(self) -> None:
        """To the nearest, halves up, and 255 at the most."""
        for distance, cost in ((0.5, 1), (0.49999999999999994, 0), (1.5, 2), (2.5, 3), (254.4, 254), (254.5, 255),
                               (255.5, 255), (1e308, 255), (math.inf, 255)):
            self.assertEqual(petsivola.costs_from_log_likelihoods(2, [0, -distance, 0, 0], 1)[1], cost)

    def test_same_by_each_way(self) -> None:
        generator = random.Random(2)
        ratios = [generator.gauss(0, 4) for _ in range(60)]
        logarithms = [-sum(abs(r) for bit, r in enumerate(ratios[at:at + 3]) if (x >> bit & 1) == (r > 0))
                      for at in range(0, 60, 3) for x in range(8)]
        frame = petsivola.costs_from_llr(3, ratios)
        self.assertEqual(len(frame), 160)
        for column in range(20):
            self.assertIn(0, frame[8 * column:8 * column + 8])
        # Sums in another order may round to the neighbour.
        for other in (petsivola.costs_from_log_likelihoods(3, [5 + value for value in logarithms]),
                      petsivola.costs_from_likelihoods(3, [3 * math.exp(value) for value in logarithms])):
            self.assertTrue(all(abs(a - b) <= 1 for a, b in zip(frame, other)))

    def test_likelihoods(self) -> None:
        self.assertEqual(list(petsivola.costs_from_likelihoods(2, [0.5, 0.25, 0.0, 0.25])), [0, 6, 255, 6])

    def test_errors(self) -> None:
        low, nan = -math.inf, math.nan
        for call, p, values in (
            (petsivola.costs_from_llr, 2, [0.0, nan]), (petsivola.costs_from_llr, 2, [0.0] * 3),
            (petsivola.costs_from_llr, 0, []), (petsivola.costs_from_log_likelihoods, 2, [low] * 4),
            (petsivola.costs_from_log_likelihoods, 2, [0, 0, 0, nan]),
            (petsivola.costs_from_log_likelihoods, 2, [0, 0, 0, math.inf]),
            (petsivola.costs_from_log_likelihoods, 2, [0] * 5), (petsivola.costs_from_likelihoods, 2, [0.0] * 4),
            (petsivola.costs_from_likelihoods, 2, [1, 1, 1, -1]),
            (petsivola.costs_from_likelihoods, 2, [1, 1, 1, nan]),
        ):
            self.assertRaises(ValueError, call, p, values)
        for costs_per_nat in (0, -1, math.inf, nan):
            self.assertRaises(ValueError, petsivola.costs_from_llr, 2, [1, 1], costs_per_nat)


class Search(unittest.TestCase):
    """Where the library is looked for, each time in an interpreter of its own."""

    def run_product(self, folder: str, **environment: str) -> "subprocess.CompletedProcess[str]":
        others = ("PETSIVOLA_LIBRARY", "LD_LIBRARY_PATH")
        kept = {name: value for name, value in os.environ.items() if name not in others}
        command = [sys.executable, "-B", "-c", "import petsivola; print(petsivola.product(3, 4, 4))"]
        environment = {**kept, **environment}
        return subprocess.run(command, cwd=folder, env=environment, capture_output=True, text=True, check=False)

    def test_search(self) -> None:
        here, library = pathlib.Path(__file__).resolve().parent, os.environ["PETSIVOLA_LIBRARY"]
        with tempfile.TemporaryDirectory() as folder:
            shutil.copy(here / "petsivola.py", folder)
            shutil.copytree(here / "_petsivola", pathlib.Path(folder, "_petsivola"))
            self.assertEqual(self.run_product(folder, PETSIVOLA_LIBRARY=library).stdout, "6\n")
            missing = self.run_product(folder, PETSIVOLA_LIBRARY=os.path.join(folder, "none.so"))
            self.assertIn("PETSIVOLA_LIBRARY can name the file", missing.stderr)
            shutil.copy(library, pathlib.Path(folder, "libpetsivola.so"))
            self.assertEqual(self.run_product(folder).stdout, "6\n")
            os.mkdir(os.path.join(folder, "system"))
            os.rename(os.path.join(folder, "libpetsivola.so"), os.path.join(folder, "system", "libpetsivola.so"))
            self.assertEqual(self.run_product(folder, LD_LIBRARY_PATH=os.path.join(folder, "system")).stdout, "6\n")


if __name__ == "__main__":
    unittest.main()
