"""alist2code and code2alist: round trips, forms of the file, damaged and refused ones."""
from __future__ import annotations

import random
import re
import unittest

from _testing import EXAMPLES, NOISY, ToolCase, petsivola, random_code

import _alist
import _common

LINE = (EXAMPLES / "gf32-248-137.hex").read_text().split("\n")[0]
# GF(4): columns 0, 1, 3 in check 0 with the weights 1, 2, 3; 1, 2 in check 1 with the weights 3, 1; column 4 in none.
SMALL = "0200050210010300000100010200030302000103000201"
ALIST = """5 2 4
2 3
1 2 1 1 0
3 2
1 1 0 0
1 2 2 3
2 1 0 0
1 3 0 0
0 0 0 0
1 1 2 2 4 3
2 3 3 1 0 0
"""
TO_SMALL = ("--scale", "16", "--limit", "1")


class RoundTrips(ToolCase):
    def test_small(self) -> None:
        self.assertEqual(self.done("code2alist", text=SMALL), ALIST)
        self.assertEqual(self.done("alist2code", *TO_SMALL, text=ALIST), SMALL + "\n")

    def test_exponents(self) -> None:
        """In GF(4) 1, 2, 3 are the powers 0, 1, 2 of the primitive element."""
        exponents = self.done("code2alist", "--values", "exponents", text=SMALL)
        self.assertEqual(exponents.splitlines()[-2:], ["1 0 2 1 4 2", "2 2 3 0 0 0"])
        self.assertEqual(self.done("alist2code", "--values", "exponents", *TO_SMALL, text=exponents), SMALL + "\n")
        self.assertEqual(_common.powers(3), [1, 2, 4, 3, 6, 7, 5])
        for p in _common.POLYNOMIALS:
            self.assertEqual(sorted(_common.powers(p)), list(range(1, 1 << p)))
            self.assertEqual(petsivola.product(p, _common.powers(p)[p - 1], 2), _common.POLYNOMIALS[p] ^ 1 << p)

    def test_forms(self) -> None:
        """Lines need not be filled up and may end in 0D 0A; a blank line is a column in no check, or nothing."""
        short = ALIST.replace(" 0 0\n", "\n").replace("0 0\n", "\n")
        for text in (short, short + "\n\n", ALIST.replace("\n", "\r\n"), ALIST.replace("\n", "\n\n")):
            self.assertEqual(self.done("alist2code", *TO_SMALL, text=text), SMALL + "\n")

    def test_example(self) -> None:
        for values in ("elements", "exponents"):
            alist = self.done("code2alist", "--values", values, NOISY)
            self.assertEqual(self.done("alist2code", "--values", values, "--scale", "8", text=alist), LINE + "\n")

    def test_random_codes(self) -> None:
        generator = random.Random(3)
        for number in range(8):
            code, values = random_code(generator), ("elements", "exponents")[number % 2]
            line = bytes(code).hex().upper()
            alist = self.done("code2alist", "--values", values, text=line)
            given = ("--values", values, "--scale", str(code.g), "--limit", str(code.limit),
                     "--deviations", str(code.k), "--edition", petsivola.Edition(code.edition).value)
            self.assertEqual(self.done("alist2code", *given, text=alist), line + "\n")


class Damaged(ToolCase):
    def test_polynomial(self) -> None:
        self.done("code2alist", "--polynomial", "25", NOISY)
        self.fails(2, "polynomial is 3D, ours for q = 32 is 25", "code2alist", "--polynomial", "3D", NOISY)
        self.fails(2, "polynomial is B, ours for q = 4 is 7", "alist2code", *TO_SMALL, "--polynomial", "B", text=ALIST)
        self.fails(2, "invalid hexadecimal value", "alist2code", *TO_SMALL, "--polynomial", "x", text=ALIST)

    def test_damaged(self) -> None:
        for old, new, message in [
            ("5 2 4", "5 2", "line 1: 2 numbers, not 3"),
            ("5 2 4", "5 2 x", "line 1: 'x' is no whole number"),
            ("5 2 4", "5 2 6", "q = 6 is no power of 2"),
            ("5 2 4", "6 2 4", "11 lines, not 4 + N + M = 12"),
            ("2 3\n", "1 3\n", "line 2: a column weight or a check degree is greater"),
            ("1 2 1 1 0\n", "1 2 1 1\n", "line 3: 4 numbers, not 5"),
            ("3 2\n1", "3 -2\n1", "line 4: '-2'"),
            ("1 2 2 3", "1 2 2", "line 6: 3 numbers are no pairs"),
            ("1 2 2 3", "1 2 3 3", "line 6: not 2 entries with an index of 1 to 2"),
            ("1 2 2 3", "1 2 1 3", "line 6: an index twice"),
            ("2 3 3 1 0 0", "2 3 3 1 5 1", "line 11: more than the 2 entries"),
            ("2 3 3 1 0 0", "2 3 3 2 0 0", "check 2, column 3, value 1 stands in the list of its column alone"),
        ]:
            self.assertIn(old, ALIST)
            with self.assertRaisesRegex(_common.InputError, re.escape(message)):
                matrix = _alist.parse(ALIST.replace(old, new, 1).split("\n"))
                _alist.field_exponent(matrix.q)
        self.fails(2, "alist2code: 10 lines, not 4 + N + M = 11", "alist2code", *TO_SMALL, text=ALIST[:-12])
        self.fails(2, "line 1: 0 numbers", "alist2code", *TO_SMALL)
        self.fails(2, "arguments are required: --scale", "alist2code", text=ALIST)

    def test_values(self) -> None:
        zero = ALIST.replace("2 1 0 0", "2 0 0 0").replace("3 1 0 0", "3 0 0 0")
        self.fails(2, "check 2: value 0 is not 1 to 3", "alist2code", *TO_SMALL, text=zero)
        self.fails(2, "check 1: value 3 is not 0 to 2", "alist2code", *TO_SMALL, "--values", "exponents", text=ALIST)

    def test_refused(self) -> None:
        self.fails(1, "refused by 8", "alist2code", "--scale", "17", text=ALIST)
        for q in (2, 128):
            text = f"2 1 {q}\n1 2\n1 1\n2\n1 1\n1 1\n1 1 2 1\n"
            self.fails(1, "refused by 6", "alist2code", "--scale", "8", text=text)
        wide = "\n".join(["300 1 4", "1 2", "1 1" + " 0" * 298, "2", "1 1", "1 1"] + [""] * 298 + ["1 1 2 1"])
        self.fails(1, "N = 300, M = 1, q = 4, degrees 2 to 2, 2 edges", "alist2code", "--scale", "8", text=wide)
        self.fails(2, "no room in a code line", "alist2code", "--scale", "256", text=ALIST)
        for line, number in (("", 5), (SMALL[:-1] + "a", 14), (SMALL + "00", 5), ("07" + SMALL[2:], 6)):
            self.fails(1, f"refused by {number}", "code2alist", text=line)


if __name__ == "__main__":
    unittest.main()
