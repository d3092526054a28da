"""The tools as they are started, and mkframes, decode and showdecoded one after the other."""
from __future__ import annotations

import itertools
import os
import pathlib
import random
import subprocess
import tempfile
import unittest

from _testing import EXAMPLES, HERE, NOISY, TOOLS, ToolCase, code_with_form, module, petsivola, run

import _common

PROGRAM = HERE.parent / "target" / "bin" / "decode"
PRINTED, SENT = str(EXAMPLES / "gf32-248-137.out"), str(EXAMPLES / "gf32-248-137.sent")


def decode(text: str) -> str:
    return subprocess.run([PROGRAM], input=text, stdout=subprocess.PIPE, text=True, check=False).stdout


class EveryTool(ToolCase):
    def test_help(self) -> None:
        """Help needs no library."""
        for tool in TOOLS:
            process = run(tool, "--help", PETSIVOLA_LIBRARY="none")
            self.assertEqual(process.returncode, 0)
            self.assertIn("Exit status:", process.stdout)
            self.assertTrue(os.access(HERE / tool, os.X_OK))
        self.assertIn("field polynomial", run("alist2code", "--help").stdout)

    def test_files(self) -> None:
        """What every tool says about a file that is not there or no text, and about the missing library."""
        with tempfile.TemporaryDirectory() as folder:
            image = pathlib.Path(folder, "image")
            image.write_bytes(b"\x89PNG")
            more = {"alist2code": ["--scale", "8"], "mkframes": ["--ebn0", "3"]}
            for tool in TOOLS:
                self.fails(2, "No such file", tool, *more.get(tool, []), os.path.join(folder, "none"))
                self.fails(2, "byte 0 is not ASCII text", tool, *more.get(tool, []), str(image))
        process = run("showcode", NOISY, PETSIVOLA_LIBRARY="none")
        self.assertEqual(process.returncode, 2)
        self.assertIn("PETSIVOLA_LIBRARY can name the file", process.stderr)


class ShowCode(ToolCase):
    def test_example(self) -> None:
        shown = dict((line[:16].strip(), line[16:]) for line in self.done("showcode", NOISY).splitlines())
        self.assertEqual(shown, {
            "field": "GF(32), p = 5, polynomial 25", "deviations": "k = 2", "edition": "sum", "columns": "N = 248",
            "checks": "M = 124, rank 111", "rate": "137/248 = 0.5524", "edges": "992", "degrees": "8: 124 checks",
            "column weights": "4: 248 columns", "scale": "g = 8, sent costs times 8/16", "limit": "I = 15 iterations",
            "code line": "3106 bytes", "frame": "7936 costs", "store": "20212 bytes",
            "encoding": "no, it has not the form",
        })

    def test_form(self) -> None:
        shown = self.done("showcode", "--checks", text=bytes(code_with_form()).hex().upper())
        self.assertIn("encoding        yes, messages of 24 symbols\n", shown)
        self.assertIn("rank 24\n", shown)
        self.assertEqual(shown.count("\ncheck "), 24)

    def test_refused(self) -> None:
        self.fails(1, "refused by 5", "showcode")
        self.fails(1, "refused by 14", "showcode", text="02000301100103000001000101000201 ")
        self.fails(1, "refused by 9", "showcode", text="02000301100101")

    def test_rank(self) -> None:
        """A code has 4^(N - rank) words. The third check is the sum of the first two, the fourth the second times 2."""
        checks = [[(0, 1), (1, 2), (2, 3)], [(1, 1), (3, 2)], [(0, 1), (1, 3), (2, 3), (3, 2)], [(1, 2), (3, 3)]]
        for count, rank in ((1, 1), (2, 2), (3, 2), (4, 2)):
            code, words = petsivola.CodeLine(2, 4, checks[:count], 16, 1), 0
            self.assertEqual(_common.rank(code), rank)
            for word in itertools.product(range(4), repeat=4):
                decoded = petsivola.decode(code, [[int(x != symbol) for x in range(4)] for symbol in word])
                words += decoded.found and decoded.iterations == 0
            self.assertEqual(words, 4 ** (4 - rank))


class Frames(ToolCase):
    def test_end_to_end(self) -> None:
        """Random words of a code with the form for encoding: what is shown is what was sent and decoded."""
        with tempfile.TemporaryDirectory() as folder:
            line, sent = bytes(code_with_form()).hex().upper(), os.path.join(folder, "words")
            frames = self.done("mkframes", "--ebn0", "4", "--frames", "30", "--sent", sent, text=line)
            self.assertEqual(frames.split("\n")[0], line)
            printed, words = decode(frames).splitlines(), pathlib.Path(sent).read_text().splitlines()
            self.assertEqual((len(printed), len(words), len(set(words))), (30, 30, 30))
            shown = self.done("showdecoded", "--all", "--sent", sent, text="\n".join(printed)).splitlines()
        found = sum(text.startswith("00") for text in printed)
        self.assertEqual(shown[31], f"30 frames: {found} found, {30 - found} not found, 0 refused")
        errors = 0
        for number, (row, text, word) in enumerate(zip(shown[1:], printed, words)):
            wrong = sum(text[4 + at:6 + at] != word[at:at + 2] for at in range(0, len(word), 2))
            status = ["found", "not", "found"][int(text[1]):2 * int(text[1]) + 1]
            self.assertEqual(row.split(), [str(number), *status, str(int(text[2:4], 16)), str(wrong), text[4:]])
            errors += wrong
        self.assertEqual(shown[33], f"symbol errors: {errors} of {30 * 48}")
        self.assertGreater(found, 20)

    def test_without_noise(self) -> None:
        """Words and bits arrive as they were sent: each frame is found at once."""
        with tempfile.TemporaryDirectory() as folder:
            sent = os.path.join(folder, "words")
            frames = self.done("mkframes", "--ebn0", "60", "--sent", sent, text=bytes(code_with_form()).hex().upper())
            shown = self.done("showdecoded", "--totals", "--sent", sent, text=decode(frames))
        self.assertEqual(shown, "10 frames: 10 found, 0 not found, 0 refused\niterations a frame: 0.00\n"
                                "symbol errors: 0 of 480\nframes with errors: 0, found among them: 0\n")

    def test_zero_word(self) -> None:
        process = run("mkframes", "--ebn0", "3", "--frames", "3", NOISY)
        self.assertEqual(process.returncode, 0)
        self.assertIn("the zero word is sent", process.stderr)
        self.assertEqual(set(decode(process.stdout).splitlines()[0][4:]), {"0"})
        self.assertEqual(self.done("mkframes", "--zero", "--ebn0", "3", "--frames", "3", NOISY), process.stdout)
        self.assertNotEqual(self.done("mkframes", "--zero", "--ebn0", "3", "--frames", "3", "--seed", "2", NOISY),
                            process.stdout)

    def test_noise(self) -> None:
        """At rate 1/2 and 0 dB the variance is 1, and the ratios are twice what arrives."""
        tool = module("mkframes")
        self.assertEqual(tool.noise(code_with_form(), 0), 1)
        self.assertAlmostEqual(tool.noise(code_with_form(), 10), 0.1)
        arrived = [ratio / 2 for ratio in tool.received(2, b"\2" * 10000, 1.0, random.Random(1))]
        for bit, level in ((0, 1), (1, -1)):
            mean = sum(arrived[bit::2]) / 10000
            self.assertAlmostEqual(mean, level, delta=0.05)
            self.assertAlmostEqual(sum((y - mean) ** 2 for y in arrived[bit::2]) / 10000, 1, delta=0.05)

    def test_arguments(self) -> None:
        for given, message in ((["--ebn0", "nan"], "--ebn0"), (["--ebn0", "3", "--frames", "-1"], "--frames"),
                               (["--ebn0", "3", "--costs-per-nat", "0"], "--costs-per-nat"), ([], "--ebn0")):
            self.fails(2, message, "mkframes", *given, NOISY)
        self.fails(2, "no word but the zero word", "mkframes", "--ebn0", "3",
                   text="0200020210010200000100010102000001000102")
        self.fails(1, "refused by 5", "mkframes", "--ebn0", "3")


class ShowDecoded(ToolCase):
    def test_example(self) -> None:
        shown = self.done("showdecoded", "--sent", SENT, PRINTED).splitlines()
        self.assertEqual(shown[1], "     0  found           6       0  0F111C120B1E0D1A061A0D0E070A0800...")
        self.assertEqual(shown[4], "     3  not found      15     103  091509060B1A0913160B041A1B0F181A...")
        self.assertEqual(shown[13:], ["12 frames: 11 found, 1 not found, 0 refused", "iterations a frame: 5.17",
                                      "symbol errors: 103 of 2976", "frames with errors: 1, found among them: 0"])

    def test_refused(self) -> None:
        """A frame that is cut, and a code line that is refused."""
        lines = "02000301100103000001000101000201\n05000907000408030006020A\n0500090700040803\n"
        shown = run("showdecoded", text=decode(lines))
        self.assertEqual(shown.returncode, 1)
        self.assertIn("     1  refused by 12   0\n", shown.stdout)
        self.assertTrue(shown.stdout.endswith("refused by 12: wrong number of costs\n"))
        self.assertIn("1 frames: 0 found, 0 not found, 1 refused\n", self.fails(1, "", "showdecoded", text=decode("")))

    def test_damaged(self) -> None:
        for text in ("0001010100\n000\n", "0001010100\n\n", "0001010100\n0c00\n"):
            self.fails(2, "-: line 2 is not pairs of digits", "showdecoded", text=text)
        tool = module("showdecoded")
        for digits in ("00", "0001", "0C0001", "FF00", "0C01", "0C"):
            self.assertRaises(_common.InputError, tool.parse, bytes.fromhex(digits), 1)
        self.fails(2, "line 1 is none that decode prints", "showdecoded", text="0C01\n")
        self.fails(2, "12 words sent, but 0 lines decoded", "showdecoded", "--sent", SENT)
        self.fails(2, "line 1: 3 symbols decoded, 248 sent", "showdecoded", "--sent", SENT, text="0001010100\n")
        self.assertIn("12 frames", self.fails(2, "24 words sent, but 12 lines decoded", "showdecoded", PRINTED,
                                              "--sent", "/dev/stdin", text=pathlib.Path(SENT).read_text() * 2))


if __name__ == "__main__":
    unittest.main()
