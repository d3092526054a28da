#!/usr/bin/env python3
"""The three blocks by themselves, against slow and plain forms of the same. Needs numpy and PETSIVOLA_LIBRARY; GNU
Radio is not needed: where it is not installed, or with --without-gnuradio, a stand-in for its base class takes its
place.

    PETSIVOLA_LIBRARY=LIBRARY python3 examples/gnuradio/test_blocks.py [--without-gnuradio]
"""
import math
import pathlib
import subprocess
import sys
import types
import unittest

import numpy as np

HERE = pathlib.Path(__file__).resolve().parent
CODE_FILE = HERE.parent / "gf32-248-137.hex"
COLUMNS, BITS, FREE = 248, 5, 137


def stand_in():
    """A gnuradio.gr with a base class that keeps its signature and nothing else."""
    class sync_block:
        def __init__(self, name, in_sig, out_sig):
            self.signature = (name, in_sig, out_sig)

    package, module = types.ModuleType("gnuradio"), types.ModuleType("gnuradio.gr")
    module.sync_block = sync_block
    package.gr = module
    sys.modules.update({"gnuradio": package, "gnuradio.gr": module})


if "--without-gnuradio" in sys.argv:
    sys.argv.remove("--without-gnuradio")
    stand_in()
try:
    import gnuradio.gr  # noqa: F401
except ImportError:
    stand_in()
sys.path.insert(0, str(HERE))
sys.dont_write_bytecode = True
import counter  # noqa: E402
import decoder  # noqa: E402
import words  # noqa: E402


def line():
    return bytes.fromhex(CODE_FILE.read_text().split()[0])


def started(block):
    assert block.start()
    return block


def sent_words(count):
    source = started(words.words(str(CODE_FILE), COLUMNS, count, 7))
    out = np.zeros((count + 5, COLUMNS), np.uint8)
    assert source.work([], [out]) == count
    assert source.work([], [out]) == -1
    return source, out[:count]


def samples_of(sent, deviation, seed=3):
    """Bits, the highest first, as +1 and -1, with noise."""
    bits = sent[:, :, None] >> np.arange(BITS)[::-1] & 1
    noise = np.random.default_rng(seed).standard_normal(bits.shape)
    return (1.0 - 2.0 * bits + deviation * noise).reshape(len(sent), -1).astype(np.float32)


class Blocks(unittest.TestCase):
    def test_words_satisfy_every_check(self):
        source, sent = sent_words(4)
        self.assertEqual(len(source.free), FREE)
        self.assertEqual(len({word.tobytes() for word in sent}), 4)
        for word in sent:
            terms = source.product[words.checks_of(line()), word]
            self.assertFalse(np.bitwise_xor.reduce(terms, axis=1).any())

    def test_products_are_those_of_the_field(self):
        self.assertEqual((words.products(3)[3, 3], words.products(4)[2, 9], words.products(6)[2, 32]), (5, 1, 3))

    def test_costs_by_the_definition(self):
        block = started(decoder.decoder(str(CODE_FILE), COLUMNS, BITS, 0.5, 8.0))
        samples = samples_of(sent_words(1)[1], 0.7)[0]
        costs = block.costs(samples).reshape(COLUMNS, 1 << BITS)
        for column in range(0, COLUMNS, 17):
            ratios = [2 * float(sample) / 0.5 for sample in samples[BITS * column:BITS * (column + 1)]]
            distances = [sum(abs(ratio) for bit, ratio in enumerate(ratios)
                             if (symbol >> (BITS - 1 - bit) & 1) != (ratio < 0)) for symbol in range(1 << BITS)]
            expected = [min(255, math.floor(8 * distance + 0.5)) for distance in distances]
            self.assertEqual(list(costs[column]), expected)
            self.assertEqual(min(expected), 0)

    def test_decisions_are_those_of_the_program(self):
        sent = sent_words(12)[1]
        variance = 1 / (2 * FREE / COLUMNS * 10 ** 0.25)
        block = started(decoder.decoder(str(CODE_FILE), COLUMNS, BITS, variance, 8.0))
        samples = samples_of(sent, variance ** 0.5)
        decided, outcomes = np.zeros_like(sent), np.zeros((len(sent), 2), np.uint8)
        self.assertEqual(block.work([samples], [decided, outcomes]), len(sent))
        frames = [line()] + [block.costs(row).tobytes() for row in samples]
        text = "".join(frame.hex().upper() + "\n" for frame in frames)
        program = HERE.parent.parent / "target" / "bin" / "decode"
        printed = subprocess.run([str(program)], input=text, capture_output=True, text=True, check=True).stdout
        lines = [np.concatenate(pair).tobytes().hex().upper() for pair in zip(outcomes, decided)]
        self.assertEqual(printed.split(), lines)
        found = outcomes[:, 0] == 0
        self.assertGreater(found.sum(), 6)
        self.assertTrue((decided[found] == sent[found]).all())

    def test_the_counter_counts(self):
        sent = np.zeros((4, COLUMNS), np.uint8)
        decided = sent.copy()
        decided[2, 5] = decided[3, 6] = 1
        block = counter.counter(COLUMNS)
        block.work([sent, decided, np.array([[0, 2], [1, 15], [1, 15], [0, 4]], np.uint8)], [])
        self.assertEqual((block.frames, block.errors, block.found_wrong), (4, 3, 1))
        self.assertIn("9.00 iterations a frame", block.summary())

    def test_another_code_is_refused(self):
        first = str(HERE.parent / "first.hex")
        for block in (words.words(first, COLUMNS), decoder.decoder(first, COLUMNS, BITS)):
            self.assertRaises(ValueError, block.start)

    def test_the_companion_has_the_same_sources(self):
        subprocess.run([sys.executable, str(HERE / "embed.py"), "--check"], check=True)


if __name__ == "__main__":
    unittest.main()
