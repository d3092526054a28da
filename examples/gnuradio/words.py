"""Random words of a code, one vector of N symbols each: a source for GNU Radio.

The code is any that petsivola decodes; its code line is the first line of code_file, in hexadecimal.
petsivola_encode asks for a special form of the checks, which not every code has, so the words come from Gaussian
elimination here.
"""
import numpy as np
from gnuradio import gr

# The field's polynomial for each p.
POLYNOMIALS = {2: 0x07, 3: 0x0B, 4: 0x13, 5: 0x25, 6: 0x43}


def products(p):
    """The products of all pairs of elements."""
    q = 1 << p
    first, second = np.arange(q)[:, None], np.arange(q)[None, :]
    total = np.zeros((q, q), np.int64)
    for bit in range(p):
        total ^= np.where(second >> bit & 1, first, 0)
        first = first << 1
        first = np.where(first & q, first ^ POLYNOMIALS[p], first)
    return total.astype(np.uint8)


def checks_of(line):
    """The checks of a code line as a matrix of weights, M by N."""
    columns, count, at = line[1] << 8 | line[2], line[3], 6
    checks = np.zeros((count, columns), np.uint8)
    for row in range(count):
        degree, at = line[at], at + 1
        for edge in range(at, at + 3 * degree, 3):
            checks[row, line[edge] << 8 | line[edge + 1]] = line[edge + 2]
        at += 3 * degree
    return checks


def eliminate(checks, product):
    """The checks solved for as many columns as can be: each of these, a pivot, is left in one check, with weight
    1."""
    inverse = np.argmax(product == 1, axis=1)
    pivots = []
    for column in reversed(range(checks.shape[1])):
        rows = np.flatnonzero(checks[len(pivots):, column]) + len(pivots)
        if rows.size:
            row = len(pivots)
            checks[[row, rows[0]]] = checks[[rows[0], row]]
            checks[row] = product[inverse[checks[row, column]], checks[row]]
            for other in np.flatnonzero(checks[:, column]):
                if other != row:
                    checks[other] ^= product[checks[other, column], checks[row]]
            pivots.append(column)
    return checks[:len(pivots)], pivots


class words(gr.sync_block):
    """Sends so many random words; 0 sends without end."""

    def __init__(self, code_file="examples/gf32-248-137.hex", columns=248, frames=1000, seed=1):
        gr.sync_block.__init__(self, name="Random words", in_sig=None, out_sig=[(np.uint8, columns)])
        self.code_file, self.columns, self.frames, self.seed = code_file, columns, frames, seed
        self.sent = 0

    def start(self):
        """Reads the code only now: an editor makes a block with its defaults to see its ports."""
        with open(self.code_file, encoding="ascii") as lines:
            line = bytes.fromhex(lines.readline())
        if int.from_bytes(line[1:3], "big") != self.columns:
            raise ValueError(f"{self.code_file}: not a code of {self.columns} columns")
        self.product = products(line[0] & 15)
        solved, self.pivots = eliminate(checks_of(line), self.product)
        self.free = np.setdiff1d(np.arange(self.columns), self.pivots)
        self.weights = solved[:, self.free]
        self.generator = np.random.default_rng(self.seed)
        self.sent = 0
        return True

    def word(self):
        """Random symbols in the free columns, and in each pivot what its check asks for."""
        word = np.zeros(self.columns, np.uint8)
        word[self.free] = self.generator.integers(0, len(self.product), len(self.free))
        word[self.pivots] = np.bitwise_xor.reduce(self.product[self.weights, word[self.free]], axis=1)
        return word

    def work(self, input_items, output_items):
        out = output_items[0]
        count = len(out) if self.frames == 0 else min(len(out), self.frames - self.sent)
        if count == 0:
            return -1
        for index in range(count):
            out[index] = self.word()
        self.sent += count
        return count
