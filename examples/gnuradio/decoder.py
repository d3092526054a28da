"""Received samples to symbols: a block for GNU Radio around petsivola_decode.

A vector of N * p samples, one for each bit and the highest bit of a symbol first, becomes N * q costs and is
decoded. Bit 0 is sent as +1 and bit 1 as -1, over white noise of a known variance. The shared library is the
file that the environment names in PETSIVOLA_LIBRARY, else the system's libpetsivola.so.
"""
import ctypes
import ctypes.util
import os

import numpy as np
from gnuradio import gr


def load():
    """petsivola_decode from the shared library."""
    name = os.environ.get("PETSIVOLA_LIBRARY") or ctypes.util.find_library("petsivola")
    if not name:
        raise OSError("no libpetsivola.so: name it in PETSIVOLA_LIBRARY")
    call = ctypes.CDLL(name).petsivola_decode
    octets, numbers = [np.ctypeslib.ndpointer(kind, flags="C_CONTIGUOUS") for kind in (np.uint8, np.uint16)]
    call.argtypes = [part for pointer in (octets, octets, octets, numbers, octets, numbers)
                     for part in (pointer, ctypes.c_size_t)]
    call.restype = ctypes.c_uint32
    return call


def line_of(code_file, columns, bits):
    """The code line, of a code with so many columns and so many bits a symbol."""
    with open(code_file, encoding="ascii") as lines:
        line = bytes.fromhex(lines.readline())
    if (int.from_bytes(line[1:3], "big"), line[0] & 15) != (columns, bits):
        raise ValueError(f"{code_file}: not a code of {columns} columns and {bits} bits a symbol")
    return line


def lent(line, columns):
    """The buffers that a code line needs: symbols, costs, store, margins."""
    q, checks, deviations = 1 << (line[0] & 15), line[3], 2 + (line[0] >> 5 & 1)
    edges = (len(line) - 6 - checks) // 3
    store = edges + checks * (1 + 2 * deviations) * (q - 1)
    return [np.zeros(columns, np.uint8), np.zeros(columns * q, np.uint16), np.zeros(store, np.uint8),
            np.zeros(columns, np.uint16)]


class decoder(gr.sync_block):
    """Samples in, the decided symbols out; beside them each frame's number, 0 found or 1 not found, and its
    iterations."""

    def __init__(self, code_file="examples/gf32-248-137.hex", columns=248, bits=5, variance=0.5,
                 costs_per_nat=8.0):
        gr.sync_block.__init__(self, name="Petsivola decoder", in_sig=[(np.float32, columns * bits)],
                               out_sig=[(np.uint8, columns), (np.uint8, 2)])
        self.code_file, self.columns, self.bits = code_file, columns, bits
        self.variance, self.costs_per_nat = variance, costs_per_nat

    def start(self):
        """Reads code and library only now: an editor makes a block with its defaults to see its ports."""
        line = line_of(self.code_file, self.columns, self.bits)
        self.decode, self.buffers = load(), lent(line, self.columns)
        self.line = np.frombuffer(line, np.uint8)
        symbols = np.arange(1 << self.bits)
        # Which bits of each symbol are 1, the highest first.
        self.ones = symbols[:, None] >> np.arange(self.bits)[::-1] & 1
        self.symbols = symbols
        return True

    def costs(self, samples):
        """The frame for one vector of samples. A symbol costs what its bits cost that are not the likelier ones:
        the likeliest symbol of a column costs 0."""
        ratios = (2.0 / self.variance) * samples.astype(np.float64).reshape(self.columns, self.bits)
        likeliest = (ratios < 0) @ (1 << np.arange(self.bits)[::-1])
        by_difference = np.abs(ratios) @ self.ones.T
        distances = np.take_along_axis(by_difference, self.symbols[None, :] ^ likeliest[:, None], axis=1)
        return np.minimum(np.floor(self.costs_per_nat * distances + 0.5), 255).astype(np.uint8).reshape(-1)

    def work(self, input_items, output_items):
        symbols, outcomes = output_items
        for index, samples in enumerate(input_items[0][:len(symbols)]):
            frame = self.costs(samples)
            arrays = [self.line, frame] + self.buffers
            result = self.decode(*[part for array in arrays for part in (array, array.size)])
            if result >> 16 > 1:
                raise RuntimeError(f"petsivola_decode refused by {result >> 16}")
            symbols[index] = self.buffers[0]
            outcomes[index] = result >> 16, result & 0xFFFF
        return len(symbols)
