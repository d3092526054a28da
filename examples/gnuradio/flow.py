#!/usr/bin/env python3
"""A link in GNU Radio: random words of the (248,137) code over GF(32), BPSK, white noise, costs, petsivola_decode.

    PETSIVOLA_LIBRARY=LIBRARY python3 examples/gnuradio/flow.py [--ebn0 2.5] [--frames 1000] [--seed 1]

Prints how many frames were lost, to hold beside docs/simulation. link.grc is the same flow graph for GNU Radio
Companion.
"""
import argparse
import pathlib
import sys
import time

from gnuradio import analog, blocks, digital, gr

from counter import counter
from decoder import decoder, line_of, load
from words import words

COLUMNS, BITS, FREE = 248, 5, 137
CODE_FILE = pathlib.Path(__file__).resolve().parent.parent / "gf32-248-137.hex"


class link(gr.top_block):
    def __init__(self, ebn0, frames, seed, code_file):
        # A block that fails ends the program: otherwise the others would wait for it without end.
        gr.top_block.__init__(self, "Petsivola over white noise", catch_exceptions=False)
        # An information bit has the energy N/K, and the noise on a sample the variance N0/2.
        variance = 1 / (2 * FREE / COLUMNS * 10 ** (ebn0 / 10))
        self.words = words(code_file, COLUMNS, frames, seed)
        self.decoder = decoder(code_file, COLUMNS, BITS, variance)
        self.counter = counter(COLUMNS)
        noise = analog.noise_source_f(analog.GR_GAUSSIAN, variance ** 0.5, seed)
        received = blocks.add_ff()
        symbols = blocks.vector_to_stream(gr.sizeof_char, COLUMNS)
        self.connect(self.words, symbols, blocks.unpack_k_bits_bb(BITS),
                     digital.chunks_to_symbols_bf([1.0, -1.0], 1), received)
        self.connect(noise, (received, 1))
        self.connect(received, blocks.stream_to_vector(gr.sizeof_float, COLUMNS * BITS), self.decoder)
        self.connect(self.words, self.counter)
        self.connect(self.decoder, (self.counter, 1))
        self.connect((self.decoder, 1), (self.counter, 2))


def main():
    parser = argparse.ArgumentParser(description="Sends words over noise and decodes them, in GNU Radio.")
    parser.add_argument("--ebn0", type=float, default=2.5, help="in dB")
    parser.add_argument("--frames", type=int, default=1000)
    parser.add_argument("--seed", type=int, default=1)
    parser.add_argument("--code", default=str(CODE_FILE), help="a file whose first line is the code line")
    options = parser.parse_args()
    try:
        # What is missing is said here; from a block it would come with the trace of an aborted program.
        load()
        line_of(options.code, COLUMNS, BITS)
    except (OSError, ValueError) as fault:
        sys.exit(f"flow: {fault}")
    start = time.monotonic()
    link(options.ebn0, options.frames, options.seed, options.code).run()
    print(f"{options.ebn0:g} dB, {options.frames / (time.monotonic() - start):.0f} frames a second, whole flow graph")


if __name__ == "__main__":
    main()
