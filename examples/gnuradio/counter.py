"""Counts frame errors: a sink for GNU Radio that compares what was sent with what was decoded."""
import math

import numpy as np
from gnuradio import gr


def interval(errors, frames):
    """Wilson's interval, which holds a rate with a confidence of 95 percent."""
    z = 1.959964
    rate, scale = errors / frames, 1 + z * z / frames
    middle = rate + z * z / (2 * frames)
    half = z * math.sqrt(rate * (1 - rate) / frames + (z / (2 * frames)) ** 2)
    return max(0.0, (middle - half) / scale), (middle + half) / scale


class counter(gr.sync_block):
    """Takes the words sent, the symbols decided, and each frame's number and iterations; prints the sums at its
    end."""

    def __init__(self, columns=248):
        gr.sync_block.__init__(self, name="Frame error counter", out_sig=None,
                               in_sig=[(np.uint8, columns), (np.uint8, columns), (np.uint8, 2)])
        self.frames = self.errors = self.found_wrong = self.iterations = 0

    def work(self, input_items, output_items):
        sent, decided, outcomes = input_items
        wrong = np.any(sent != decided, axis=1)
        found = outcomes[:, 0] == 0
        self.frames += len(sent)
        self.errors += int(np.sum(wrong | ~found))
        self.found_wrong += int(np.sum(wrong & found))
        self.iterations += int(np.sum(outcomes[:, 1]))
        return len(sent)

    def summary(self):
        if self.frames == 0:
            return "no frames"
        low, high = interval(self.errors, self.frames)
        return (f"{self.frames} frames, {self.errors} lost, rate {self.errors / self.frames:.2e} "
                f"({low:.2e} to {high:.2e}), {self.found_wrong} found wrong, "
                f"{self.iterations / self.frames:.2f} iterations a frame")

    def stop(self):
        print(self.summary(), flush=True)
        return True
