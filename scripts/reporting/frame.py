"""What the decoder knows of a frame before and after each iteration, by way of the register window."""
import ctypes
import pathlib
import subprocess

LOAD, ITERATE = 1, 2
RUNNING, FOUND, NOT_FOUND = 1, 2, 3


class Window(ctypes.Structure):
    """struct petsivola_window; all 0 is idle."""

    _fields_ = [(name, ctypes.c_uint8) for name in ("state", "refusal", "iterations", "mask", "pending")]


class Moment:
    """The symbols and their margins after so many iterations, and where the symbols are not those that were sent."""

    def __init__(self, iterations, symbols, margins, sent):
        self.iterations = iterations
        self.margins = margins
        self.wrong = [mine != theirs for mine, theirs in zip(symbols, sent)]


class Run:
    """One frame: its number in the file, from 1; whether it was found; its moments from the received one on."""

    def __init__(self, number, found, moments):
        self.number, self.found, self.moments = number, found, moments


def library(root):
    """The archive as a shared object, in target/, and loaded. It is linked again when the archive is newer."""
    archive = root / "target" / "staticlib" / "libpetsivola.a"
    shared = root / "target" / "report" / "libpetsivola.so"
    if not shared.exists() or shared.stat().st_mtime < archive.stat().st_mtime:
        shared.parent.mkdir(parents=True, exist_ok=True)
        whole = ["-Wl,--whole-archive", str(archive), "-Wl,--no-whole-archive"]
        subprocess.run(["gcc", "-shared", *whole, "-o", str(shared)], check=True)
    loaded = ctypes.CDLL(str(shared))
    octets, numbers = ctypes.POINTER(ctypes.c_uint8), ctypes.POINTER(ctypes.c_uint16)
    lent = [octets, octets, octets, numbers, octets, numbers]
    write = loaded.petsivola_window_write
    write.restype = Window
    write.argtypes = [Window, ctypes.c_uint8, ctypes.c_uint8]
    for pointer in lent:
        write.argtypes = write.argtypes + [pointer, ctypes.c_size_t]
    return write


class Decoding:
    """The buffers of one frame, lent to each write."""

    def __init__(self, write, code, frame):
        columns, checks = int.from_bytes(code[1:3], "big"), code[3]
        octets = ctypes.c_uint8
        edges = (len(code) - 6 - checks) // 3
        store = edges + checks * (1 + 2 * (2 + (code[0] >> 5 & 1))) * ((1 << (code[0] & 15)) - 1)
        self.symbols = (octets * columns)()
        self.margins = (ctypes.c_uint16 * columns)()
        buffers = [(octets * len(code)).from_buffer_copy(code), (octets * len(frame)).from_buffer_copy(frame),
                   self.symbols, (ctypes.c_uint16 * len(frame))(), (octets * store)(), self.margins]
        self.lent = [part for buffer in buffers for part in (buffer, len(buffer))]
        self.write, self.window = write, Window()

    def command(self, value):
        self.window = self.write(self.window, 0, value, *self.lent)
        if self.window.state not in (RUNNING, FOUND, NOT_FOUND):
            raise RuntimeError(f"refused by {self.window.refusal}")


def decode(write, code, frame, sent, number):
    """The run of one frame: a load, then one iteration after the other."""
    decoding = Decoding(write, code, frame)
    moments = []
    decoding.command(LOAD)
    while True:
        window = decoding.window
        moments.append(Moment(window.iterations, bytes(decoding.symbols), list(decoding.margins), sent))
        if window.state != RUNNING:
            return Run(number, window.state == FOUND, moments)
        decoding.command(ITERATE)


def runs(root, frames):
    """Every frame of an example, FRAMES.hex with the words that were sent in FRAMES.sent."""
    write = library(root)
    path = pathlib.Path(frames)
    code, *received = [bytes.fromhex(line) for line in path.with_suffix(".hex").read_text().split()]
    sent = [bytes.fromhex(line) for line in path.with_suffix(".sent").read_text().split()]
    pairs = zip(received, sent)
    return [decode(write, code, frame, word, number) for number, (frame, word) in enumerate(pairs, 1)]
