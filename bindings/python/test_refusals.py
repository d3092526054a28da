"""Every refusal number through the binding, and the words for it."""
import pickle
import re
import unittest
from typing import Any, Callable

import temporary_library

temporary_library.provide()

import petsivola  # noqa: E402: the library has to be there first
from petsivola import State, Window  # noqa: E402

CODE = petsivola.line("02000301100103000001000101000201")
FRAME = bytes([5, 0, 9, 7, 0, 4, 8, 3, 0, 6, 2, 10])
NO_ZERO = b"\x01" * 12
RECORD = bytes.fromhex("000101 040105FF00 020207FF00 030107FF00")
# SPEC 11.7, and M = 129, I = 0, 1,025 edges, a weight not below q.
REFUSED_LINES = [
    (5, ""),
    (5, "0700030110"),
    (6, "070003011001"),
    (6, "420003011001"),
    (6, "370003011001"),
    (7, "020000011001"),
    (7, "020003811001"),
    (8, "020003011101"),
    (8, "020003011000"),
    (9, "02000301100101"),
    (5, "02000301100102"),
    (5, "02000301100103"),
    (9, "020020211001" + ("20" + "".join(f"{column:04X}01" for column in range(32))) * 32 + "02"),
    (10, "02000301100103000001000101000301"),
    (10, "02000301100103000001000001000201"),
    (10, "02000101100102000001000101"),
    (11, "02000301100103000001000101000200"),
    (11, "02000301100103000001000101000204"),
    (11, "02000301100103000000000301000201"),
    (5, "0200030110010300000100010100020100"),
]


class Refusals(unittest.TestCase):
    def refused(self, number: int, call: Callable[..., Any], *arguments: Any) -> None:
        with self.subTest(call=getattr(call, "__name__", call), number=number):
            with self.assertRaises(petsivola.Refusal) as refusal:
                call(*arguments)
            self.assertEqual((refusal.exception.number, refusal.exception.text), (number, petsivola.TEXTS[number]))

    def test_code_lines(self) -> None:
        """5 to 11, the same in every call that takes a code line."""
        for number, digits in REFUSED_LINES:
            code = bytes.fromhex(digits)
            self.refused(number, petsivola.code_line, code)
            self.refused(number, petsivola.decode, code, FRAME)
            self.refused(number, petsivola.decode_early, code, FRAME)
            self.refused(number, petsivola.encode, code, [1, 2])
            self.refused(number, petsivola.combine, code, FRAME, FRAME)
            self.refused(number, petsivola.channels, code, [FRAME], 1)
            self.refused(number, petsivola.records, code, b"")
            self.refused(number, petsivola.CodeLine.read, code)
            self.refused(number, Window(code, FRAME).load)

    def test_frames(self) -> None:
        """12, 13 and 23."""
        for decode in (petsivola.decode, petsivola.decode_early):
            self.refused(12, decode, CODE, FRAME[:11])
            self.refused(12, decode, CODE, FRAME + b"\0")
            self.refused(13, decode, CODE, NO_ZERO)
        self.refused(12, petsivola.combine, CODE, FRAME[:11], b"")
        self.refused(13, petsivola.combine, CODE, NO_ZERO, b"")
        for second in (FRAME[:11], FRAME + b"\0", NO_ZERO):
            self.refused(23, petsivola.combine, CODE, FRAME, second)

    def test_check_and_record(self) -> None:
        """6, 9, 11, 12, 13 and 16."""
        for engine in (petsivola.check, petsivola.sweep):
            self.refused(6, engine, 0x42, [1, 1, 1], FRAME)
            self.refused(9, engine, 2, [1], [0] * 4)
            self.refused(9, engine, 2, [1] * 33, [0] * 132)
            self.refused(11, engine, 2, [1, 0, 1], FRAME)
            self.refused(12, engine, 2, [1, 1, 1], FRAME[:11])
            self.refused(13, engine, 2, [1, 1, 1], NO_ZERO)
        for reader in (petsivola.expand, petsivola.display):
            self.refused(6, reader, 0x42, [1, 1, 1], RECORD)
            self.refused(9, reader, 2, [1], RECORD)
            self.refused(11, reader, 2, [1, 4, 1], RECORD)
            self.refused(16, reader, 2, [1, 1, 1], RECORD[:-1])
            self.refused(16, reader, 2, [1, 1, 1], RECORD[:-1] + b"\1")

    def test_small_calls(self) -> None:
        """6 and 11 of the product, 14 and 15, 17 and 18."""
        self.refused(6, petsivola.product, 7, 1, 1)
        self.refused(11, petsivola.product, 2, 4, 1)
        for text in ("0", "0a", "0A\r", "0 ", "0Ä"):
            self.refused(14, petsivola.line, text)
        self.refused(15, petsivola.line, "0" * 32769)
        form = petsivola.line("0200050210010300000100010200030304000101000201000301000402")
        for message in ([1, 2], [1, 2, 3, 0], [1, 2, 4]):
            self.refused(18, petsivola.encode, form, message)
        self.refused(17, petsivola.encode, petsivola.line("0200020210010200000100010102000001000101"), [])

    def test_channels(self) -> None:
        """21 and 22 come before the code line's; 13 is a status."""
        for count in (0, 9, 256, 257):
            self.refused(21, petsivola.channels, b"", [FRAME] * count, 0)
        self.refused(22, petsivola.channels, b"", [FRAME] * 8, 0)
        self.refused(12, petsivola.channels, CODE, [FRAME[:11]] * 2, 1)
        self.assertEqual(petsivola.channels(CODE, [NO_ZERO], 1).channels[0].status, 13)

    def test_short_buffers(self) -> None:
        """2, 3, 4 and 19: the window alone lends buffers of the caller."""
        for number, name in ((2, "symbols"), (3, "costs"), (4, "store"), (19, "margins")):
            window = Window(CODE, FRAME)
            setattr(window, name, getattr(window, name)[:-1])
            self.refused(number, window.load)
            self.assertEqual(list(window.registers), [4, number, 0, 0, 2])

    def test_window(self) -> None:
        """13 and 16 for what somebody else wrote (SPEC 11.15); a refusal changes no buffer."""
        for costs, iterations, number in (([7] * 12, 0, 13), ([0, 511] + [0] * 10, 0, 13), ([0] * 12, 1, 16)):
            window = Window(CODE, FRAME)
            window.load()
            window.registers = [State.RUNNING, 0, iterations, 0, 0]
            window.costs[:], window.store = type(window.costs)("H", costs), bytearray(b"\7" * 18)
            before = bytes(window.symbols), window.costs[:], bytes(window.margins)
            self.refused(number, window.iterate)
            self.assertEqual((bytes(window.symbols), window.costs, bytes(window.margins)), before)
            self.assertEqual(window.store, b"\7" * 18)

    def test_header(self) -> None:
        """The numbers are those of the header, and so are the words where it has them."""
        header = (temporary_library.ROOT / "include" / "petsivola.h").read_text()
        numbers = re.search(r"enum petsivola_number \{(.*?)\};", header, re.DOTALL)
        assert numbers is not None
        named = {name: int(number) for name, number in re.findall(r"(PETSIVOLA_\w+) = (\d+)", numbers[1])}
        self.assertEqual(set(named.values()), set(petsivola.TEXTS))
        for name, text in re.findall(r'case (PETSIVOLA_\w+): return "(.*)";', header):
            self.assertEqual(petsivola.TEXTS[named[name]], text)

    def test_exception(self) -> None:
        refusal = petsivola.Refusal(12)
        self.assertEqual(str(refusal), "refused by 12: wrong number of costs")
        self.assertEqual(pickle.loads(pickle.dumps(refusal)).number, 12)


if __name__ == "__main__":
    unittest.main()
