"""Every call through the binding, with the worked examples of docs/SPECIFICATION.md, section 11."""
import doctest
import unittest

import temporary_library

temporary_library.provide()

import petsivola  # noqa: E402: the library has to be there first
from petsivola import State, Window  # noqa: E402

# 11.5: p = 2, one check on three columns.
CODE = petsivola.CodeLine(p=2, columns=3, checks=[[(0, 1), (1, 1), (2, 1)]], g=16, limit=1)
FRAME = [5, 0, 9, 7, 0, 4, 8, 3, 0, 6, 2, 10]
RECORD = bytes.fromhex("000101 040105FF00 020207FF00 030107FF00")
COSTS = [1, 0, 7, 6, 1, 0, 11, 1, 0, 2, 1, 13]
# 11.2: column 0 costs 9 at each symbol but 0; columns 1, 2, 3 cost 1 at 1, at 2 and at 4, 0 at 0, else 100.
FOUR_COLUMNS = [[0] + [9] * 7] + [[0 if x == 0 else 1 if x == one else 100 for x in range(8)] for one in (1, 2, 4)]


class OneCheck(unittest.TestCase):
    """11.2 to 11.4, 11.10, 11.20."""

    def test_product(self) -> None:
        for p, a, b, expected in [(3, 3, 3, 5), (3, 4, 4, 6), (4, 2, 9, 1), (6, 2, 32, 3), (2, 0, 3, 0)]:
            self.assertEqual(petsivola.product(p, a, b), expected)

    def test_check_and_sweep(self) -> None:
        plain = [[0, 5, 7, 9], [0, 4, 8, 3], [0, 6, 2, 10]]
        cases = [
            (0x02, plain, "000000 040105FF00 020207FF00 030107FF00"),
            (0x02, [[5, 0, 9, 7]] + plain[1:], "000101 040105FF00 020207FF00 030107FF00"),
            (0x02, [[0, 1, 9, 9], [0, 9, 1, 9], [0, 9, 9, 9]], "000000 010009FF00 010109FF00 0200090109"),
            (0x02, [[0] * 4] * 3, "000000 00FF00FF00 00FF00FF00 00FF00FF00"),
            (0x02, [[0, 9, 1, 9], [0, 9, 9, 1]], "0000 09FF00FF00 010009FF00 010109FF00"),
            (0x22, plain, "000000 040105FF00FF00 020207FF00FF00 030107FF00FF00"),
            (0x12, plain, "000000 0301050204 020205FF00 030105FF00"),
        ]
        for first, columns, expected in cases:
            for engine in (petsivola.check, petsivola.sweep):
                with self.subTest(first=first, columns=columns, engine=engine.__name__):
                    self.assertEqual(engine(first, [1] * len(columns), columns), bytes.fromhex(expected))

    def test_group_of_seven(self) -> None:
        for first, expected in [(0x23, "03010902090309"), (0x03, "090064FF00"), (0x33, "01010902090309")]:
            group = bytes.fromhex(expected)
            for engine in (petsivola.check, petsivola.sweep):
                self.assertEqual(engine(first, [1] * 4, FOUR_COLUMNS)[-len(group):], group)

    def test_shifts(self) -> None:
        self.assertEqual(petsivola.check(2, [1, 2, 3], [[9, 0, 9, 9]] * 3)[:3].hex(), "010203")
        self.assertEqual(petsivola.check(2, [1, 1, 1], [[0, 255, 255, 255]] * 3)[3::5], b"\xff" * 3)

    def test_expand(self) -> None:
        for record, expected in [
            ("000000 040105FF00 020207FF00 030107FF00", "00040203 00050207 00040703"),
            ("000101 040105FF00 020207FF00 030107FF00", "00040203 05000702 04000307"),
            ("000000 010009FF00 010109FF00 0200090109", "00090109 00010909 00010102"),
            ("0000 09FF00FF00 010009FF00 010109FF00", "00090901 00090109"),
        ]:
            packed = bytes.fromhex(record)
            sent = petsivola.expand(2, [1] * (len(packed) - 15), packed)
            self.assertEqual(sent, bytes.fromhex(expected))

    def test_display(self) -> None:
        unused = "00FF00FF00"
        for first, weights, record, expected in [
            (2, [1, 2, 3], "010203" + unused * 3, "010101"),
            (3, [3, 4], "0506" + unused * 7, "0304"),
            (2, [1, 1, 1], RECORD.hex(), "000101"),
        ]:
            self.assertEqual(petsivola.display(first, weights, bytes.fromhex(record)).hex(), expected)

    def test_longest_outputs(self) -> None:
        """The buffers that the binding lends are enough for the longest record and expansion."""
        weights, costs = range(1, 33), [[0] + [255] * 63] * 32
        record = petsivola.check(0x26, weights, costs)
        self.assertEqual(len(record), 473)
        self.assertEqual(len(petsivola.expand(0x26, weights, record)), 2048)
        self.assertEqual(len(petsivola.display(0x26, weights, record)), 32)


class Lines(unittest.TestCase):
    def test_line(self) -> None:
        self.assertEqual(petsivola.line("00FFA5"), b"\x00\xff\xa5")
        self.assertEqual(petsivola.line(b""), b"")
        self.assertEqual(petsivola.line("0" * 32768), bytes(16384))

    def test_code_line(self) -> None:
        self.assertEqual(petsivola.code_line(CODE), petsivola.Code(2, 3, 1, 16, 1, 18))

    def test_encode(self) -> None:
        """11.12."""
        code = petsivola.line("0200050210010300000100010200030304000101000201000301000402")
        self.assertEqual(petsivola.encode(code, [1, 2, 3]).hex(), "0102030301")

    def test_combine(self) -> None:
        """11.18."""
        second = petsivola.line("0907050008030004020A0006")
        for frames in ((FRAME, second), (second, FRAME)):
            self.assertEqual(petsivola.combine(CODE, *frames).hex().upper(), "0700070001000100000E000E")
        self.assertEqual(petsivola.combine(CODE, FRAME, bytes(12)), bytes(FRAME))


class Decoding(unittest.TestCase):
    def test_one_iteration(self) -> None:
        """11.5."""
        decoded = petsivola.decode(CODE, FRAME)
        self.assertEqual((decoded.found, decoded.iterations, decoded.symbols.hex()), (True, 1, "010100"))
        self.assertEqual((decoded.costs.tolist(), decoded.margins.tolist()), (COSTS, [1, 1, 1]))
        self.assertEqual(decoded.store, RECORD)

    def test_no_iteration_and_not_found(self) -> None:
        """11.6."""
        decoded = petsivola.decode(CODE, petsivola.line("00000907000408030006020A"))
        self.assertEqual((decoded.found, decoded.iterations, decoded.symbols, decoded.store), (True, 0, bytes(3), b""))
        decoded = petsivola.decode(CODE, petsivola.line("050005050000000000000000"))
        self.assertEqual((decoded.found, decoded.iterations, decoded.symbols.hex()), (False, 1, "010000"))

    def test_two_iterations(self) -> None:
        """11.8, and the store taken apart."""
        code = petsivola.line("020004020C040300000100010200020303000101000201000302")
        decoded = petsivola.decode(code, petsivola.line("02080800FF0802000008FF000800C800"))
        self.assertEqual((decoded.found, decoded.iterations, decoded.symbols.hex()), (True, 2, "03020001"))
        expected = ["0303000200060206000204ff00020006ff00", "020103020009ff000200080205000203ff00"]
        self.assertEqual([record.hex() for record in petsivola.records(code, decoded.store)], expected)

    def test_early(self) -> None:
        """11.21, with the store cut after the last check that was updated."""
        zero, one, two = "", "0300010108FF00020003FF00060007FF00", "0100010006FF0002010BFF0008000AFF00"
        first, second = "0100040105FF00030107FF00080109FF00", "010005000AFF00050107FF00090012FF00"
        for limit, frame, found, updates, symbols, margins, store in [
            (1, [0, 8, 1, 1, 0, 4, 5, 0, 0, 1, 8, 5], True, 0, "000000", [1, 0, 1], zero),
            (1, [0, 8, 2, 6, 7, 3, 1, 0, 7, 2, 1, 0], True, 1, "020203", [3, 3, 1], one),
            (1, [0, 5, 7, 9, 4, 0, 8, 3, 6, 2, 0, 10], False, 2, "000102", [1, 5, 5], first + two),
            (2, [0, 5, 7, 9, 4, 0, 8, 3, 6, 2, 0, 10], True, 3, "010102", [5, 5, 5], second + two),
        ]:
            code = petsivola.CodeLine(2, 3, [[(0, 1), (1, 1)], [(1, 1), (2, 3)]], 16, limit)
            early = petsivola.decode_early(code, frame)
            self.assertEqual((early.found, early.updates, early.symbols.hex()), (found, updates, symbols))
            self.assertEqual((early.margins.tolist(), early.store), (margins, bytes.fromhex(store)))
            self.assertEqual(len(petsivola.records(code, early.store)), min(updates, 2))

    def test_early_finds_more(self) -> None:
        code = petsivola.CodeLine(2, 2, [[(0, 1), (1, 1)], [(0, 1), (1, 2)]], 16, 2)
        frame = [0, 0, 3, 8, 4, 0, 1, 0]
        self.assertEqual(petsivola.decode_early(code, frame).updates, 3)
        self.assertFalse(petsivola.decode(code, frame).found)

    def test_channels(self) -> None:
        """11.16."""
        served = petsivola.channels(CODE, [[1] * 12, [0, 5, 7, 9, 0, 4, 8, 3, 0, 6, 2, 9], FRAME, FRAME], 1)
        self.assertEqual((served.spent, [c.status for c in served.channels]), (1, [13, 0, 0, 20]))
        self.assertEqual([c.iterations for c in served.channels], [0, 0, 1, 0])
        self.assertEqual([c.symbols.hex() for c in served.channels], ["", "000000", "010100", "010000"])
        self.assertEqual([c.margins.tolist() for c in served.channels], [[], [5, 3, 2], [1, 1, 1], [5, 3, 2]])
        self.assertEqual([c.store for c in served.channels], [b"", b"", RECORD, b""])
        self.assertEqual(served.channels[2].costs.tolist(), COSTS)

    def test_channels_in_turn(self) -> None:
        frame = [255, 0, 255, 4, 255, 0, 2, 9, 6, 255, 0, 255, 255, 0, 29, 21]
        checks = [[(0, 1), (1, 2), (2, 2)], [(1, 1), (2, 2), (3, 3)]]
        for limit, allowance, spent, expected in [(2, 3, 3, [(0, 2), (20, 1)]), (1, 3, 2, [(1, 1)] * 2),
                                                  (2, None, 4, [(0, 2)] * 2)]:
            served = petsivola.channels(petsivola.CodeLine(2, 4, checks, 10, limit), [frame] * 2, allowance)
            self.assertEqual(served.spent, spent)
            self.assertEqual([(c.status, c.iterations) for c in served.channels], expected)


class RegisterWindow(unittest.TestCase):
    def test_writes(self) -> None:
        """11.14."""
        window = Window(CODE, FRAME)
        steps = [
            (Window.MASK, 1, [0, 0, 0, 1, 0], [0, 0, 0], [0, 0, 0], False),
            (Window.COMMAND, 1, [1, 0, 0, 1, 0], [1, 0, 0], [5, 3, 2], False),
            (Window.COMMAND, 2, [2, 0, 1, 1, 1], [1, 1, 0], [1, 1, 1], True),
            (Window.COMMAND, 3, [2, 0, 1, 1, 0], [1, 1, 0], [1, 1, 1], False),
        ]
        for address, value, registers, symbols, margins, interrupt in steps:
            window.write(address, value)
            self.assertEqual(list(window.registers), registers)
            self.assertEqual((list(window.symbols), list(window.margins)), (symbols, margins))
            self.assertEqual(window.interrupt, interrupt)
            self.assertEqual([window.read(address) for address in range(7)], [0, *registers, 0])
        self.assertEqual((window.costs.tolist(), bytes(window.store)), (COSTS, RECORD))

    def test_ignored_writes(self) -> None:
        window = Window(CODE, FRAME)
        for address, value in [(0, 2), (0, 4), (0, 255), (1, 1), (2, 9), (3, 9), (5, 3), (6, 1)]:
            window.write(address, value)
            self.assertEqual(window.registers, bytes(5))

    def test_commands(self) -> None:
        window = Window(CODE, FRAME)
        self.assertIs(window.state, State.IDLE)
        self.assertIs(window.load(), State.RUNNING)
        self.assertIs(window.iterate(), State.FOUND)
        self.assertEqual((window.iterations, window.read(Window.PENDING)), (1, Window.RESULT_BIT))
        window.clear()
        self.assertEqual(window.read(Window.PENDING), 0)
        kept = window.registers
        window.lend(CODE, FRAME)
        window.registers = kept
        self.assertIs(window.state, State.FOUND)


def load_tests(loader: unittest.TestLoader, tests: unittest.TestSuite, pattern: object) -> unittest.TestSuite:
    """The module's example is a test too."""
    tests.addTests(doctest.DocTestSuite(petsivola))
    return tests


if __name__ == "__main__":
    unittest.main()
