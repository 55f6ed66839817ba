"""tools/check-sheet tells a due answer of the office's program from another, and makes the books that it says."""
import unittest

from loading import tool

check = tool("check-sheet")

RECORDS = [(7, 100, 0, 0), (8, 12, 1, 5)]
SHEET = (
    b"         7                  100 running        0\n"
    b"         8                   12 failed         5\n"
    b"TOTAL                       112                 \n"
)


class Due(unittest.TestCase):
    def test_sheets(self):
        length = len(SHEET) + 10
        due = (length, 0, len(SHEET), check.digest(SHEET, length))
        self.assertTrue(check.is_due((SHEET, b""), *due))
        for said in (
            (SHEET.replace(b"112", b"113"), b""),
            (SHEET + b"\n", b""),
            (SHEET[:-1], b""),
            (b"", b""),
            (SHEET, b"a message\n"),
        ):
            self.assertFalse(check.is_due(said, *due), said)

    def test_refusals(self):
        kept = check.digest(b"", 20)
        bad = (b"", check.BAD.format(3).encode())
        over = (b"", check.OVER.encode())
        self.assertTrue(check.is_due(bad, 20, 14, 3, kept))
        self.assertTrue(check.is_due(over, 20, 15, 0, kept))
        self.assertTrue(check.is_due((SHEET, b""), 20, 1, 0, kept))
        for said, number, value, output in (
            (bad, 14, 2, kept),
            (bad, 15, 0, kept),
            (bad, 14, 3, kept + 1),
            (over, 14, 0, kept),
            (over, 15, 1, kept),
            ((SHEET, bad[1]), 14, 3, kept),
            (bad, 1, 0, kept),
            ((SHEET, b""), 1, 1, kept),
        ):
            self.assertFalse(check.is_due(said, 20, number, value, output), (said, number, value))

    def test_an_output_that_has_room_is_no_refusal(self):
        length = len(SHEET)
        self.assertFalse(check.is_due((SHEET, b""), length, 1, 0, check.digest(b"", length)))


class Made(unittest.TestCase):
    def test_sheet_and_book(self):
        self.assertEqual(check.sheet_of(RECORDS), SHEET)
        self.assertEqual(check.book_of(RECORDS), bytes([7, 100, 0, 0, 8, 12, 1, 5]))
        self.assertEqual(check.number(300), bytes([0xAC, 0x02]))
        self.assertEqual(check.number(2**64 - 1), bytes([0xFF] * 9 + [0x01]))

    def test_books_of_a_size(self):
        for size in (65_535, 65_536, 65_537):
            records = check.filled(size)
            lots = [lot for lot, _, _, _ in records]
            self.assertEqual(len(check.book_of(records)), size)
            self.assertEqual(lots, sorted(set(lots)))
            self.assertLess(sum(taken for _, taken, _, _ in records), 2**64)
            self.assertGreater(len(records), 13_000)

    def test_stored_cases(self):
        text = "# head\n# group a\ns 60 : 7 0 = 14 0 5\n# wrong b\ns 0 : = 1 0 1\n"
        due = [("a", bytes([7, 0]), [60, 14, 0, 5], True), ("b", b"", [0, 1, 0, 1], False)]
        self.assertEqual(list(check.stored(text)), due)


if __name__ == "__main__":
    unittest.main()
