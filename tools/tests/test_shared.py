"""tools/edt_tools: decimals as docs/FORMATS.md reads them, and new files that replace nothing."""
import os
import sys
import unittest

from running import TOOLS, ToolTest

if TOOLS not in sys.path:
    sys.path.insert(0, TOOLS)

from edt_tools.new_files import NewFile, write_new
from edt_tools.words import Refusal, as_decimal, lines_of, millionths, whole_number, words_of


class Words(unittest.TestCase):
    """Words and numbers."""

    def test_decimals(self):
        table = [
            ("0", 0), ("-0", 0), ("1", 1000000), ("+.5", 500000), ("5.", 5000000), ("1.50e+1", 15000000), ("-2E-3", -2000),
            ("0.0000005", 1), ("-0.0000005", -1), ("0.00000049", 0), ("1e-30", 0), ("1e-31", None), ("0e31", None),
            ("999999999.999999", 999999999999999), ("1000000000", None), ("999999999.9999995", None),
            ("0" * 29 + "1", 1000000), ("0" * 30 + "1", None),
            ("", None), (".", None), ("+", None), ("e5", None), ("1e", None), ("1.2.3", None), ("0x1", None), ("nan", None),
            ("1_0", None), ("\u0661", None), ("--1", None),
        ]
        for word, value in table:
            with self.subTest(word):
                self.assertEqual(millionths(word), value)

    def test_whole_numbers(self):
        for word, value in ("4", 4), ("4.0", 4), ("40e-1", 4), ("4.5", None), ("-1", -1), ("x", None), ("4.0000004", 4):
            self.assertEqual(whole_number(word), value, word)

    def test_lines_and_words(self):
        self.assertEqual(lines_of(b"a\n\nb\n"), [b"a", b"", b"b"])
        self.assertEqual(lines_of(b""), [])
        self.assertEqual(words_of(b"\t a\x0b\x0cb\r"), ["a", "b"])

    def test_as_decimal(self):
        for value, word in (0, "0.000000"), (-1, "-0.000001"), (-1500000, "-1.500000"), (12000000, "12.000000"):
            self.assertEqual(as_decimal(value), word)


class NewFiles(ToolTest):
    """What is at a path before and after a new file."""

    def test_a_whole_file(self):
        write_new(self.path("a"), b"text")
        self.assertEqual((os.listdir(self.folder), self.read("a")), (["a"], b"text"))

    def test_a_file_that_comes_meanwhile_stays(self):
        file = NewFile(self.path("a"))
        file.write(b"new")
        file.close()
        self.write("a", "old")
        with self.assertRaisesRegex(Refusal, "is there already"):
            file.publish()
        file.withdraw()
        file.discard()
        self.assertEqual((os.listdir(self.folder), self.read("a")), (["a"], b"old"))

    def test_a_broken_link_is_there(self):
        os.symlink(self.path("nothing"), self.path("a"))
        with self.assertRaisesRegex(Refusal, "is there already"):
            write_new(self.path("a"), b"text")
        self.assertEqual(os.listdir(self.folder), ["a"])

    def test_what_is_withdrawn_is_gone(self):
        file = NewFile(self.path("a"))
        file.write(b"new")
        self.assertEqual([name for name in os.listdir(self.folder) if not name.startswith(".")], [])
        file.close()
        file.publish()
        file.withdraw()
        file.discard()
        self.assertEqual(os.listdir(self.folder), [])


if __name__ == "__main__":
    unittest.main()
