"""tools/usec_from_float: what it writes, and what it refuses."""
import os
import struct
import subprocess
import sys
import unittest
from unittest import mock

from running import TOOLS, ToolTest, load

HEADER = b"2 1 2 0.0 0.0  0.0 1.0 1.0 1.0 TIME FLOAT more\r\nAAA 0.0 0.0 0.0\nTRANSFORM  NONE"
# 1/128 s is 7812.5 microseconds
SECONDS = [0.0, 1.0, 0.0078125, 2000.0]
WRITTEN = struct.pack("<4I", 0, 1000000, 7813, 2000000000)


class UsecFromFloat(ToolTest):
    """Runs of the tool over grids of a few nodes, and of several blocks."""

    def grid(self, name, header=HEADER, seconds=SECONDS, order="<", folder="old"):
        """Writes a grid of floats, and answers the path of its header."""
        self.write("%s/%s.time.buf" % (folder, name), struct.pack("%s%df" % (order, len(seconds)), *seconds))
        return self.write("%s/%s.time.hdr" % (folder, name), header)

    def convert(self, *words):
        """Runs the tool, with new grids into the test's folder."""
        return self.run_tool("usec_from_float", "--into", self.path("new"), *words)

    def assert_refused(self, words, lines):
        """The tool refuses these words with these lines, and the new folder is as it was."""
        before = os.listdir(self.path("new")) if os.path.exists(self.path("new")) else None
        self.assertEqual(self.convert(*words), (1, "", "".join("usec_from_float: %s\n" % line for line in lines)))
        after = os.listdir(self.path("new")) if os.path.exists(self.path("new")) else None
        self.assertEqual(after or [], before or [])

    def test_both_byte_orders(self):
        self.assertEqual(self.convert(self.grid("a.P.LOW", order="<")), (0, "", ""))
        self.assertEqual(self.convert("--big-endian", self.grid("a.P.HIGH", order=">")), (0, "", ""))
        for name in "a.P.LOW", "a.P.HIGH":
            self.assertEqual(self.read("new", name + ".time.usec"), WRITTEN)
            self.assertEqual(self.read("new", name + ".time.hdr"), HEADER.replace(b"FLOAT", b"USEC32"))
        self.assertEqual(len(os.listdir(self.path("new"))), 4)

    def test_a_grid_of_several_blocks(self):
        header = b"100 100 10 0 0 0 1 1 1 TIME FLOAT\nAAA 0 0 0\n"
        seconds = [k / 64 % 1000 for k in range(100000)]
        self.assertEqual(self.convert(self.grid("a.P.BIG", header, seconds)), (0, "", ""))
        expected = struct.pack("<100000I", *[15625 * (k % 64000) for k in range(100000)])
        self.assertEqual(self.read("new", "a.P.BIG.time.usec"), expected)

    def test_minus_zero_is_zero(self):
        self.assertEqual(self.convert(self.grid("a", seconds=[-0.0] * 4)), (0, "", ""))
        self.assertEqual(self.read("new", "a.time.usec"), bytes(16))

    def test_headers_refused(self):
        first, rest = HEADER.split(b"\r\n", 1)
        table = [
            (b"", "line 1: a header has two lines or more"),
            (first + b"\n", "line 2: a header has two lines or more"),
            (b"1 1 1 0 0 0 1 1 1\nAAA 0 0 0\n", "line 1: the line has fewer than 10 words"),
            (first + b"\nAAA 0 0\n", "line 2: the line has fewer than 4 words"),
            (b" " * 4097 + b"\n" + rest, "line 1: the line has more than 4096 bytes"),
            (HEADER.replace(b"TIME", b"TIME2D"), "line 1: the grid is of the kind TIME2D, not TIME"),
            (HEADER.replace(b"FLOAT", b"DOUBLE"), "line 1: the type is DOUBLE, not FLOAT"),
            (HEADER.replace(b"FLOAT", b"USEC32"), "line 1: the type is USEC32, not FLOAT"),
            (
                b"2 1 2 0 0 0 1 1 1 TIME\n" + rest,
                "line 1: the type is absent; add FLOAT where the body has 32-bit floats",
            ),
            (b"2.5" + HEADER[1:], "line 1: word 1 isn't a whole number that is read: 2.5"),
            (HEADER.replace(b" 1.0", b" 1,0", 1), "line 1: word 7 isn't a number that is read: 1,0"),
            (first + b"\nAAA 0 0 nan\n", "line 2: word 4 isn't a number that is read: nan"),
            (b"0" + HEADER[1:], "line 1: a count of nodes isn't 1 to 4096"),
            (b"4096 4096 1 0 0 0 1 1 1 TIME FLOAT\n" + rest, "line 1: the nodes are more than 16000000"),
            (HEADER.replace(b" 1.0", b" 0.0", 1), "line 1: a spacing isn't 0.000001 to 1000 km"),
            (HEADER.replace(b" 0.0", b" 1e5", 1), "line 1: a coordinate passes 10,000 km"),
        ]
        for header, cause in table:
            with self.subTest(cause):
                self.assert_refused([self.grid("a", header)], ["old/a.time.hdr " + cause])

    def test_times_refused(self):
        nan, infinity = float("nan"), float("inf")
        table = [
            (nan, "isn't a number"),
            (infinity, "is infinite"),
            (-infinity, "is negative: -inf s"),
            (-1e-30, "is negative: -1.0000000031710769e-30 s"),
            (2000.0001220703125, "is above 2,000 s: 2000.0001220703125 s"),
            (3e38, "is above 2,000 s: 3.0000000054977558e+38 s"),
        ]
        for seconds, fault in table:
            with self.subTest(fault):
                line = "old/a.time.buf node 2 (1 0 0): the time %s; is the byte order right?" % fault
                for last in 0.0, nan:
                    self.assert_refused([self.grid("a", seconds=[0.0, 1.0, seconds, last])], [line])

    def test_the_first_faulty_node_of_a_late_block(self):
        header = b"100 100 10 0 0 0 1 1 1 TIME FLOAT\nAAA 0 0 0\n"
        seconds = [1.0] * 100000
        seconds[70123] = seconds[70124] = -1.0
        line = "old/a.time.buf node 70123 (70 12 3): the time is negative: -1.0 s; is the byte order right?"
        self.assert_refused([self.grid("a", header, seconds)], [line])

    def test_another_length(self):
        for count in 3, 5:
            line = "old/a.time.buf: has %d bytes, and 4 for each of 4 nodes are 16" % (4 * count)
            self.assert_refused([self.grid("a", seconds=[1.0] * count)], [line])

    def test_what_is_not_there(self):
        os.makedirs(self.path("old"))
        self.assert_refused([self.path("old/b.time.hdr")], ["old/b.time.hdr: No such file or directory"])
        self.assert_refused([self.path("old/b.hdr")], ["old/b.hdr: its name doesn't end in .time.hdr"])
        self.write("old/c.time.hdr", HEADER)
        self.assert_refused([self.path("old/c.time.hdr")], ["old/c.time.buf: no such file"])

    def test_nothing_is_overwritten(self):
        for kept, ending in (b"kept header", "hdr"), (b"kept body", "usec"):
            name = "a.%s" % ending
            path = self.write("new/%s.time.%s" % (name, ending), kept)
            line = "new/%s.time.%s: is there already" % (name, ending)
            self.assert_refused([self.grid(name)], [line])
            with open(path, "rb") as file:
                self.assertEqual(file.read(), kept)
        header = self.grid("same")
        self.assertEqual(self.convert(header)[0], 0)
        self.assert_refused([header], ["new/same.time.hdr: is there already"])

    def test_a_refused_grid_stops_no_other(self):
        bad = self.grid("bad", seconds=[-1.0] * 4)
        good = self.grid("good")
        line = "usec_from_float: old/bad.time.buf node 0 (0 0 0): the time is negative: -1.0 s; is the byte order right?\n"
        self.assertEqual(self.convert(bad, good), (1, "", line))
        self.assertEqual(sorted(os.listdir(self.path("new"))), ["good.time.hdr", "good.time.usec"])

    def test_a_folder_that_can_not_be_made(self):
        self.write("new", "a file")
        self.assertEqual(self.convert(self.grid("a")), (1, "", "usec_from_float: new: File exists\n"))

    def test_a_header_that_comes_meanwhile(self):
        tool = load("usec_from_float")
        path = self.grid("a")
        for owner, name in (tool, "write_body"), (tool.NewFile, "publish"):
            plain = getattr(owner, name)

            def then_a_header(*words, plain=plain):
                """The plain function, after which somebody else writes a header."""
                plain(*words)
                self.write("new/a.time.hdr", "kept")

            with self.subTest(name), mock.patch.object(owner, name, then_a_header):
                status = self.convert(path)
                self.assertEqual(status, (1, "", "usec_from_float: new/a.time.hdr: is there already\n"))
                self.assertEqual(os.listdir(self.path("new")), ["a.time.hdr"])
                self.assertEqual(self.read("new", "a.time.hdr"), b"kept")
            os.unlink(self.path("new/a.time.hdr"))

    def test_progress_on_a_terminal(self):
        terminal = mock.Mock(isatty=lambda: True)
        with mock.patch.object(sys, "stderr", terminal):
            load("usec_from_float").show("half")
        terminal.write.assert_called_once_with("\r\x1b[Khalf")

    def test_as_a_program(self):
        tool = os.path.join(TOOLS, "usec_from_float")
        command = [sys.executable, "-B", tool, "--into", self.path("new"), self.grid("a")]
        for status in 0, 1:
            run = subprocess.run(command, capture_output=True, check=False)
            self.assertEqual((run.returncode, run.stdout, bool(run.stderr)), (status, b"", bool(status)))
        self.assertEqual(self.read("new", "a.time.usec"), WRITTEN)


if __name__ == "__main__":
    unittest.main()
