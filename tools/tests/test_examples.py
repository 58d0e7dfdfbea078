"""The runs that README.md and docs/FORMATS.md show, repeated where the programs stand built: what is shown of an output is in it, line by
line, with nothing between two lines but where the document has `...`. And the files of examples/ are what they say."""
import filecmp
import math
import os
import re
import struct
import subprocess
import sys
import tempfile
import unittest

from running import REPORT, TOOLS, TOP

if TOOLS not in sys.path:
    sys.path.insert(0, TOOLS)

from edt_tools.headers import read_header

STALE = 'name=$1; . "$0/tools/edt_tools/program.sh"; is_stale'


def are_built():
    """Whether both programs stand built, with no newer source."""
    return all(subprocess.run(["bash", "-c", STALE, TOP, name], check=False).returncode == 1 for name in ("edtloc", "edtcheck"))


def blocks(document):
    """The indented blocks of a document, each as its lines."""
    with open(os.path.join(TOP, document), encoding="utf-8") as file:
        found = re.findall(r"(?:^    .*\n)+", file.read(), re.M)
    return [[line[4:] for line in block.splitlines()] for block in found]


def shows(shown, lines):
    """Whether an output is what a block shows of it."""
    pattern = "".join(r"(?:.*\n)*?" if line == "..." else re.escape(line) + r"\n" for line in shown)
    return re.fullmatch(pattern, "".join(line + "\n" for line in lines)) is not None


class Showing(unittest.TestCase):
    """What counts as shown."""

    def test_shows(self):
        lines = ["a", "b", "c", "d"]
        for shown in ["a", "b", "c", "d"], ["a", "...", "d"], ["...", "c", "..."], ["a", "b", "..."], ["...", "d", "..."]:
            self.assertTrue(shows(shown, lines), shown)
        for shown in ["a", "b", "c"], ["b", "..."], ["a", "c", "..."], ["...", "c", "b", "..."], ["...", "x", "..."], ["...", "c"]:
            self.assertFalse(shows(shown, lines), shown)


class Files(unittest.TestCase):
    """The files of examples/, without any program."""

    def test_the_network_is_the_one_that_is_made(self):
        with tempfile.TemporaryDirectory() as folder:
            subprocess.run([sys.executable, "-B", os.path.join(TOOLS, "make_network"), folder], check=True)
            kept = os.path.join(TOP, "examples/network")
            made = [os.path.relpath(os.path.join(at, name), folder) for at, _, names in os.walk(folder) for name in names]
            self.assertEqual(len(made), 26)
            self.assertEqual(filecmp.cmpfiles(folder, kept, made, shallow=False)[1:], ([], []))

    def test_the_times_of_the_quarry(self):
        for station in "NORTH", "EAST", "SOUTH", "WEST":
            name = os.path.join(TOP, "examples/quarry/time/q.P.%s.time" % station)
            header = read_header(name + ".hdr")
            places = [(header.spacing[0] * ix, header.spacing[1] * iy) for ix in range(4) for iy in range(4)]
            # 6 km/s are 6 mm in a microsecond
            times = [round(math.dist(place, header.source[:2]) / 6) for place in places]
            with open(name + ".usec", "rb") as body:
                self.assertEqual(body.read(), struct.pack("<16I", *times), station)


@unittest.skipUnless(are_built(), "the programs aren't built")
class Examples(unittest.TestCase):
    """Runs of the built programs on the files of examples/."""

    def run_program(self, folder, program, *words):
        """What a program writes in a folder; it has to end with 0 and without a line to standard error."""
        command = [os.path.join(TOP, "tools", program), *words]
        run = subprocess.run(command, cwd=os.path.join(TOP, folder), capture_output=True, check=False, text=True)
        self.assertEqual((run.returncode, run.stderr), (0, ""), command)
        return run.stdout

    def block(self, document, first):
        """The lines of the block of a document that begins with these words."""
        found = [block for block in blocks(document) if block[0].startswith(first)]
        self.assertEqual(len(found), 1, "%s has %d blocks that begin with %s" % (document, len(found), first))
        return found[0]

    def assert_shown(self, document, first, text):
        """A block shows a text."""
        shown = self.block(document, first)
        self.assertTrue(shows(shown, text.splitlines()), "%s doesn't show what is written: %s ..\n%s" % (document, first, text[:1000]))

    def check(self, folder, control, text):
        """What edtcheck writes of a report."""
        with tempfile.NamedTemporaryFile("w", suffix=".report") as file:
            file.write(text)
            file.flush()
            return self.run_program(folder, "edtcheck", control, file.name)

    def test_words_that_are_not_utf_8_have_no_shape(self):
        for program, words in ("edtloc", [b"locate", b"\xff"]), ("edtcheck", [b"\xff", b"a.report"]):
            command = [os.path.join(TOP, "tools", program).encode(), *words]
            run = subprocess.run(command, capture_output=True, check=False)
            told = "%s: words\ntools/%s: `tools/%s help` shows the words that it takes\n" % (program, program, program)
            self.assertEqual((run.returncode, run.stdout, run.stderr.decode()), (2, b"", told), command)

    def test_readme(self):
        text = self.run_program("examples/quarry", "edtloc", "locate", "quarry.in")
        self.assert_shown("README.md", "EDTLOC 1 ", text)
        self.assert_shown("README.md", "CHECK 1 ", self.check("examples/quarry", "quarry.in", text))

    def test_formats(self):
        text = self.run_program("examples/network", "edtloc", "locate", "network.in")
        with open(REPORT) as file:
            self.assertEqual(text, file.read())
        head, *events = re.split(r"^(?=EVENT )", text, flags=re.M)
        self.assertEqual((len(head.splitlines()), len(events)), (1, 5))
        shown = self.block("docs/FORMATS.md", "EVENT 1 ")
        second = shown.index("EVENT 4 PICKS 2 SKIPPED 0")
        self.assertEqual(shown[second - 1], "...")
        self.assertTrue(shows(shown[: second - 1], events[0].splitlines()), shown)
        self.assertTrue(shows(shown[second:], events[3].splitlines()), shown)
        told = self.check("examples/network", "network.in", text)
        self.assertEqual([line.split()[2] for line in told.splitlines()], ["PROVED", "PROVED", "PROVED", "AGREED", "PROVED"])
        self.assertEqual(self.block("docs/FORMATS.md", "CHECK 1 "), told.splitlines()[:1])

    def test_files_of_formats(self):
        with open(os.path.join(TOP, "examples/network/network.in")) as file:
            self.assertEqual(self.block("docs/FORMATS.md", "CONTROL 1 "), file.read().splitlines()[1:])
        with tempfile.NamedTemporaryFile("w", suffix=".problem") as file:
            file.write("\n".join(self.block("docs/FORMATS.md", "EDTPROBLEM 1 ")) + "\n")
            file.flush()
            text = self.run_program("examples", "edtloc", "solve", file.name)
        self.assertEqual([text.strip()], self.block("docs/FORMATS.md", "BEST 0 "))
        self.assert_shown("docs/FORMATS.md", "DEMO 1 5 ", self.run_program("examples", "edtloc", "demo", "1", "5"))


if __name__ == "__main__":
    unittest.main()
