"""tools/report_table: the table of the example's report, and what is refused."""
import os
import subprocess
import sys
import unittest

from running import NETWORK, REPORT, TOOLS, ToolTest, report_lines

HEAD = (
    "event,outcome,origin_time,node,x_km,y_km,z_km,score,rms_s,used_picks,skipped_picks,"
    "near_nodes,near_x_km,near_y_km,near_z_km,boxes_met,cover_boxes\n"
)
TABLE = HEAD + """\
1,LOCATED,1994-02-17 22:16:43.999970,585,12.000000,10.000000,8.000000,114460714598400,0.026647,20,0,1,{0},112,101
2,LOCATED,1994-02-17 22:41:03.240045,331,6.000000,16.000000,4.000000,153409822392320,0.027264,23,1,1,{0},98,88
3,LOCATED,1994-02-17 23:05:59.100013,838,18.000000,4.000000,10.000000,56818116853760,0.022361,14,0,1,{0},144,129
4,FEW,,,,,,,,2,0,,,,,,
5,NOFIT,,,,,,,,4,0,,,,,32,32
"""
CONTROL = "LOCFILES a NLLOC_OBS time/a loc/a\nLOCMETH EDT 0 2 -1 -1 1.73\n%s"
GRID = "LOCGRID 3 2 2 -1.0 0.5 0.0 0.5 1.0 2.0\n"
# nodes 0 and 11 are the outermost on all axes
SMALL = """\
EDTLOC 1 EVENTS 3 PASSED 0 0
EVENT 1 PICKS 0 SKIPPED 1
SKIP 7 AAA P NOGRID
HYPOCENTRE 0 0 0 -1000000 500000 0
ORIGIN 1999-12-31 23:59:59.999999
RMS 5
MET 1
LANES 3 EVENTS 4 LOST 1
CERT LOCATED
BEST 0 9
NEAR 2
0 9
11 8
COVER 1
0 3 0 2 0 2 9
END
EVENT 2 PICKS 0 SKIPPED 0
LANES 2 EVENTS 0 LOST 0
CERT BUDGET
END
EVENT 3 PICKS 1 SKIPPED 0
PICK AAA P -5 1000 -
CERT NEARLIMIT
END
"""


class ReportTable(ToolTest):
    """Runs of the tool over the example's report, and over changed copies of it."""

    def table(self, *words):
        """Runs the tool."""
        return self.run_tool("report_table", *words)

    def test_the_example(self):
        self.assertEqual(self.table(REPORT), (0, TABLE.format(",,"), ""))
        status = self.run_tool("report_table", "--control", "network.in", REPORT, folder=NETWORK)
        self.assertEqual(status, (0, TABLE.format("0.000000,0.000000,0.000000"), ""))

    def test_reaches_and_outcomes(self):
        report = self.write("small.report", SMALL)
        control = self.write("small.in", CONTROL % "INCLUDE grid.in\n")
        self.write("grid.in", "# the grid\n" + GRID)
        rows = (
            "1,LOCATED,1999-12-31 23:59:59.999999,0,-1.000000,0.500000,0.000000,9,0.000005,0,1,2,1.000000,1.000000,2.000000,1,1\n"
            "2,BUDGET,,,,,,,,0,0,,,,,,\n3,NEARLIMIT,,,,,,,,1,0,,,,,,\n"
        )
        self.assertEqual(self.table("--control", control, report), (0, HEAD + rows, ""))

    def test_a_report_without_events(self):
        self.assertEqual(self.table(self.write("none", "EDTLOC 1 EVENTS 0 PASSED 0 0\n")), (0, HEAD, ""))

    def test_lines_refused(self):
        table = [
            (1, "EDTLOC 2 EVENTS 5 PASSED 2 0", "isn't a line of the form EDTLOC"),
            (2, "EVENT 2 PICKS 20 SKIPPED 0", "event 2 stands in place of event 1"),
            (2, "EVENT 1 PICKS 19 SKIPPED 0", "line 22: isn't a line of the form HYPOCENTRE or MET or LANES or CERT"),
            (2, "EVENT 1 PICKS 21 SKIPPED 0", "line 23: isn't a line of the form PICK"),
            (3, "PICK ST01  P 761523406590000 1000 -39926", "isn't a line of the form PICK"),
            (3, "PICK ST01 P 0761523406590000 1000 -39926", "isn't a line of the form PICK"),
            (3, "PICK ST\u00e9 P 761523406590000 1000 -39926", "isn't a line of the form PICK"),
            (3, "P" * 5000, "no line of a report has so many bytes"),
            (23, "HYPOCENTRE 6 5 4 12.0 10.0 8.0", "isn't a line of the form HYPOCENTRE or MET or LANES or CERT"),
            (24, "ORIGIN 1994-02-17T22:16:43.999970", "isn't a line of the form ORIGIN"),
            (27, "CERT FEW", "FEW doesn't follow HYPOCENTRE"),
            (29, "NEAR 2", "line 31: isn't a line of the form near node"),
            (31, "COVER 100", "line 132: isn't a line of the form END"),
            (32, "3 0 0 3 0 3 54916140892160", "a box without nodes"),
            (133, "", "isn't a line of the form END"),
            (158, "SKIP 45 ST12 S WHY", "isn't a line of the form SKIP"),
            (421, "CERT NOFIT", "NOFIT doesn't follow CERT"),
            (421, "LANES 2 EVENTS 0 LOST 0\nCERT FEW", "line 422: FEW doesn't follow LANES"),
            (421, "LANES 2 EVENTS 0\nCERT BUDGET", "isn't a line of the form HYPOCENTRE or MET or LANES or CERT"),
        ]
        for number, line, cause in table:
            with self.subTest(line):
                lines = report_lines()
                lines[number - 1] = line
                path = self.write("bad.report", "\n".join(lines) + "\n")
                where = cause if cause.startswith("line") else "line %d: %s" % (number, cause)
                self.assertEqual(self.table(path), (1, "", "report_table: bad.report %s\n" % where))

    def test_an_end_too_early_or_too_late(self):
        lines = report_lines()
        early = self.write("early", "\n".join(lines[:100]) + "\n")
        self.assertEqual(self.table(early), (1, "", "report_table: early line 101: the report ends before box\n"))
        late = self.write("late", "\n".join(lines + ["END"]) + "\n")
        self.assertEqual(self.table(late), (1, "", "report_table: late line 457: a line after the last event\n"))
        self.assertEqual(self.table(self.path("no")), (1, "", "report_table: no: No such file or directory\n"))

    def test_another_grid(self):
        table = [
            ("LOCGRID 13 13 7 0 0 0 2 2 1", "line 23: the hypocentre is no node of LOCGRID in other.in"),
            ("LOCGRID 13 13 4 0 0 0 2 2 2", "line 23: the hypocentre is no node of LOCGRID in other.in"),
            ("LOCGRID 13 14 7 0 0 0 2 2 2", "line 28: node 585 isn't the hypocentre"),
            ("LOCGRID 12 13 7 0 0 0 2 2 2", "line 125: a box past LOCGRID in other.in"),
        ]
        for grid, cause in table:
            control = self.write("other.in", CONTROL % grid)
            status, out, error = self.table("--control", control, REPORT)
            self.assertEqual((status, out), (1, ""))
            self.assertTrue(error.endswith("network.report %s\n" % cause), error)

    def test_controls_refused(self):
        table = [
            ("", "a.in: has no LOCGRID"),
            (GRID + GRID, "a.in line 4: another LOCGRID"),
            ("LOCGRID 3 2 2", "a.in line 3: LOCGRID has fewer than 9 words"),
            (GRID.replace("0.5", "half", 1), "a.in line 3: a word of LOCGRID isn't a number that is read: half"),
            (GRID.replace("3", "0", 1), "a.in line 3: LOCGRID has an axis without nodes or without spacing"),
            ("INCLUDE b.in", "b.in: No such file or directory"),
            ("INCLUDE a.in", "a.in line 1: another LOCFILES"),
            ("#" + "x" * 4096, "a.in line 3: has more than 4096 bytes"),
        ]
        for more, cause in table:
            with self.subTest(cause):
                self.write("a.in", CONTROL % more)
                self.assertEqual(self.table("--control", "a.in", REPORT), (1, "", "report_table: %s\n" % cause))

    def test_as_a_program(self):
        tool = os.path.join(TOOLS, "report_table")
        run = subprocess.run([sys.executable, "-B", tool, self.path("no")], capture_output=True, check=False)
        self.assertEqual((run.returncode, run.stdout), (1, b""))
        # a reader that has gone is no fault that is told
        shell = '"%s" -B "%s" "%s" | head -c 0' % (sys.executable, tool, REPORT)
        run = subprocess.run(["bash", "-c", shell], capture_output=True, check=False)
        self.assertEqual((run.stdout, run.stderr), (b"", b""))


if __name__ == "__main__":
    unittest.main()
