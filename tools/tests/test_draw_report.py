"""tools/draw_report: the main numbers of the pictures of the example, and what is refused."""
import os
import shutil
import unittest
import xml.etree.ElementTree as ElementTree

from running import NETWORK, REPORT, TOP, ToolTest, report_lines

SVG = "{http://www.w3.org/2000/svg}"
# places in km and in the grid, of events 1 to 3
HYPOCENTRES = {1: (12, 10, 8), 2: (6, 16, 4), 3: (18, 4, 10)}
AXES = {"map": (0, 1), "x-z": (0, 2), "y-z": (1, 2)}
# the picture has 10 pixels for a km; x and y run from -1 to 25 km, z from -1 to 13 km
SCALE, LOW, HIGH = 10, -1, (25, 25, 13)


def boxes_of(event):
    """The boxes of the cover of an event of the example."""
    lines = report_lines()
    start = next(k for k, line in enumerate(lines) if line.startswith("EVENT %d " % event))
    start = next(k for k in range(start, len(lines)) if lines[k].startswith("COVER "))
    return [list(map(int, line.split())) for line in lines[start + 1 : start + 1 + int(lines[start].split()[1])]]


def section(picture, name):
    """A section of a picture."""
    return next(part for part in picture.iter(SVG + "g") if part.get("id") == name)


def corner(part):
    """Left, top, width and height of a section's frame."""
    frame = next(r for r in part.findall(SVG + "rect") if r.get("class") == "frame")
    return [float(frame.get(key)) for key in ("x", "y", "width", "height")]


def middle(polygon):
    """The middle of a star's or a triangle's points."""
    points = [tuple(map(float, point.split(","))) for point in polygon.get("points").split()]
    return [sum(c) / len(points) for c in zip(*points)]


def expected_place(part, name, place):
    """Where a place in km is in a section."""
    (left, top, _, _), (right, other) = corner(part), AXES[name]
    y = HIGH[1] - place[1] if other == 1 else place[2] - LOW
    return left + SCALE * (place[right] - LOW), top + SCALE * y


class DrawReport(ToolTest):
    """Runs of the tool over the example, and over changed copies of it."""

    def draw(self, *words, folder=NETWORK):
        """Runs the tool, with pictures into the test's folder."""
        return self.run_tool("draw_report", *words, "--into", self.path("pictures"), folder=folder)

    def picture(self, number):
        """The picture of an event."""
        return ElementTree.fromstring(self.read("pictures", "event_%d.svg" % number))

    def test_the_example(self):
        self.assertEqual(self.draw("network.in", REPORT), (0, "", ""))
        self.assertEqual(sorted(os.listdir(self.path("pictures"))), ["event_%d.svg" % k for k in (1, 2, 3)])
        titles = [self.picture(k).find(SVG + "title").text for k in (1, 2, 3)]
        self.assertEqual(titles[0], "Event 1   1994-02-17 22:16:43.999970   score 114460714598400")
        self.assertEqual(titles[1], "Event 2   1994-02-17 22:41:03.240045   score 153409822392320")
        self.assertEqual(titles[2], "Event 3   1994-02-17 23:05:59.100013   score 56818116853760")
        for number, place in HYPOCENTRES.items():
            for name in AXES:
                with self.subTest((number, name)):
                    self.check_section(number, place, name)

    def check_section(self, number, place, name):
        """Boxes, hypocentre, near nodes and stations of a section."""
        part = section(self.picture(number), name)
        left, top, width, height = corner(part)
        across = 3 - sum(AXES[name])
        self.assertEqual((width, height), tuple(SCALE * (HIGH[axis] - LOW) for axis in AXES[name]))
        cut = [box for box in boxes_of(number) if box[2 * across] <= place[across] // 2 < box[2 * across + 1]]
        drawn = part.find(SVG + "g").findall(SVG + "rect")
        self.assertEqual(len(drawn), len(cut))
        numbers = [[float(box.get(key)) for key in ("x", "y", "width", "height")] for box in drawn]
        self.assertAlmostEqual(sum(n[2] * n[3] for n in numbers), width * height)
        self.assertEqual((min(n[0] for n in numbers), min(n[1] for n in numbers)), (left, top))
        star = [p for p in part.findall(SVG + "polygon") if p.get("class") == "hypocentre"]
        self.assertEqual(len(star), 1)
        at = expected_place(part, name, place)
        self.assertTrue(all(abs(a - b) < 0.01 for a, b in zip(middle(star[0]), at)))
        dots = part.findall(SVG + "g")[1].findall(SVG + "circle")
        self.assertEqual([(float(dot.get("cx")), float(dot.get("cy"))) for dot in dots], [at])
        used = [p for p in part.findall(SVG + "polygon") if p.get("class") == "used"]
        self.assertEqual(len(used), {1: 12, 2: 12, 3: 7}[number])
        self.assertEqual([p.find(SVG + "title").text for p in used], ["ST%02d" % (k + 1) for k in range(len(used))])
        x, y = middle(used[0])
        expected = expected_place(part, name, (1, 2, 0))
        self.assertAlmostEqual(x, expected[0], delta=0.01)
        self.assertAlmostEqual(y, expected[1] + 2 / 3, delta=0.01)

    def test_ticks(self):
        self.draw("network.in", REPORT)
        part = section(self.picture(1), "x-z")
        left, top, _, height = corner(part)
        labels = part.findall(SVG + "text")
        across = [(t.text, float(t.get("x"))) for t in labels if float(t.get("y")) == top + height + 17]
        self.assertEqual(across, [(str(k), left + SCALE * (k + 1)) for k in (0, 5, 10, 15, 20, 25)])
        down = [(t.text, float(t.get("y"))) for t in labels if t.get("class") == "end"]
        self.assertEqual(down, [(str(k), top + SCALE * (k + 1) + 4) for k in (0, 5, 10)])
        self.assertEqual([t.text for t in labels[-2:]], ["x (km)", "z (km)"])

    def test_the_darkest_box_is_that_of_the_best_score(self):
        self.draw("network.in", REPORT)
        drawn = section(self.picture(1), "map").find(SVG + "g").findall(SVG + "rect")
        cut = [box for box in boxes_of(1) if box[4] <= 4 < box[5]]
        red = [int(box.get("fill")[1:3], 16) for box in drawn]
        self.assertEqual(red, [round(243 - 232 * box[6] / 114460714598400) for box in cut])

    def test_the_pictures_of_the_documents(self):
        self.draw("network.in", REPORT)
        for name in "event_1.svg", "event_3.svg":
            with open(os.path.join(TOP, "docs", "pictures", name), "rb") as file:
                self.assertEqual(file.read(), self.read("pictures", name), name)

    def test_nothing_is_overwritten(self):
        self.write("pictures/event_2.svg", "kept")
        line = "draw_report: event 2: pictures/event_2.svg: is there already\n"
        self.assertEqual(self.draw("network.in", REPORT), (1, "", line))
        self.assertEqual(self.read("pictures", "event_2.svg"), b"kept")
        self.assertEqual(len(os.listdir(self.path("pictures"))), 3)

    def test_stations_without_a_header_far_off_and_not_used(self):
        shutil.copytree(NETWORK, self.path("network"))
        os.unlink(self.path("network/time/net.P.ST01.time.hdr"))
        first = self.read("network/time/net.P.ST02.time.hdr").split(b"\n")[0]
        self.write("network/time/net.P.ST02.time.hdr", first + b"\nST02 100.0 1.0 0.0\n")
        self.write("network/time/net.P.ST03.time.hdr", first + b"\nST03 -3.0 1.0 -2.5\n")
        lines = report_lines()
        lines[1] = "EVENT 1 PICKS 19 SKIPPED 1"
        del lines[5]
        lines.insert(21, "SKIP 4 ST04 P WEIGHT0")
        lines = [line for line in lines[:21] if line != "PICK ST04 S 761523408343700 1000 -10007"] + lines[21:]
        lines[1] = "EVENT 1 PICKS 18 SKIPPED 1"
        report = self.write("changed.report", "\n".join(lines) + "\n")
        self.assertEqual(self.draw("network.in", report, folder=self.path("network")), (0, "", ""))
        picture = self.picture(1)
        signs = section(picture, "map").findall(SVG + "polygon")
        named = {kind: [p.find(SVG + "title").text for p in signs if p.get("class") == kind] for kind in ("used", "unused")}
        self.assertEqual(named, {"used": ["ST03"] + ["ST%02d" % k for k in range(5, 13)], "unused": ["ST04"]})
        self.assertEqual(section(picture, "legend").findall(SVG + "text")[-1].text, "stations far outside the grid, not shown: 1")
        # the frame reaches to ST03, two km past the grid's cells on x and 1.5 km on z
        _, _, width, height = corner(section(picture, "x-z"))
        self.assertAlmostEqual(width / height, 28 / 15.5, places=3)

    def test_refused(self):
        shutil.copytree(NETWORK, self.path("network"))
        header = self.write("network/time/net.P.ST05.time.hdr", "13 13 7\n")
        status = self.draw("network.in", REPORT, folder=self.path("network"))
        lines = ["draw_report: event %d: time/net.P.ST05.time.hdr line 2: a header has two lines or more\n" % k for k in (1, 2, 3)]
        self.assertEqual(status, (1, "", "".join(lines)))
        os.unlink(header)
        bad = report_lines()
        bad[256] = "EVENT 3"
        report = self.write("bad.report", "\n".join(bad) + "\n")
        line = "draw_report: bad.report line 257: isn't a line of the form EVENT\n"
        self.assertEqual(self.draw("network.in", report, folder=self.path("network")), (1, "", line))
        self.assertEqual(sorted(os.listdir(self.path("pictures"))), ["event_1.svg", "event_2.svg"])
        line = "draw_report: no.report: No such file or directory\n"
        self.assertEqual(self.draw("network.in", "no.report"), (1, "", line))
        self.assertEqual(self.draw("no.in", REPORT), (1, "", "draw_report: no.in: No such file or directory\n"))

    def test_grids_of_few_nodes_and_wide_ones(self):
        for nodes, extent, far in (((1, 1, 1), "1 1 1", 1), ((1, 1, 4096), "0.000001 1000 0.001", 4096), ((2, 3, 1), "10 0.1 5", 3)):
            control = "LOCFILES a NLLOC_OBS time/a loc/a\nLOCMETH EDT 0 2 -1 -1 0\nLOCGRID %d %d %d -5 0 3 %s\n"
            self.write("grid.in", control % (*nodes, extent))
            report = (
                "EDTLOC 1 EVENTS 1 PASSED 0 0\nEVENT 1 PICKS 0 SKIPPED 0\nHYPOCENTRE 0 0 0 -5000000 0 3000000\n"
                "ORIGIN 2000-01-01 00:00:00.000000\nRMS 0\nMET 1\nCERT LOCATED\nBEST 0 1\nNEAR 1\n0 1\nCOVER 1\n0 %d 0 %d 0 %d 1\nEND\n"
            )
            with self.subTest(extent):
                self.write("grid.report", report % nodes)
                shutil.rmtree(self.path("pictures"), ignore_errors=True)
                self.assertEqual(self.draw("grid.in", "grid.report", folder=self.folder), (0, "", ""))
                self.assertEqual(len(section(self.picture(1), "map").find(SVG + "g").findall(SVG + "rect")), 1)


if __name__ == "__main__":
    unittest.main()
