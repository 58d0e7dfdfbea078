"""Reports of `edtloc locate`, read event by event as docs/FORMATS.md has them."""
import re

from .words import LONGEST_LINE, Refusal

NUMBER = "(0|[1-9][0-9]*)"
SIGNED = "(0|-?[1-9][0-9]*)"
NAME = "([!-~]{1,64})"
REASON = "(EXCLUDED|WEIGHT0|ERRMAG|DUPLICATE|NOGRID|FAR|BEYONDMAX)"

FORMS = {
    "EDTLOC": "EDTLOC 1 EVENTS {n} PASSED {n} {n}",
    "EVENT": "EVENT {n} PICKS {n} SKIPPED {n}",
    "PICK": "PICK {name} {name} {s} {n} (-|0|-?[1-9][0-9]*)",
    "SKIP": "SKIP {n} {name} {name} {reason}",
    "HYPOCENTRE": "HYPOCENTRE {n} {n} {n} {s} {s} {s}",
    "ORIGIN": "ORIGIN ([0-9]{{4,}}-[0-9]{{2}}-[0-9]{{2}} [0-9]{{2}}:[0-9]{{2}}:[0-9]{{2}}\\.[0-9]{{6}})",
    "RMS": "RMS {n}",
    "MET": "MET {n}",
    "LANES": "LANES {n} EVENTS {n} LOST {n}",
    "CERT": "CERT (LOCATED|NOFIT|FEW|MANY|BUDGET|NEARLIMIT)",
    "BEST": "BEST {n} {n}",
    "NEAR": "NEAR {n}",
    "near node": "{n} {n}",
    "COVER": "COVER {n}",
    "box": "{n} {n} {n} {n} {n} {n} {n}",
    "END": "END",
}
FORMS = {
    kind: re.compile(form.format(n=NUMBER, s=SIGNED, name=NAME, reason=REASON)) for kind, form in FORMS.items()
}
BEGINS_RESULT = ("HYPOCENTRE", "MET", "LANES", "CERT")


class Event:
    """A block of a report. What it doesn't have is None; `boxes` are those that the reader was asked to keep."""

    def __init__(self, number):
        self.number = number
        self.picks = []
        self.skips = []
        self.outcome = None
        self.place = self.coordinates = self.origin = self.rms = self.met = None
        self.node = self.score = None
        self.near = []
        self.cover = None
        self.boxes = []
        self.line = None


class Report:
    """A report that is read line by line; a control file's grid is held against its nodes where one is given."""

    def __init__(self, name, file, control=None):
        self.name = name
        self.file = file
        self.control = control
        self.number = 0
        self.text = None

    def refuse(self, cause):
        """Refuses the report at the line that was read last."""
        raise Refusal("%s line %d: %s" % (self.name, self.number, cause))

    def advance(self):
        """Reads the next line; the text is None after the last."""
        self.number += 1
        line = self.file.readline(LONGEST_LINE + 1)
        if len(line) > LONGEST_LINE:
            self.refuse("no line of a report has so many bytes")
        self.text = line.decode("ascii", "replace").removesuffix("\n") if line else None

    def line(self, *kinds):
        """The kind and the words of the next line, which is of one of these kinds."""
        self.advance()
        if self.text is None:
            self.refuse("the report ends before %s" % " or ".join(kinds))
        for kind in kinds:
            match = FORMS[kind].fullmatch(self.text)
            if match:
                return kind, match.groups()
        return self.refuse("isn't a line of the form %s" % " or ".join(kinds))

    def numbers(self, kind):
        """The numbers of the next line, which is of this kind."""
        return [int(word) for word in self.line(kind)[1]]

    def events(self, keeps_box):
        """The events in turn; of a cover those boxes are kept that `keeps_box(event, box)` asks for."""
        count = self.numbers("EDTLOC")[0]
        for number in range(1, count + 1):
            told, used, skipped = self.numbers("EVENT")
            if told != number:
                self.refuse("event %d stands in place of event %d" % (told, number))
            event = Event(number)
            self.read_event(event, used, skipped, keeps_box)
            yield event
        self.advance()
        if self.text is not None:
            self.refuse("a line after the last event")

    def read_event(self, event, used, skipped, keeps_box):
        """Reads the lines of a block after its first."""
        event.picks = [self.line("PICK")[1] for _ in range(used)]
        event.skips = [self.line("SKIP")[1] for _ in range(skipped)]
        kind, words = self.line(*BEGINS_RESULT)
        first = kind
        if first == "HYPOCENTRE":
            self.read_hypocentre(event, [int(word) for word in words])
        elif first == "MET":
            event.met = int(words[0])
        if first in ("HYPOCENTRE", "MET"):
            kind, words = self.line("LANES", "CERT")
        if kind == "LANES":
            words = self.line("CERT")[1]
        event.outcome = words[0]
        expected = {"LOCATED": ["HYPOCENTRE"], "NOFIT": ["MET"], "FEW": ["CERT"], "MANY": ["CERT"]}
        if first not in expected.get(event.outcome, ["LANES", "CERT"]):
            self.refuse("%s doesn't follow %s" % (event.outcome, first))
        if event.outcome == "LOCATED":
            self.read_best(event)
        if event.outcome in ("LOCATED", "NOFIT"):
            self.read_cover(event, keeps_box)
        self.line("END")

    def read_hypocentre(self, event, numbers):
        """Takes the numbers of a hypocentre, and reads the lines up to `MET`."""
        event.place, event.coordinates, event.line = numbers[:3], numbers[3:], self.number
        grid = self.control
        if grid:
            expected = [o + i * d for o, i, d in zip(grid.origin, event.place, grid.spacing)]
            if any(i >= n for i, n in zip(event.place, grid.nodes)) or expected != event.coordinates:
                self.refuse("the hypocentre is no node of LOCGRID in %s" % grid.name)
        event.origin = self.line("ORIGIN")[1][0]
        event.rms = self.numbers("RMS")[0]
        event.met = self.numbers("MET")[0]

    def node(self, node):
        """A node's number, which is one of the grid's."""
        grid = self.control
        if grid and node >= grid.nodes[0] * grid.nodes[1] * grid.nodes[2]:
            self.refuse("LOCGRID in %s has no node %d" % (grid.name, node))
        return node

    def read_best(self, event):
        """Reads the best node and the near list."""
        best, event.score = self.numbers("BEST")
        event.node = self.node(best)
        if self.control and self.control.place_of(best) != event.place:
            self.refuse("node %d isn't the hypocentre" % best)
        for _ in range(self.numbers("NEAR")[0]):
            event.near.append(self.node(self.numbers("near node")[0]))

    def read_cover(self, event, keeps_box):
        """Reads a cover, and keeps the boxes that are asked for."""
        event.cover = self.numbers("COVER")[0]
        for _ in range(event.cover):
            box = self.numbers("box")
            if not (box[0] < box[1] and box[2] < box[3] and box[4] < box[5]):
                self.refuse("a box without nodes")
            if self.control and any(end > n for end, n in zip(box[1:6:2], self.control.nodes)):
                self.refuse("a box past LOCGRID in %s" % self.control.name)
            if keeps_box(event, box):
                event.boxes.append(box)
