"""What the tools need of a control file: the search grid, the root of the time grids, and VpVs."""
from .words import LONGEST_LINE, Refusal, lines_of, millionths, whole_number, words_of

MOST_BYTES = 1048576
LEAST_WORDS = {"LOCGRID": 9, "LOCFILES": 4, "LOCMETH": 6}


class Control:
    """The statements `LOCGRID`, `LOCFILES` and `LOCMETH` of a control file and of the files that it includes.

    `nodes`, `origin` and `spacing` are the search grid's, in mm; `root` is what the names of time grids begin with."""

    def __init__(self, name):
        self.name = name
        self.statements = {}
        self.read(name, True)
        for keyword in LEAST_WORDS:
            if keyword not in self.statements:
                raise Refusal("%s: has no %s" % (name, keyword))
        self.nodes = self.numbers("LOCGRID", 0, whole_number)
        self.origin = self.numbers("LOCGRID", 3, millionths)
        self.spacing = self.numbers("LOCGRID", 6, millionths)
        if min(self.nodes) < 1 or min(self.spacing) < 1:
            raise Refusal("%s: LOCGRID has an axis without nodes or without spacing" % self.statements["LOCGRID"][0])
        self.root = self.statements["LOCFILES"][1][2]
        self.ratio = self.numbers("LOCMETH", 5, millionths, 1)[0]

    def read(self, name, is_main):
        """Keeps the statements of a file, those of an included one in place of its `INCLUDE` line."""
        try:
            with open(name, "rb") as file:
                contents = file.read(MOST_BYTES + 1)
        except OSError as error:
            raise Refusal("%s: %s" % (name, error.strerror)) from error
        if len(contents) > MOST_BYTES:
            raise Refusal("%s: a control file has at most %d bytes" % (name, MOST_BYTES))
        for number, line in enumerate(lines_of(contents), 1):
            where = "%s line %d" % (name, number)
            if len(line) > LONGEST_LINE:
                raise Refusal("%s: has more than %d bytes" % (where, LONGEST_LINE))
            words = words_of(line)
            if words and words[0] == "INCLUDE":
                if not is_main or len(words) < 2:
                    raise Refusal("%s: an included file includes none, and INCLUDE names a file" % where)
                self.read(words[1], False)
            elif words and words[0] in LEAST_WORDS:
                self.keep(where, words[0], words[1:])

    def keep(self, where, keyword, words):
        """Keeps a statement with its place."""
        if keyword in self.statements:
            raise Refusal("%s: another %s" % (where, keyword))
        if len(words) < LEAST_WORDS[keyword]:
            raise Refusal("%s: %s has fewer than %d words" % (where, keyword, LEAST_WORDS[keyword]))
        self.statements[keyword] = (where, words)

    def numbers(self, keyword, first, reading, count=3):
        """Numbers of a statement from a word on, by a reading."""
        where, words = self.statements[keyword]
        values = [reading(word) for word in words[first : first + count]]
        if None in values:
            word = words[first + values.index(None)]
            raise Refusal("%s: a word of %s isn't a number that is read: %s" % (where, keyword, word))
        return values

    def place_of(self, node):
        """The place of a node on the three axes."""
        return [node // (self.nodes[1] * self.nodes[2]), node // self.nodes[2] % self.nodes[1], node % self.nodes[2]]

    def header_name(self, station, phase):
        """The name of the header that has the times of a station and a standard phase."""
        if phase == "S" and self.ratio > 0:
            phase = "P"
        return "%s.%s.%s.time.hdr" % (self.root, phase, station)
