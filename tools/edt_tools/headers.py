"""Headers of time grids, by the rules of docs/FORMATS.md."""
import math

from .words import LONGEST_LINE, WORD, Refusal, lines_of, millionths, whole_number, words_of

MOST_BYTES = 65536
MOST_ON_AXIS = 4096
MOST_NODES = 16000000
TYPE_WORD = 10


class Header:
    """What a header says: nodes on the axes, first node, spacings and source in mm, and the type of its body."""

    def __init__(self, name, contents):
        self.name = name
        self.contents = contents
        self.lines = lines_of(contents)
        first, second = self.shaped_lines()
        if first[9] != "TIME":
            self.refuse(1, "the grid is of the kind %s, not TIME" % first[9])
        self.type = first[TYPE_WORD] if len(first) > TYPE_WORD else None
        self.nodes = [self.number(1, k, first[k], whole_number) for k in range(3)]
        self.origin = [self.number(1, k, first[k], millionths) for k in range(3, 6)]
        self.spacing = [self.number(1, k, first[k], millionths) for k in range(6, 9)]
        self.source = [self.number(2, k, second[k], millionths) for k in range(1, 4)]
        self.test_limits()

    def refuse(self, line, cause):
        """Refuses the header at a line."""
        raise Refusal("%s line %d: %s" % (self.name, line, cause))

    def shaped_lines(self):
        """The words of the first two lines."""
        if len(self.lines) < 2:
            self.refuse(len(self.lines) + 1, "a header has two lines or more")
        for k, least in ((0, 10), (1, 4)):
            if len(self.lines[k]) > LONGEST_LINE:
                self.refuse(k + 1, "the line has more than %d bytes" % LONGEST_LINE)
            if len(words_of(self.lines[k])) < least:
                self.refuse(k + 1, "the line has fewer than %d words" % least)
        return words_of(self.lines[0]), words_of(self.lines[1])

    def number(self, line, place, word, reading):
        """The number that a word is by a reading; the place counts from 0."""
        value = reading(word)
        if value is None:
            kind = "whole number" if reading is whole_number else "number"
            self.refuse(line, "word %d isn't a %s that is read: %s" % (place + 1, kind, word))
        return value

    def test_limits(self):
        """Refuses numbers out of their ranges."""
        if not all(1 <= n <= MOST_ON_AXIS for n in self.nodes):
            self.refuse(1, "a count of nodes isn't 1 to %d" % MOST_ON_AXIS)
        if math.prod(self.nodes) > MOST_NODES:
            self.refuse(1, "the nodes are more than %d" % MOST_NODES)
        if not all(1 <= d <= 10**9 for d in self.spacing):
            self.refuse(1, "a spacing isn't 0.000001 to 1000 km")
        if any(abs(c) > 10**10 for c in self.origin):
            self.refuse(1, "a coordinate passes 10,000 km")
        if any(abs(c) > 10**10 for c in self.source):
            self.refuse(2, "a coordinate passes 10,000 km")

    def with_type(self, word):
        """The bytes of the header with another type word, and all else as it is."""
        place = list(WORD.finditer(self.lines[0]))[TYPE_WORD]
        return self.contents[: place.start()] + word + self.contents[place.end() :]


def read_header(name):
    """The header of a file."""
    try:
        with open(name, "rb") as file:
            contents = file.read(MOST_BYTES + 1)
    except OSError as error:
        raise Refusal("%s: %s" % (name, error.strerror)) from error
    if len(contents) > MOST_BYTES:
        raise Refusal("%s: a header has at most %d bytes" % (name, MOST_BYTES))
    return Header(name, contents)
