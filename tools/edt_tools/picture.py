"""The picture of a located event: a map and two depth sections through its hypocentre, as SVG."""
import math
from xml.sax.saxutils import escape

from .words import as_decimal

PALE, DARK = (243, 246, 250), (11, 60, 111)
LEFT, TOP, GAP = 62, 64, 62
SPREAD = 520
LEAST_LEGEND = (250, 216)
MOST_LABELS = 40
AXES = "xyz"


def shade(bound, best):
    """The colour of a box: pale where its bound is 0, dark where it is the best score."""
    part = min(1.0, bound / best)
    return "#%02x%02x%02x" % tuple(round(p + part * (d - p)) for p, d in zip(PALE, DARK))


def step_of(length):
    """The distance of ticks on an axis of a length, in mm: 1, 2 or 5 times a power of ten, at most 7 on the axis."""
    power = 1
    while True:
        for digit in (1, 2, 5):
            if length <= 6 * digit * power:
                return digit * power
        power *= 10


def ticks(low, high, step):
    """The multiples of a step from low to high."""
    return range(-(-low // step) * step, high + 1, step)


def short(millimetres):
    """A length in km, without zeros at its end."""
    return as_decimal(millimetres).rstrip("0").rstrip(".")


def pixels(value):
    """A length in the picture."""
    return ("%.2f" % value).rstrip("0").rstrip(".")


def text(x, y, words, more=""):
    """A line of text."""
    return '<text x="%s" y="%s"%s>%s</text>' % (pixels(x), pixels(y), more, escape(words))


def polygon(points, kind, more=""):
    """A closed line through points, of a class; `more` is what stands in it."""
    line = " ".join("%s,%s" % (pixels(x), pixels(y)) for x, y in points)
    return '<polygon class="%s" points="%s">%s</polygon>' % (kind, line, more)


def star(x, y):
    """The sign of the hypocentre."""
    turns = [(math.pi * k / 5, 3.4 if k % 2 else 8) for k in range(10)]
    return polygon([(x + r * math.sin(a), y - r * math.cos(a)) for a, r in turns], "hypocentre")


def triangle(x, y, kind, name):
    """The sign of a station, whose name a pointer shows."""
    return polygon([(x, y - 5), (x + 4.5, y + 3.5), (x - 4.5, y + 3.5)], kind, "<title>%s</title>" % escape(name))


class Frame:
    """The part of space that a picture shows: the cells of the search grid, and stations up to a quarter of its width off it."""

    def __init__(self, grid, stations):
        self.low = [o - d // 2 for o, d in zip(grid.origin, grid.spacing)]
        self.high = [o + (n - 1) * d + d // 2 for o, n, d in zip(grid.origin, grid.nodes, grid.spacing)]
        self.high = [max(high, low + 1) for low, high in zip(self.low, self.high)]
        most = max(self.high[0] - self.low[0], self.high[1] - self.low[1]) // 4
        low, high = list(self.low), list(self.high)
        self.stations, self.count_outside = [], 0
        for station in stations:
            place = station[1]
            if all(l - most <= c <= h + most for l, c, h in zip(self.low, place, self.high)):
                self.stations.append(station)
                low = [min(l, c) for l, c in zip(low, place)]
                high = [max(h, c) for h, c in zip(high, place)]
            else:
                self.count_outside += 1
        self.low, self.high = low, high
        x, y, z = [h - l for l, h in zip(low, high)]
        self.step = step_of(max(x, y, z))
        self.scale = min(SPREAD / (x + y), SPREAD / (y + z))

    def length(self, axis):
        """The length of an axis in the picture."""
        return self.scale * (self.high[axis] - self.low[axis])


class Section:
    """One of the three sections: the axis to the right, the axis upwards or downwards, and the corner in the picture."""

    def __init__(self, name, frame, right, other, corner):
        self.name, self.frame, self.right, self.other, self.corner = name, frame, right, other, corner
        self.across = 3 - right - other
        self.is_upward = other == 1

    def x(self, value):
        """Where a coordinate of the axis to the right is."""
        return self.corner[0] + self.frame.scale * (value - self.frame.low[self.right])

    def y(self, value):
        """Where a coordinate of the other axis is."""
        low, high = self.frame.low[self.other], self.frame.high[self.other]
        return self.corner[1] + self.frame.scale * (high - value if self.is_upward else value - low)

    def at(self, place):
        """Where a place in mm is."""
        return self.x(place[self.right]), self.y(place[self.other])

    def boxes(self, event, grid):
        """The boxes that the plane through the hypocentre cuts."""
        drawn = []
        for box in event.boxes:
            if not box[2 * self.across] <= event.place[self.across] < box[2 * self.across + 1]:
                continue
            # the cell of a node reaches half a spacing to both sides
            low, high = [], []
            for axis in (self.right, self.other):
                start = 2 * grid.origin[axis] - grid.spacing[axis]
                low.append((start + 2 * box[2 * axis] * grid.spacing[axis]) / 2)
                high.append((start + 2 * box[2 * axis + 1] * grid.spacing[axis]) / 2)
            left, right = self.x(low[0]), self.x(high[0])
            top, bottom = sorted((self.y(low[1]), self.y(high[1])))
            drawn.append(
                '<rect x="%s" y="%s" width="%s" height="%s" fill="%s"/>'
                % (*map(pixels, (left, top, right - left, bottom - top)), shade(box[6], event.score))
            )
        return '<g class="boxes" stroke="#ffffff" stroke-width="0.5">%s</g>' % "".join(drawn)

    def near_nodes(self, event, grid):
        """The near nodes, each place of the section once."""
        places = map(grid.place_of, event.near)
        seen = sorted({(place[self.right], place[self.other]) for place in places})
        radius = max(1, min(2.5, 0.3 * self.frame.scale * min(grid.spacing[self.right], grid.spacing[self.other])))
        drawn = ""
        for i, k in seen:
            x = self.x(grid.origin[self.right] + i * grid.spacing[self.right])
            y = self.y(grid.origin[self.other] + k * grid.spacing[self.other])
            drawn += '<circle cx="%s" cy="%s" r="%s"/>' % (pixels(x), pixels(y), pixels(radius))
        return '<g class="near" fill="#ffb000" stroke="#402a00" stroke-width="0.5">%s</g>' % drawn

    def stations(self):
        """The stations, with their names in a map of few."""
        drawn = ""
        for name, place, is_used in self.frame.stations:
            x, y = self.at(place)
            drawn += triangle(x, y, "used" if is_used else "unused", name)
            if self.is_upward and len(self.frame.stations) <= MOST_LABELS:
                drawn += text(x, y + 12, name, ' class="name"')
        return drawn

    def axis_lines(self):
        """Frame, ticks and names of the axes."""
        frame, (left, top) = self.frame, self.corner
        width, height = frame.length(self.right), frame.length(self.other)
        drawn = '<rect class="frame" x="%s" y="%s" width="%s" height="%s"/>' % tuple(map(pixels, (left, top, width, height)))
        for value in ticks(frame.low[self.right], frame.high[self.right], frame.step):
            x = self.x(value)
            drawn += '<path class="tick" d="M%s %sv5"/>' % (pixels(x), pixels(top + height))
            drawn += text(x, top + height + 17, short(value), ' class="middle"')
        for value in ticks(frame.low[self.other], frame.high[self.other], frame.step):
            y = self.y(value)
            drawn += '<path class="tick" d="M%s %sh-5"/>' % (pixels(left), pixels(y))
            drawn += text(left - 8, y + 4, short(value), ' class="end"')
        drawn += text(left + width / 2, top + height + 33, "%s (km)" % AXES[self.right], ' class="middle"')
        x, y = left - 44, top + height / 2
        turned = ' class="middle" transform="rotate(-90 %s %s)"' % (pixels(x), pixels(y))
        return drawn + text(x, y, "%s (km)" % AXES[self.other], turned)

    def draw(self, event, grid):
        """The whole section."""
        parts = [self.boxes(event, grid), self.axis_lines(), self.stations()]
        parts += [star(*self.at(event.coordinates)), self.near_nodes(event, grid)]
        return '<g id="%s">\n%s\n</g>' % (self.name, "\n".join(parts))


def legend(event, frame, left, top):
    """What the event's numbers are, and what colours and signs mean."""
    lines = [
        "x %s, y %s, z %s km" % tuple(map(short, event.coordinates)),
        "RMS %s s; picks: %d used, %d not" % (as_decimal(event.rms), len(event.picks), len(event.skips)),
        "near nodes: %d; boxes of the cover: %d" % (len(event.near), event.cover),
    ]
    drawn = "".join(text(left, top + 12 + 18 * k, line) for k, line in enumerate(lines))
    y = top + 66
    drawn += text(left, y + 8, "bound of a box, % of the best score:")
    for k in range(5):
        x = left + 44 * k
        drawn += '<rect class="frame" x="%s" y="%s" width="44" height="14" style="fill:%s"/>' % (
            pixels(x), pixels(y + 16), shade(k, 4),
        )
        drawn += text(x + 22, y + 43, "%d" % (25 * k), ' class="middle"')
    y += 62
    drawn += star(left + 8, y) + text(left + 22, y + 4, "hypocentre; the sections go through it")
    drawn += '<circle cx="%s" cy="%s" r="2.5" fill="#ffb000" stroke="#402a00" stroke-width="0.5"/>' % (
        pixels(left + 8), pixels(y + 20),
    )
    drawn += text(left + 22, y + 24, "near node, projected on the section")
    drawn += triangle(left + 8, y + 40, "used", "used") + text(left + 22, y + 44, "station with used picks")
    drawn += triangle(left + 8, y + 60, "unused", "not used") + text(left + 22, y + 64, "station with other picks alone")
    if frame.count_outside:
        drawn += text(left, y + 84, "stations far outside the grid, not shown: %d" % frame.count_outside)
    return '<g id="legend">\n%s\n</g>' % drawn


STYLE = """text { font: 11px sans-serif; fill: #222222 }
.title { font: bold 14px sans-serif }
.name { font-size: 8px; text-anchor: middle; paint-order: stroke; stroke: #ffffff; stroke-width: 2px }
.middle { text-anchor: middle }
.end { text-anchor: end }
.frame { fill: none; stroke: #222222 }
.tick { stroke: #222222 }
.hypocentre { fill: #d4202a; stroke: #ffffff; stroke-width: 0.8 }
.used { fill: #1f8a3b; stroke: #ffffff; stroke-width: 0.8 }
.unused { fill: #ffffff; stroke: #1f8a3b }"""


def picture(event, grid, stations):
    """The SVG of a located event; `stations` are names, places in mm and whether a pick is used."""
    frame = Frame(grid, stations)
    row = max(frame.length(1), LEAST_LEGEND[1]) + GAP + TOP
    column = LEFT + frame.length(0) + GAP
    sections = [
        Section("map", frame, 0, 1, (LEFT, TOP)),
        Section("x-z", frame, 0, 2, (LEFT, row)),
        Section("y-z", frame, 1, 2, (column, row)),
    ]
    width = max(column + max(frame.length(1), LEAST_LEGEND[0]) + 16, 560)
    height = row + frame.length(2) + 44
    title = "Event %d   %s   score %d" % (event.number, event.origin, event.score)
    size = (pixels(width), pixels(height))
    parts = ['<svg xmlns="http://www.w3.org/2000/svg" width="%s" height="%s" viewBox="0 0 %s %s">' % (size + size)]
    parts += ["<title>%s</title>" % escape(title), "<style>%s</style>" % STYLE]
    parts += ['<rect width="100%" height="100%" fill="#ffffff"/>', text(LEFT, 30, title, ' class="title" xml:space="preserve"')]
    parts += [section.draw(event, grid) for section in sections]
    parts += [legend(event, frame, column, TOP), "</svg>"]
    return "\n".join(parts) + "\n"
