"""Words, decimals and refusals, by the rules of docs/FORMATS.md."""
import re

WORD = re.compile(rb"[^\t\x0b\x0c\r ]+")
DECIMAL = re.compile(r"([+-]?)([0-9]*)(?:\.([0-9]*))?(?:[eE]([+-]?[0-9]+))?")
LONGEST_LINE = 4096


class Refusal(Exception):
    """Why an input isn't taken: its text names the file, and the line or node."""


def lines_of(contents):
    """The lines of a file's bytes; an empty rest after the last line feed is no line."""
    lines = contents.split(b"\n")
    return lines[:-1] if lines[-1] == b"" else lines


def words_of(line):
    """The words of a line of bytes; a byte that isn't ASCII stays in its word as a mark that no number has."""
    return [word.decode("ascii", "replace") for word in WORD.findall(line)]


def millionths(word):
    """The nearest whole number of millionths of a decimal, halves away from zero; None where it has no reading."""
    match = DECIMAL.fullmatch(word)
    if not match:
        return None
    sign, whole, part, exponent = match[1], match[2], match[3] or "", int(match[4] or "0")
    digits = whole + part
    if not 1 <= len(digits) <= 30 or abs(exponent) > 30:
        return None
    power = exponent - len(part) + 6
    size = int(digits) * 10**power if power >= 0 else (2 * int(digits) + 10**-power) // (2 * 10**-power)
    if size >= 10**15:
        return None
    return -size if sign == "-" else size


def whole_number(word):
    """The whole number that a decimal is; None where it has no reading."""
    value = millionths(word)
    if value is None or value % 1000000:
        return None
    return value // 1000000


def as_decimal(millionths_of_it):
    """A number of millionths as a decimal with six places: kilometres of millimetres, seconds of microseconds."""
    sign = "-" if millionths_of_it < 0 else ""
    return "%s%d.%06d" % (sign, abs(millionths_of_it) // 1000000, abs(millionths_of_it) % 1000000)
