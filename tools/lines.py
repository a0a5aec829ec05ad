"""Records as lines and as bytes, both ways: document 02's line form (W10), for tools/encode, tools/cases and tools/collar. And
what a record covers, and which records are tied, by document 01: for tools/picture.

  rack -2
  drop f.3
  xfer f.12 b.10          a needle and the opposite one
  in + f.10 3             + (right) or - (left), needle, carrier; out, miss, tuck and knit alike
  split + f.10 b.10 3     the opposite needle before the carrier
  knit + f.10 3 4         tuck or knit with two carriers: plated
  swap 2                  a log's record, with its position
  bytes 08 01             any bytes, for what has no such line

Spaces part the words; what follows a semicolon is dropped. A value out of its range passes if it fits its byte: it is the
library that refuses it.
"""
import re
from typing import NamedTuple, Optional

# For each kind its name and the words that follow: Way, Needle, Opposite needle, Carrier, Racking, Position.
PROGRAM = {
    0x01: ("rack", "R"),
    0x02: ("drop", "N"),
    0x03: ("xfer", "NO"),
    0x04: ("in", "WNC"),
    0x05: ("out", "WNC"),
    0x06: ("miss", "WNC"),
    0x07: ("tuck", "WNC"),
    0x08: ("knit", "WNC"),
    0x09: ("split", "WNOC"),
    0x0A: ("tuck", "WNCC"),
    0x0B: ("knit", "WNCC"),
}
LOG = {0x40: ("swap", "P")}
KIND = {(name, len(fields)): kind for kinds in (PROGRAM, LOG) for kind, (name, fields) in kinds.items()}
SIZE = {"W": 1, "N": 2, "O": 1, "C": 1, "R": 1, "P": 2}  # in bytes
CALLED = {"W": "+/-", "N": "needle", "O": "opposite", "C": "carrier", "R": "racking", "P": "position"}
ACROSS = 16  # bytes on a line `bytes ..`


class Misread(Exception):
    """A line of another form, and how it differs."""


# From a line to bytes.

def number(word, least, most, digits=4):
    """the value of a number that must lie in a range"""
    if not re.fullmatch("0|-?[1-9][0-9]{0,%d}" % (digits - 1), word):
        raise Misread("%r is not a number (at most %d digits, no needless zero, no plus, no -0)" % (word, digits))
    if not least <= int(word) <= most:
        raise Misread("%s does not fit: %d to %d" % (word, least, most))
    return int(word)


def way(word):
    if word not in ("-", "+"):
        raise Misread("%r is not a direction, + or -" % word)
    return ["-+".index(word)]


def needle(word):
    if word[:2] not in ("f.", "b."):
        raise Misread("%r is not a needle, as f.10 or b.10" % word)
    return ["fb".index(word[0]), number(word[2:], 0, 255)]


def carrier(word):
    return [number(word, 0, 255)]


def racking(word):
    return [number(word, -128, 127) % 256]


def position(word):
    return [*divmod(number(word, 0, 65535, digits=5), 256)]


FIELD = {"W": way, "N": needle, "O": needle, "C": carrier, "R": racking, "P": position}


def kind_of(name, count):
    """the kind of a record by its name and how many words follow"""
    if (name, count) in KIND:
        return KIND[name, count]
    forms = [" ".join([name, *(CALLED[field] for field in fields)])
             for kinds in (PROGRAM, LOG) for known, fields in kinds.values() if known == name]
    raise Misread("this is the form: " + "; or ".join(forms) if forms else "%r is not a record's name" % name)


def record(name, words):
    """the bytes of a record; an opposite needle's comes last, without its bed"""
    kind = kind_of(name, len(words))
    _, fields = {**PROGRAM, **LOG}[kind]
    parts = [FIELD[field](word) for field, word in zip(fields, words)]
    if "O" in fields:
        bed, opposite = parts.pop(fields.index("O"))
        if bed == parts[fields.index("N")][0]:
            raise Misread("both needles are on one bed")
        parts.append([opposite])
    return bytes([kind, *(byte for part in parts for byte in part)])


def plain(words):
    """the bytes of a line `bytes ..`"""
    for word in words:
        if not re.fullmatch("[0-9A-Fa-f]{2}", word):
            raise Misread("%r is not a byte in two hexadecimal digits" % word)
    if not words:
        raise Misread("this is the form: bytes 08 01")
    return bytes.fromhex("".join(words))


def encode(line):
    """the bytes of a line; none of an empty one"""
    words = [word for word in line.partition(";")[0].split(" ") if word]
    if not words:
        return b""
    return plain(words[1:]) if words[0] == "bytes" else record(words[0], words[1:])


def read(text):
    """the bytes of a text; and, for each line of another form, its number (from 1) and what is wrong"""
    out, wrong = [], []
    for at, line in enumerate(text.split("\n"), 1):
        try:
            out.append(encode(line))
        except Misread as fault:
            wrong.append((at, fault))
    return b"".join(out), wrong


# From bytes to lines.

def words(fields, body):
    """the words of a record's body; an IndexError if a direction or bed has none"""
    rest = iter(body)
    for field in fields:
        if field == "W":
            yield "-+"[next(rest)]
        elif field == "N":
            bed = next(rest)
            yield "%s.%d" % ("fb"[bed], next(rest))
        elif field == "O":
            yield "%s.%d" % ("bf"[bed], body[-1])
        elif field == "R":
            yield str((next(rest) + 128) % 256 - 128)
        elif field == "P":
            yield str(next(rest) * 256 + next(rest))
        else:
            yield str(next(rest))


def line(part, kinds):
    """the line of a record; None if there is none: unknown kind, cut short, or a direction or bed other than 0 and 1"""
    name, fields = kinds.get(part[0], ("", ""))
    if not name or len(part) != length(part[0], kinds):
        return None
    try:
        return " ".join([name, *words(fields, part[1:])])
    except IndexError:
        return None


def length(kind, kinds):
    """the length of a record of a known kind"""
    return 1 + sum(SIZE[field] for field in kinds[kind][1])


def parts(data, kinds):
    """the records, faulty ones too; behind an unknown kind of a program no start is known, and the rest is one part"""
    at = 0
    while at < len(data):
        kind = 0x40 if kinds is LOG else data[at]
        end = at + length(kind, kinds) if kind in kinds else len(data)
        yield data[at:end]
        at = end


def lines(data, kinds=PROGRAM):
    """the lines of a program or log; reading them gives the same bytes, whatever they are"""
    for part in parts(data, kinds):
        whole = line(part, kinds)
        if whole:
            yield whole
        else:
            yield from ("bytes " + part[at:at + ACROSS].hex(" ") for at in range(0, len(part), ACROSS))


# What a record covers.

FRONT, BACK = 0, 11  # the beds' layers; layers 1 to 10 are the carriers


class Needle(NamedTuple):
    bed: int  # 0 front, 1 back
    number: int

    def __str__(self):
        return "%s.%d" % ("fb"[self.bed], self.number)


class Record(NamedTuple):
    """a program's record: its line, and the words in it; None for one that its kind has not"""
    line: str
    name: str
    way: Optional[str]
    at: Optional[Needle]
    to: Optional[Needle]
    carriers: tuple  # two of a plated stitch
    racking: Optional[int]


class Extent(NamedTuple):
    """half columns left to right and layers low to high, ends included; column z is half column 2 z, slot z is 2 z - 1"""
    left: int
    right: int
    low: int
    high: int


def parsed(text):
    """the record that a line says"""
    name, *words = text.split()
    fields = PROGRAM[kind_of(name, len(words))][1]
    said = dict(zip(fields, words))
    at, to = (Needle(*needle(said[field])) if field in said else None for field in "NO")
    carriers = tuple(int(word) for field, word in zip(fields, words) if field == "C")
    return Record(text, name, said.get("W"), at, to, carriers, int(said["R"]) if "R" in said else None)


def column(at, racking):
    """a front needle n stands at column n, a back needle n at column n + racking"""
    return at.number + racking * at.bed


def layers(record):
    """the lowest and the highest layer that a record covers"""
    bed, name = (FRONT, BACK)[record.at.bed], record.name
    if name == "drop":
        return bed, bed  # its bed's layer
    if name in ("in", "out", "miss"):
        return record.carriers * 2  # k alone
    if name in ("tuck", "knit"):
        return min(bed, *record.carriers), max(bed, *record.carriers)  # front: 0 to k, back: k to 11; plated: the further k
    return FRONT, BACK  # xfer and split: 0 to 11


def extent(record, racking):
    """a drop or an xfer covers 2 z, z its first needle's column; the rest cover 2 z - 1 to 2 z + 1; a rack has no extent"""
    half, reach = 2 * column(record.at, racking), 0 if record.name in ("drop", "xfer") else 1
    return Extent(half - reach, half + reach, *layers(record))


def shared(x, y, racking):
    """what two records' extents share, or None if they do not meet"""
    a, b = extent(x, racking), extent(y, racking)
    both = Extent(max(a.left, b.left), min(a.right, b.right), max(a.low, b.low), min(a.high, b.high))
    return both if both.left <= both.right and both.low <= both.high else None


def tied(x, y, racking):
    """if either is a rack, if they name one carrier, or if their extents meet"""
    return "rack" in (x.name, y.name) or bool({*x.carriers} & {*y.carriers}) or shared(x, y, racking) is not None
