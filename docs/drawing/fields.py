"""Where the fields of an entry, of the header and of the final table stand, as plain SVG.

Offsets, lengths and constants are computed from the definitions that the code is proved against; only the fields' names stand here. A
definition with more or fewer fields than names, or another length than it states, is an error."""
import re
from collections import namedtuple
from xml.sax.saxutils import escape

from .definitions import Definitions, Field

SPECS = ("bank/specs/Bank.antt", "entry/specs/Entry.antt", "entry/specs/Header.antt", "service/specs/Opening.antt")

# A field as it is drawn: its name, its length, the constant that stands in it ("" where it varies), its colour.
Box = namedtuple("Box", "name size constant colour")
# Rows of boxes under a title; the offsets go on from row to row.
Shape = namedtuple("Shape", "title rows")

COLOURS = {"number": "#e8eef7", "digest": "#fbe9c6", "event": "#ffffff", "constant": "#eeeeee"}


# ---- what the definitions say

def title(bank):
    return re.sub(r"sha(\d+)", r"SHA-\1", bank["hash"])


def bank_sets(definitions):
    """All banks, and each alone: every other set has the same fields with some left out."""
    table = definitions.value("table")
    every = sum(bank["bit"] for bank in table)
    return [definitions.value("banks", bitmap) for bitmap in [every] + [bank["bit"] for bank in table]]


def titles(banks):
    return " and ".join(map(title, banks)) if len(banks) > 1 else title(banks[0]) + " alone"


def any_entry(banks):
    """An entry of which nothing is known but its digests' lengths."""
    digests = [[Field(bank["size"], "")] for bank in banks]
    return {"register": "", "kind": "", "digests": digests, "event": [Field("e", "")]}


def number_box(name, field):
    constant = str(field.says) if isinstance(field.says, int) else ""
    if name == "algorithm":
        constant = "0x%04X" % field.says
    return Box(name, field.size, constant, COLOURS["number"])


def named(fields, names):
    """The fields with their names; those of digests and events are told by their last word."""
    if len(fields) != len(names):
        raise ValueError("%d fields, but %d names: %s" % (len(fields), len(names), ", ".join(names)))
    boxes = []
    for field, name in zip(fields, names):
        colour = COLOURS.get(name.split()[-1])
        boxes.append(Box(name, field.size, "", colour) if colour else number_box(name, field))
    return boxes


def checked(boxes, length):
    drawn = sum(box.size for box in boxes if isinstance(box.size, int))
    if drawn != length:
        raise ValueError("%d bytes are drawn, but the definition's length is %d" % (drawn, length))
    return boxes


def old_entry(definitions):
    bank = definitions.value("table")[0]
    fields = definitions.value("old_bytes", any_entry([bank]))
    boxes = named(fields, ["register", "type", title(bank) + " digest", "event length", "event"])
    length = definitions.value("old_length", 0)
    return Shape("An entry of the 1.2 log: %d + e bytes" % length, [checked(boxes, length)])


def agile_entry(definitions, banks):
    names = ["register", "type", "digest count"]
    for bank in banks:
        names += ["algorithm", title(bank) + " digest"]
    boxes = named(definitions.value("agile_bytes", banks, any_entry(banks)), names + ["event length", "event"])
    length = definitions.value("agile_length", banks, 0)
    return Shape("An agile entry with %s: %d + e bytes" % (titles(banks), length), [checked(boxes, length)])


def runs(fields):
    """The fields, with single bytes that follow one another gathered in lists."""
    gathered = []
    for field in fields:
        if isinstance(field, Field):
            gathered.append(field)
        elif gathered and isinstance(gathered[-1], list):
            gathered[-1].append(field)
        else:
            gathered.append([field])
    return gathered


def spec_id_boxes(single):
    """The header's single bytes: a text up to its zero byte, the platform class, a number of four bytes, and the version's bytes."""
    end = single.index(0) + 1
    text = '"%s", 0' % bytes(single[: end - 1]).decode("ascii")
    platform = int.from_bytes(bytes(single[end : end + 4]), "little")
    version = single[end + 4 :]
    return [
        Box("signature", end, text, COLOURS["constant"]),
        Box("platform class", 4, str(platform), COLOURS["number"]),
        Box("version", len(version), ", ".join(map(str, version)), COLOURS["constant"]),
    ]


def header(definitions, banks):
    """A 1.2 entry whose event tells the banks: the entry's own fields in one row, the event's in the next."""
    names = ["register", "type", "zeros", "event length"]
    fields, n = runs(definitions.value("header_bytes", banks)), len(names)
    entry = named(fields[:n], names)
    names = ["bank count"] + ["algorithm", "digest length"] * len(banks) + ["zero"]
    event = spec_id_boxes(fields[n]) + named(fields[n + 1 :], names)
    length = definitions.value("header_length", banks)
    checked(entry + event, length)
    one = definitions.value("header_length", banks[:1])
    caption = "The agile log's header with %s: %d bytes (with one bank %d)" % (titles(banks), length, one)
    return Shape(caption, [entry, event])


def final_table(definitions):
    version, count = definitions.value("table_front")
    # opening writes a count of 0, and each entry moves it on
    boxes = named([version, Field(count.size, "")], ["version", "number of entries"])
    length = definitions.value("fresh", 0)["table"]["used"]
    checked(boxes, length)
    return Shape("The final table: %d + n bytes" % length, [boxes + [Box("agile entries", "n", "", COLOURS["event"])]])


# ---- drawing

PAGE, MARGIN, GAP, HEIGHT, TITLE, ROW = 960, 24, 30, 56, 26, 98
FONT = "font-family='Helvetica, Arial, sans-serif'"


def width(box):
    """Wider where there are more bytes, but wide enough for the words."""
    if not isinstance(box.size, int):
        return 120
    words = max(map(len, box.name.split() + [box.constant]))
    return max(62 + 4 * box.size, 8 * words + 12)


def text(x, y, words, size, anchor="middle", colour="#222", weight="normal"):
    return "<text x='%d' y='%d' font-size='%d' text-anchor='%s' fill='%s' font-weight='%s'>%s</text>" % (
        x, y, size, anchor, colour, weight, escape(words))


def outline(x, y, w, box):
    """A rectangle; torn at its right side where the length is open."""
    if isinstance(box.size, int):
        return "<rect x='%d' y='%d' width='%d' height='%d' fill='%s' stroke='#444'/>" % (x, y, w, HEIGHT, box.colour)
    tear = " ".join("l %d 7" % (7 if i % 2 == 0 else -7) for i in range(HEIGHT // 7))
    return "<path d='M %d %d h %d %s H %d Z' fill='%s' stroke='#444'/>" % (x, y, w - 7, tear, x, box.colour)


def lines_of(box):
    """The name on one line, or on two where it has two words in a narrow box; then the constant."""
    words = box.name.split()
    fits = 7 * len(box.name) + 8 <= width(box)
    names = [box.name] if fits or len(words) == 1 else [" ".join(words[:-1]), words[-1]]
    return [(name, "#222", "normal") for name in names] + [(box.constant, "#1c4f8c", "bold")] * bool(box.constant)


def drawn_box(x, y, at, box):
    w = width(box)
    parts = [outline(x, y, w, box)]
    lines = lines_of(box)
    first = y + HEIGHT // 2 + 4 - 8 * (len(lines) - 1)
    for i, (words, colour, weight) in enumerate(lines):
        parts.append(text(x + w // 2, first + 16 * i, words, 12, colour=colour, weight=weight))
    parts.append(text(x + 2, y - 5, str(at), 11, "start", "#666"))
    parts.append(text(x + w // 2, y + HEIGHT + 14, "%s byte%s" % (box.size, "" if box.size == 1 else "s"), 11, colour="#666"))
    return parts


def wrapped(rows):
    """The rows, those that would be wider than a page broken in two or more."""
    lines = []
    for row in rows:
        lines.append([])
        for box in row:
            if sum(map(width, lines[-1])) + width(box) > PAGE:
                lines.append([])
            lines[-1].append(box)
    return lines


def drawn_shape(y, shape):
    parts, at = [text(MARGIN, y + 14, shape.title, 15, "start", "#111", "bold")], 0
    y += TITLE + 18
    for row in wrapped(shape.rows):
        x = MARGIN
        for box in row:
            parts += drawn_box(x, y, at, box)
            x += width(box)
            at += box.size if isinstance(box.size, int) else 0
        y += ROW
    return y - 18 + GAP // 2, parts


def picture(shapes):
    y, parts = MARGIN, []
    for shape in shapes:
        y, more = drawn_shape(y, shape)
        parts += more
    across = 2 * MARGIN + max(sum(map(width, row)) for shape in shapes for row in wrapped(shape.rows))
    parts.append(text(MARGIN, y + 4, "Above a field: its offset. Below: its length. Numbers are little-endian; constants are blue.", 11, "start", "#666"))
    head = "<svg xmlns='http://www.w3.org/2000/svg' width='%d' height='%d' viewBox='0 0 %d %d' %s>" % (across, y + MARGIN, across, y + MARGIN, FONT)
    page = "<rect width='%d' height='%d' fill='white'/>" % (across, y + MARGIN)
    return "\n".join([head, page] + parts + ["</svg>", ""])


def drawings(crates):
    definitions = Definitions([crates + "/" + path for path in SPECS])
    sets = bank_sets(definitions)
    return {
        "entry.svg": picture([old_entry(definitions)] + [agile_entry(definitions, banks) for banks in sets]),
        "header.svg": picture([header(definitions, sets[0]), final_table(definitions)]),
    }
