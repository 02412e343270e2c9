"""The crates by layer, from crates.txt: a crate stands on those below it, as far up as its longest chain of crates is long."""
import functools

from . import svg

LEFT_OUT = "Tests"  # the section of crates without code
PROGRAM = "The program, and one beside it"  # in whose column those of a section that isn't named below stand too
# The sections in the columns in which they stand, with their colours.
COLUMNS = (
    (("Dates and lines",), "#dbe9f6"), (("Texts",), "#e6e0f3"), (("Ground",), "#eeeeee"), ((PROGRAM,), "#f6dcd6"),
    (("Enclosures",), "#dff0dc"), (("The sky",), "#fbeec4"),
)
HEIGHT, GAP, ROW, SIZE, MARGIN, HEAD = 24, 8, 44, 11, 16, 48
LINE = 3  # boxes beside one another in a column, before the next stand below them
NEXT = 30  # from such a line to the next


def read_crates(text):
    """The crates of crates.txt: for each its section and the crates of the repository on which it stands."""
    section, listed = "", {}
    for line in text.splitlines():
        if line.startswith("#"):
            section = line[1:].strip()
        elif ":" in line:
            name, below = line.split(":")
            listed[name.split()[0]] = (section, below.split())
    known = [section for sections, _ in COLUMNS for section in sections]
    kept = {name: row for name, row in listed.items() if row[0] != LEFT_OUT}
    return {name: (section if section in known else PROGRAM, [crate for crate in below if crate in kept])
            for name, (section, below) in kept.items()}


class Crates:
    """The crates with their layers."""

    def __init__(self, text):
        self.rows = read_crates(text)

    @functools.cached_property
    def layers(self):
        """The layer of each crate: 0 of one that stands on none."""
        found = {}
        for name, (_, below) in self.rows.items():
            found[name] = max((found[crate] + 1 for crate in below), default=0)
        return found

    @functools.cached_property
    def reach(self):
        """All crates below each crate."""
        found = {}
        for name, (_, below) in self.rows.items():
            found[name] = set(below).union(*(found[crate] for crate in below))
        return found

    def edges(self):
        """The pairs of crates of which the upper stands on the lower and not on a third between them."""
        for name, (_, below) in self.rows.items():
            for crate in below:
                if not any(crate in self.reach[other] for other in below if other != crate):
                    yield crate, name

    def column(self, sections):
        """The crates of a column, by layer."""
        found = {}
        for name, (section, _) in self.rows.items():
            if section in sections:
                found.setdefault(self.layers[name], []).append(name)
        return found


def width_of(name):
    """The width of a crate's box."""
    return len(name) * SIZE * svg.LETTER + 10


def told(crates):
    """The layers in words, from the ground up."""
    by_layer = {}
    for name, layer in crates.layers.items():
        by_layer.setdefault(layer, []).append(name)
    return "From the ground up: " + "; ".join(f"{layer}: {', '.join(by_layer[layer])}" for layer in sorted(by_layer)) + "."


def lines_of(names):
    """The boxes of a layer of a column, in lines."""
    return [names[at:at + LINE] for at in range(0, len(names), LINE)]


def width_of_line(names):
    """How wide a line of boxes is."""
    return sum(width_of(name) + GAP for name in names) - GAP


def levels(crates):
    """Where each layer begins, from the top, and the height of all: a layer is as high as its lines in some column."""
    tops, y = {}, HEAD
    for layer in range(max(crates.layers.values()), -1, -1):
        lines = max(len(lines_of(crates.column(sections).get(layer, []))) for sections, _ in COLUMNS)
        tops[layer] = y
        y += ROW + max(0, lines - 1) * NEXT
    return tops, y - ROW + HEIGHT + MARGIN


def place(crates):
    """Where each crate's box stands: x, y, width and colour; the columns with their middles; and the size of all."""
    tops, height = levels(crates)
    boxes, heads, x = {}, [], MARGIN
    for sections, colour in COLUMNS:
        by_layer = {layer: lines_of(names) for layer, names in crates.column(sections).items()}
        title = sections[0].split(",")[0]
        width = max([len(title) * SIZE * svg.LETTER, *(width_of_line(line) for lines in by_layer.values() for line in lines)])
        heads.append((x + width / 2, title))
        for layer, lines in by_layer.items():
            for number, line in enumerate(lines):
                at = x + (width - width_of_line(line)) / 2
                for name in line:
                    boxes[name] = (at, tops[layer] + number * NEXT, width_of(name), colour)
                    at += width_of(name) + GAP
        x += width + 3 * GAP
    return boxes, heads, (x, height)


def draw(top):
    """The picture."""
    crates = Crates((top / "crates.txt").read_text(encoding="utf-8"))
    boxes, heads, (width, height) = place(crates)
    pieces = [svg.text(x, HEAD - 20, title, 12, "middle", svg.QUIET, "bold") for x, title in heads]
    for lower, upper in crates.edges():
        (x, y, span, _), (to_x, to_y, to_span, _) = boxes[lower], boxes[upper]
        pieces.append(svg.line(x + span / 2, y, to_x + to_span / 2, to_y + HEIGHT))
    for name, (x, y, span, colour) in boxes.items():
        pieces.append(svg.box(x, y, span, HEIGHT, colour))
        pieces.append(svg.text(x + span / 2, y + 16, name, SIZE, "middle"))
    return svg.picture(width, height, "The crates by layer", told(crates), pieces)
