"""How many times as many questions a second are answered here as by other programs, from the table of docs/BENCHMARKS.md."""
import math
import re

from . import svg

HEAD = "## Beside other programs"
PEERS = ("ICU", "Swiss Ephemeris")  # those that were measured on the same machine, by their columns
COLOURS = {"ICU": "#b45309", "Swiss Ephemeris": "#1d4ed8"}
LEAST, MOST = 0.01, 100
LEFT, WIDTH, RIGHT, ROW, TOP, SIZE = 330, 520, 120, 28, 64, 12


def rate(cell):
    """The number of a cell, the middle of a range; None where there is none, or where it is a time."""
    found = re.search(r"([\d,]*\d)(?: to ([\d,]*\d))?(?! ?ms)", cell)
    if not found or re.search(r"\d ms", cell):
        return None
    ends = [int(part.replace(",", "")) for part in found.groups() if part]
    return sum(ends) / len(ends)


def read_ratios(text):
    """Question, peer, ratio and the remark of the peer's cell, of each row that has a rate of both."""
    lines = text[text.index(HEAD):].splitlines()
    rows = [[cell.strip() for cell in line.strip("|").split("|")] for line in lines if line.startswith("|")]
    heads = rows[0]
    for row in rows[2:]:
        if len(row) != len(heads):
            break
        ours = rate(row[heads.index("Here")])
        for peer in PEERS:
            theirs = rate(row[heads.index(peer)])
            if ours and theirs:
                remark = ", by arithmetic" if "by arithmetic" in row[heads.index(peer)] else ""
                yield row[0], peer + remark, ours / theirs


def short(ratio):
    """A ratio with two digits."""
    return f"{ratio:.2g}" if ratio < 10 else f"{ratio:.0f}"


def at(ratio):
    """Where a ratio stands on the scale."""
    return LEFT + WIDTH * (math.log10(ratio) - math.log10(LEAST)) / (math.log10(MOST) - math.log10(LEAST))


def scale(bottom):
    """The scale's lines and numbers."""
    for power in range(round(math.log10(LEAST)), round(math.log10(MOST)) + 1):
        x = at(10 ** power)
        yield svg.line(x, TOP - 8, x, bottom, svg.QUIET if power == 0 else svg.FAINT, 1.5 if power == 0 else 1)
        yield svg.text(x, TOP - 14, f"{10 ** power:g}", 11, "middle", svg.QUIET)
    yield svg.text(at(1) - 8, TOP - 34, "← the other answers more", 11, "end", svg.QUIET)
    yield svg.text(at(1) + 8, TOP - 34, "more here →", 11, "start", svg.QUIET)


def mark(x, y, peer):
    """A peer's mark: a circle for ICU, a square for Swiss Ephemeris."""
    name = peer.split(",")[0]
    if name == "ICU":
        return svg.dot(x, y, 5, COLOURS[name])
    return svg.box(x - 4.5, y - 4.5, 9, 9, COLOURS[name], COLOURS[name], 0)


def draw(top):
    """The picture."""
    ratios = list(read_ratios((top / "docs/BENCHMARKS.md").read_text(encoding="utf-8")))
    bottom = TOP + len(ratios) * ROW
    pieces = list(scale(bottom))
    for place, (question, peer, ratio) in enumerate(ratios):
        y = TOP + place * ROW + ROW / 2
        x = at(min(max(ratio, LEAST), MOST))
        pieces.append(svg.text(LEFT - 10, y + 4, question, SIZE, "end"))
        pieces.append(svg.line(at(1), y, x, y, svg.QUIET, 2))
        pieces.append(mark(x, y, peer))
        pieces.append(svg.text(max(x, at(1)) + 10, y + 4, f"{short(ratio)} {peer}", 11, colour=svg.QUIET))
    told = "Answers a second here, as a multiple of those by the other program: " + "; ".join(
        f"{question}, {peer}: {short(ratio)}" for question, peer, ratio in ratios) + "."
    return svg.picture(LEFT + WIDTH + RIGHT, bottom + 16, "Answers a second, beside other programs", told, pieces)
