"""How near all dates come to their thresholds: a histogram for each word, from docs/margins.tsv."""
from . import svg

LEFT, RIGHT, TOP, ROW, BAR, COLUMN = 150, 16, 66, 46, 30, 46
FILL, NEAR_FILL = "#3f6f9f", "#b45309"
PARTING = 100  # seconds: within less good programs may part (docs/NEAR.md)
UNITS = ((3600, "h"), (60, "min"))  # for numbers of seconds that are many


def read_rows(text):
    """The bounds in seconds; for each word of how many events one was looked at, and the counts below each bound and of more."""
    head, *rows = (line.split("\t") for line in text.splitlines())
    bounds = [float(cell.split(" ")[1]) for cell in head[2:-1]]
    return bounds, {row[0]: (int(row[1]), [int(cell) for cell in row[2:]]) for row in rows}


def label(bound):
    """A bound as the scale shows it."""
    for seconds, unit in UNITS:
        if bound >= 2 * seconds:
            return f"{bound / seconds:.2g} {unit}"
    return f"{bound:g} s"


def histogram(counts, bounds, y):
    """The bars of a word with their numbers, over a line at y."""
    most = max(counts)
    yield svg.line(LEFT, y, LEFT + COLUMN * len(counts), y, svg.QUIET)
    for place, count in enumerate(counts):
        if count:
            height = max(1.5, BAR * count / most)
            near = place < len(bounds) and bounds[place] <= PARTING
            fill = NEAR_FILL if near else FILL
            yield svg.box(LEFT + place * COLUMN + 4, y - height, COLUMN - 8, height, fill, fill, 0)
            yield svg.text(LEFT + place * COLUMN + COLUMN / 2, y - height - 3, f"{count:,}", 9, "middle", svg.QUIET)


def scale(bounds, bottom):
    """The bounds over the bars, and how far from a threshold programs part."""
    for place, bound in enumerate(bounds, 1):
        x = LEFT + place * COLUMN
        yield svg.line(x, TOP - 22, x, bottom, "#e3e3e3")
        yield svg.text(x, TOP - 28, label(bound), 10, "middle", svg.QUIET)
    x = LEFT + (bounds.index(PARTING) + 1) * COLUMN
    yield svg.line(x, TOP - 44, x, bottom, NEAR_FILL, 1.5)
    yield svg.text(x - 6, TOP - 44, "← good programs may part", 11, "end", NEAR_FILL)


def in_words(word, share, counts, bounds):
    """A row in words."""
    told = ", ".join(f"{'less than ' + label(bound) if bound else 'more'} {count}" for bound, count in zip([*bounds, None], counts) if count)
    return f"{word}, {'each event' if share == 1 else f'one event of {share}'}: {told}."


def draw(top):
    """The picture."""
    bounds, rows = read_rows((top / "docs/margins.tsv").read_text(encoding="utf-8"))
    bottom = TOP + len(rows) * ROW
    pieces = list(scale(bounds, bottom))
    for place, (word, (share, counts)) in enumerate(rows.items()):
        y = TOP + place * ROW + ROW - 4
        pieces.append(svg.text(LEFT - 10, y - 10, word, 12, "end"))
        pieces.append(svg.text(LEFT - 10, y + 2, f"{'all' if share == 1 else f'one of {share}'}: {sum(counts):,}", 9, "end", svg.QUIET))
        pieces += histogram(counts, bounds, y)
    told = "How many dates of each word have a moment within so much time of its threshold. " + " ".join(
        in_words(word, share, counts, bounds) for word, (share, counts) in rows.items())
    return svg.picture(LEFT + COLUMN * (len(bounds) + 1) + RIGHT, bottom + 12, "How near all dates come to their thresholds", told, pieces)
