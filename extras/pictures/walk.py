"""How a line becomes a date, from the first table under "The walk of a line" in docs/LAYERS.md."""
import re

from . import svg

SECTION = "## The walk of a line"
CRATE_X, CALL_X, WORDS_X, WIDTH = 16, 150, 300, 920
ROW, HEIGHT, HEAD, SIZE = 40, 28, 56, 12
COLOURS = {"byte_streams": "#e6e0f3", "run_core": "#f6dcd6", "line_core": "#dbe9f6", "conversion": "#f6dcd6", "jobs_core": "#dbe9f6",
           "fact_eval": "#fbeec4"}
CALENDAR_COLOUR = "#dbe9f6"


def read_steps(text):
    """The steps of the first table of the section: the line that is walked, and crate, call and words of each step."""
    section = text[text.index(SECTION):]
    walked = re.search(r"line `([^`]+)`", section).group(1)
    steps = []
    for line in section.splitlines()[1:]:
        found = re.fullmatch(r"    (\w+) +(\w+) +(\S.*)", line)
        if found:
            steps.append(list(found.groups()))
        elif line.startswith("    ") and steps:
            steps[-1][2] += " " + line.strip()
        elif steps:
            break
    return walked, steps


def draw(top):
    """The picture."""
    walked, steps = read_steps((top / "docs/LAYERS.md").read_text(encoding="utf-8"))
    pieces = [svg.text(CRATE_X, 26, walked, 15, weight="bold"), svg.text(CRATE_X, 44, "crate", 11, colour=svg.QUIET),
              svg.text(CALL_X, 44, "call", 11, colour=svg.QUIET)]
    for place, (crate, call, words) in enumerate(steps):
        y = HEAD + place * ROW
        if place:
            pieces.append(svg.line(CRATE_X + 60, y - ROW + HEIGHT, CRATE_X + 60, y, svg.QUIET, 1.5))
        pieces.append(svg.box(CRATE_X, y, 120, HEIGHT, COLOURS.get(crate, CALENDAR_COLOUR)))
        pieces.append(svg.text(CRATE_X + 60, y + 18, crate, SIZE, "middle"))
        pieces.append(svg.text(CALL_X, y + 18, call, SIZE, weight="bold"))
        pieces += [svg.text(WORDS_X, y + 18 + 13 * row - 7 * (rows - 1), part, SIZE)
                   for rows in [len(wrapped(words))] for row, part in enumerate(wrapped(words))]
    told = f"From the line {walked}: " + "; ".join(f"{crate}, {call}: {words}" for crate, call, words in steps) + "."
    return svg.picture(WIDTH, HEAD + len(steps) * ROW, "How a line becomes a date", told.replace("`", ""), pieces)


def wrapped(words, width=92):
    """Words in lines of at most so many letters."""
    lines = [""]
    for word in words.replace("`", "").split():
        if lines[-1] and len(lines[-1]) + 1 + len(word) > width:
            lines.append("")
        lines[-1] = f"{lines[-1]} {word}".strip()
    return lines
