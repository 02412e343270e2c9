"""The ranges of the version that is written, from the table of versions in docs/FORMAT.md."""
import functools
import re

from .names import TOP

PAGE = TOP / "docs" / "FORMAT.md"
# A cell is `FIRST..LAST`, or `FIRST (DATE) to LAST (DATE)`.
RANGE = re.compile(r"(-?\d+)(?: \([^)]*\))?(?:\.\.| to )(-?\d+)")


@functools.lru_cache(maxsize=None)
def ranges():
    """First and last of each: `days` that a line may name, `almanac` years, and the numbers of years of each calendar's word."""
    found = {}
    for line in PAGE.read_text(encoding="utf-8").replace("−", "-").splitlines():
        cells = [cell.strip() for cell in line.strip("|").split("|")] if line.startswith("|") else [""]
        bounds = RANGE.search(cells[1 if cells[0].startswith("`almanac`") else -1])
        if not bounds:
            continue
        if cells[0] == "days that a line may name":
            words = ["days"]
        elif cells[0].startswith("`almanac`"):
            words = ["almanac"]
        elif re.match("(numbers of )?years of `", cells[0]):
            words = re.findall("`([^`]+)`", cells[0])
        else:
            continue
        found.update({word: (int(bounds[1]), int(bounds[2])) for word in words})
    return found


def of(word):
    """The first and the last of a range."""
    return ranges()[word]
