"""Names of docs/names.tsv: of months, days, years, solar terms and phases, in Latin letters and in their own scripts."""
import functools
import pathlib
from typing import NamedTuple

TOP = pathlib.Path(__file__).resolve().parents[2]
TABLE = TOP / "docs" / "names.tsv"
RIGHT_TO_LEFT = frozenset({"ar", "fa", "he"})


class Name(NamedTuple):
    """A name in Latin letters, in its own script, and the language of the latter by BCP 47."""

    latin: str
    own: str
    language: str

    @property
    def direction(self):
        """The direction in which the own name is written."""
        return "rtl" if self.language in RIGHT_TO_LEFT else "ltr"


@functools.cache
def table():
    """All rows of the table: a Name for each calendar and number."""
    rows = (line.split("\t") for line in TABLE.read_text(encoding="utf-8").splitlines() if not line.startswith("#"))
    head = next(rows)
    named = (dict(zip(head, row)) for row in rows)
    return {(row["calendar"], row["number"]): Name(row["latin"], row["own"], row["language"]) for row in named}


def name(calendar, number):
    """The Name of a row, which must be there."""
    return table()[calendar, str(number)]


def find(calendar, number):
    """The Name of a row, or None where the table hasn't it."""
    return table().get((calendar, str(number)))


def count(calendar):
    """How many rows of this word have a number alone, as 10 stems and 12 animals."""
    return sum(1 for word, number in table() if word == calendar and number.isdigit())


def place_in(calendar, number):
    """The Name at a place of a list that goes round: 1 to its length, then from 1 on again."""
    return name(calendar, (number - 1) % count(calendar) + 1)
