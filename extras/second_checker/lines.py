"""Lines `FROM DATE TO`: their rules, what they ask and what they come to (docs/FORMAT.md, docs/FORMULAS.md)."""

import re

from .calendars import CALENDARS
from .facts import WORD_OF
from .tables import CONSTANT, rows

FROM, TO = ({row["word"]: row for row in rows(name)} for name in ("from-words", "to-words"))
KIND_WORD = {row["kind"]: row["word"] for row in rows("kinds")}
ROW = {row["calendar"]: row for row in rows("calendars")}
DAYS = {n: (int(row["first day"]), int(row["last day"])) for n, row in enumerate(rows("versions"), 1)}

def is_in(version, row):
    """Whether a row is one of a version of certificates."""
    return row["since"] == "One" or version == 2

class Refused(Exception):
    """The line breaks the rule of the number without any fact."""
def fields_of(date, row):
    fields = date.split("-")
    if len(fields) != int(row["fields"]) or not all(re.fullmatch("[0-9]{1,7}", field) for field in fields): raise Refused(3)
    fields = tuple(map(int, fields))
    if not all(int(row[f"least {k}"]) <= n <= int(row[f"greatest {k}"]) for k, n in enumerate(fields, 1)): raise Refused(3)
    return fields

class Request:
    """A line of input, read by the ranges of a version."""
    def __init__(self, text, version):
        words = text.split(" ")
        if len(text) > 200 or len(words) != 3: raise Refused(1)
        self.source, self.target = FROM.get(words[0]), TO.get(words[2])
        if not (self.source and self.target and is_in(version, self.source) and is_in(version, self.target)):
            raise Refused(2)
        self.calendar = self.source["calendar or kind"] if self.source["form"] == "Date" else "Gregorian"
        row = ROW[self.calendar]
        self.is_confirmed, self.date = row["confirmed"] == "true", fields_of(words[1], row)
        self.first, self.last = DAYS[version]
        if "French" in (self.source["calendar or kind"], self.target["calendar or kind"]):
            self.first = max(self.first, CONSTANT["FRENCH_EPOCH"])
        if self.is_confirmed:
            number = int(row["offset"]) + sum(int(row[f"weight {k}"]) * n for k, n in enumerate(self.date, 1))
            within = int(row[f"first year {version}"]) <= number <= int(row[f"last year {version}"])
        else:
            try:
                day = CALENDARS[self.calendar][1](None, *self.date)
            except ValueError:
                raise Refused(3) from None
            within = self.first <= day <= self.last
        if not within: raise Refused(4)
    def result(self, ask):
        """The text that the line shows: a result, `refused 4 DAY` or `refused 5 BACK`, over facts `ask(kind, place, day)`."""
        place, day_of, date_of = CALENDARS[self.calendar]
        at_home = lambda kind, day: ask(kind, place, day)
        day = day_of(at_home, *self.date)
        if self.source["form"] == "Value":
            day = ask(KIND_WORD[self.source["calendar or kind"]], WORD_OF[self.source["place"]], day)
        if not self.first <= day <= self.last: return f"refused 4 {day}"
        if self.is_confirmed:
            back = date_of(at_home, day)
            if back != self.date: return "refused 5 " + "-".join(map(str, back))
        if self.target["form"] == "Value":
            return str(ask(KIND_WORD[self.target["calendar or kind"]], WORD_OF[self.target["place"]], day))
        place, _, date_of = CALENDARS[self.target["calendar or kind"]]
        fields = date_of(lambda kind, day: ask(kind, place, day), day)
        return "%04d-%02d-%02d" % fields if ROW[self.target["calendar or kind"]]["padded"] == "true" else "-".join(map(str, fields))
