"""The words of lines, their fields and ranges (docs/FORMAT.md), and dates of the calendars, with their names."""
import datetime
from typing import NamedTuple

from . import names

FIRST_FRENCH_DAY = 654415  # 22 September 1792, the first day of the French calendar

# Fields of a date with their limits, by the word FROM.
GREGORIAN_FIELDS = (("year", 1, 9999), ("month", 1, 12), ("day", 1, 31))
CHINESE_FIELDS = (("cycle", 1, 99), ("year", 1, 60), ("month", 1, 12), ("leap month", 0, 1), ("day", 1, 30))
FIELDS = {
    "gregorian": GREGORIAN_FIELDS,
    "fixed": (("day number", 0, 9999999),),
    "persian": (("year", 1, 9999), ("month", 1, 12), ("day", 1, 31)),
    "bahai": (("major cycle", 0, 9), ("cycle", 1, 19), ("year", 1, 19), ("month", 0, 19), ("day", 1, 19)),
    "chinese": CHINESE_FIELDS,
    "vietnamese": CHINESE_FIELDS,
    "korean": CHINESE_FIELDS,
    "japanese": CHINESE_FIELDS,
    "islamic": (("year", 1, 9999), ("month", 1, 12), ("day", 1, 30)),
    "hindu-solar": (("year", 1, 9999), ("month", 1, 12), ("day", 1, 32)),
    "hindu-lunar": (("year", 1, 9999), ("month", 1, 12), ("added month", 0, 1), ("day", 1, 30), ("leap day", 0, 1)),
    "french": (("year", 1, 9999), ("month", 1, 13), ("day", 1, 30)),
    "hebrew-observed": (("year", 1, 9999), ("month", 1, 13), ("day", 1, 30)),
    "minor-term": GREGORIAN_FIELDS,
    "major-term": GREGORIAN_FIELDS,
    "new-moon": GREGORIAN_FIELDS,
    "first-quarter": GREGORIAN_FIELDS,
    "full-moon": GREGORIAN_FIELDS,
    "last-quarter": GREGORIAN_FIELDS,
}
PHASES = ("new-moon", "first-quarter", "full-moon", "last-quarter")
TERMS = ("minor-term", "major-term")
PLACES = ("tehran", "cairo", "ujjain")
TIMES = ("sunset", "moonrise", "moonset")

# The calendars that follow the sky, in the order in which they are shown.
CALENDARS = ("chinese", "vietnamese", "korean", "japanese", "persian", "bahai", "islamic", "hebrew-observed", "hindu-solar",
             "hindu-lunar", "french")
EASTERN = ("chinese", "vietnamese", "korean", "japanese")
TARGETS = ("gregorian", "fixed", *CALENDARS, "dt", "sun", "distance",
           *(f"{time}-{place}" for time in TIMES for place in PLACES))


def year_number(calendar, fields):
    """The number of a date's year: the cycles counted in, where the calendar has cycles."""
    if calendar in EASTERN:
        return 60 * (fields[0] - 1) + fields[1]
    if calendar == "bahai":
        return 361 * (fields[0] - 1) + 19 * (fields[1] - 1) + fields[2]
    return fields[0]


def gregorian(day):
    """The Gregorian date of a day number, as YYYY-MM-DD; the number itself outside the years 1 to 9999."""
    if 1 <= day <= datetime.date.max.toordinal():
        return datetime.date.fromordinal(day).isoformat()
    return f"day {day}"


class Date(NamedTuple):
    """A date of a calendar that follows the sky, by its fields."""

    calendar: str
    fields: tuple

    @classmethod
    def read(cls, calendar, text):
        """The date of a result, as 78-44-1-0-1. ValueError where it isn't one of the calendar's."""
        fields = tuple(int(field) for field in text.split("-"))
        if len(fields) != len(FIELDS[calendar]) or text != "-".join(map(str, fields)):
            raise ValueError(f"{text} is no date of {calendar}")
        return cls(calendar, fields)

    def __str__(self):
        return "-".join(map(str, self.fields))

    def field(self, word):
        """The field of this word."""
        return self.fields[[field for field, _, _ in FIELDS[self.calendar]].index(word)]

    @property
    def year(self):
        """The fields that tell the year."""
        return self.fields[: [field for field, _, _ in FIELDS[self.calendar]].index("month")]

    @property
    def month(self):
        """The number of the month as docs/names.tsv has it, with 1 for a leap or an added one where there are such."""
        words = [field for field, _, _ in FIELDS[self.calendar]]
        return "-".join(str(field) for word, field in zip(words, self.fields)
                        if word in ("month", "leap month", "added month"))

    @property
    def day(self):
        """The day of the month."""
        return self.field("day")

    @property
    def is_leap_day(self):
        """Whether it is the second of two days with the same number."""
        return self.calendar == "hindu-lunar" and self.fields[-1] == 1

    def month_name(self, months_of_year=12):
        """The Name of the month, in a year of so many months, which tells the two Adars. A number of no month is its own name."""
        if self.calendar == "hebrew-observed" and self.month == "12" and months_of_year == 13:
            return names.name(self.calendar, "12 of 13")
        return names.find(self.calendar, self.month) or names.Name(f"month {self.month}", f"month {self.month}", "en")

    def day_name(self):
        """The Name of the day, where it has one of its own; else None."""
        return None if self.is_leap_day else names.find(self.calendar, f"{self.month}-{self.day}")

    def year_names(self):
        """Of a calendar with years of stem and branch these two and the animal, as Names; else None."""
        if self.calendar not in EASTERN:
            return None
        return tuple(names.place_in(f"{self.calendar}-{part}", self.field("year")) for part in ("stem", "branch", "animal"))

    def year_words(self):
        """The year in words: 1448 AH; year 44 of cycle 78, Dingwei (goat)."""
        if self.calendar in EASTERN:
            stem, branch, animal = self.year_names()
            return f"year {self.field('year')} of cycle {self.field('cycle')}, {joined(stem.latin, branch.latin)} ({animal.latin})"
        return f"{year_number(self.calendar, self.fields)} {names.name(self.calendar, 'era').latin}"

    def month_number(self):
        """The number of the month in words, where a leap or an added month has the same: leap month 6; else nothing."""
        if self.calendar in EASTERN:
            return f"{'leap ' if self.field('leap month') else ''}month {self.field('month')}"
        return f"added month {self.field('month')}" if self.calendar == "hindu-lunar" and self.field("added month") else ""

    def words(self):
        """The whole date in words: 1 Ramadan 1448 AH; 1 Zhengyue (month 1), year 44 of cycle 78, Ding-wei (goat)."""
        day = f"{self.day}" + (" (the second day of this number)" if self.is_leap_day else "")
        number = f" ({self.month_number()})" if self.month_number() else ""
        return f"{day} {self.month_name().latin}{number}{',' if self.calendar in EASTERN else ''} {self.year_words()}"


def joined(stem, branch):
    """Stem and branch as one name: Ding-wei; in two words where the language writes them so, as Đinh Mùi."""
    return f"{stem} {branch}" if branch[0].isupper() else f"{stem}-{branch}"
