"""A year of dates, phases and terms: the lines that are asked for it, and what its text says.

Each day of the year is asked for its date in each calendar, and the day before the year too, so that a month that begins on 1 January
is seen to begin. A first of a month is a day whose month is another than that of the day before.
"""
import collections
import datetime
from typing import NamedTuple, Optional

from . import names, ranges, texts
from .dates import CALENDARS, EASTERN, FIRST_FRENCH_DAY, PHASES, TIMES, Date, year_number

FIRST_TERM = 285  # degrees: the minor term that is next from 1 January on, in each year of the range
TERM_STEP = 15  # degrees from a term to the next
DAYS_OF_TERMS = (("minor-term", 1), ("major-term", 15))  # from these days of a month its terms are the next
DAYS_OF_PHASES = (1, 15)  # less than a month apart: so each phase is the last before one of these


class RequestError(Exception):
    """A year or a calendar that can't be had, in a sentence."""


class Question(NamedTuple):
    """A line that is asked, and what for: `kind` is date, phase, term or time; `about` the calendar, phase, degrees or time."""

    kind: str
    about: str
    day: Optional[datetime.date]
    line: str


class Event(NamedTuple):
    """What falls on a day, with the place of its question: a phase, a term, a new year, a month's or a named day's beginning."""

    day: datetime.date
    kind: str
    about: str
    place: int


def chosen_calendars(year, words=None):
    """The calendars of a list with commas, in their usual order; all that have dates in the year where there is no list."""
    has_french = datetime.date(year, 12, 31).toordinal() >= FIRST_FRENCH_DAY
    if words is None:
        return tuple(calendar for calendar in CALENDARS if calendar != "french" or has_french)
    asked = words.split(",")
    for word in asked:
        if word not in CALENDARS:
            raise RequestError(f"{word or 'nothing'} is no calendar of these: {', '.join(CALENDARS)}")
        if word == "french" and not has_french:
            raise RequestError(f"the French calendar has no date in {year}: it begins on 22 September 1792")
    return tuple(calendar for calendar in CALENDARS if calendar in asked)


def checked_year(word):
    """The number of a year that can be had."""
    first, last = ranges.of("almanac")
    if not (word.isascii() and word.isdigit() and first <= int(word) <= last):
        raise RequestError(f"{word} is no year of {first} to {last}")
    return int(word)


def days_of(year):
    """The days of a year."""
    first = datetime.date(year, 1, 1)
    return [first + datetime.timedelta(count) for count in range((datetime.date(year, 12, 31) - first).days + 1)]


def date_questions(year, calendars):
    """The date of each day in each calendar, those of the day before the year first."""
    for day in [datetime.date(year - 1, 12, 31), *days_of(year)]:
        for calendar in calendars:
            if calendar != "french" or day.toordinal() >= FIRST_FRENCH_DAY:
                yield Question("date", calendar, day, f"gregorian {day} {calendar}")


def phase_questions(year):
    """The last of each phase before days that lie less than a month apart."""
    asked = [datetime.date(year, month, day) for month in range(1, 13) for day in DAYS_OF_PHASES]
    for day in [*asked[1:], datetime.date(year + 1, 1, 1)]:
        for phase in PHASES:
            yield Question("phase", phase, None, f"{phase} {day} gregorian")


def term_questions(year):
    """The minor and the major term of each month."""
    degrees = FIRST_TERM
    for month in range(1, 13):
        for kind, day in DAYS_OF_TERMS:
            yield Question("term", str(degrees), None, f"{kind} {datetime.date(year, month, day)} gregorian")
            degrees = (degrees + TERM_STEP) % 360


def time_questions(year, place):
    """Sunset, moonrise and moonset of each day at a place."""
    for day in days_of(year):
        for time in TIMES:
            yield Question("time", time, day, f"gregorian {day} {time}-{place}")


def questions(year, calendars, place=None):
    """All lines that a year asks, in order."""
    asked = [*date_questions(year, calendars), *phase_questions(year), *term_questions(year)]
    return asked + list(time_questions(year, place)) if place else asked


class Year:
    """What the text of a year's questions says."""

    def __init__(self, year, calendars, place, text):
        self.year, self.calendars, self.place, self.text = year, calendars, place, text
        self.questions = questions(year, calendars, place)
        self.days = days_of(year)
        if len(self.questions) != len(text.lines):
            raise texts.FormError(f"the text has {len(text.lines)} lines, {year} asks {len(self.questions)}")
        self.dates, self.times, self.places = {}, {}, {}
        self.events, self.seen = [], set()
        for place_of_question, (question, line) in enumerate(zip(self.questions, text.lines)):
            self.take(place_of_question, question, line)
        self.months = self.months_of_years()
        self.events += self.beginnings()
        self.events.sort(key=lambda event: event.day)

    def take(self, place, question, line):
        """Files one answer."""
        if line.asked is None or " ".join(line.asked) != question.line or line.result is None:
            raise texts.FormError(f"line {line.number}, which {self.year} asks as `{question.line}`, has no such result")
        if question.kind == "date":
            self.dates[question.day, question.about] = Date.read(question.about, line.result)
            self.places[question.day, question.about] = place
        elif question.kind == "time":
            self.times[question.day, question.about] = int(line.result)
            self.places[question.day, question.about] = place
        else:
            event = Event(datetime.date.fromisoformat(line.result), question.kind, question.about, place)
            if event.day.year == self.year and event[:3] not in self.seen:
                self.seen.add(event[:3])
                self.events.append(event)

    def line(self, place):
        """The line of the text at the place of a question."""
        return self.text.lines[place]

    def months_of_years(self):
        """The greatest number of a month that each Hebrew year shows here, which tells whether its twelfth is the first Adar."""
        seen = collections.defaultdict(int)
        for (_, calendar), date in self.dates.items():
            if calendar == "hebrew-observed":
                seen[date.year] = max(seen[date.year], int(date.month))
        return seen

    def month_name(self, date):
        """The Name of a date's month."""
        return date.month_name(max(12, self.months[date.year]) if date.calendar == "hebrew-observed" else 12)

    def date(self, day, calendar):
        """The date of a day, or None before the first French one."""
        return self.dates.get((day, calendar))

    def begins(self, day, calendar):
        """What begins on a day: a year, a month, or nothing."""
        date, before = self.date(day, calendar), self.date(day - datetime.timedelta(1), calendar)
        if date is None:
            return None
        if before is None or before.year != date.year:
            return "new-year"
        return "month" if before.month != date.month else None

    def beginnings(self):
        """New years, firsts of months, and days with a name of their own."""
        for day in self.days:
            for calendar in self.calendars:
                begun, date = self.begins(day, calendar), self.date(day, calendar)
                if begun:
                    yield Event(day, begun, calendar, self.places[day, calendar])
                if date and date.day_name():
                    yield Event(day, "named-day", calendar, self.places[day, calendar])

    def title(self, event):
        """An event's title, as a person would write it."""
        if event.kind == "phase":
            return names.name("phase", event.about).latin
        if event.kind == "term":
            season = names.find("season", event.about)
            return names.name("term", event.about).latin + (f" ({season.latin})" if season else "")
        date = self.date(event.day, event.about)
        if event.kind == "new-year":
            return f"{names.name(event.about, 'new-year').latin}, {date.year_words()}"
        if event.kind == "named-day":
            return f"{date.day_name().latin} ({names.name(event.about, 'name').latin})"
        return self.month_title(date)

    def month_title(self, date):
        """The title of a month's first day: Ramadan 1448; tháng Hai (Vietnamese month 2)."""
        month = self.month_name(date).latin
        if date.calendar in EASTERN:
            return f"{month} ({names.name(date.calendar, 'name').latin} {date.month_number()})"
        era = "" if date.calendar == "islamic" else f" {names.name(date.calendar, 'era').latin}"
        return f"{month} {year_number(date.calendar, date.fields)}{era}"


def ask(year, calendars, place=None, program=None):
    """The text of a year's questions by the program, and what it says."""
    written = texts.convert([question.line for question in questions(year, calendars, place)], program)
    return written, Year(year, calendars, place, texts.read(written))
