"""The page of a year: its dates, phases, terms and times as HTML, with the text on which they rest; and what such a page shows."""
import html
import html.parser
import itertools
import pathlib

from . import names, texts, words, years
from .dates import EASTERN, TIMES, year_number

STYLE = pathlib.Path(__file__).with_name("page.css")
FIRST_WEEKDAYS = {"monday": 0, "sunday": 6}  # as Python counts weekdays
WEEK = 7
FEW = 5  # so many calendars are printed in larger letters

# The moon at its phases as it is seen from the north, in a square of 16; from the south left is right.
DISC = '<circle class="{}" cx="8" cy="8" r="7"/>'
RIGHT_HALF, LEFT_HALF = '<path class="lit" d="M8 1a7 7 0 0 1 0 14z"/>', '<path class="lit" d="M8 1a7 7 0 0 0 0 14z"/>'
NORTHERN = {"new-moon": "", "first-quarter": RIGHT_HALF, "full-moon": DISC.format("lit"), "last-quarter": LEFT_HALF}
SOUTHERN = NORTHERN | {"first-quarter": LEFT_HALF, "last-quarter": RIGHT_HALF}

PROMISES = """\
<p>Each date is the one that the formulas and the rule of its calendar give, exactly. The certificate below has each line that was asked,
its result, and the facts of the sky on which it rests; <code>calendrica check</code> computes them anew and says yes of each.</p>
<p>It isn't promised that an authority proclaims these dates: it may go by other formulas, by a sighting, or by another clock. Eclipses
aren't told. A phase of the moon stands on its day in universal time, a solar term on its day in Beijing{times}. A date is that of
the day's daylight: a Bahá'í, an Islamic and a Hebrew day begin with the evening before. Dates are Gregorian in each year.</p>
"""


def escape(text):
    """A text in HTML."""
    return html.escape(text, quote=False)


def own(name):
    """A name in its own script, marked by its language and direction; nothing where it is the Latin one."""
    if name.own == name.latin:
        return ""
    return f' <bdi lang="{name.language}" dir="{name.direction}">{escape(name.own)}</bdi>'


def latin(name):
    """A name in Latin letters, marked by its language where that is its own script."""
    if name.own == name.latin and name.language != "en":
        return f'<span lang="{name.language}">{escape(name.latin)}</span>'
    return escape(name.latin)


def both(name):
    """A name in Latin letters and in its own script."""
    return latin(name) + own(name)


def year_html(date):
    """A year in words, with stem and branch in their own script too."""
    if date.calendar not in EASTERN:
        return escape(date.year_words())
    stem, branch, animal = date.year_names()
    written = animal.own if stem.own == stem.latin else f"{stem.own}{branch.own}, {animal.own}"
    return escape(date.year_words()) + own(names.Name("", written, stem.language))


class Page:
    """The page of a Year with the options by which it is laid out."""

    def __init__(self, year, certificate, first="monday", south=False):
        self.year, self.certificate, self.first, self.south = year, certificate, first, south
        self.events = {day: list(group) for day, group in itertools.groupby(year.events, key=lambda event: event.day)}

    def grounds(self, place):
        """What the line at a place rests on, as the list that a date opens."""
        line = self.year.line(place)
        told = "".join(f"<li>{escape(ground.words)}" for ground in words.grounds(line, self.year.text))
        return f"<ul><li>Line {line.number}: {line.result}{told}</ul>"

    def opening(self, shown, place):
        """Something shown that opens what it rests on."""
        return f"<details><summary>{shown}</summary>{self.grounds(place)}</details>"

    def event(self, event):
        """An event of a day, but for firsts of months, which the date shows."""
        if event.kind == "phase":
            shown = f'<svg class="moon" viewBox="0 0 16 16" aria-hidden="true"><use href="#{event.about}"/></svg> ' + escape(
                self.year.title(event))
        elif event.kind == "term":
            name = names.name("term", event.about)
            season = names.find("season", event.about)
            shown = both(name) + (f", {season.latin}" if season else "")
        elif event.kind == "named-day":
            shown = both(self.year.date(event.day, event.about).day_name())
        else:
            date = self.year.date(event.day, event.about)
            shown = f"{both(names.name(event.about, 'new-year'))}, {self.short_year(date)}"
        return f'<li class="{event.kind}">{self.opening(shown, event.place)}'

    def short_year(self, date):
        """A year as a cell has room for it."""
        if date.calendar in EASTERN:
            stem, branch, animal = date.year_names()
            return f"{date.field('cycle')}-{date.field('year')}, {animal.latin}"
        return str(year_number(date.calendar, date.fields))

    def date(self, day, calendar):
        """The date of a day in a calendar; the month's own script where it begins."""
        date = self.year.date(day, calendar)
        label = f"<b>{escape(names.name(calendar, 'name').latin)}</b> "
        if date is None:
            return f"<li>{label}–"
        begins = self.year.begins(day, calendar)
        month = self.year.month_name(date)
        shown = f"{date.day}{' again' if date.is_leap_day else ''} {both(month) if begins else latin(month)}"
        marked = ' class="begins"' if begins else ""
        value = f'<span data-date="{date}">{shown}</span>'
        return f"<li{marked}>{self.opening(label + value, self.year.places[day, calendar])}"

    def times(self, day):
        """Sunset, moonrise and moonset of a day at the place."""
        if not self.year.place:
            return ""
        shown = []
        for time in TIMES:
            minutes = self.year.times[day, time]
            clock = "–" if minutes < 0 else words.clock(minutes)
            shown.append(f"<li>{self.opening(f'<b>{time.capitalize()}</b> {clock}', self.year.places[day, time])}")
        return f'<ul class="times">{"".join(shown)}</ul>'

    def cell(self, day):
        """The cell of a day."""
        long = f"<i>{day:%A}, </i>{day.day}<i> {day:%B}</i>"
        events = "".join(self.event(event) for event in self.events.get(day, ()) if event.kind != "month")
        listed = f'<ul class="events">{events}</ul>' if events else ""
        dates = "".join(self.date(day, calendar) for calendar in self.year.calendars)
        return (f'<td role="cell" id="{day:%m-%d}"><time datetime="{day}">{long}</time>{listed}<ul class="dates">{dates}</ul>'
                f"{self.times(day)}</td>\n")

    def month(self, days):
        """The sheet of a month."""
        start = FIRST_WEEKDAYS[self.first]
        heads = "".join(f'<th role="columnheader" scope="col">{names.name("weekday", (start + 1 + place) % WEEK).latin}</th>'
                        for place in range(WEEK))
        empty = '<td role="cell" class="none"></td>\n'
        cells = [empty] * ((days[0].weekday() - start) % WEEK) + [self.cell(day) for day in days]
        cells += [empty] * (-len(cells) % WEEK)
        rows = "".join(f'<tr role="row">\n{"".join(cells[at:at + WEEK])}</tr>\n' for at in range(0, len(cells), WEEK))
        title = f"{days[0]:%B} {days[0].year}"
        return (f'<section class="sheet" id="{days[0]:%m}" aria-labelledby="h{days[0]:%m}">\n<h2 id="h{days[0]:%m}">{title}</h2>\n'
                f'<table class="month" role="table" aria-labelledby="h{days[0]:%m}">\n'
                f'<thead role="rowgroup"><tr role="row">{heads}</tr></thead>\n<tbody role="rowgroup">\n{rows}</tbody>\n</table>\n</section>\n')

    def years_of(self, calendar):
        """The years of a calendar that the year has days of, each with its first day here."""
        dated = [(day, self.year.date(day, calendar)) for day in self.year.days]
        runs = itertools.groupby((pair for pair in dated if pair[1]), key=lambda pair: pair[1].year)
        for _, run in runs:
            day, date = next(run)
            since = "" if day == self.year.days[0] else f"from {day.day} {day:%B} "
            yield f"<li>{since}{year_html(date)}"

    def head(self):
        """The title, the year by each calendar, and the way to each month."""
        rows = "".join(f'<tr><th scope="row">{both(names.name(calendar, "name"))}</th><td><ul>{"".join(self.years_of(calendar))}</ul></td></tr>\n'
                       for calendar in self.year.calendars)
        months = "".join(f'<li><a href="#{month:02}">{names.name("gregorian", month).latin}</a>' for month in range(1, 13))
        return (f'<header>\n<h1>{self.year.year}</h1>\n<table class="years">\n<caption>The year by each calendar</caption>\n'
                f"<tbody>\n{rows}</tbody>\n</table>\n</header>\n"
                f'<nav aria-label="Months"><ul>{months}<li><a href="#promised">What is promised</a>'
                f'<li><a href="#certificate">Certificate</a></ul></nav>\n')

    def foot(self):
        """What is promised and what isn't, the rules, and the certificate."""
        city = words.CITIES[self.year.place] if self.year.place else ""
        times = f", times are those of {city} by its standard time, and – is a day without one" if city else ""
        rules = "".join(f"<li><b>{names.name(calendar, 'name').latin}</b>: {escape(words.rule(calendar))}.</li>\n"
                        for calendar in self.year.calendars)
        return (f'<footer>\n<h2 id="promised">What is promised, and what isn\'t</h2>\n{PROMISES.format(times=times)}'
                f"<h2>Rules</h2>\n<ul>\n{rules}</ul>\n"
                f'<section id="certificate">\n<h2>Certificate</h2>\n<p>A date opens what it rests on. This is the whole text, for '
                f"<code>calendrica check</code>; <code>almanac-page --certificate</code> takes it out of the page.</p>\n"
                f"<details><summary>{len(self.year.text.lines)} lines and {len(self.year.text.facts)} facts</summary>\n"
                f'<pre id="text">{escape(self.certificate)}</pre>\n</details>\n</section>\n</footer>\n')

    def moons(self):
        """The drawings of the phases, to which the cells refer."""
        drawn = SOUTHERN if self.south else NORTHERN
        symbols = "".join(f'<symbol id="{phase}" viewBox="0 0 16 16">{DISC.format("shade")}{drawn[phase]}{DISC.format("edge")}</symbol>\n'
                          for phase in drawn)
        return f'<svg width="0" height="0" style="position:absolute" aria-hidden="true">\n{symbols}</svg>\n'

    def text(self):
        """The whole page."""
        year = self.year
        options = (f'data-year="{year.year}" data-calendars="{",".join(year.calendars)}" data-place="{year.place or "none"}" '
                   f'data-first="{self.first}" data-sky="{"south" if self.south else "north"}"')
        few = ' class="few"' if len(year.calendars) <= FEW else ""
        sheets = "".join(self.month(list(days)) for _, days in itertools.groupby(year.days, key=lambda day: day.month))
        return (f'<!DOCTYPE html>\n<html lang="en">\n<head>\n<meta charset="utf-8">\n'
                f'<meta name="viewport" content="width=device-width, initial-scale=1">\n<meta name="generator" content="almanac-page">\n'
                f"<title>Almanac of {year.year}</title>\n<style>\n{STYLE.read_text(encoding='utf-8')}</style>\n</head>\n"
                f"<body {options}{few}>\n{self.moons()}{self.head()}<main>\n{sheets}</main>\n{self.foot()}</body>\n</html>\n")


class PageError(Exception):
    """A page that isn't what its certificate gives, in a sentence."""


class Shown(html.parser.HTMLParser):
    """What a page shows: its options, its certificate, its dates, and all its text with the day of each piece."""

    def __init__(self, page):
        super().__init__()
        self.options, self.certificate = {}, ""
        self.dates, self.pieces = [], []
        self.day = self.label = None
        self.stack = []
        self.feed(page)
        self.close()

    def handle_starttag(self, tag, attrs):
        attributes = dict(attrs)
        self.stack.append((tag, attributes))
        if tag == "body":
            self.options = attributes
        elif tag == "td":
            self.day, self.label = attributes.get("id"), None
        elif "data-date" in attributes:
            self.dates.append([self.day, self.label, attributes["data-date"], ""])

    def handle_endtag(self, tag):
        while self.stack and self.stack.pop()[0] != tag:
            pass
        if tag == "td":
            self.day = None

    def handle_data(self, data):
        inside = self.stack[-1] if self.stack else ("", {})
        if inside == ("pre", {"id": "text"}):
            self.certificate += data
        if inside[0] in ("pre", "style"):
            return
        if inside[0] == "b":
            self.label = data
        if any("data-date" in attributes for _, attributes in self.stack[-2:]):
            self.dates[-1][3] += data
        self.pieces.append((self.day, self.label, data))


def of_certificate(shown):
    """The page that the certificate and the options of a page give."""
    options = shown.options
    try:
        year = years.checked_year(options["data-year"])
        calendars = years.chosen_calendars(year, options["data-calendars"])
        place = None if options["data-place"] == "none" else options["data-place"]
        read = years.Year(year, calendars, place, texts.read(shown.certificate))
        return Page(read, shown.certificate, options["data-first"], options["data-sky"] == "south").text()
    except KeyError as error:
        raise PageError(f"this is no page of almanac-page: {error.args[0]} isn't there") from error
    except (years.RequestError, texts.FormError, ValueError) as error:
        raise PageError(f"the certificate isn't that of such a page: {error}") from error


def first_difference(page, wanted, shown):
    """The first date in which a page isn't the wanted one, or else what comes first of all else, in a sentence."""
    right = Shown(wanted)
    year = shown.options["data-year"]
    for (day, label, value, text), (_, _, right_value, right_text) in zip(shown.dates, right.dates):
        if (value, text) != (right_value, right_text):
            return (f"{year}-{day}, {label}: the page shows {text.strip()} ({value}), "
                    f"its certificate gives {right_text.strip()} ({right_value})")
    for (day, label, text), piece in zip(shown.pieces, right.pieces):
        if (day, label, text) != piece:
            at = f"{year}-{day}" + (f", {label}" if label else "") if day else "beside the days"
            return f"{at}: the page shows `{text.strip()}`, its certificate gives `{piece[2].strip()}`"
    for number, (line, right_line) in enumerate(itertools.zip_longest(page.splitlines(), wanted.splitlines()), 1):
        if line != right_line:
            return f"line {number} of the page isn't what its certificate gives"
    return "the page's ends of lines aren't those of almanac-page"


def certificate_of(page):
    """The certificate of a page, whose dates and all else must be what it gives; else PageError with the first difference."""
    shown = Shown(page)
    wanted = of_certificate(shown)
    if page != wanted:
        raise PageError(first_difference(page, wanted, shown))
    return shown.certificate
