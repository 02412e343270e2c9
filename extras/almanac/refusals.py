"""The rules of a line of input (docs/FORMAT.md): which one it breaks, why, and what would do."""
import datetime
import difflib
import re
from typing import NamedTuple

from . import ranges
from .dates import CALENDARS, EASTERN, FIELDS, FIRST_FRENCH_DAY, TARGETS, Date, gregorian, year_number

LONGEST_LINE = 200  # bytes
RULES = {1: "syntax", 2: "calendar", 3: "field", 4: "range", 5: "no such date"}
BYTE_ORDER_MARK = b"\xef\xbb\xbf"
# What people type in place of a hyphen.
DASHES = "\u2010\u2011\u2012\u2013\u2014\u2212\uff0d"
# Other names of calendars, by the words that the program has.
OTHER_NAMES = {
    "hebrew": "hebrew-observed", "jewish": "hebrew-observed", "hijri": "islamic", "muslim": "islamic", "jalali": "persian",
    "iranian": "persian", "badi": "bahai", "baha'i": "bahai", "republican": "french", "revolutionary": "french", "hindu": "hindu-lunar",
    "saka": "hindu-solar", "vikrama": "hindu-lunar", "lunar": "chinese", "dangi": "korean", "rd": "fixed", "iso": "gregorian",
    "western": "gregorian", "sunrise": "sunset-cairo", "sunset": "sunset-cairo", "moonrise": "moonrise-cairo", "moonset": "moonset-cairo",
}


class Refusal(NamedTuple):
    """The rule that a line breaks, why, and what would do: a sentence, and a line of input or nothing."""

    rule: int
    why: str
    remedy: str


def is_blank_or_printable(byte):
    """Whether rule 1 takes this byte."""
    return byte == 9 or 0x20 <= byte <= 0x7E


def of_bytes(line):
    """Rule 1 for a line's bytes, without its line feed and one carriage return: a Refusal, or None."""
    if line.startswith(BYTE_ORDER_MARK):
        return Refusal(1, "it begins with a byte order mark (EF BB BF)", "save the file as UTF-8 without one")
    if line[:2] in (b"\xff\xfe", b"\xfe\xff") or b"\0" in line:
        return Refusal(1, "it has bytes of UTF-16", "save the file as UTF-8, as by `iconv -f UTF-16 -t UTF-8`")
    other = next((place for place, byte in enumerate(line) if not is_blank_or_printable(byte)), None)
    if other is not None:
        text = line.decode("utf-8", "replace")
        sign = next(char for char in text if not (char == "\t" or " " <= char <= "~"))
        plain = re.sub(f"[{DASHES}]", "-", text.replace("\xa0", " "))
        if plain != text and all(char == "\t" or " " <= char <= "~" for char in plain):
            return Refusal(1, f"it has the sign {sign!r} (U+{ord(sign):04X}) at byte {other + 1}", f"write `{plain.strip()}`")
        return Refusal(1, f"it has the sign {sign!r} (U+{ord(sign):04X}) at byte {other + 1}",
                       "lines have letters, digits and signs of ASCII, spaces and tabs alone")
    if len(line) > LONGEST_LINE:
        return Refusal(1, f"it has {len(line)} bytes", f"{LONGEST_LINE} are allowed")
    return of_words(line.decode().split())


def of_words(words):
    """Rule 1 for the number of words, then rules 2 to 4: a Refusal, or None."""
    if not words:
        return Refusal(1, "it is empty", "a line is FROM DATE TO; leave empty ones out where their refusals are in the way")
    if len(words) != 3:
        return Refusal(1, f"it has {len(words)} field{'s' if len(words) > 1 else ''}", "a line is FROM DATE TO" + suggestion(words))
    return of_names(*words) or of_fields(words[0], words[1]) or of_range(*words)


def suggestion(words):
    """The line that was meant, where that can be told."""
    if len(words) == 2 and words[0] in FIELDS:
        return f", as `{words[0]} {words[1]} {'chinese' if words[0] == 'gregorian' else 'gregorian'}`"
    if len(words) == 5 and words[0] in FIELDS and words[-1] in TARGETS:
        return f", the date's fields joined by `-`: `{words[0]} {'-'.join(words[1:-1])} {words[-1]}`"
    if len(words) > 3 and words[0] in FIELDS and words[-1] in TARGETS:
        return f", as `{words[0]} {'-'.join(words[1:-1])} {words[-1]}`"
    return ""


def of_names(source, date, target):
    """Rule 2: whether FROM and TO are words that may stand there."""
    for role, word, known in (("FROM", source, tuple(FIELDS)), ("TO", target, TARGETS)):
        if word in known:
            continue
        if word in FIELDS or word in TARGETS:
            return Refusal(2, f"`{word}` may not stand as {role}", f"as {role} stand {', '.join(known)}")
        near = OTHER_NAMES.get(word.lower()) or next(iter(difflib.get_close_matches(word.lower(), known, 1, 0.7)), None)
        if near not in known:
            return Refusal(2, f"`{word}` is no word as {role}", f"as {role} stand {', '.join(known)}")
        mended = (near, date, target) if role == "FROM" else (source, date, near)
        return Refusal(2, f"`{word}` is no word as {role}", f"write `{' '.join(mended)}`")
    return None


def is_gregorian(source):
    """Whether a date of this word is a Gregorian one."""
    return source not in CALENDARS and source != "fixed"


def of_fields(source, date):
    """Rule 3: whether DATE has the fields of FROM, within their limits."""
    wanted = FIELDS[source]
    form = "-".join(field.replace(" ", "_") for field, _, _ in wanted)
    if not re.fullmatch(r"[0-9]+(-[0-9]+)*", date):
        plain = re.sub(r"[/.,:]", "-", date)
        if plain != date and not of_fields(source, plain):
            return Refusal(3, f"the fields of `{date}` aren't joined by `-`", f"write `{plain}`")
        return Refusal(3, f"`{date}` isn't made of decimal digits and `-`", f"a date of {source} is {form}")
    fields = date.split("-")
    if len(fields) != len(wanted):
        more = ": the leap month, 0 or 1, stands before the day" if source in EASTERN and len(fields) == 4 else ""
        return Refusal(3, f"`{date}` has {len(fields)} field{'s' if len(fields) > 1 else ''}",
                       f"a date of {source} has {len(wanted)}, {form}{more}")
    for (field, least, most), written in zip(wanted, fields):
        if len(written) > 7:
            return Refusal(3, f"the {field} has {len(written)} digits", "a field has one to seven")
        if not least <= int(written) <= most:
            return Refusal(3, f"the {field} is {int(written)}", f"it is {least} to {most}" + hint_of_field(source, field, int(written)))
    return of_gregorian_day(*map(int, fields)) if is_gregorian(source) else None


def hint_of_field(source, field, value):
    """What a field out of its limits often stands for."""
    if field == "leap month":
        return ": 1 for a leap month and else 0"
    if source in EASTERN and field == "cycle" and value == 0:
        return ": cycles are counted from 1"
    if (field == "month" and value > 12 or field == "day" and value > 31) and is_gregorian(source):
        return "; a date is year, month, day"
    return ""


def of_gregorian_day(year, month, day):
    """Rule 3: whether the Gregorian calendar has this day."""
    first = datetime.date(year, month, 1)
    following = datetime.date(year + month // 12, month % 12 + 1, 1) if (year, month) != (9999, 12) else None
    last = (following - first).days if following else 31
    if day <= last:
        return None
    why = f"{first:%B} {year} has {last} days"
    if month == 2 and day == 29 and year % 100 == 0 and year >= 1700:
        shift = year // 100 - year // 400 - 2
        meant = datetime.date(year, 2, 28) + datetime.timedelta(shift)
        return Refusal(3, f"{why}; the Julian calendar had the 29th", f"of the Julian calendar it is {meant.isoformat()}")
    return Refusal(3, why, f"the last is {year:04}-{month:02}-{last:02}, the next {following.isoformat()}" if following else "")


def of_range(source, date, target):
    """Rule 4, as far as the line alone tells it: whether the day, or the year, is one that the program takes."""
    fields = tuple(int(field) for field in date.split("-"))
    day = fields[0] if source == "fixed" else datetime.date(*fields).toordinal() if is_gregorian(source) else None
    if day is not None and not first_day(source, target) <= day <= ranges.of("days")[1]:
        return Refusal(4, f"{gregorian(day)} is out of the range", day_range(source, target))
    if source in CALENDARS:
        least, most = ranges.of(source)
        year = year_number(source, fields)
        if not least <= year <= most:
            counted = " (the cycles counted in)" if source in EASTERN or source == "bahai" else ""
            return Refusal(4, f"the year {year}{counted} is out of the range", f"years of {source} are {least} to {most}{counted}")
    return None


def first_day(source, target):
    """The first day that a line of these words may name."""
    return FIRST_FRENCH_DAY if "french" in (source, target) else ranges.of("days")[0]


def day_range(source, target):
    """The days that such a line may name, in words."""
    first = first_day(source, target)
    none_before = ": the French calendar has none before" if first == FIRST_FRENCH_DAY else ""
    return f"days are {gregorian(first)} to {gregorian(ranges.of('days')[1])}{none_before}"


def of_shown_day(source, target, day):
    """Rule 4 for a line whose day was computed: `refused 4 DAY`."""
    return Refusal(4, f"the day that it names is {gregorian(day)}", day_range(source, target))


def of_shown_date(source, written, target, back):
    """Rule 5: `refused 5 BACK`, the day that DATE names has the date BACK."""
    fields = tuple(int(field) for field in written.split("-"))
    asked, found = Date(source, fields), Date.read(source, back)
    if source in EASTERN and asked.field("leap month") == 1 and found.field("leap month") == 0:
        why = f"that year has no leap month {asked.field('month')}"
    elif source == "hindu-lunar" and asked.field("added month") == 1 and found.field("added month") == 0:
        why = f"that year has no added month {asked.field('month')}"
    elif source == "hindu-lunar" and asked.year == found.year and asked.month == found.month:
        why = "no sunrise of that month falls in this lunar day" if not asked.is_leap_day else "that month has this lunar day once"
    else:
        why = f"there is no {asked.words()}"
    return Refusal(5, f"{why}; the day that it would be is {found.words()}", f"write `{source} {back} {target}`")
