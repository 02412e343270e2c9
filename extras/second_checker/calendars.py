"""The calendars of docs/FORMULAS.md: the day of a date and the date of a day, exact rules over the facts that `ask` gives.

`ask(kind, day)` is the value of a fact at the calendar's place. The rules hold over every table of facts, a false one too."""

from datetime import date
from fractions import Fraction
from math import floor

from .facts import amod
from .sky import S, T, Y, first_day, gregorian
from .tables import CONSTANT

PERSIAN, BAHAI, CHINESE, ISLAMIC, FRENCH, HINDU = (
    CONSTANT[name + "_EPOCH"] for name in ("PERSIAN", "BAHAI", "CHINESE", "ISLAMIC", "FRENCH", "HINDU"))
HALF = Fraction(1, 2)

def rounded(x): return floor(x + HALF)
def persian_new_year(ask, year): return ask("nowruz", PERSIAN + 180 + floor(T * (year - 1)))
def persian_before(month): return 31 * (month - 1) if month <= 7 else 30 * (month - 1) + 6
def persian_date(ask, day):
    year = 1 + rounded((ask("nowruz", day) - PERSIAN) / T)
    n = day - persian_new_year(ask, year) + 1
    month = -(-n // 31) if n <= 186 else -((6 - n) // 30)
    return year, month, n - persian_before(month)
def persian_day(ask, year, month, day): return persian_new_year(ask, year) + persian_before(month) + day - 1
def bahai_new_year(ask, x): return ask("bahai-year", BAHAI + floor(T * x))
def bahai_date(ask, day):
    begins = ask("bahai-year", day)
    k = rounded((begins - BAHAI) / T)
    following, base = bahai_new_year(ask, k + 3 * HALF), bahai_new_year(ask, k + HALF)
    month = 19 if following - 19 <= day else 0 if base + 342 <= day else (day - begins) // 19 + 1
    start = following - 19 if month == 19 else base + 342 if month == 0 else base + 19 * (month - 1)
    return k // 361 + 1, k % 361 // 19 + 1, k % 19 + 1, month, day - start + 1

def bahai_day(ask, major, cycle, year, month, day):
    n = 361 * (major - 1) + 19 * (cycle - 1) + year
    if month == 19: return bahai_new_year(ask, n + HALF) - 19 + day - 1
    return bahai_new_year(ask, n - HALF) + (342 if month == 0 else 19 * (month - 1)) + day - 1
def is_bare(ask, month): return ask("major", month) == ask("major", ask("new-moon-from", month + 1))
def prior(ask, first, month, calls=15):
    """Whether a month, or one before it as far as the first of the sui, is bare."""
    if month < first or calls == 0: return False
    return prior(ask, first, ask("new-moon-before", month), calls - 1) or is_bare(ask, month)
def sui(ask, day):
    """The winter solstice after the sui of a day, and the first month of it."""
    last = ask("solstice", day)
    following = ask("solstice", last + 370)
    return following, ask("new-moon-from", last + 1)
def is_leap_sui(ask, following, first): return rounded((ask("new-moon-before", following + 1) - first) / S) == 12
def chinese_date(ask, day):
    following, first = sui(ask, day)
    is_leap = is_leap_sui(ask, following, first)
    month = ask("new-moon-before", day + 1)
    number = amod(rounded((month - first) / S) - (is_leap and prior(ask, first, month)), 12)
    leap = is_leap and is_bare(ask, month) and not prior(ask, first, ask("new-moon-before", month))
    elapsed = floor(Fraction(3, 2) - Fraction(number, 12) + (day - CHINESE) / T)
    return (elapsed - 1) // 60 + 1, amod(elapsed, 60), number, int(leap), day - month + 1

def chinese_new_year(ask, day):
    """The first day of the year that begins in the sui of a day."""
    following, first = sui(ask, day)
    second = ask("new-moon-from", first + 1)
    if is_leap_sui(ask, following, first) and (is_bare(ask, first) or is_bare(ask, second)):
        return ask("new-moon-from", second + 1)
    return second

def chinese_day(ask, cycle, year, month, leap, day):
    middle = CHINESE + floor((60 * (cycle - 1) + year - HALF) * T)
    begins = chinese_new_year(ask, middle)
    if middle < begins:
        begins = chinese_new_year(ask, middle - 180)
    start = ask("new-moon-from", begins + 29 * (month - 1))
    if chinese_date(ask, start)[2:4] != (month, leap):
        start = ask("new-moon-from", start + 1)
    return start + day - 1

def islamic_date(ask, day):
    begins = ask("phasis", day)
    k = rounded((begins - ISLAMIC) / S)
    return k // 12 + 1, k % 12 + 1, day - begins + 1
def islamic_day(ask, year, month, day): return ask("phasis", ISLAMIC + floor((12 * (year - 1) + month - HALF) * S)) + day - 1
def french_date(ask, day):
    begins = ask("french-year", day)
    return 1 + rounded((begins - FRENCH) / T), (day - begins) // 30 + 1, (day - begins) % 30 + 1
def french_day(ask, year, month, day): return ask("french-year", FRENCH + 180 + floor(T * (year - 1))) + 30 * (month - 1) + day - 1
def hebrew_date(ask, day):
    begins, year = ask("phasis", day), gregorian(day)[0]
    nisan = ask("nisan", first_day(year))
    if day < nisan:
        year -= 1
        nisan = ask("nisan", first_day(year))
    month = floor((begins - nisan) / CONSTANT["OBSERVED_MONTH"] + HALF) + 1
    return year + CONSTANT["WORLD_ERA"] + (month >= CONSTANT["TISHRI"]), month, day - begins + 1

def hebrew_day(ask, year, month, day):
    nisan = ask("nisan", first_day(year - CONSTANT["WORLD_ERA"] - (month >= CONSTANT["TISHRI"])))
    return ask("phasis", nisan + rounded(CONSTANT["OBSERVED_MONTH"] * (month - 1)) + 15) + day - 1
def solar_date(ask, day):
    month, year = ask("sign", day), ask("solar-year", day) - CONSTANT["SAKA_ERA"]
    return year, month, day - ask("sankranti", day) + 1
def solar_day(ask, year, month, day):
    return ask("sankranti", HINDU + floor((year + CONSTANT["SAKA_ERA"] + Fraction(month - 1, 12)) * Y) + 25) + day - 1
def lunar_date(ask, day):
    lunar_day = ask("tithi", day)
    leap_day = ask("tithi", day - 1) == lunar_day
    before = ask("sign-before", day)
    added, month = ask("sign-after", day) == before, amod(before + 1, 12)
    year = ask("calendar-year", day + 180 if month <= 2 else day) - CONSTANT["VIKRAMA_ERA"]
    return year, month, int(added), lunar_day, int(leap_day)

def lunar_day(ask, *fields):
    year, month, added, day, _ = fields
    x = HINDU + floor((year + CONSTANT["VIKRAMA_ERA"] + Fraction(month - 1, 12)) * Y) + 12
    w = x - ask("tithi", x) + 15
    z = next((z for z in (w, w - 30, w + 30) if lunar_date(ask, z)[:3] == (year, month, added)), w)
    v = z - ask("tithi", z) + day
    return next((u for u in range(v - 2, v + 3) if lunar_date(ask, u) == fields), v)

CALENDARS = {  # the place of the facts, the day of a date and the date of a day
    "Gregorian": ("-", lambda ask, *fields: date(*fields).toordinal(), lambda ask, day: gregorian(day)),
    "Fixed": ("-", lambda ask, day: day, lambda ask, day: (day,)),
    "Persian": ("-", persian_day, persian_date), "Bahai": ("-", bahai_day, bahai_date), "Islamic": ("cairo", islamic_day, islamic_date),
    "French": ("-", french_day, french_date), "HebrewObserved": ("haifa", hebrew_day, hebrew_date),
    "HinduSolar": ("-", solar_day, solar_date), "HinduLunar": ("-", lunar_day, lunar_date),
    "Chinese": ("beijing", chinese_day, chinese_date), "Vietnamese": ("hanoi", chinese_day, chinese_date),
    "Korean": ("seoul", chinese_day, chinese_date), "Japanese": ("tokyo", chinese_day, chinese_date),
}
