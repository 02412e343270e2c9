"""The kinds of facts of docs/FORMULAS.md, each a function of the run, the place and the day."""

from fractions import Fraction
from functools import partial

from .horizon import crossing, first_of, hindu_sunset, nisan, phasis, sunrise, sunset
from .intervals import interval
from .run import Run, Seen, Void, span
from .sky import (PHASES, PLACES, correction, date_text, distance, estimate, floor_of, hindu_year, moon_before, moon_from, noon,
                  paris_midnight, phase, phase_before, phase_seen, sidereal_sun, sign, star_seen, sun, sun_seen, term, year_of)
from .tables import CONSTANT, rows

def amod(n, m): return (n - 1) % m + 1
def dt(run, place, day):
    milliseconds = correction(year_of(run, interval(day))) * CONSTANT["MILLISECONDS_OF_DAY"]
    return run.round(milliseconds, "round", Seen("the middle of a millisecond", "milliseconds", 1.0))
def sun_longitude(run, place, day):
    t, parts = interval(day), CONSTANT["THOUSANDTHS_OF_DEGREE"]
    run.boundary = f"midnight in universal time at the beginning of {date_text(day)}"
    return run.floor(sun(run, t) * parts, "round", sun_seen(0, t, "a whole thousandth of a degree", Fraction(1, parts)))
def kilometres(run, place, day):
    return run.round(distance(run, interval(day)), "round", Seen("the middle of a kilometre", "kilometres", 20.0))
def searched(longitude, moment, holds, run, place, day):
    """The first day of a year, or of a solstice: a search from the day before the estimate, each day by its moment."""
    about = estimate(run, longitude, moment(run, place, day))
    start = run.lead(Run.floor, about, "start-floor", span("the estimate", about, "midnight in universal time")) - 1
    return first_of(start, lambda i: holds(run, moment(run, place, i)))

def up_to(run, t): return not run.less(2, sun(run, t), "day-test", sun_seen(2, t), 1)
def past(run, t): return run.less(270, sun(run, t), "day-test", sun_seen(270, t), 1)
def come_to(run, t): return not run.less(sun(run, t), 180, "day-test", sun_seen(180, t))
def midnight(run, place, day):
    run.boundary = f"midnight in {place.name} at the beginning of {date_text(day)}"
    return interval(place.midnight(day))
def day_of_new_moon(found, run, place, day): return place.day_of(run, found(run, midnight(run, place, day)), PHASES[0])
def major(run, place, day):
    t = midnight(run, place, day)
    return amod(2 + run.floor(sun(run, t) / 30, "term-floor", sun_seen(0, t, "a major term", 30)), 12)
def sankranti(run, place, day):
    t = hindu_sunset(run, day)
    now = sign(run, t)
    degrees = run.lead(Run.floor, sidereal_sun(run, t), "sidereal", star_seen(t, "a whole degree of the sun"))
    return first_of(day - 3 - degrees % 30, lambda i: sign(run, hindu_sunset(run, i)) == now)

def tithi(run, place, day):
    t = sunrise(run, day)
    return run.floor(phase(run, t) / 12, "round", phase_seen(0, t, "the end of a lunar day", 12)) + 1
def last_phase(angle, run, place, day):
    run.boundary = f"midnight in universal time at the beginning of {date_text(day)}"
    return floor_of(run, phase_before(run, angle, interval(day)), PHASES[angle])
def sunset_minutes(run, place, day):
    minutes = (sunset(run, place, day) - place.midnight(day)) * CONSTANT["MINUTES_OF_DAY"]
    return run.round(minutes, "round", Seen("the middle of a minute", "minutes", 60.0))

KINDS = {
    "dt": dt, "sun": sun_longitude, "distance": kilometres, "major": major, "phasis": phasis, "nisan": nisan, "sankranti": sankranti,
    "tithi": tithi, "sunset": sunset_minutes, "moonrise": partial(crossing, sets=False), "moonset": partial(crossing, sets=True),
    "nowruz": partial(searched, 0, noon, up_to),
    "bahai-year": partial(searched, 0, lambda run, place, day: sunset(run, PLACES["tehran"], day), up_to),
    "french-year": partial(searched, 180, paris_midnight, come_to),
    "solstice": partial(searched, 270, lambda run, place, day: midnight(run, place, day + 1), past),
    "new-moon-before": partial(day_of_new_moon, moon_before), "new-moon-from": partial(day_of_new_moon, moon_from),
    "major-term": lambda run, place, day: term(run, 0, day, place), "minor-term": lambda run, place, day: term(run, 15, day, place),
    "sign": lambda run, place, day: sign(run, hindu_sunset(run, day)),
    "solar-year": lambda run, place, day: hindu_year(run, hindu_sunset(run, day)),
    "sign-before": lambda run, place, day: sign(run, moon_before(run, sunrise(run, day))),
    "sign-after": lambda run, place, day: sign(run, moon_from(run, sunrise(run, day))),
    "calendar-year": lambda run, place, day: hindu_year(run, interval(day)),
    "new-moon": partial(last_phase, 0), "first-quarter": partial(last_phase, 90),
    "full-moon": partial(last_phase, 180), "last-quarter": partial(last_phase, 270),
}
WORD_OF = {row["place"]: row["word"] for row in rows("places")}
PLACES_OF = {row["word"]: [WORD_OF[row[f"place {k}"]] for k in range(1, 5) if row[f"place {k}"]] for row in rows("kinds")}

def evaluate(kind, place, day, keeps=False):
    """The value of a fact and its run; raises Undecided or Void where it has none."""
    if not CONSTANT["FIRST_DAY"] <= day <= CONSTANT["LAST_DAY"]: raise Void("year")
    run = Run(keeps)
    return KINDS[kind](run, PLACES[place], day), run
