"""The sky of docs/FORMULAS.md, section by section. A moment is an interval of days (R.D.), in universal time where none is said."""

from datetime import date
from fractions import Fraction
from functools import lru_cache

from .intervals import (BITS, ONE, PI, Interval, arctangent_of_two, cosine, greatest, interval, least, polynomial, sine, sine_and_cosine,
                        tangent)
from .run import DAY, HALF, SILENT, Run, Seen, Undecided, Void, span
from .tables import COEFFICIENTS, CONSTANT, DEFINED, SINGLE_TERMS, number, numbers, rows

S, T, Y, NOON_2000 = (CONSTANT[name] for name in ("SYNODIC_MONTH", "TROPICAL_YEAR", "SIDEREAL_YEAR", "NOON_2000"))
# Seconds in which an angle grows by a degree, about.
SUN_PACE, STAR_PACE, PHASE_PACE, MOON_PACE, HORIZON_PACE = (DAY * float(days) / 360 for days in (T, Y, S, 27.32, 1))

# The standard library's days are R.D.
def first_day(year): return date(year, 1, 1).toordinal()
def gregorian(day): return date.fromordinal(day).timetuple()[:3]
def date_text(day): return "%04d-%02d-%02d" % gregorian(day)

# --- dynamical time, sidereal time, zones ---
_CORRECTIONS = rows("corrections")

@lru_cache(None)
def correction(year):
    """Dynamical less universal time, in days; void where no row has the year."""
    for row in _CORRECTIONS:
        if int(row["first year"]) <= year <= int(row["last year"]):
            coefficients = COEFFICIENTS[row["polynomial"]]
            if row["form"] == "DaysByCenturies":
                return polynomial(coefficients, interval(Fraction(date(year, 7, 1).toordinal() - 693596, 36525)))
            x = Fraction(year, 100) if row["form"] == "SecondsByHundreds" else year - int(row["from year"])
            return polynomial(coefficients, interval(x)) / 86400
    raise Void("year")

def year_of(run, t):
    """The Gregorian year in which a moment lies: one test."""
    run.count += 1
    year = gregorian((t.m - t.r) >> BITS)[0]
    begins, ends = first_day(year) * ONE, first_day(year + 1) * ONE
    if run.keeps and t.r:
        near = begins if t.m - begins < ends - t.m else ends
        run.keep("year", span("the moment", t, "the beginning of a year"), t.m - near)
    if t.m + t.r >= ends: raise Undecided("year", run.count, t.m - t.r, t.m + t.r)
    return year

def universal(run, t): return t - correction(year_of(run, t))
def centuries(run, t):
    """Centuries of dynamical time since noon of 1 January 2000."""
    return (t + correction(year_of(run, t)) - NOON_2000) / 36525
def sidereal(t):
    """Sidereal time at Greenwich, in degrees, not reduced."""
    return polynomial(COEFFICIENTS["SIDEREAL_TIME"], (t - NOON_2000) / 36525)

def floor_of(run, t, event, where="universal time"):
    """The day in which a moment lies, by the time of a place."""
    return run.floor(t, "day-floor", span(event, t, f"midnight in {where} at the beginning of {date_text((t + HALF).m >> BITS)}"))

class Place:
    """A place of the tables: its zone and, where it has one, its location."""
    def __init__(self, row):
        self.word, self.name, self.hours, self.latitude = row["word"], row["place"], number(row["hours"]), None
        self.changes = [numbers(row, f"before day {k}", f"hours {k}") for k in range(1, 5) if row[f"before day {k}"]]
        for location in rows("locations"):
            if location["name"] == row["location"]:
                self.latitude, self.longitude, self.height = map(Fraction, numbers(location, "latitude", "longitude", "height"))
    def midnight(self, day):
        """The beginning of a day, a number that is known."""
        return day - Fraction(next((hours for change, hours in self.changes if day < change), self.hours)) / 24
    def day_of(self, run, t, event):
        """The day of a moment here, by the zone at the moment: tests at `zone` up to the first that is true, one at `day-floor`."""
        zone = span(event, t, f"a change of the time in {self.name}")
        hours = next((hours for change, hours in self.changes if run.less(t, change, "zone", zone)), self.hours)
        return floor_of(run, t + Fraction(hours) / 24, event, self.name)

PLACES = {row["word"]: Place(row) for row in rows("places")}

# --- the sun ---
def periodic_term(name, c, at=sine):
    size, *angle = SINGLE_TERMS[name]
    return size * at(polynomial(angle, c))
def nutation(c): return periodic_term("NODE_NUTATION", c) + periodic_term("SOLAR_NUTATION", c)

SUN_UNIT = DEFINED["Sun", "sun_unit"][0]
_SUN_ROWS = [(x, interval(y).m, interval(z).m) for x, y, z in (numbers(row, "x", "y", "z") for row in rows("sun-terms"))]
_SUN_SIZE, _SUN_REACH = sum(x for x, _, _ in _SUN_ROWS), sum(x * abs(z) for x, _, z in _SUN_ROWS) // ONE + 1
def sun_unreduced(c):
    total = 0
    for x, y, z in _SUN_ROWS:
        total += x * sine_and_cosine(y + (z * c.m >> BITS))[0]
    # of each sine SINE_SLACK and the angle's error: z r, less than a unit of y, and |c| + 1 of z c
    terms = Interval(total, _SUN_REACH * c.r // 57 + _SUN_SIZE * (20 + (abs(c.m) >> BITS)))
    aberration = periodic_term("ABERRATION", c, cosine) - CONSTANT["MEAN_ABERRATION"]
    return c * CONSTANT["SUN_RATE"] + CONSTANT["SUN_AT_2000"] + terms * SUN_UNIT + aberration + nutation(c)

def sun_event(longitude):
    names = {0: "the March equinox", 90: "the June solstice", 180: "the September equinox", 270: "the December solstice"}
    return names.get(longitude, f"the sun at {longitude} degrees")
def sun_seen(longitude, t, event=None, part=1):
    """About the sun's longitude over a part of the circle, from one on."""
    function = lambda u: (sun_unreduced(centuries(SILENT, u)) - longitude) / part
    return Seen(event or sun_event(longitude), "degrees", SUN_PACE, t, function, part)
def sun(run, t): return run.wrap(sun_unreduced(centuries(run, t)), 360, "sun-wrap", sun_seen(0, t))
def obliquity(c): return polynomial(COEFFICIENTS["OBLIQUITY"], c)
def estimate(run, longitude, t):
    """About when the sun was last at a longitude, at or before a moment."""
    tau = t - run.wrap(run.lead(sun, t) - longitude, 360, "step-wrap", sun_seen(longitude, t)) * (T / 360)
    off = run.wrap(run.lead(sun, tau) - longitude + 180, 360, "step-wrap", sun_seen((longitude + 180) % 360, tau)) - 180
    return least(t, tau - off * (T / 360))

# --- precession, and the sun among the stars ---
def precession(run, t):
    c = centuries(run, t)
    tilt, crossing, advance = (polynomial(COEFFICIENTS[name], c) for name in ("ECLIPTIC_TILT", "ECLIPTIC_CROSSING", "EQUINOX_ADVANCE"))
    return advance + crossing - arctangent_of_two(cosine(tilt) * sine(crossing), cosine(crossing))
def star_seen(t, event, part=1):
    function = lambda u: (sun_unreduced(centuries(SILENT, u)) - precession(SILENT, u) + CONSTANT["SIDEREAL_START"]) / part
    return Seen(event, "degrees", STAR_PACE, t, function, part)
def sidereal_sun(run, t):
    longitude = run.lead(sun, t) - precession(run, t) + CONSTANT["SIDEREAL_START"]
    return run.wrap(longitude, 360, "sidereal", star_seen(t, "the sun's entry into the sign 1"))
def sign(run, t): return run.floor(sidereal_sun(run, t) / 30, "sidereal", star_seen(t, "the sun's entry into a sign", 30)) + 1
def hindu_year(run, t):
    years = (t - CONSTANT["HINDU_EPOCH"]) / Y - sidereal_sun(run, t) / 360
    return run.round(years, "round", Seen("the middle of a year", "years", DAY * float(Y)))

# --- apparent time, noon and midnight ---
def equation_of_time(run, t):
    c = centuries(run, t)
    L, M, e = (polynomial(COEFFICIENTS[name], c) for name in ("MEAN_SUN", "SOLAR_ANOMALY", "ECCENTRICITY"))
    tan = tangent(obliquity(c) / 2)
    y = tan * tan
    q = (y * sine(2 * L) - 2 * e * sine(M) + 4 * e * y * sine(M) * cosine(2 * L) - y * y / 2 * sine(4 * L)
         - e * e * CONSTANT["FIVE_QUARTERS"] * sine(2 * M)) / (2 * PI)
    return greatest(-HALF, least(HALF, q))

def from_apparent(run, longitude, t):
    """The local mean time of a moment of apparent time."""
    return t - equation_of_time(run, t - longitude / 360)
def noon(run, place, day):
    run.boundary, longitude = f"true noon in Tehran on {date_text(day)}", CONSTANT["PERSIAN_NOON_LONGITUDE"]
    return from_apparent(run, longitude, interval(day + Fraction(1, 2))) - longitude / 360
def paris_midnight(run, place, day):
    run.boundary, longitude = f"true midnight in Paris at the end of {date_text(day)}", CONSTANT["PARIS_LONGITUDE"]
    return from_apparent(run, longitude, interval(day + 1)) - longitude / 360

# --- sums of periodic terms over four angles ---
TERM_SLACK = 400  # units by which a product of up to 14 unit vectors may be off: each by SINE_SLACK, and each product by 2 more
def _turned(a, b):
    """The unit vector (cosine, sine) of the sum of two angles."""
    return (a[0] * b[0] - a[1] * b[1]) >> BITS, (a[0] * b[1] + a[1] * b[0]) >> BITS
def _multiples(angle, most):
    """The unit vectors of the multiples of an angle, from -most to most."""
    s, c = sine_and_cosine(angle.m)
    vectors = {0: (ONE, 0), 1: (c, s)}
    for k in range(2, most + 1):
        vectors[k] = _turned(vectors[k - 1], vectors[1])
    vectors.update({-k: (c, -s) for k, (c, s) in vectors.items() if k})
    return vectors

class Terms:
    """Rows of four multiples of angles, a power of E, the size of a sine and that of a cosine: the sums of both."""
    def __init__(self, table):
        self.rows = [(tuple(row[0:2]), tuple(row[2:4]), *row[4:]) for row in table]
        self.pairs = [{row[i] for row in self.rows} for i in (0, 1)]
        self.most = [max(abs(row[k]) for row in table) for k in range(4)]
        self.reach = [[sum(abs(row[i] * row[k]) for row in table) for k in range(4)] for i in (5, 6)]
        self.sizes = [sum(abs(row[i]) for row in table) for i in (5, 6)]
    def sums(self, angles, e):
        of = [_multiples(angle, most) for angle, most in zip(angles, self.most)]
        first, second = ({(p, q): _turned(of[i][p], of[i + 1][q]) for p, q in self.pairs[i // 2]} for i in (0, 2))
        sums = ([0, 0, 0], [0, 0, 0])
        for i, k, power, of_sine, of_cosine in self.rows:
            (c, s), (n, t) = first[i], second[k]
            if of_sine:
                sums[0][power] += of_sine * ((s * n + c * t) >> BITS)
            if of_cosine:
                sums[1][power] += of_cosine * ((c * n - s * t) >> BITS)
        slack = [sum(reach * a.r for reach, a in zip(self.reach[i], angles)) // 57 + self.sizes[i] * TERM_SLACK for i in (0, 1)]
        return [polynomial([Interval(m, slack[i]) for m in sums[i]], e) for i in (0, 1)]

# --- the new moons ---
_NEW_MOONS = Terms([(0, x, y, z, w, int(v * 100000), 0) for w, x, y, z, v in (numbers(r, *"wxyzv") for r in rows("new-moon-terms"))])
_PLANETS = [numbers(row, *"ijl") for row in rows("planet-terms")]

@lru_cache(None)
def new_moon_dynamical(n):
    k = n - CONSTANT["NEW_MOON_OF_2000"]
    c = interval(Fraction(100 * k, 123685))
    names = ("SUN_ANOMALY", "ANOMALY", "LATITUDE_ARGUMENT", "NODE")
    *angles, node = (polynomial(COEFFICIENTS["NEW_MOON_" + name], c) for name in names)
    terms = _NEW_MOONS.sums([interval(0), *angles], polynomial(COEFFICIENTS["ECCENTRICITY_FACTOR"], c))[0] / 100000
    planets = sum((sine(interval(i + j * k)) * size for i, j, size in _PLANETS), interval(0))
    mean = polynomial(COEFFICIENTS["MEAN_NEW_MOON"], c) + NOON_2000
    return mean + sine(node) * CONSTANT["NODE_TERM"] + terms + periodic_term("NEW_MOON_TERM", c) + planets

def new_moon(run, n): return universal(run, new_moon_dynamical(n))

# --- the moon ---
def _terms(name, *sizes):
    table = [numbers(row, "d", "m", "m′", "f", *sizes) for row in rows(name)]
    return Terms([(*row[:4], abs(row[1]), row[4], row[5] if sizes[1:] else 0) for row in table])

_MOON, _LATITUDE = _terms("moon-terms", "v", "r"), _terms("latitude-terms", "b")

@lru_cache(16)
def moon_angles(c):
    """The mean longitude, the four angles of the terms, the factor E, and the sums of the terms of longitude and distance."""
    names = ("MOON_LONGITUDE", "ECCENTRICITY_FACTOR", "ELONGATION", "SUN_ANOMALY", "MOON_ANOMALY", "LATITUDE_ARGUMENT")
    mean, e, *angles = (polynomial(COEFFICIENTS[name], c) for name in names)
    return mean, angles, e, _MOON.sums(angles, e)
def moon_unreduced(c):
    mean, angles, _, (terms, _) = moon_angles(c)
    terms += periodic_term("VENUS_TERM", c) + periodic_term("JUPITER_TERM", c) + sine(mean - angles[3]) * CONSTANT["FLATTENING"]
    return mean + terms * CONSTANT["MILLIONTH"] + nutation(c)
def moon(run, t):
    seen = Seen("the moon at 0 degrees", "degrees", MOON_PACE, t, lambda u: moon_unreduced(centuries(SILENT, u)))
    return run.wrap(moon_unreduced(centuries(run, t)), 360, "moon-wrap", seen)
def distance(run, t):
    """The distance of the moon's centre from the earth's, in kilometres."""
    return (moon_angles(centuries(run, t))[3][1] + CONSTANT["MEAN_DISTANCE"]) / 1000
def latitude(run, t):
    c = centuries(run, t)
    mean, angles, e, _ = moon_angles(c)
    anomaly, argument, venus = angles[2], angles[3], polynomial(SINGLE_TERMS["VENUS_TERM"][1:], c)
    terms = _LATITUDE.sums(angles, e)[0] + periodic_term("LATITUDE_TERM", c)
    for name, angle in (("VENUS_IN_LATITUDE", venus + argument), ("VENUS_IN_LATITUDE", venus - argument), ("FLATTENING_ALONE", mean),
                        ("FLATTENING_LESS_ANOMALY", mean - anomaly), ("FLATTENING_WITH_ANOMALY", mean + anomaly)):
        terms += sine(angle) * CONSTANT[name]
    return terms * CONSTANT["MILLIONTH"]

# --- the moon's phase, and new moons about a moment ---
PHASES = {0: "the new moon", 90: "the first quarter", 180: "the full moon", 270: "the last quarter"}
_MONTHS = Seen("the middle of a mean month", "months", DAY * float(S))

def phase_seen(angle, t, event=None, part=1):
    def function(u):
        c = centuries(SILENT, u)
        return (moon_unreduced(c) - sun_unreduced(c) - angle) / part
    return Seen(event or PHASES[angle], "degrees", PHASE_PACE, t, function, part)
def elongation(run, t): return run.wrap(moon(run, t) - sun(run, t), 360, "phase-wrap", phase_seen(0, t))
def months_since(run, n, t): return (t - new_moon(run, n)) / S
def phase(run, t):
    between = run.lead(elongation, t)
    n = run.lead(Run.round, months_since(run, 0, t), "moon-number", _MONTHS)
    months = run.wrap(months_since(run, n, t), 1, "phase-wrap", Seen("the new moon of the month", "months", DAY * float(S)))
    seen = Seen("two phases half a turn apart", "degrees", PHASE_PACE)
    return 360 * months if run.less(180, abs(between - 360 * months), "phase-pick", seen, 1) else between
def new_moon_about(run, is_before, t):
    """The last new moon before a moment, or the first that isn't before it."""
    start = run.lead(Run.round, months_since(run, 0, t) - run.lead(phase, t) / 360, "moon-number", _MONTHS) - is_before
    for k in range(start, start + 6):
        moment = new_moon(run, k)
        if not run.less(moment, t, "moon-walk", span(PHASES[0], moment)):
            run.moments[PHASES[0]] = moment = new_moon(run, k - is_before)
            return moment
    raise Void("moon-walk")

moon_before, moon_from = (lambda run, t: new_moon_about(run, True, t)), (lambda run, t: new_moon_about(run, False, t))

# --- bisection, phases and solar terms ---
def invert(run, f, y, low, high):
    """The moment between two at which a growing angle passes y."""
    seen = Seen("an end of a bisection", "degrees", PHASE_PACE)
    for turn in range(65):
        if run.less(high - low, CONSTANT["HUNDRED_THOUSANDTH"], "bisect-end", span("the last span of a bisection")):
            return (low + high) / 2
        if turn == 64: raise Void("bisect-end")
        x = (low + high) / 2
        if run.less(run.wrap(f(run, x) - y, 360, "bisect", seen), 180, "bisect", seen):
            high = x
        else:
            low = x

def phase_before(run, angle, t):
    """When the moon was last at a phase, at or before a moment."""
    tau = t - run.wrap(phase(run, t) - angle, 360, "step-wrap", phase_seen(angle, t)) * (S / 360)
    run.moments[PHASES[angle]] = moment = run.lead(invert, phase, angle, tau - 2, least(t, tau + 2))
    return moment
def sun_from(run, longitude, t):
    """When the sun is next at a longitude, at or after a moment."""
    tau = t + run.wrap(longitude - run.lead(sun, t), 360, "step-wrap", sun_seen(longitude, t)) * (T / 360)
    run.moments[sun_event(longitude)] = moment = run.lead(invert, sun, longitude, greatest(t, tau - 5), tau + 5)
    return moment
def term(run, r, day, place):
    """The day of the next solar term: r is 0 for the major ones and 15 for the minor ones."""
    t = interval(place.midnight(day))
    run.boundary = f"midnight in {place.name} at the beginning of {date_text(day)}"
    steps = run.floor((r - run.lead(sun, t)) / 30, "term-floor", sun_seen(r, t, "a solar term", 30))
    longitude = (r - 30 * steps) % 360
    return place.day_of(run, sun_from(run, longitude, t), sun_event(longitude))
