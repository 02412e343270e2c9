"""Dawn, dusk and sunset, the crescent, moonrise and moonset, by docs/FORMULAS.md."""

from fractions import Fraction

from .intervals import arccosine, arcsine, cosine, interval, root, sine, tangent
from .run import DAY, SILENT, Run, Seen, Void, span
from .sky import (HORIZON_PACE, PHASE_PACE, PLACES, centuries, date_text, distance, floor_of, from_apparent, latitude, moon,
                  moon_unreduced, obliquity, phase, phase_before, phase_seen, sidereal, sun, sun_from)
from .tables import CONSTANT, DEFINED

SEARCHED = 46  # days that a search tries at most

def first_of(start, test):
    for day in range(start, start + SEARCHED):
        if test(day): return day
    raise Void("search")

# --- dawn, dusk and sunset ---
def offset(run, place, t, depression):
    """The sine of the turn from a quarter day to the depression, at a moment of local mean time."""
    t -= place.longitude / 360
    tilt = obliquity(centuries(run, t))
    declination, north = arcsine(sine(tilt) * sine(sun(run, t))), interval(place.latitude)
    return tangent(north) * tangent(declination) + sine(depression) / (cosine(declination) * cosine(north))
def _approximation(run, place, t, depression, is_dusk):
    """The next local mean time of dawn or dusk, from one."""
    reach = Seen("the sun's just coming to the depression", "sines", DAY / 6)
    day = run.floor(t, "day-floor", span("dusk" if is_dusk else "dawn", t, f"local midnight in {place.name}"))
    s = offset(run, place, t, depression)
    if run.less(1, abs(s), "offset", reach, 1):
        s = offset(run, place, interval(day + is_dusk), depression)
        if run.less(1, abs(s), "offset", reach, 1): raise Void("offset")
    time = day + CONSTANT["THREE_QUARTERS"] + arcsine(s) / 360 if is_dusk else day + CONSTANT["QUARTER"] - arcsine(s) / 360
    return from_apparent(run, place.longitude, time)

def twilight(run, place, day, depression, is_dusk):
    """The local mean time at which the sun is so far below the horizon, before noon or, for dusk, after it."""
    t = interval(day + CONSTANT["THREE_QUARTERS" if is_dusk else "QUARTER"])
    for _ in range(12):
        before, t = t, _approximation(run, place, t, depression, is_dusk)
        if run.less(abs(t - before), CONSTANT["HALF_MINUTE"], "settle", span("two approximations half a minute apart")): return t
    raise Void("settle")

def refraction(place):
    """How far below the level a star stands that is just seen, in degrees."""
    dip = arccosine(interval(CONSTANT["EARTH_RADIUS"] / (CONSTANT["EARTH_RADIUS"] + place.height)))
    return dip + CONSTANT["REFRACTION"] + root(interval(place.height)) * CONSTANT["REFRACTION_OF_HEIGHT"]

EDGE = {word: refraction(place) + CONSTANT["HALF_SUN"] for word, place in PLACES.items() if place.latitude}
def dusk(run, place, day, depression, name="sunset"):
    """Dusk in universal time."""
    moment = run.lead(twilight, place, day, depression, True) - place.longitude / 360
    run.boundary, run.moments[name] = f"{name} in {place.name} on {date_text(day)}", moment
    return moment
def sunset(run, place, day): return dusk(run, place, day, EDGE[place.word])
def hindu_sunset(run, day): return dusk(run, PLACES["ujjain"], day, interval(0))
def sunrise(run, day):
    """A whole minute of the local mean time in Ujjain, in universal time."""
    place, minutes = PLACES["ujjain"], CONSTANT["MINUTES_OF_DAY"]
    dawn = run.lead(twilight, place, day, interval(CONSTANT["HINDU_SUNRISE_DEPRESSION"]), False)
    number = run.lead(Run.round, dawn * minutes, "round", Seen("the middle of a minute, of sunrise", "minutes", 60.0))
    run.boundary = f"sunrise in {place.name} on {date_text(day)}"
    run.moments["sunrise"] = moment = interval(Fraction(number, minutes) - place.longitude / 360)
    return moment

# --- the crescent ---
def sine_of_altitude(place, tilt, moon_at, north, t):
    """That of the moon, seen from the earth's centre."""
    turn, phi = sidereal(t) + place.longitude, interval(place.latitude)
    se, ce, sl, cl, sb, cb = sine(tilt), cosine(tilt), sine(moon_at), cosine(moon_at), sine(north), cosine(north)
    across = cosine(turn) * cb * cl + sine(turn) * (cb * sl * ce - sb * se)
    return sine(phi) * (sb * ce + cb * se * sl) + cosine(phi) * across
def _arc_seen(run, event, pace, t, arc, function, value, least, threshold):
    """About a cosine or sine, told in degrees: by how far its arc, and not it, is from the least one."""
    is_told = run.keeps and value.m != threshold.m
    scale = (arc(value) - least).m / (value - threshold).m if is_told else 1
    return Seen(event, "degrees", pace, t, lambda u: function(u) - threshold, scale)
def visible(run, place, day):
    """Whether the crescent is seen on the evening with which a day begins."""
    def light(u): return cosine(latitude(SILENT, u)) * cosine(phase(SILENT, u))
    def height(u):
        c = centuries(SILENT, u)
        return sine_of_altitude(place, obliquity(c), moon_unreduced(c), latitude(SILENT, u), u)

    t = dusk(run, place, day - 1, interval(CONSTANT["CRESCENT_DEPRESSION"]), "the evening")
    p, tilt = phase(run, t), obliquity(centuries(run, t))
    moon_at, north = run.lead(moon, t), latitude(run, t)
    if not run.less(0, p, "crescent", phase_seen(0, t), 1) or not run.less(p, 90, "crescent", phase_seen(90, t)):
        return False
    cosine_of_light, least = cosine(north) * cosine(p), CONSTANT["LEAST_ARC_OF_LIGHT"]
    limit = cosine(interval(least))
    seen = _arc_seen(run, "an arc of light of 10.6 degrees", PHASE_PACE, t, arccosine, light, cosine_of_light, least, limit)
    if run.less(limit, cosine_of_light, "crescent", seen, 1): return False
    if run.less(cosine_of_light, 0, "crescent", Seen("an arc of light of 90 degrees", "cosines", DAY)): return False
    altitude, least = sine_of_altitude(place, tilt, moon_at, north, t), CONSTANT["LEAST_ALTITUDE"]
    limit = sine(interval(least))
    seen = _arc_seen(run, "the moon at 4.1 degrees", HORIZON_PACE, t, arcsine, height, altitude, least, limit)
    if not run.less(limit, altitude, "crescent", seen, 1): return False
    run.moments["the crescent"] = t
    return True

def phasis(run, place, day):
    """The first day of the month of a day: that with whose evening the crescent was first seen."""
    month = floor_of(run, phase_before(run, 0, interval(day)), "the new moon")
    start = month - 30 if day - month <= 3 and not visible(run, place, day) else month
    return first_of(start, lambda i: visible(run, place, i))
def nisan(run, place, day):
    """The first day of the month about the March equinox that is next from a day on."""
    equinox = sun_from(run, 0, interval(day))
    last = floor_of(run, equinox, "the March equinox")
    is_before = run.less(equinox, sunset(run, place, last), "day-test", span("the March equinox", equinox))
    start = last - 14 if is_before else last - 13
    month = floor_of(run, phase_before(run, 0, interval(start)), "the new moon")
    if start - month >= 4 or visible(run, place, start - 1):
        start = month + 29
    return first_of(start, lambda i: visible(run, place, i))

# --- moonrise and moonset ---
PARTS = DEFINED["Moonrise", "part_of_day"][0]  # of a day, 16 to a quarter of an hour

def observed_altitude(run, place, t):
    """Of the moon's upper edge above the horizon that is seen."""
    tilt = obliquity(centuries(run, t))
    moon_at, north = run.lead(moon, t), latitude(run, t)
    altitude = arcsine(sine_of_altitude(place, tilt, moon_at, north, t))
    return altitude - arcsine(cosine(altitude) * CONSTANT["EQUATOR_RADIUS"] / distance(run, t)) + EDGE[place.word]
def crossing(run, place, day, sets):
    """The minute after midnight of moonrise, or of moonset; -1 on a day without one."""
    event = "moonset" if sets else "moonrise"
    def is_past(i):
        t = interval(place.midnight(day) + Fraction(i, PARTS))
        boundary = "%.2f minutes after midnight in %s on %s" % (i * 1440 / PARTS, place.name, date_text(day))
        seen = Seen(event, "degrees", HORIZON_PACE, t, lambda u: observed_altitude(SILENT, place, u), 1, boundary)
        # a test between the midnights at a full quarter of an hour decides no minute: those of both sides are the same
        run.steps = int(i % 16 == 0 and 0 < i < PARTS)
        return run.less(0, observed_altitude(run, place, t), "rise", seen, 1) != sets

    before = is_past(0)
    for low in range(0, PARTS, 16):
        after = is_past(low + 16)
        if after and not before: break
        before = after
    else:
        return -1
    first, high = low, low + 16
    for _ in range(4):
        x = (low + high) // 2
        low, high = (low, x) if is_past(x) else (x, high)
    run.moments[f"the middle of the 56 s of {event}"] = interval(place.midnight(day) + Fraction(2 * low + 1, 2 * PARTS))
    return 15 * first // 16 + (30 * (low - first) + 31) // 32
