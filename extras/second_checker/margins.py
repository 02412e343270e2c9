"""How near its threshold each test of a fact came, and the moments that the fact goes by, as texts for `--margins`."""

from .intervals import ONE, Interval
from .run import DAY, DAYS
from .sky import date_text, sun_event

# Kinds whose moment is sought from their last test about it; and all whose value is a day.
SEASONS = {"nowruz": sun_event(0), "bahai-year": sun_event(0), "french-year": sun_event(180), "solstice": sun_event(270),
           "sankranti": "the sun's entry into a sign"}
OF_DAYS = {*SEASONS, "new-moon-before", "new-moon-from", "major-term", "minor-term", "phasis", "nisan", "new-moon", "first-quarter",
           "full-moon", "last-quarter"}
FARTHEST = 40  # days, beyond which no meeting with a threshold is sought

def above(test, t):
    """The tested number above its threshold, at a moment."""
    whole = (test.period or 360) * ONE
    return ((test.seen.function(Interval(t)).m + whole // 2) % whole - whole // 2) / ONE
def meeting(test):
    """The moment at which a test's number meets its threshold, by Newton's steps; None where it has no rate, or the moment is far."""
    t, step = test.seen.moment.m, ONE >> 10
    for _ in range(5):
        rate = (above(test, t + step) - above(test, t - step)) * 512
        days = -above(test, t) / rate if rate else FARTHEST
        if abs(days) >= FARTHEST: return None
        t += int(days * ONE)
    return Interval(t)

def seconds(test):
    """By how much what a test is about comes after the moment of its threshold, or before it (negative); None where it has no rate."""
    if test.seen.function == DAYS: return test.distance * DAY
    met = meeting(test) if test.seen.function else None
    return (met - test.seen.moment).m / ONE * DAY if met else None
def rank(test): return abs(test.distance) * test.seen.pace
def ranked(tests):
    """The tests that decide, nearest first; of those about the same event and the same moment the first alone."""
    found = {}
    for test in sorted((test for test in tests if not test.is_step), key=rank):
        found.setdefault((test.seen.event, test.boundary), test)
    return list(found.values())
def in_words(time):
    """A span of seconds."""
    for unit, length in (("days", DAY), ("hours", 3600), ("minutes", 60)):
        if time >= 2 * length: return f"{time / length:.1f} {unit}"
    return f"{time:.3g} s"
def sentence(test, fact=""):
    """What came how near, and behind it the test, its distance in its own unit and, where it has a rate, in seconds of time."""
    seen, time, of_test = test.seen, seconds(test), f"{fact}test {test.number} at {test.site}, {test.distance:+.4g} {test.seen.unit}"
    if time is None:
        return f"{abs(test.distance):.3g} {seen.unit} {'above' if test.distance > 0 else 'below'} {seen.event} ({of_test})"
    side = "after" if time > 0 else "before"
    return f"{seen.event} falls {in_words(abs(time))} {side} {test.boundary} ({of_test}, {time:+.4g} s)"
def moment_text(t):
    """A moment of universal time to the second."""
    time = (2 * t.m * 86400 + ONE) // (2 * ONE)
    return f"{date_text(time // 86400)} {time // 3600 % 24:02d}:{time // 60 % 60:02d}:{time % 60:02d} UT"
def moments(kind, run):
    """The names and moments that a fact goes by."""
    about = [test for test in run.tests if test.seen.event == SEASONS.get(kind)]
    met = meeting(about[-1]) if about else None
    return {**run.moments, SEASONS[kind]: met} if met else run.moments
def told(checker, line):
    """What `--margins` writes below a line's verdict: its nearest tests, then each true fact with its moments and nearest tests."""
    facts = [fact for fact in (checker.facts[n - 1] for n in line.listed) if fact.number in checker.runs]
    tests = {id(test): fact.number for fact in facts for test in checker.runs[fact.number].tests}
    near, texts = ranked(test for fact in facts for test in checker.runs[fact.number].tests), []
    if near: texts.append(f"  nearest: {sentence(near[0], f'fact {tests[id(near[0])]}, ')}")
    if near[1:]:
        time = seconds(near[1])
        far = in_words(rank(near[1]) if time is None else abs(time))
        texts.append(f"  no other test is nearer than {far}: {sentence(near[1], f'fact {tests[id(near[1])]}, ')}")
    for fact in facts:
        run = checker.runs[fact.number]
        value = f"{fact.value} ({date_text(fact.value)})" if fact.kind in OF_DAYS else fact.value
        texts.append(f"  fact {fact.number} {fact.kind} {fact.place} {fact.day} ({date_text(fact.day)}): {value}")
        texts += [f"    {name}: {moment_text(t)}" for name, t in moments(fact.kind, run).items()]
        texts += [f"    nearest: {sentence(test)}" for test in ranked(run.tests)[:1]]
        steps = sorted((test for test in run.tests if test.is_step), key=rank)
        texts += [f"    nearest step: test {t.number} at {t.site}, {t.distance:+.4g} {t.seen.unit}" for t in steps[:1]]
    return "".join(text + "\n" for text in texts)
