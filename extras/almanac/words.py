"""Facts in words, with their days as Gregorian dates, and the rules of the calendars."""
from fractions import Fraction
from typing import NamedTuple

from . import names
from .dates import gregorian

SYNODIC_MONTH = Fraction(29530588861, 10**9)  # days, mean
NEXT_SOLSTICE = 370  # the next solstice is the last by the end of the day so many days after one (docs/FORMULAS.md)
CITIES = {"beijing": "Beijing", "hanoi": "Hanoi", "seoul": "Seoul", "tokyo": "Tokyo", "cairo": "Cairo", "haifa": "Haifa",
          "tehran": "Tehran", "ujjain": "Ujjain", "-": ""}

EASTERN_RULE = (
    "a month begins on the day of a new moon in {city}; the December solstice there lies in month 11; where thirteen months run from "
    "one month 11 up to the next, the first without a major solar term is a leap month, with the number of the one before it")
RULES = {
    "gregorian": "the Gregorian calendar, by arithmetic",
    "fixed": "the day number, which is 1 on 1 January of the year 1",
    "chinese": EASTERN_RULE.format(city="Beijing"),
    "vietnamese": EASTERN_RULE.format(city="Hanoi"),
    "korean": EASTERN_RULE.format(city="Seoul"),
    "japanese": EASTERN_RULE.format(city="Tokyo"),
    "persian": "a year begins on the day by whose true noon in Tehran the sun has passed the March equinox; six months of 31 days, "
               "then months of 30",
    "bahai": "a year begins on the day by whose sunset in Tehran the sun has passed the March equinox; 19 months of 19 days, "
             "Ayyám-i-Há before the last",
    "islamic": "a month begins with the evening on which the crescent is first seen in Cairo, by Shaukat's criterion",
    "hebrew-observed": "a month begins with the evening on which the crescent is first seen in Haifa, by Shaukat's criterion; Nisan is "
                       "the month about the March equinox, and the year's number changes with Tishri",
    "hindu-solar": "a month is the sign of the zodiac, among the stars, in which the sun stands at sunset in Ujjain",
    "hindu-lunar": "a day has the number of the lunar day at its sunrise in Ujjain; a month runs from new moon to new moon and has the "
                   "number of the sign that the sun enters in it; one in which it enters none is an added month",
    "french": "a year begins on the day by whose end, by apparent midnight in Paris, the sun has come to the September equinox; twelve "
              "months of 30 days, then 5 or 6 days",
    "minor-term": "the sun at 15, 45, 75 .. degrees; the day in Beijing",
    "major-term": "the sun at 0, 30, 60 .. degrees; the day in Beijing",
    "phase": "the day in universal time",
    "dt": "ΔT of the year, rounded to milliseconds",
    "sun": "the sun's longitude as the day begins in universal time, rounded down to thousandths of a degree",
    "distance": "how far the moon's centre is from the earth's as the day begins in universal time, rounded to kilometres",
    "time": "the place's standard time, rounded to minutes",
}


class Ground(NamedTuple):
    """What a line rests on: the numbers of facts, and what they say."""

    facts: tuple
    words: str


def sign(number):
    """A sign of the zodiac in words."""
    sign_name = names.find("hindu-solar", number)
    return f"sign {number}" + (f" ({sign_name.latin})" if sign_name else "")


def major_degrees(number):
    """The longitude of the major term of a number: 330 degrees of the first, 270 of the eleventh."""
    return (300 + 30 * number) % 360


def major(number):
    """A major term in words."""
    return f"{names.name('term', major_degrees(number)).latin} ({major_degrees(number)}°)"


def clock(minutes):
    """Minutes after midnight as HH:MM."""
    return f"{minutes // 60:02}:{minutes % 60:02}"


PHRASES = {
    "dt": lambda day, value, city: f"ΔT in {day[:4]}: {value / 1000:.3f} s",
    "sun": lambda day, value, city: f"the sun's longitude as {day} begins: {value / 1000:.3f}°",
    "nowruz": lambda day, value, city: f"the Persian year of {day} begins on {gregorian(value)}",
    "bahai-year": lambda day, value, city: f"the Bahá'í year of {day} begins on {gregorian(value)}",
    "french-year": lambda day, value, city: f"the French year of {day} begins on {gregorian(value)}",
    "solstice": lambda day, value, city: f"latest December solstice in {city} by the end of {day}: {gregorian(value)}",
    "new-moon-before": lambda day, value, city: f"latest new moon in {city} before {day}: {gregorian(value)}",
    "new-moon-from": lambda day, value, city: f"first new moon in {city} from {day} on: {gregorian(value)}",
    "major": lambda day, value, city: f"latest major term in {city} as {day} begins: {major(value)}",
    "major-term": lambda day, value, city: f"next major term in {city} from {day} on: {gregorian(value)}",
    "minor-term": lambda day, value, city: f"next minor term in {city} from {day} on: {gregorian(value)}",
    "phasis": lambda day, value, city: f"month of {day}: crescent first seen in {city} on the evening before {gregorian(value)}",
    "sign": lambda day, value, city: f"sun at sunset on {day}: in {sign(value)}",
    "solar-year": lambda day, value, city: f"year of the Kali Yuga at sunset on {day}: {value}",
    "sankranti": lambda day, value, city: f"sun in its sign of {day}: since sunset on {gregorian(value)}",
    "tithi": lambda day, value, city: f"lunar day at sunrise on {day}: {value}",
    "sign-before": lambda day, value, city: f"sun at the latest new moon before sunrise on {day}: in {sign(value)}",
    "sign-after": lambda day, value, city: f"sun at the first new moon from sunrise on {day} on: in {sign(value)}",
    "calendar-year": lambda day, value, city: f"year of the Kali Yuga as {day} begins: {value}",
    "new-moon": lambda day, value, city: f"latest new moon before {day}: {gregorian(value)}",
    "first-quarter": lambda day, value, city: f"latest first quarter before {day}: {gregorian(value)}",
    "full-moon": lambda day, value, city: f"latest full moon before {day}: {gregorian(value)}",
    "last-quarter": lambda day, value, city: f"latest last quarter before {day}: {gregorian(value)}",
    "sunset": lambda day, value, city: f"sunset in {city} on {day}: {clock(value)}",
    "distance": lambda day, value, city: f"moon's distance as {day} begins: {value:,} km",
    "moonrise": lambda day, value, city: f"moonrise in {city} on {day}: {clock(value) if value >= 0 else 'none'}",
    "moonset": lambda day, value, city: f"moonset in {city} on {day}: {clock(value) if value >= 0 else 'none'}",
    "nisan": lambda day, value, city: f"next first of Nisan in {city} from {day} on: {gregorian(value)}",
}


def phrase(fact):
    """One fact in words."""
    if fact.kind not in PHRASES:
        return f"{fact.kind} {fact.place} {gregorian(fact.day)}: {fact.value}"
    return PHRASES[fact.kind](gregorian(fact.day), fact.value, CITIES.get(fact.place, fact.place))


class Grounds:
    """What the facts of a line say together: those that belong together in one sentence."""

    def __init__(self, facts):
        self.facts = facts
        self.by_day = {(fact.kind, fact.place, fact.day): fact for fact in facts}
        self.told = set()

    def find(self, kind, place, day):
        """The listed fact of this kind, place and day, or None."""
        return self.by_day.get((kind, place, day))

    def sui(self, fact):
        """The months from the solstice of this fact to the next, where the facts by which they are counted are listed."""
        next_solstice = self.find("solstice", fact.place, fact.value + NEXT_SOLSTICE)
        first = self.find("new-moon-from", fact.place, fact.value + 1)
        last = next_solstice and self.find("new-moon-before", fact.place, next_solstice.value + 1)
        if not (first and last):
            return None
        spans = (Fraction(last.value - first.value) / SYNODIC_MONTH + Fraction(1, 2)).__floor__()
        told = "a leap month among the thirteen" if spans == 12 else "no leap month"
        return Ground((fact.number, next_solstice.number, first.number, last.number),
                      f"December solstices in {CITIES.get(fact.place, fact.place)}: {gregorian(fact.value)} and "
                      f"{gregorian(next_solstice.value)}; first new moon after the former {gregorian(first.value)}, last by the latter "
                      f"{gregorian(last.value)}, {spans} months on: {told}")

    def month(self, fact):
        """The facts by which the month that begins on the day of this one, of kind `major`, is tested, where all are listed."""
        after = self.find("new-moon-from", fact.place, fact.day + 1)
        at_end = after and self.find("major", fact.place, after.value)
        return (fact, after, at_end) if at_end else None

    def together(self, fact):
        """The sentence that begins with this fact."""
        if fact.kind == "solstice" and self.sui(fact):
            return self.sui(fact)
        if fact.kind == "major" and self.month(fact):
            return month_words(*self.month(fact))
        return Ground((fact.number,), phrase(fact))

    def months(self):
        """The sentences on the months that are tested at a place, where they are several."""
        tests = [test for test in map(self.month, (fact for fact in self.facts if fact.kind == "major")) if test]
        for place in dict.fromkeys(fact.place for fact, _, _ in tests):
            here = sorted((test for test in tests if test[0].place == place), key=lambda test: test[0].day)
            if len(here) > 1:
                begun = {fact.value for fact in self.facts if fact.place == place and fact.kind.startswith("new-moon-")}
                yield months_words(here, [fact for fact in self.facts if fact.place == place and fact.kind == "new-moon-before"
                                          and fact.day in begun])

    def all(self):
        """The sentences in the order of the facts; each fact stands in one at least."""
        several = list(self.months())
        told = {number for ground in several for number in ground.facts}
        whole = [self.together(fact) for fact in self.facts if fact.number not in told]
        told |= {number for ground in whole if len(ground.facts) > 1 for number in ground.facts}
        return [ground for ground in whole if len(ground.facts) > 1 or ground.facts[0] not in told] + several


def month_words(fact, after, at_end):
    """Whether a month has a major term, by the last one as it begins and as the next begins."""
    span = f"month from {gregorian(fact.day)} to {gregorian(after.value - 1)}"
    if at_end.value == fact.value:
        words = f"{span}: no major term; the last is {major(fact.value)} as it begins, and as the next begins"
    else:
        words = f"{span}: has a major term; the last is {major(fact.value)} as it begins, {major(at_end.value)} as the next begins"
    return Ground((fact.number, after.number, at_end.number), words)


def months_words(tests, chain):
    """Of several months in one sentence the last major term as each begins, and which have none; and months found back from others."""
    begins = {fact.day: fact.value for test in tests for fact in (test[0], test[2])}
    terms = ", ".join(f"{gregorian(day)} {major_degrees(begins[day])}°" for day in sorted(begins))
    bare = [f"that from {gregorian(fact.day)} to {gregorian(after.value - 1)}" for fact, after, at_end in tests if fact.value == at_end.value]
    numbers = {fact.number for test in tests for fact in test} | {fact.number for fact in chain}
    others = ", ".join(gregorian(day) for day in sorted({fact.value for fact in chain} - set(begins)))
    return Ground(tuple(sorted(numbers)), f"last major term as months begin: {terms}; without one: {', '.join(bare) or 'none of them'}"
                  + (f"; last new moons before such a month: {others}" if others else ""))


def grounds(line, text):
    """What a line of a text rests on, in words."""
    return Grounds([text.facts[number] for number in line.facts]).all()


def rule(word):
    """The rule by which a word FROM or TO goes."""
    if word in RULES:
        return RULES[word]
    return RULES["time"] if word.startswith(("sunset-", "moonrise-", "moonset-")) else RULES["phase"]
