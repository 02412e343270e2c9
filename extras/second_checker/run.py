"""The run of a fact: its tests, counted in their order, each decided by intervals or not, and kept for `--margins`."""

from collections import namedtuple

from .intervals import BITS, ONE, interval

# What a test is about: what happens where its threshold is met; the unit of its distance, how many of them the tested number's unit
# is, and about how many seconds it is, by which tests are ranked; the moment at which the number was taken, and the number as a
# function of a moment, DAYS where it is a moment itself and None where it has no rate; and the moment that the threshold stands for.
Seen = namedtuple("Seen", "event unit pace moment function scale boundary", defaults=(None, None, 1, None))
DAYS, DAY = "days", 86400.0
# A test: its number, its site, what it is about, by how much the number is above the threshold, in the unit, the period of the
# threshold, if it has one, the moment that the threshold stands for, and whether it only leads a search to a moment.
Test = namedtuple("Test", "number site seen distance period boundary is_step")

def span(event, moment=None, boundary=None): return Seen(event, "days", DAY, moment, DAYS, 1, boundary)

class Undecided(Exception):
    """A test whose two sides the intervals don't part; its text has the ends in 2^-56."""
    def __init__(self, site, turn, low, high):
        super().__init__(f"{site} {turn} {low >> (BITS - 56)} {-(-high >> (BITS - 56))}")

class Void(Exception): """The fact has no value, for a reason at the site."""
class Run:
    def __init__(self, keeps=False):
        self.count, self.keeps, self.steps, self.boundary, self.tests, self.moments = 0, keeps, 0, "", [], {}
    def keep(self, site, seen, distance, period=None):
        boundary = seen.boundary or self.boundary
        self.tests.append(Test(self.count, site, seen, distance / ONE * float(seen.scale), period, boundary, self.steps > 0))
    def less(self, a, b, site, seen, value=0):
        """Whether a < b; the tested number is the one of them (0 or 1), the threshold the other. A test of numbers that are both known
        exactly is no matter of nearness, and isn't kept; so with the others below."""
        self.count += 1
        a, b = interval(a), interval(b)
        m, r = b.m - a.m, a.r + b.r
        if self.keeps and r:
            self.keep(site, seen, m if value else -m)
        if -r < m <= r: raise Undecided(site, self.count, min(a.m - a.r, b.m - b.r), max(a.m + a.r, b.m + b.r))
        return m > r
    def floor(self, a, site, seen, modulus=1):
        """How many whole times a number holds the modulus."""
        self.count += 1
        whole = modulus << BITS
        if self.keeps and a.r:
            self.keep(site, seen, (a.m + whole // 2) % whole - whole // 2, modulus)
        if (a.m - a.r) // whole != (a.m + a.r) // whole: raise Undecided(site, self.count, a.m - a.r, a.m + a.r)
        return a.m // whole
    def lead(self, part, *arguments):
        """A part of a run whose tests only lead to a moment or to the start of a search, or don't change what is made of it."""
        self.steps += 1
        value = part(self, *arguments)
        self.steps -= 1
        return value
    def round(self, a, site, seen): return self.floor(a + HALF, site, seen)
    def wrap(self, a, modulus, site, seen):
        """The remainder by a whole number."""
        return a - modulus * self.floor(a, site, seen, modulus)

HALF = interval(1) / 2
SILENT = Run()  # for numbers whose tests nobody asks about
