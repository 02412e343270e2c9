"""Intervals of whole numbers, and the functions that the formulas take as known, as classical series. Angles are in degrees."""

from fractions import Fraction
from functools import lru_cache
from math import isqrt

BITS = 128
ONE = 1 << BITS
GUARD = 32  # binary places more, in which the errors of a few hundred terms vanish
STEPS = 4096  # of a turn, at whose multiples sines and cosines are tabled
STEP = 360 * ONE // STEPS  # whole, since 360 / 4096 has few binary places
SINE_SLACK = 16  # units by which a sine of a known angle may be off, see `sine_and_cosine`

class Interval:
    """The numbers from m - r to m + r, in units of 2^-BITS. Each operation rounds outwards: it holds each value over its operands.
    The other operand may be a number that is known, an int or a Fraction."""

    __slots__ = ("m", "r")
    def __init__(self, m, r=0):
        self.m, self.r = m, r
    def __eq__(self, other): return (self.m, self.r) == (other.m, other.r)
    def __hash__(self): return hash((self.m, self.r))
    def __add__(self, other):
        other = interval(other)
        return Interval(self.m + other.m, self.r + other.r)
    def __neg__(self): return Interval(-self.m, self.r)
    def __sub__(self, other):
        other = interval(other)
        return Interval(self.m - other.m, self.r + other.r)
    def __rsub__(self, other): return interval(other) - self
    def __mul__(self, other):
        m, r = self.m, self.r
        if type(other) is Interval:
            n, s = other.m, other.r
            return Interval((m * n) >> BITS, ((abs(m) * s + abs(n) * r + r * s) >> BITS) + 2)
        n, d = other.numerator, other.denominator
        return Interval(m * n // d, r * abs(n) // d + 2) if d > 1 else Interval(m * n, r * abs(n))
    def __truediv__(self, other):
        if type(other) is not Interval: return self * (1 / Fraction(other))
        n, s = other.m, other.r
        if abs(n) <= s: raise ZeroDivisionError("a divisor that may be 0")
        m = (self.m << BITS) // n
        return Interval(m, ((self.r << BITS) + (abs(m) + 1) * s) // (abs(n) - s) + 2)
    def __abs__(self): return Interval(abs(self.m), self.r) if abs(self.m) >= self.r else between(0, abs(self.m) + self.r)
    def __rtruediv__(self, other): return interval(other) / self

    __radd__, __rmul__ = __add__, __mul__

def interval(number):
    """The interval of a number that is known: exact where the grid has it. An interval stays as it is."""
    if type(number) is Interval: return number
    floor, rest = divmod(number.numerator << BITS, number.denominator)
    return Interval(floor, 1 if rest else 0)
def between(low, high):
    """The least interval from low to high, in units."""
    return Interval((low + high) >> 1, high - ((low + high) >> 1))
def least(a, b): return between(min(a.m - a.r, b.m - b.r), min(a.m + a.r, b.m + b.r))
def greatest(a, b): return -least(-a, -b)
def root(a):
    """A square root; a negative end counts as 0."""
    return between(isqrt(max(0, a.m - a.r) << BITS), isqrt(max(0, a.m + a.r) << BITS) + 1)
def polynomial(coefficients, x):
    """The sum of the coefficients, the constant one first, by the powers of x."""
    value = coefficients[-1]
    for coefficient in reversed(coefficients[:-1]):
        value = value * x + coefficient
    return value
def _arctangent_of_one_over(n, bits):
    """1/n - 1/(3 n^3) + ..; each term is off by less than 2 units, and what is left is less than the next, 0."""
    power, total, k = (1 << bits) // n, 0, 1
    while power:
        total += (power if k % 4 == 1 else -power) // k
        power //= n * n
        k += 2
    return total

_PI = 16 * _arctangent_of_one_over(5, BITS + GUARD) - 4 * _arctangent_of_one_over(239, BITS + GUARD)  # Machin
PI = Interval(_PI >> GUARD, 2)
RADIAN = 180 / PI  # in degrees
DEGREE = (_PI >> GUARD) // 180  # in radians, off by less than 2 units

def _taylor(x, n, bits):
    """The series of the sine (n = 1) or the cosine (n = 0) of x radians, from 0 to 4/5, to where a term vanishes."""
    term, square, total = x if n else 1 << bits, (x * x) >> bits, 0
    while term:
        total += term
        n += 2
        term = -((term * square) >> bits) // (n * (n - 1))
    return total

@lru_cache(None)
def _tabled(k):
    """The sine of k steps, off by less than 2 units: by the series of the sine or the cosine up to an eighth of a turn."""
    if k >= STEPS // 2: return -_tabled(k - STEPS // 2)
    if k > STEPS // 4: return _tabled(STEPS // 2 - k)
    is_low = k <= STEPS // 8
    return _taylor(2 * _PI * (k if is_low else STEPS // 4 - k) // STEPS, 1 if is_low else 0, BITS + GUARD) >> GUARD

# The factors of x^3, x^5, x^7, x^9 and x^2, x^4, .. x^10 for x up to half a step, 2^-10.3: x^11 / 11! and x^12 / 12! are below a unit.
S3, S5, S7, S9 = -ONE // 6, ONE // 120, -ONE // 5040, ONE // 362880
C2, C4, C6, C8, C10 = -ONE // 2, ONE // 24, -ONE // 720, ONE // 40320, -ONE // 3628800
_TABLE = []

def sine_and_cosine(angle):
    """Of an angle that is known, in units of degrees, each off by at most SINE_SLACK units: x is off by 2, its sine and cosine by 4,
    the tabled ones by 2, and two products are rounded down."""
    if not _TABLE:
        _TABLE.extend((_tabled(k), _tabled((k + STEPS // 4) % STEPS)) for k in range(STEPS))
    k = (2 * angle + STEP) // (2 * STEP)
    x = ((angle - k * STEP) * DEGREE) >> BITS
    q = (x * x) >> BITS
    s = x + ((x * (q * (S3 + (q * (S5 + (q * (S7 + (q * S9 >> BITS)) >> BITS)) >> BITS)) >> BITS)) >> BITS)
    c = ONE + (q * (C2 + (q * (C4 + (q * (C6 + (q * (C8 + (q * C10 >> BITS)) >> BITS)) >> BITS)) >> BITS)) >> BITS)
    high, low = _TABLE[k & (STEPS - 1)]
    return (high * c + low * s) >> BITS, (low * c - high * s) >> BITS

def sine(a): return Interval(sine_and_cosine(a.m)[0], a.r // 57 + SINE_SLACK)
def cosine(a): return Interval(sine_and_cosine(a.m)[1], a.r // 57 + SINE_SLACK)
def tangent(a): return sine(a) / cosine(a)
def _arctangent_sum(x):
    """x - x^3/3 + x^5/5 - .. of an x up to 1/2 in size, in degrees: its 64 terms are off by less than 3 units each."""
    power, square, total, n = x, (x * x) >> BITS, 0, 1
    while power not in (0, -1):
        total += power // n
        power = -((power * square) >> BITS)
        n += 2
    return Interval(total, 200) * RADIAN

def arctangent(a):
    """By the pieces of the series: as far as 1/2, as far as 3, and beyond. It grows by less than 58 degrees for 1."""
    if a.m < 0: return -arctangent(-a)
    if 2 * a.m <= ONE: return _arctangent_sum(a.m) + Interval(0, 58 * a.r)
    x = Interval(a.m)
    inner = (x - 1) / (x + 1) if a.m <= 3 * ONE else -1 / x
    return (45 if a.m <= 3 * ONE else 90) + _arctangent_sum(inner.m) + Interval(0, 58 * (a.r + inner.r))

def arcsine(a):
    """Of what lies from -1 to 1."""
    low, high = (max(-ONE, min(ONE, end)) for end in (a.m - a.r, a.m + a.r))
    a = between(low, high)
    return 2 * arctangent(a / (1 + root(1 - a * a)))
def arccosine(a): return 90 - arcsine(a)
def arctangent_of_two(y, x):
    """The angle of the direction that is y up and x to the right."""
    if abs(y.m) <= y.r: return Interval(0, 180 * ONE)
    return (90 if y.m > 0 else -90) - arctangent(x / y)
