"""Document 01, "Factors", with order 6's reactance, anew by whole numbers and fractions: what check-factors and check-impedances
compare with."""
from fractions import Fraction
from functools import lru_cache
from math import factorial, isqrt


def voltage_factor(tolerance, volts):
    """c in hundredths."""
    if volts > 1000:
        return 110
    return {6: 105, 10: 110}[tolerance]


@lru_cache(None)
def sine(p):
    """In ten-thousandths, the least s with s^2 >= 10^8 - 10^4 p^2."""
    return next(s for s in range(10_001) if s * s >= 10**8 - 10**4 * p * p)


def ux(uk, ur):
    """In millionths of a percent, the greatest w with w^2 <= (uk^2 - uR^2) 10^6."""
    return isqrt((uk * uk - ur * ur) * 10**6)


@lru_cache(None)
def f(rho):
    """In millionths, the greatest whole number with f^2 (10,000 + rho^2) <= 10^16."""
    low, high = 0, 10**6 + 1
    while high - low > 1:
        middle = (low + high) // 2
        if middle * middle * (10_000 + rho * rho) <= 10**16:
            low = middle
        else:
            high = middle
    return low


@lru_cache(None)
def t(y):
    """The sum of y^k/k! for k = 0 to 24."""
    return sum(y**k / factorial(k) for k in range(25))


@lru_cache(None)
def peak_factor(i):
    """In thousandths, 1,020 + the least whole number not below 980/T(3i/100); past the table's end its last entry."""
    quotient = 980 / t(Fraction(3 * min(i, 230), 100))
    return 1020 - (-quotient.numerator // quotient.denominator)


def fine_factor(p):
    """In sixteen-thousandths, at p/1,600: sixteen steps from an entry of the table to the next."""
    i, s = divmod(p, 16)
    return 16 * peak_factor(i) - s * (peak_factor(i) - peak_factor(i + 1))
