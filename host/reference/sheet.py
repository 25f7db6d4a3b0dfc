"""The player's sheet: f64 operations in the paper's order, then exact rounding.

Python floats are IEEE doubles; their + and * give infinities without raising, / raises for a zero
divisor and is completed by divide. A speed is ("hertz", f) or ("tension", tension, density); a loss
is ("per second", sigma) or ("seconds", T).
"""

import math
from collections import namedtuple

Sheet = namedtuple("Sheet", "rate length bending speed loss")


def divide(x, y):
    """IEEE division."""
    if y != 0.0:
        return x / y
    if x == 0.0 or math.isnan(x):
        return math.nan
    return math.copysign(math.inf, math.copysign(1.0, x) * math.copysign(1.0, y))


def squared_courant(columns, sheet):
    """R."""
    g = float(columns - 1)
    if sheet.speed[0] == "hertz":
        # "z = ((2.f).g)/rate, R = z.z".
        z = divide((2.0 * sheet.speed[1]) * g, sheet.rate)
        return z * z
    # "R = ((tension/density)/(rate.rate))/(h.h)", "h = length/g".
    _, tension, density = sheet.speed
    h = divide(sheet.length, g)
    return divide(divide(divide(tension, density), sheet.rate * sheet.rate), h * h)


def stiffness(columns, sheet):
    """"mu^2 = ((bending/(rate.rate))/(h.h))/(h.h)"."""
    h = divide(sheet.length, float(columns - 1))
    return divide(divide(divide(sheet.bending, sheet.rate * sheet.rate), h * h), h * h)


def loss(sheet):
    """"Loss per second: sigma/rate; seconds T: sigma = 6.907755278982137/T"."""
    form, number = sheet.loss
    sigma = number if form == "per second" else divide(6.907755278982137, number)
    return divide(sigma, sheet.rate)


def nearest(x):
    """"Each result times 65536 becomes the nearest whole number, halves up": exact, None if not finite."""
    if not math.isfinite(x):
        return None
    numerator, denominator = x.as_integer_ratio()
    return (2 * 65536 * numerator + denominator) // (2 * denominator)


def coefficients(columns, sheet):
    """(q, m, s); a coefficient that is not finite is None."""
    return (nearest(squared_courant(columns, sheet)), nearest(stiffness(columns, sheet)),
            nearest(loss(sheet)))
