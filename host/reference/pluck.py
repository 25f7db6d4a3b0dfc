"""A pluck: the table T and the rule that fills the levels, by T or by a lent table.

T is worked out in whole numbers, in units of 2^-bits.

Error. arctan(1/5) takes fewer than bits terms and arctan(1/239) fewer still, each cut by less
than 2 units, so pi is wrong by less than 16*2*bits + 4*2*bits + 20 < 64*bits units. The angle
pi*j/1024 is at most pi, hence wrong by less than 64*bits + 1 units, and cos moves by no more than
the angle. In the cosine's series the k-th term is at most pi^(2k)/(2k)! <= 5 and is found from the
one before by a product with x*x (cut once) and a division (cut once); the cuts together are below
64 units a term, over fewer than bits terms. All in all the cosine is wrong by less than 256*bits
units, and 32768*(1-cos) by less than 2^23*bits units: below 2^31 units for bits = 160.
The nearest half lies further away than 2^-20 for each of the 1025 entries, which is 2^140 units
(the test of T measures both). So no entry's rounding is in doubt. An exact half cannot occur: the
cosine would be rational, hence 0, 1/2 or 1 up to sign, and j/1024 is never a third.
"""

from instrument import LINE_KINDS, is_fixed

BITS = 160


def arctan_of_inverse(x, bits):
    """arctan(1/x) in units of 2^-bits, by its series."""
    total, power, odd, sign = 0, 2**bits // x, 1, 1
    while power:
        total += sign * (power // odd)
        power //= x * x
        odd += 2
        sign = -sign
    return total


def pi_units(bits):
    """Machin: pi/4 = 4 arctan(1/5) - arctan(1/239)."""
    return 4 * (4 * arctan_of_inverse(5, bits) - arctan_of_inverse(239, bits))


def cosine_units(x, bits):
    """cos of x (both in units of 2^-bits), by its series."""
    square = x * x >> bits
    total, term, k, sign = 0, 2**bits, 0, 1
    while term:
        total += sign * term
        k += 2
        term = (term * square >> bits) // (k * (k - 1))
        sign = -sign
    return total


def entry_units(j, bits, pi):
    """32768(1-cos(pi j/1024)) in units of 2^-bits."""
    return 32768 * (2**bits - cosine_units(pi * j // 1024, bits))


def make_table(bits=BITS):
    """"entry j the nearest whole number to 32768(1-cos(pi j/1024)), j from 0"."""
    pi = pi_units(bits)
    half = 2 ** (bits - 1)
    return tuple((entry_units(j, bits, pi) + half) >> bits for j in range(1025))


T = make_table()


def cut_toward_zero(numerator, denominator):
    magnitude = abs(numerator) // denominator
    return -magnitude if numerator < 0 else magnitude


def pluck_level(kind, columns, centre, half_width, height, table):
    """The level that an accepted pluck puts in both places; "Points are filled by the same rule as before" by a lent table."""
    assert kind in LINE_KINDS
    level = [0] * columns
    for point in range(columns):
        distance = abs(point - centre)
        if distance <= half_width and not is_fixed(kind, columns, 1, point):
            # "a times entry i of the table T, divided by 65536 and cut toward zero,
            # with i = 1024(w-d)/w rounded down"; or of the lent table "in place of T".
            i = 1024 * (half_width - distance) // half_width
            level[point] = cut_toward_zero(height * table[i], 65536)
    return level
