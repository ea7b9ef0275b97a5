"""sin, cos and tan as the station has them: item 1 of document 01, each operation rounded once and
in the order written. The machine's own differ in the last bit, and a position would with them."""

import math

# FRAC_PI_2, bits 0x3FF921FB54442D18.
H = float.fromhex("0x1.921fb54442d18p+0")
TAU = 4.0 * H


def rounded(x):
    """The nearest whole number, halves away from zero, as a real: the sign of a zero stays."""
    whole = math.trunc(x)
    if abs(x - whole) >= 0.5:
        whole += 1 if x > 0.0 else -1
    return math.copysign(float(whole), x)


def sin_cos(t):
    if abs(t) > 1000.0:
        return 0.0, 0.0
    q = rounded(t / H)
    r = t - q * H
    w = r * r
    s = c = 1.0
    for j in range(8, 0, -1):
        s = 1.0 - (w * s) / (2.0 * j * (2.0 * j + 1.0))
        c = 1.0 - (w * c) / ((2.0 * j - 1.0) * (2.0 * j))
    s = r * s
    # Python's remainder is taken from 0 to 3 for a negative q too.
    return [(s, c), (c, -s), (-s, -c), (-c, s)][int(q) % 4]


def tan(t):
    sin, cos = sin_cos(t)
    return sin / cos
