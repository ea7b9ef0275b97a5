"""The shapes that a face file may name, as lists of (u, v)."""

from .layout import MOST_POINTS
from .mistake import Mistake
from .real import H, TAU, sin_cos, tan


def turned(uv, table):
    """A circle is laid with u rising, the others with their inside to the left; `backward` turns
    them about."""
    return uv[::-1] if table.truth("backward", False) else uv


def circle(table, kind, sizes):
    """Points round the axis at one height. The last is the first again, one turn on."""
    table.keys_are("points", "v", "start", "backward")
    if kind == "plane":
        raise Mistake("a circle goes round the axis, and a plane has none: use a bore")
    n = table.whole("points", 3, MOST_POINTS)
    v, start = table.number("v"), table.number("start", 0.0)
    return turned([(start + TAU * (i / (n - 1)), v) for i in range(n)], table)


def rectangle(table, kind, sizes):
    """The four sides of a rectangle in u and v, each in so many steps."""
    table.keys_are("u", "v", "steps", "backward")
    (u0, u1), (v0, v1) = table.pair("u"), table.pair("v")
    across, up = table.whole_pair("steps", 1, MOST_POINTS, (1, 1))
    if not (u0 < u1 and v0 < v1):
        raise Mistake("u and v each go from the lesser to the greater")
    lower = [(u, v0) for u in steps(u0, u1, across)]
    right = [(u1, v) for v in steps(v0, v1, up)]
    upper = [(u, v1) for u in steps(u1, u0, across)]
    left = [(u0, v) for v in steps(v1, v0, up)]
    return turned(lower + right + upper + left, table)


def steps(first, last, count):
    """Evenly from the first to before the last."""
    return [first + (last - first) * (i / count) for i in range(count)]


def bore(table, kind, sizes):
    """A round hole: its radius is measured along the surface, at its middle."""
    table.keys_are("u", "v", "radius", "points", "backward")
    u, v, radius = table.number("u"), table.number("v"), table.number("radius")
    n = table.whole("points", 3, MOST_POINTS)
    if not 0.0 < radius <= 1e6:
        raise Mistake(f"radius: {radius!r} is out of range (above 0, to 1e+06)")
    wide, high = half_widths(kind, sizes, v, radius)
    if kind != "plane" and not wide < 2.0 * H:
        raise Mistake("the bore reaches round the surface: its radius is too large there")
    around = [sin_cos(TAU * (i / n)) for i in range(n)]
    return turned([(u + wide * cos, v + high * sin) for sin, cos in around], table)


def half_widths(kind, sizes, v, radius):
    """How far a length along the surface reaches in u and in v, at height v."""
    first, second = sizes
    if kind == "plane":
        return radius, radius
    if kind in ("cylinder", "cone"):
        # v is measured along the axis, and the side of a cone is longer than that.
        girth, high = first + v * tan(second), radius * sin_cos(second)[1]
    else:
        bend = first if kind == "sphere" else second
        girth = bend * sin_cos(v)[1] + (0.0 if kind == "sphere" else first)
        high = radius / bend
    return (radius / abs(girth) if girth else float("inf")), high


SHAPES = {"circle": circle, "rectangle": rectangle, "bore": bore}
