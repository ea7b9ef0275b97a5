"""The surface points, in the operation order of the Rust's `Frame::new` and `Surface::point_at`,
so that a position that is worked out here has the station's bits."""

import math
from dataclasses import dataclass

from .real import sin_cos, tan

# A vector no longer than this has no direction: the root of the least normal real.
SHORTEST = 2.0**-511


def add(a, b):
    return (a[0] + b[0], a[1] + b[1], a[2] + b[2])


def times(a, s):
    return (a[0] * s, a[1] * s, a[2] * s)


def dot(a, b):
    return a[0] * b[0] + a[1] * b[1] + a[2] * b[2]


def cross(a, b):
    return (a[1] * b[2] - a[2] * b[1], a[2] * b[0] - a[0] * b[2], a[0] * b[1] - a[1] * b[0])


def unit(a):
    """The direction of a vector, or None where it is too short to have one."""
    length = math.sqrt(dot(a, a))
    return times(a, 1.0 / length) if SHORTEST < length < math.inf else None


def perpendicular(a):
    """Some direction across a, made with the axis along which a reaches least."""
    x, y, z = map(abs, a)
    least = (1.0, 0.0, 0.0) if x < y and x < z else (0.0, 1.0, 0.0) if y < z else (0.0, 0.0, 1.0)
    return unit(cross(a, least)) or (1.0, 0.0, 0.0)


@dataclass
class Frame:
    origin: tuple
    axis: tuple
    reference: tuple
    y: tuple


def frame_of(placement):
    """The frame of nine reals: origin, axis, reference direction, with the Rust's fallbacks."""
    origin, axis, given = (tuple(placement[i : i + 3]) for i in (0, 3, 6))
    axis = unit(axis) or (0.0, 0.0, 1.0)
    along = times(axis, dot(given, axis))
    across = (given[0] - along[0], given[1] - along[1], given[2] - along[2])
    reference = unit(across) or perpendicular(axis)
    return Frame(origin, axis, reference, cross(axis, reference))


def polar(frame, r, u):
    sin, cos = sin_cos(u)
    return add(add(frame.origin, times(frame.reference, r * cos)), times(frame.y, r * sin))


def point_at(kind, frame, sizes, u, v):
    first, second = sizes
    if kind == "plane":
        return add(add(frame.origin, times(frame.reference, u)), times(frame.y, v))
    if kind == "cylinder":
        return add(polar(frame, first, u), times(frame.axis, v))
    if kind == "cone":
        return add(polar(frame, first + v * tan(second), u), times(frame.axis, v))
    sin, cos = sin_cos(v)
    if kind == "sphere":
        return add(polar(frame, first * cos, u), times(frame.axis, first * sin))
    return add(polar(frame, first + second * cos, u), times(frame.axis, second * sin))
