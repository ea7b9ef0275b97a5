"""What both halves of a picture draw of a loop: its dots and the way that it goes."""

import math

from .svg import OUTER, element, outline


def dot_size(points):
    """Dots shrink with the room between corners, so that a thousand stay apart."""
    following = points[1:] + points[:1]
    gaps = [math.dist(a, b) for a, b in zip(points, following)]
    # Corners at one place, as those of a pole, say nothing of the room.
    gaps = sorted(gap for gap in gaps if gap > 0.01) or [0.0]
    return max(0.7, min(3.6, 0.3 * gaps[len(gaps) // 2]))


def dots(parent, points, colour):
    radius = dot_size(points)
    group = element(parent, "g", fill=colour)
    for x, y in points:
        element(group, "circle", cx=float(x), cy=float(y), r=float(radius))


def line_width(points):
    return 1.6 if dot_size(points) > 1.5 else 0.9


def first_corner(parent, point):
    """A ring about corner 0, from which corners are counted."""
    element(parent, "circle", cx=point[0], cy=point[1], r=5.5, fill="none", stroke=OUTER,
            stroke_width=1.2)


def arrows(parent, points, colour):
    """Heads on four steps of the loop, a quarter of its length apart: which way it goes."""
    following = points[1:] + points[:1]
    lengths = [math.dist(a, b) for a, b in zip(points, following)]
    whole = sum(lengths)
    for part in (0.125, 0.375, 0.625, 0.875):
        left = part * whole
        for a, b, length in zip(points, following, lengths):
            if left <= length and length > 0:
                head(parent, a, b, colour)
                break
            left -= length


def head(parent, a, b, colour):
    x, y = (a[0] + b[0]) / 2, (a[1] + b[1]) / 2
    length = math.dist(a, b)
    dx, dy = (b[0] - a[0]) / length, (b[1] - a[1]) / length
    corners = [(x + 6 * dx, y + 6 * dy), (x - 4 * dx - 4 * dy, y - 4 * dy + 4 * dx),
               (x - 4 * dx + 4 * dy, y - 4 * dy - 4 * dx)]
    element(parent, "path", d=outline(corners), fill=colour)
