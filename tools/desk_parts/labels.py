"""Labels that do not overlap: each takes its box, and one that finds its box taken is left out."""

import math

from .svg import HOLE, haloed

SIZE = 10.5


class Labels:
    def __init__(self, parent, area):
        self.parent = parent
        self.area = area
        self.taken = []

    def take(self, box):
        """Whether the box is on the panel and free; it is then taken."""
        left, top, right, bottom = box
        area = self.area
        inside = area.left <= left and right <= area.left + area.width
        if not (inside and area.top <= top and bottom <= area.top + area.height):
            return False
        for a in self.taken:
            if left < a[2] and a[0] < right and top < a[3] and a[1] < bottom:
                return False
        self.taken.append(box)
        return True

    def put(self, x, y, content, **attributes):
        """A label about this place; False where there is no room for it."""
        half = half_width(content)
        if not self.take((x - half, y - SIZE * 0.62, x + half, y + SIZE * 0.62)):
            return False
        haloed(self.parent, x, y + SIZE * 0.36, content, SIZE, "middle", **attributes)
        return True

    def put_near(self, places, content, **attributes):
        """The label at the first of these places that is free."""
        return any(self.put(x, y, content, **attributes) for x, y in places)


def every(count, most):
    """The step at which at most so many of the corners are numbered: 1, 2, 5, 10 and so on."""
    ten = 1
    while True:
        for step in (ten, 2 * ten, 5 * ten):
            if count <= most * step:
                return step
        ten *= 10


def number_corners(labels, points, away, most, **attributes):
    """Numbers some corners, `away` from the loop and on its outer side."""
    # A loop that goes out and back has no outer side, only a rounding's sign.
    turn = -1.0 if twice_area(points) < -1.0 else 1.0
    n = len(points)
    for i in range(0, n, every(n, most)):
        (x0, y0), (x, y), (x1, y1) = points[i - 1], points[i], points[(i + 1) % n]
        dx, dy = unit(x1 - x0, y1 - y0)
        # A long number goes further aside, so that it does not reach the line.
        aside = away + max(0.0, half_width(str(i)) - 6)
        labels.put(x + turn * dy * aside, y - turn * dx * away, str(i), **attributes)


def half_width(content):
    return 0.32 * SIZE * len(content) + 2


def name_hole(labels, points, number):
    """In the hole where it is wide enough, else beside it."""
    (left, top), (right, bottom) = (tuple(map(end, zip(*points))) for end in (min, max))
    x, y = (left + right) / 2, (top + bottom) / 2
    around = [(x, top - 11), (x, bottom + 11), (right + 26, y), (left - 26, y)]
    roomy = right - left > 54 and bottom - top > 24
    labels.put_near([(x, y), *around] if roomy else around, f"hole {number}", fill=HOLE)


def unit(dx, dy):
    length = math.hypot(dx, dy)
    return (dx / length, dy / length) if length > 0 else (1.0, 0.0)


def twice_area(points):
    following = points[1:] + points[:1]
    return sum(a[0] * b[1] - b[0] * a[1] for a, b in zip(points, following))
