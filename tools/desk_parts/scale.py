"""From numbers to places on the paper."""

import math
from dataclasses import dataclass


@dataclass
class Area:
    """A rectangle of the paper."""

    left: float
    top: float
    width: float
    height: float

    def inset(self, by):
        return Area(self.left + by, self.top + by, self.width - 2 * by, self.height - 2 * by)

    def middle(self):
        return self.left + self.width / 2, self.top + self.height / 2


@dataclass
class Scale:
    """Puts a pair of numbers into an area, the second upward."""

    low: tuple
    high: tuple
    per: tuple
    area: Area

    def __call__(self, pair):
        middle = self.area.middle()
        centre = [(self.low[i] + self.high[i]) / 2 for i in (0, 1)]
        x = middle[0] + (pair[0] - centre[0]) * self.per[0]
        return x, middle[1] - (pair[1] - centre[1]) * self.per[1]


def scale_for(pairs, area, equal):
    """The largest scale at which all pairs fit; `equal` keeps lengths alike in both directions."""
    low = tuple(map(min, zip(*pairs)))
    high = tuple(map(max, zip(*pairs)))
    # What has no extent is drawn in the middle, at any scale.
    spans = [extent(low[i], high[i]) for i in (0, 1)]
    whole = max(spans) or 1.0
    per = [size / (span or whole) for size, span in zip((area.width, area.height), spans)]
    if equal:
        per = [min(per)] * 2
    return Scale(low, high, tuple(per), area)


def extent(low, high):
    """How far it is from low to high; 0 where that is lost beside their own size."""
    span = high - low
    return span if span > max(1e-30, 1e-12 * max(abs(low), abs(high))) else 0.0


def ticks(low, high, about=6):
    """Round numbers from low to high, some `about` of them."""
    span = extent(low, high)
    if span == 0.0:
        return [low]
    rough = span / about
    ten = 10.0 ** math.floor(math.log10(rough))
    step = next(ten * m for m in (1, 2, 5, 10) if ten * m >= rough)
    first = math.ceil(low / step - 1e-9)
    last = math.floor(high / step + 1e-9)
    return [i * step for i in range(first, last + 1)]
