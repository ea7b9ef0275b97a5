"""A face, its limits, and its record of bytes."""

import struct
from dataclasses import dataclass, field

from . import layout
from .mistake import Mistake


@dataclass
class Loop:
    uv: list
    xyz: list = field(default_factory=list)


@dataclass
class Face:
    kind: str
    same_sense: bool
    minimum_segments: int
    # Reals 0 to 12: placement, sizes, sag, angle.
    head: list
    loops: list

    def counts(self):
        return [len(loop.uv) for loop in self.loops]

    def parameters(self):
        return [x for loop in self.loops for point in loop.uv for x in point]

    def positions(self):
        return [x for loop in self.loops for point in loop.xyz for x in point]


def check_reals(kind, counts, reals, first):
    """Raises for the first real out of its limits; `first` is the index of the first one given."""
    for index, value in enumerate(reals, first):
        bounds = layout.limits(kind, sum(counts), index)
        if layout.within(value, bounds):
            continue
        what = f"{value!r} is out of range ({layout.range_in_words(bounds)})"
        if index < layout.HEAD:
            raise Mistake(what, layout.head_key(kind, index))
        letter, loop, point = layout.point_real(counts, index)
        raise Mistake(f"{letter} of point {point}: {what}", ("loop", loop))


def check_counts(counts):
    total = 0
    for number, count in enumerate(counts):
        total += count
        if count < 3:
            raise Mistake(f"a loop has at least 3 points, this one has {count}", ("loop", number))
        if total > layout.MOST_POINTS:
            what = f"a face has at most {layout.MOST_POINTS} points, with this loop it has {total}"
            raise Mistake(what, ("loop", number))


def record_of(face):
    """The face record: header, counts, 13 reals, all (u, v), all (x, y, z)."""
    kind = layout.KINDS.index(face.kind)
    counts = face.counts()
    header = bytes([1, kind, len(counts), int(face.same_sense), face.minimum_segments])
    reals = face.head + face.parameters() + face.positions()
    return header + struct.pack(f"<{len(counts)}H{len(reals)}d", *counts, *reals)
