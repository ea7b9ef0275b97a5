"""Reads an answer of `close`: a result record, or the six bytes of a refusal."""

import struct
from dataclasses import dataclass

from .mistake import Mistake

PATHS = ("closed", "wrapped", "whole surface")
MOST_HOLES = 15
# No real of a result comes near it; a damaged record may hold any.
LARGEST = 1e24


@dataclass
class Refusal:
    number: int
    place: int


@dataclass
class Trimmed:
    """A loop of a result: its area, and its corners as (u, v) and as (x, y, z)."""

    area: float
    uv: list
    xyz: list


@dataclass
class Result:
    path: int
    outer: Trimmed
    holes: list
    length: int

    def corners(self):
        return sum(len(loop.uv) for loop in (self.outer, *self.holes))


def read_answer(data, called):
    if not data:
        raise Mistake(f"{called}: this is empty; an answer of close has at least 6 bytes")
    try:
        if data[0] == 0:
            return read_refusal(data)
        if data[0] == 1:
            return read_result(data)
    except Mistake as mistake:
        raise Mistake(f"{called}: {mistake.what}") from None
    raise Mistake(f"{called}: this is no answer of close: it begins with {data[0]}, not 0 or 1")


def read_refusal(data):
    if len(data) != 6:
        raise Mistake(f"a refusal has 6 bytes, this one has {len(data)}")
    if data[1] == 0:
        raise Mistake("byte 1 is 0, and no refusal has that number")
    return Refusal(data[1], int.from_bytes(data[2:6], "little"))


def read_result(data):
    path, counts = read_sizes(data)
    needed = 4 + 10 * len(counts) + 40 * sum(counts)
    if len(data) != needed:
        wrong = "cut short" if len(data) < needed else "too long"
        what = f"its counts ask for {needed} bytes, it has {len(data)}"
        raise Mistake(f"the result is {wrong}: {what}")
    reals = struct.unpack_from(f"<{len(counts) + 5 * sum(counts)}d", data, 4 + 2 * len(counts))
    for index, x in enumerate(reals):
        if not abs(x) <= LARGEST:
            raise Mistake(f"the result is damaged: real {index} after its counts is {x!r}")
    loops = loops_of(counts, reals)
    return Result(path, loops[0], loops[1:], len(data))


def read_sizes(data):
    """The path, and the corner counts: the outer loop's, then each hole's."""
    if len(data) < 4:
        raise Mistake(f"the result is cut short: {len(data)} bytes, its header alone has 4")
    path, holes, zero = data[1:4]
    if path >= len(PATHS):
        raise Mistake(f"the result is damaged: byte 1, the path, is {path}; paths are 0 to 2")
    if holes > MOST_HOLES:
        raise Mistake(f"the result is damaged: byte 2 says {holes} holes, at most {MOST_HOLES} fit")
    if zero != 0:
        raise Mistake(f"the result is damaged: byte 3 is {zero}, not 0")
    head = 4 + 2 * (holes + 1)
    if len(data) < head:
        raise Mistake(f"the result is cut short: it ends inside its counts, they need {head} bytes")
    counts = struct.unpack_from(f"<{holes + 1}H", data, 4)
    if 0 in counts:
        raise Mistake(f"the result is damaged: its loop {counts.index(0)} has no corners")
    return path, counts


def loops_of(counts, reals):
    total = sum(counts)
    uv = reals[len(counts) : len(counts) + 2 * total]
    xyz = reals[len(counts) + 2 * total :]
    pairs = list(zip(uv[0::2], uv[1::2]))
    triples = list(zip(xyz[0::3], xyz[1::3], xyz[2::3]))
    loops, start = [], 0
    for area, count in zip(reals, counts):
        part = slice(start, start + count)
        loops.append(Trimmed(area, pairs[part], triples[part]))
        start += count
    return loops
