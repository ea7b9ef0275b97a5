"""Reads a face file: a face in TOML, its limits checked and its positions worked out."""

import tomllib

from . import layout
from .face import Face, Loop, check_counts, check_reals
from .lines import line_of
from .mistake import Mistake, spelled
from .shapes import SHAPES
from .surface import frame_of, point_at
from .table import Table

TOP = ("kind", "same_sense", "minimum_segments", "frame", "sizes", "tolerances", "loop")


def read_face(data, called):
    """The face that these bytes of a file describe. A mistake begins with the file's name."""
    try:
        text = data.decode("utf-8")
        values = tomllib.loads(text)
    except UnicodeDecodeError:
        raise Mistake(f"{called}: this is not text, so no face file") from None
    except (ValueError, RecursionError) as error:
        # A TOMLDecodeError is a ValueError, and so is a number of thousands of digits.
        raise Mistake(f"{called}: this is not TOML: {error}") from None
    try:
        return face_of(Table(values))
    except Mistake as mistake:
        line = line_of(text, mistake.place)
        at = f"{called}, line {line}" if line else called
        where = spelled(mistake.place)
        raise Mistake(f"{at}: {where + ': ' if where else ''}{mistake.what}") from None


def face_of(table):
    table.keys_are(*TOP)
    kind = table.one_of("kind", layout.KINDS)
    same_sense = table.truth("same_sense", True)
    segments = table.whole("minimum_segments", 1, layout.MOST_SEGMENTS, 1)
    head = placement(table.table("frame")) + sizes(table.table("sizes"), kind)
    head += tolerances(table.table("tolerances"))
    check_reals(kind, [], head, 0)
    tables = table.tables("loop")
    if len(tables) > layout.MOST_LOOPS:
        what = f"a face has at most {layout.MOST_LOOPS} loops, this one has {len(tables)}"
        raise Mistake(what, ("loop", layout.MOST_LOOPS))
    loops = [loop_of(one, kind, head[9:11]) for one in tables]
    face = Face(kind, same_sense, segments, head, [])
    place_loops(face, loops, tables)
    return face


def placement(table):
    table.keys_are("origin", "axis", "reference")
    origin = table.numbers("origin", 3, (0.0, 0.0, 0.0))
    axis = table.numbers("axis", 3, (0.0, 0.0, 1.0))
    return origin + axis + table.numbers("reference", 3, (1.0, 0.0, 0.0))


def sizes(table, kind):
    keys = layout.SIZES[kind]
    if table.values and not keys:
        raise Mistake(f"a {kind} has no sizes", table.place)
    table.keys_are(*keys)
    return [table.number(key) for key in keys] + [0.0] * (2 - len(keys))


def tolerances(table):
    table.keys_are("sag", "angle")
    return [table.number("sag"), table.number("angle")]


def loop_of(table, kind, sizes):
    """The parameters of one loop; its positions are still to come, unless they are given."""
    table.keys_are("points", "positions", "closes", *SHAPES)
    ways = [key for key in ("points", *SHAPES) if key in table.values]
    if len(ways) != 1:
        what = f"a loop is given in one way, by one of {', '.join(('points', *SHAPES))}"
        raise Mistake(what, table.place)
    way = ways[0]
    if way == "points":
        return Loop(table.rows("points", 2), given_positions(table))
    for key in ("positions", "closes"):
        if key in table.values:
            raise table.wrong(key, f"goes with points, not with a {way}")
    shape = table.table(way)
    try:
        return Loop(SHAPES[way](shape, kind, sizes))
    except Mistake as mistake:
        raise mistake if mistake.place else mistake.within(shape.place) from None


def given_positions(table):
    if "positions" not in table.values:
        return []
    positions = table.rows("positions", 3)
    if len(positions) != len(table.values["points"]):
        what = f"{len(positions)} positions for {len(table.values['points'])} points"
        raise table.wrong("positions", what)
    return positions


def place_loops(face, loops, tables):
    """Puts the loops into the face, and positions on the surface where none are given."""
    counts = [len(loop.uv) for loop in loops]
    check_counts(counts)
    face.loops = loops
    check_reals(face.kind, counts, face.parameters(), layout.HEAD)
    frame = frame_of(face.head[:9])
    for loop, table in zip(loops, tables):
        closes = "circle" in table.values or table.truth("closes", False)
        if not loop.xyz:
            loop.xyz = [point_at(face.kind, frame, face.head[9:11], u, v) for u, v in loop.uv]
        if closes:
            # To the bit: a point one turn on would miss it by a rounding.
            loop.xyz[-1] = loop.xyz[0]
    check_reals(face.kind, counts, face.positions(), layout.HEAD + 2 * sum(counts))
