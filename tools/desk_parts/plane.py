"""The left half of a picture: the parameter plane, with the face filled and its holes open."""

from .labels import Labels, name_hole, number_corners
from .marks import arrows, dots, first_corner, line_width
from .scale import scale_for, ticks
from .svg import FAINT, HOLE, INK, INSIDE, OUTER, WALL, element, haloed, outline, text
from .walls import walls

# Between the frame of the panel and the loop: room for the numbers of corners.
ROOM = 40
# A closed face may be a plane, whose u and v are lengths: they are drawn alike unless the drawing
# would be thinner than this.
THINNEST = 5.0


def draw_plane(parent, result, area):
    pairs = [p for loop in (result.outer, *result.holes) for p in loop.uv]
    scale = scale_for(pairs, area.inset(ROOM), equal=alike(result.path, pairs))
    axes(parent, scale, area)
    outer = [scale(p) for p in result.outer.uv]
    holes = [[scale(p) for p in hole.uv] for hole in result.holes]
    inside = " ".join(outline(points) for points in (outer, *holes))
    element(parent, "path", d=inside, fill=INSIDE, fill_rule="evenodd")
    for points, colour in ((outer, OUTER), *((hole, HOLE) for hole in holes)):
        element(parent, "path", d=outline(points), fill="none", stroke=colour,
                stroke_width=line_width(points), stroke_linejoin="round")
    labels = Labels(parent, area)
    for run, name in zip(walls(result), ("first wall", "second wall")):
        wall(parent, labels, [outer[i] for i in run], name, scale)
    dots(parent, outer, OUTER)
    arrows(parent, outer, OUTER)
    first_corner(parent, outer[0])
    for number, hole in enumerate(holes):
        dots(parent, hole, HOLE)
        name_hole(labels, hole, number)
    number_corners(labels, outer, 13, 48, fill=OUTER)


def alike(path, pairs):
    (u0, v0), (u1, v1) = (tuple(map(end, zip(*pairs))) for end in (min, max))
    u, v = u1 - u0, v1 - v0
    return path == 0 and u < THINNEST * v and v < THINNEST * u


def axes(parent, scale, area):
    """A frame with round numbers along u and v."""
    bottom, right = area.top + area.height, area.left + area.width
    element(parent, "rect", x=area.left, y=area.top, width=area.width, height=area.height,
            fill="none", stroke=FAINT)
    for u in ticks(scale.low[0], scale.high[0]):
        x = scale((u, scale.low[1]))[0]
        element(parent, "path", d=f"M{x:.2f} {bottom:.2f} v5", stroke=INK)
        text(parent, x, bottom + 17, f"{u:.6g}", 11.0, "middle")
    for v in ticks(scale.low[1], scale.high[1]):
        y = scale((scale.low[0], v))[1]
        element(parent, "path", d=f"M{area.left:.2f} {y:.2f} h-5", stroke=INK)
        text(parent, area.left - 8, y + 4, f"{v:.6g}", 11.0, "end")
    text(parent, right, bottom + 17, "u", 13.0, "end", font_style="italic")
    text(parent, area.left - 8, area.top + 4, "v", 13.0, "end", font_style="italic")


def wall(parent, labels, points, name, scale):
    """A thick line, with its name along it where it is long enough; on its inner side."""
    element(parent, "path", d=outline(points, closed=False), fill="none", stroke=WALL,
            stroke_width=4.0, stroke_opacity=0.75, stroke_linecap="round")
    (x, top), bottom = min(points, key=lambda p: p[1]), max(y for _, y in points)
    if bottom - top < 100:
        return
    x += 15 if x < scale.area.middle()[0] else -9
    y = (top + bottom) / 2
    labels.take((x - 12, y - 36, x + 5, y + 36))
    haloed(parent, x, y, name, 11.5, "middle", fill=WALL,
           transform=f"rotate(-90 {x:.2f} {y:.2f})")
