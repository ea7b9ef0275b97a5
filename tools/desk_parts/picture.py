"""The whole picture of a result: two halves, a title and a legend."""

from .plane import draw_plane
from .scale import Area
from .space import draw_space
from .svg import HOLE, INK, OUTER, WALL, canvas, element, text, written
from .words import counted

WIDTH, HEIGHT = 1240, 640
PLANE = Area(76.0, 84.0, 560.0, 470.0)
SPACE = Area(690.0, 84.0, 520.0, 470.0)
NAMES = ("closed face", "band", "whole surface")


def picture(result, called):
    """The bytes of an SVG file."""
    top = canvas(WIDTH, HEIGHT)
    element(top, "title", f"{called}: {summary(result)}")
    text(top, PLANE.left, 34, called, 19.0, font_weight="bold")
    text(top, PLANE.left, 56, summary(result), 13.0)
    text(top, PLANE.left, 77, "parameters (u, v)", 12.0)
    text(top, SPACE.left, 77, "positions (x, y, z)", 12.0)
    draw_plane(element(top, "g"), result, PLANE)
    draw_space(element(top, "g"), result, SPACE)
    legend(top, result)
    return written(top)


def summary(result):
    said = f"{NAMES[result.path]} (path {result.path}), outer loop of "
    said += counted(len(result.outer.uv), "corner")
    if result.holes:
        corners = counted(result.corners() - len(result.outer.uv), "corner")
        said += f", {counted(len(result.holes), 'hole')} with {corners}"
    return said


def legend(parent, result):
    """One line under the picture, of what the picture holds."""
    entries = [(OUTER, "outer loop, its corners counted from the ringed one", 1.6)]
    if result.path == 1:
        entries.append((WALL, "walls of the seam: one line in space, gone up and down", 4.0))
    if result.holes:
        entries.append((HOLE, "holes", 1.6))
    x, y = PLANE.left, HEIGHT - 22
    for colour, what, width in entries:
        element(parent, "path", d=f"M{x} {y - 4} h26", stroke=colour, stroke_width=width)
        element(parent, "circle", cx=x + 13, cy=y - 4.0, r=2.6, fill=colour)
        text(parent, x + 34, y, what, 12.0, fill=INK)
        x += 34 + 7 * len(what) + 30
