"""The right half of a picture: the positions, seen from far off, from above and aside."""

import math

from .labels import Labels, name_hole, number_corners, twice_area
from .marks import dots, first_corner, line_width
from .scale import scale_for
from .svg import FAINT, HOLE, INK, OUTER, WALL, element, haloed, outline
from .walls import walls

# Where the eye may be: so far round the z axis from x, the usual place first, and so far up.
ROUND = [math.radians(degrees) for degrees in (-52, 38, 128, -142)]
UP = math.radians(24)
# Lines far from the eye are fainter, in so many steps.
STEPS = 5


def seen(p, eye):
    """Across, up, and how near to the eye."""
    x, y, z = p
    toward = x * math.cos(eye) + y * math.sin(eye)
    across = -x * math.sin(eye) + y * math.cos(eye)
    return (across, z * math.cos(UP) - toward * math.sin(UP),
            toward * math.cos(UP) + z * math.sin(UP))


def best_eye(result):
    """The first place from which the loop shows at least half of what it shows from the best one:
    a flat face is not to be seen along its plane. A band's two rings would cancel out."""
    if result.path != 0:
        return ROUND[0]
    shown = [abs(twice_area([seen(p, eye)[:2] for p in result.outer.xyz])) for eye in ROUND]
    return next(eye for eye, area in zip(ROUND, shown) if area >= 0.5 * max(shown))


def draw_space(parent, result, area):
    eye = best_eye(result)
    loops = [[seen(p, eye) for p in loop.xyz] for loop in (result.outer, *result.holes)]
    every = [p for loop in loops for p in loop]
    scale = scale_for([p[:2] for p in every], area.inset(34), equal=True)
    element(parent, "rect", x=area.left, y=area.top, width=area.width, height=area.height,
            fill="none", stroke=FAINT)
    depths = [p[2] for p in every]
    for number, loop in enumerate(loops):
        lines(parent, loop, scale, (min(depths), max(depths)), HOLE if number else OUTER)
    flat = [[scale(p[:2]) for p in loop] for loop in loops]
    for run in walls(result):
        element(parent, "path", d=outline([flat[0][i] for i in run], closed=False), fill="none",
                stroke=WALL, stroke_width=4.0, stroke_opacity=0.75, stroke_linecap="round")
    triad(parent, area, eye)
    labels = Labels(parent, area)
    labels.take((area.left, area.top + area.height - 76, area.left + 76, area.top + area.height))
    for number, points in enumerate(flat):
        dots(parent, points, HOLE if number else OUTER)
        if number:
            name_hole(labels, points, number - 1)
    first_corner(parent, flat[0][0])
    number_corners(labels, flat[0], 13, 24, fill=OUTER)


def lines(parent, loop, scale, depths, colour):
    """The loop's steps in groups by depth, the far ones faint."""
    near, far = depths[1], depths[0]
    groups = [[] for _ in range(STEPS)]
    for a, b in zip(loop, loop[1:] + loop[:1]):
        depth = ((a[2] + b[2]) / 2 - far) / ((near - far) or 1.0)
        groups[min(STEPS - 1, int(depth * STEPS))].append((scale(a[:2]), scale(b[:2])))
    width = line_width([scale(p[:2]) for p in loop])
    for step, group in enumerate(groups):
        if group:
            data = " ".join(outline(pair, closed=False) for pair in group)
            element(parent, "path", d=data, fill="none", stroke=colour, stroke_width=width,
                    stroke_opacity=0.3 + 0.7 * (step + 1) / STEPS, stroke_linecap="round")


def triad(parent, area, eye):
    """The directions of x, y and z, in the panel's lower left."""
    x0, y0 = area.left + 36, area.top + area.height - 30
    for letter, axis in zip("xyz", ((1, 0, 0), (0, 1, 0), (0, 0, 1))):
        across, up, _ = seen(axis, eye)
        x, y = x0 + 26 * across, y0 - 26 * up
        element(parent, "path", d=outline([(x0, y0), (x, y)], closed=False), stroke=INK)
        haloed(parent, x0 + 36 * across, y0 - 36 * up + 4, letter, 11.0, "middle",
               font_style="italic")
