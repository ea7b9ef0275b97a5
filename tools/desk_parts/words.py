"""An answer in words."""

from .answer import Refusal
from .refusals import meaning
from .walls import walls

PATHS = (
    "a closed face (path 0): no loop goes round the surface",
    "a band (path 1): two rings joined to one loop along a seam",
    "a whole surface (path 2): no loop trims it",
)


def counted(n, what):
    return f"{n:,} {what}" if n == 1 else f"{n:,} {what}s"


def reach(values):
    return f"{min(values):.6g} to {max(values):.6g}"


def in_words(answer, sizes=None, corners=False):
    """All lines of `desk show`."""
    if isinstance(answer, Refusal):
        return [f"refused, {refusal_line(answer, sizes)}"]
    loops = [("outer loop", answer.outer)]
    loops += [(f"hole {i}", hole) for i, hole in enumerate(answer.holes)]
    lines = [PATHS[answer.path]]
    for name, loop in loops:
        lines += loop_lines(name, loop)
        if name == "outer loop":
            lines += wall_lines(answer)
        if corners:
            lines += corner_lines(loop)
    lines.append(f"in all: {counted(answer.corners(), 'corner')}, "
                 f"{counted(len(answer.holes), 'hole')}, {answer.length:,} bytes")
    return lines


def refusal_line(refusal, sizes=None):
    return f"{refusal.number} at {refusal.place}: {meaning(refusal, sizes)}"


def loop_lines(name, loop):
    us, vs = zip(*loop.uv)
    axes = zip("xyz", zip(*loop.xyz))
    return [
        f"{name}: {counted(len(loop.uv), 'corner')}, area {loop.area:.9g} in u and v",
        f"  u {reach(us)}, v {reach(vs)}",
        "  " + ", ".join(f"{letter} {reach(values)}" for letter, values in axes),
    ]


def wall_lines(result):
    lines = []
    for run, which in zip(walls(result), ("first", "second")):
        u = result.outer.uv[run[0]][0]
        lines.append(f"  {which} wall: at u = {u:.6g}, from corner {run[0]} to corner {run[-1]}, "
                     f"{counted(len(run) - 2, 'corner')} between")
    return lines


def corner_lines(loop):
    lines = []
    for i, (uv, xyz) in enumerate(zip(loop.uv, loop.xyz)):
        pair = ", ".join(repr(x) for x in uv)
        lines.append(f"  {i:>5}  ({pair})  ({', '.join(repr(x) for x in xyz)})")
    return lines
