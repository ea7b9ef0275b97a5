"""The reals of a face record by their index, as document 01 has them under "The face record": what
each is called, and its limits. An index is also the place of refusal 7."""

KINDS = ("plane", "cylinder", "cone", "sphere", "torus")

# Reals 9 and 10 of each kind by their keys in a face file; what a kind does not have is 0.
SIZES = {
    "plane": (),
    "cylinder": ("radius",),
    "cone": ("radius", "half_angle"),
    "sphere": ("radius",),
    "torus": ("major_radius", "minor_radius"),
}

# The reals before the parameters.
HEAD = 13
MOST_LOOPS = 16
MOST_POINTS = 512
MOST_SEGMENTS = 64


def limits(kind, points, index):
    """The least and the greatest that the real of this index may be, both included."""
    if index >= HEAD:
        return point_limits(kind, points, index)
    if index < 9:
        return -1e9, 1e9
    if index == 9:
        return {"plane": (0.0, 0.0), "cone": (0.0, 1e6)}.get(kind, (1e-6, 1e6))
    if index == 10:
        return {"cone": (-1.5, 1.5), "torus": (1e-6, 1e6)}.get(kind, (0.0, 0.0))
    return (1e-6, 1e3) if index == 11 else (0.001, 1.5)


def point_limits(kind, points, index):
    """Those of a parameter or a coordinate, in a record of so many points."""
    if index >= HEAD + 2 * points:
        return -1e9, 1e9
    is_u = (index - HEAD) % 2 == 0
    is_length = kind == "plane" or (kind in ("cylinder", "cone") and not is_u)
    return (-1e6, 1e6) if is_length else (-64.0, 64.0)


def within(value, bounds):
    """False for a NaN, which is within no limits."""
    return bounds[0] <= value <= bounds[1]


def range_in_words(bounds):
    low, high = bounds
    return "it must be 0" if low == high else f"{low:g} to {high:g}"


def head_key(kind, index):
    """The keys of a face file under which a real before the parameters stands."""
    if index < 9:
        return ("frame", ("origin", "axis", "reference")[index // 3])
    if index < 11:
        return ("sizes", SIZES[kind][index - 9])
    return ("tolerances", "sag" if index == 11 else "angle")


def head_name(kind, index):
    if index < 9:
        which = ("origin", "axis", "reference direction")[index // 3]
        return f"{'xyz'[index % 3]} of the {which}"
    if index < 11:
        keys = SIZES.get(kind, ())
        if index - 9 < len(keys):
            return "the " + keys[index - 9].replace("_", " ")
        unknown = ("radius or major radius", "half angle or minor radius")
        return "the " + unknown[index - 9]
    return "the sag" if index == 11 else "the angle"


def point_real(counts, index):
    """Of a real after the first 13: its letter, its loop and its point; None where the record has
    no such real."""
    points = sum(counts)
    index -= HEAD
    if index < 2 * points:
        letter, point = "uv"[index % 2], index // 2
    else:
        index -= 2 * points
        letter, point = "xyz"[index % 3], index // 3
    for loop, count in enumerate(counts):
        if point < count:
            return letter, loop, point
        point -= count
    return None


def name(kind, counts, index):
    """What the real of this index is, in words; None where the record has no such real."""
    if index < HEAD:
        return head_name(kind, index)
    found = point_real(counts, index)
    return found and "{0} of point {2} of loop {1}".format(*found)
