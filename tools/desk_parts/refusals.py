"""What each refusal means, in one sentence with its place in words."""

from . import layout

HEADER = {0: "the version", 1: "the kind", 3: "the sense", 4: "the minimum segments"}

FIXED = {
    1: "fewer than {:,} result bytes were lent",
    3: "the record says {} loops, and 16 is the most",
    4: "loop {} has fewer than 3 points",
    5: "with loop {} the face has more than 512 points",
    6: "the length of the record is wrong: {} bytes are needed",
    8: "loop {} goes round the surface, and its last position is not its first",
    9: "loop {} goes round the surface and no other does, so there is nothing to close it with",
    10: "{} loops go round the surface, and a band has two",
    11: "no loops, and a plane, a cylinder or a cone has no boundary of its own",
    12: "the strip between the two rings has {:,} points, and 1,024 is the most",
}


def meaning(refusal, sizes=None):
    """`sizes` are the record's length, kind and counts, where the refused record is at hand."""
    number, place = refusal.number, refusal.place
    if number == 2:
        return wrong_byte(place, sizes)
    if number == 7:
        return out_of_range(place, sizes)
    if number in FIXED:
        return FIXED[number].format(place)
    return "a refusal that this tool does not know"


def wrong_byte(place, sizes):
    """Places under 5 may be a length or an offset; the record tells which, and byte 2 is never
    wrong."""
    short = f"the record has only {place} bytes" if place else "the record is empty"
    if place not in HEADER:
        return short
    wrong = f"byte {place}, {HEADER[place]}, is wrong"
    if sizes is None:
        return f"{short}, or {wrong}"
    return short if sizes.length < 5 else wrong


def out_of_range(place, sizes):
    kind, counts = (sizes.kind, sizes.counts) if sizes else (None, [])
    name = layout.name(kind, counts, place)
    if name is None:
        return f"real {place}, a parameter or a position, is out of range (--face RECORD names it)"
    if sizes is None and place in (9, 10):
        return f"{name} is out of range"
    bounds = layout.limits(kind, sum(counts), place)
    return f"{name} is out of range ({layout.range_in_words(bounds)})"
