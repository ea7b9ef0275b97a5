"""The line of a face file on which a key stands. Python's reader of TOML gives no lines, so the
text is read once more, for its headers and for the keys before an equals sign."""

import re

HEADER = re.compile(r"\s*(\[\[?)\s*([\w.\-]+)\s*\]\]?\s*(#.*)?$")
KEY = re.compile(r"\s*([\w.\-]+)\s*=")


def places(text):
    """Each line's number with the place that it opens or sets."""
    table, seen = (), {}
    for number, line in enumerate(text.splitlines(), 1):
        header, key = HEADER.match(line), KEY.match(line)
        if header:
            table = tuple(header[2].split("."))
            if header[1] == "[[":
                seen[table] = seen.get(table, -1) + 1
                table += (seen[table],)
            yield number, table
        elif key:
            yield number, table + tuple(key[1].split("."))


def line_of(text, place):
    """The line that leads furthest to the place, or None where none does: the key itself, or the
    table that it is missing from."""
    best = None, 0
    for number, here in places(text):
        if best[1] < len(here) and plain(place)[: len(here)] == here:
            best = number, len(here)
    return best[0]


def plain(place):
    """A place without the numbers of rows: 'points[3]' stands on the line of 'points'."""
    return tuple(key.split("[")[0] if isinstance(key, str) else key for key in place)
