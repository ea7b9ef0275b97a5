"""A table of a face file that knows where it stands, so that each mistake names its key."""

import difflib
import math

from .mistake import Mistake

REQUIRED = object()


class Table:
    def __init__(self, values, place=()):
        self.values = values
        self.place = tuple(place)

    def wrong(self, key, what):
        return Mistake(what, self.place + (key,))

    def keys_are(self, *known):
        for key in self.values:
            if key in known:
                continue
            near = difflib.get_close_matches(key, known, 1)
            if near:
                raise self.wrong(key, f"unknown key; did you mean {near[0]}?")
            raise self.wrong(key, f"unknown key; known here: {', '.join(known)}")

    def get(self, key, default=REQUIRED):
        if key in self.values:
            return self.values[key]
        if default is REQUIRED:
            raise self.wrong(key, "is missing")
        return default

    def as_number(self, key, value):
        # In Python a truth value is a number too; in a face file it is none.
        if isinstance(value, bool) or not isinstance(value, (int, float)):
            raise self.wrong(key, f"must be a number, not {value!r}")
        try:
            real = float(value)
        except OverflowError:
            real = math.inf
        if not math.isfinite(real):
            raise self.wrong(key, f"{real!r} is not a finite number")
        return real

    def as_whole(self, key, value, low, high):
        if isinstance(value, bool) or not isinstance(value, int):
            raise self.wrong(key, f"must be a whole number, not {value!r}")
        if not low <= value <= high:
            raise self.wrong(key, f"{value} is out of range ({low} to {high})")
        return value

    def number(self, key, default=REQUIRED):
        return self.as_number(key, self.get(key, default))

    def whole(self, key, low, high, default=REQUIRED):
        return self.as_whole(key, self.get(key, default), low, high)

    def several(self, key, count, default=REQUIRED):
        """A list of so many values, of any kind."""
        value = self.get(key, default)
        if not isinstance(value, (list, tuple)) or len(value) != count:
            raise self.wrong(key, f"must be a list of {count} numbers")
        return value

    def numbers(self, key, count, default=REQUIRED):
        return [self.as_number(key, x) for x in self.several(key, count, default)]

    def pair(self, key):
        return self.numbers(key, 2)

    def whole_pair(self, key, low, high, default):
        return [self.as_whole(key, x, low, high) for x in self.several(key, 2, default)]

    def truth(self, key, default):
        value = self.get(key, default)
        if not isinstance(value, bool):
            raise self.wrong(key, f"must be true or false, not {value!r}")
        return value

    def one_of(self, key, names):
        value = self.get(key)
        if value not in names:
            raise self.wrong(key, f"must be one of {', '.join(names)}, not {value!r}")
        return value

    def table(self, key):
        """A table within; where it is left out, an empty one."""
        value = self.get(key, {})
        if not isinstance(value, dict):
            raise self.wrong(key, "must be a table")
        return Table(value, self.place + (key,))

    def tables(self, key):
        """The tables of an array, each with its number."""
        value = self.get(key, [])
        if not isinstance(value, list) or not all(isinstance(one, dict) for one in value):
            raise self.wrong(key, f"must be tables, each under [[{key}]]")
        return [Table(one, self.place + (key, i)) for i, one in enumerate(value)]

    def rows(self, key, width):
        """A list of lists of so many numbers each; a wrong row is named by its number."""
        value = self.get(key)
        if not isinstance(value, list):
            raise self.wrong(key, f"must be a list of lists of {width} numbers")
        rows = Table({f"{key}[{i}]": row for i, row in enumerate(value)}, self.place)
        return [tuple(rows.numbers(f"{key}[{i}]", width)) for i in range(len(value))]
