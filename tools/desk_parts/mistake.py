"""What is wrong with something a person gave: one line, and where it stands."""


class Mistake(Exception):
    """`place` are the keys that lead to the wrong value in a face file, a loop by its number."""

    def __init__(self, what, place=()):
        super().__init__(what)
        self.what = what
        self.place = tuple(place)

    def within(self, before):
        """The same mistake, its place told from further out."""
        return Mistake(self.what, tuple(before) + self.place)


def spelled(place):
    """A place as it is said: ("loop", 1, "circle", "points") is 'loop 1: circle.points'."""
    if len(place) > 1 and place[0] == "loop":
        rest = ".".join(place[2:])
        return f"loop {place[1]}: {rest}" if rest else f"loop {place[1]}"
    return ".".join(map(str, place))
