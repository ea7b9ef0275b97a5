"""Elements of an SVG picture. They are built as a tree, so that what is written is well formed."""

import xml.etree.ElementTree as tree

INK = "#333333"
FAINT = "#c9c9c9"
OUTER = "#1f5fa8"
INSIDE = "#e8f0fa"
WALL = "#d9480f"
HOLE = "#2b7a4b"
FONT = "DejaVu Sans, Helvetica, Arial, sans-serif"


def number(x):
    """Two digits behind the point are finer than any screen."""
    return f"{x:.2f}".rstrip("0").rstrip(".")


def element(parent, tag, content=None, **attributes):
    """`stroke_width` stands for stroke-width."""
    given = {}
    for key, value in attributes.items():
        given[key.replace("_", "-")] = number(value) if isinstance(value, float) else str(value)
    made = tree.SubElement(parent, tag, given)
    made.text = content
    return made


def canvas(width, height):
    top = tree.Element("svg", {
        "xmlns": "http://www.w3.org/2000/svg",
        "width": str(width),
        "height": str(height),
        "viewBox": f"0 0 {width} {height}",
        "font-family": FONT,
        "fill": INK,
    })
    element(top, "rect", width=width, height=height, fill="white")
    return top


def text(parent, x, y, content, size=12.0, anchor="start", **attributes):
    return element(parent, "text", content, x=float(x), y=float(y), font_size=size,
                   text_anchor=anchor, **attributes)


def haloed(parent, x, y, content, size, anchor, **attributes):
    """Text that stays readable across lines: its outline is the paper's white."""
    return text(parent, x, y, content, size, anchor, stroke="white", stroke_width=3.0,
                stroke_linejoin="round", paint_order="stroke", **attributes)


def outline(points, closed=True):
    """The path data of a polygon."""
    steps = " L".join(f"{number(x)} {number(y)}" for x, y in points)
    return f"M{steps}{' Z' if closed else ''}"


def written(top):
    tree.indent(top)
    return tree.tostring(top, encoding="utf-8", xml_declaration=True) + b"\n"
