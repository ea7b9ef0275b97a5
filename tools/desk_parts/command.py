"""The commands of `desk` and their options."""

import argparse
import os
import sys
from pathlib import Path

from .answer import Refusal, read_answer
from .face import record_of
from .face_file import read_face
from .mistake import Mistake
from .picture import picture
from .pipe import pipe
from .record_sizes import sizes_of
from .words import in_words, refusal_line

ABOUT = "Writes a face for the closer, reads its answer, and draws it."

STEPS = """\
from a face to a picture:
  desk pack face.toml | close > face.answer
  desk show face.answer
  desk draw face.answer -o face.svg

Faces to begin with are in examples/, and examples/README.md says what a face file holds.
A mistake is told in one line, with status 1."""

PACK = """\
Reads a face written in TOML and writes its face record. Positions that are left out are worked
out on the surface, with the station's own sine and cosine. What is out of its limits is told by
line and key, and nothing is written."""

SHOW = """\
Says in words what close answered: the path, the loops, their corners and areas, the walls of a
band; or of a refusal its number, its place and its meaning."""

DRAW = """\
Draws a result as an SVG picture: the parameter plane with the outer loop, its holes and, on a
band, the two walls of the seam; and beside it the positions, seen from above and aside."""

PIPE = """\
Packs examples/pipe.toml, has close close it, shows and draws the answer, and counts its corners:
where each comes from. The program is looked for under --close, then under the environment
variable CLOSE, then in crates/close/out/close of the repository."""


def parser():
    plain = argparse.RawDescriptionHelpFormatter
    top = argparse.ArgumentParser("desk", description=ABOUT, epilog=STEPS, formatter_class=plain)
    commands = top.add_subparsers(dest="command", required=True, metavar="COMMAND")

    def command(name, about, text, run):
        one = commands.add_parser(name, help=about, description=text, formatter_class=plain)
        one.set_defaults(run=run)
        return one

    one = command("pack", "write a face record", PACK, run_pack)
    one.add_argument("face", metavar="FACE.toml", help="the face file; - reads standard input")
    one.add_argument("-o", dest="out", metavar="FILE", help="where to write; else standard output")

    one = command("show", "say in words what close answered", SHOW, run_show)
    one.add_argument("file", nargs="?", default="-", help="the answer; else standard input")
    one.add_argument("--face", metavar="RECORD", help="the face record that was given to close: it "
                     "names the place of a refusal by loop and point")
    one.add_argument("--corners", action="store_true", help="list every corner, all digits")

    one = command("draw", "draw a result", DRAW, run_draw)
    one.add_argument("file", nargs="?", default="-", help="the answer; else standard input")
    one.add_argument("-o", dest="out", metavar="OUT.svg", required=True, help="where to write")

    one = command("pipe", "all three for a pipe, and a count of its corners", PIPE, run_pipe)
    one.add_argument("--close", metavar="PROGRAM", help="the program close")
    one.add_argument("-o", dest="out", metavar="OUT.svg", default="pipe.svg",
                     help="where to draw it; else pipe.svg")
    return top


def main(arguments):
    options = parser().parse_args(arguments)
    try:
        options.run(options)
    except Mistake as mistake:
        print(f"desk {options.command}: {mistake.what}", file=sys.stderr)
        return 1
    except BrokenPipeError:
        # Who reads has had enough; the interpreter must not write there again at its end.
        os.dup2(os.open(os.devnull, os.O_WRONLY), sys.stdout.fileno())
        return 1
    return 0


def read_bytes(name):
    try:
        return sys.stdin.buffer.read() if name == "-" else Path(name).read_bytes()
    except OSError as error:
        raise Mistake(f"{name}: {error.strerror}") from None


def write_bytes(name, data):
    try:
        Path(name).write_bytes(data)
    except OSError as error:
        raise Mistake(f"{name}: {error.strerror}") from None


def called(name):
    return "standard input" if name == "-" else name


def run_pack(options):
    record = record_of(read_face(read_bytes(options.face), called(options.face)))
    if options.out:
        write_bytes(options.out, record)
    elif sys.stdout.isatty():
        raise Mistake("a face record is bytes and no text: give -o FILE, or send it to a program")
    else:
        sys.stdout.buffer.write(record)
        sys.stdout.buffer.flush()


def run_show(options):
    sizes = sizes_of(read_bytes(options.face)) if options.face else None
    answer = read_answer(read_bytes(options.file), called(options.file))
    print("\n".join(in_words(answer, sizes, options.corners)), flush=True)


def run_draw(options):
    answer = read_answer(read_bytes(options.file), called(options.file))
    if isinstance(answer, Refusal):
        raise Mistake(f"there is nothing to draw, the face was refused, {refusal_line(answer)}")
    write_bytes(options.out, picture(answer, Path(called(options.file)).stem))


def run_pipe(options):
    lines, image = pipe(options.close or os.environ.get("CLOSE"))
    write_bytes(options.out, image)
    print("\n".join([*lines, "", f"drawn: {options.out}"]), flush=True)
