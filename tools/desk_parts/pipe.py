"""The pipe: one cylinder, two circles, and how many corners that makes."""

import subprocess
from pathlib import Path

from .answer import Refusal, read_answer
from .face import record_of
from .face_file import read_face
from .mistake import Mistake
from .picture import picture
from .words import in_words, refusal_line

ROOT = Path(__file__).resolve().parents[2]
BUILT = ROOT / "crates" / "close" / "out" / "close"


def pipe(program):
    """What is to be said of the pipe, line by line, and its picture."""
    name = ROOT / "examples" / "pipe.toml"
    face = read_face(name.read_bytes(), name.name)
    record = record_of(face)
    answer = read_answer(run_close(program, record), "the answer of close")
    if isinstance(answer, Refusal):
        raise Mistake(f"close refused the pipe, {refusal_line(answer)}")
    lines = [f"the face, examples/pipe.toml: a cylinder of radius {face.head[9]:g} and "
             f"circles of {' and '.join(map(str, face.counts()))} points, {len(record):,} bytes",
             "", "the answer of close:"]
    lines += ["  " + line for line in in_words(answer)]
    lines += ["", "how many corners has a pipe?"]
    lines += ["  " + line for line in count(face, len(answer.outer.uv))]
    return lines, picture(answer, "pipe")


def count(face, corners):
    """Where the corners come from. The wall of a cylinder has as many steps as the least number of
    segments asks for, and one rung fewer between its ends."""
    lower, upper = face.counts()
    rungs = face.minimum_segments - 1
    strip = lower + upper + 2 + 2 * rungs
    rows = [
        (lower, "lower ring: its points, with the closing one that repeats its first"),
        (upper, "upper ring: the same"),
        (2, "ends of the first wall: each ring's first point again, one turn on"),
        (2 * rungs, f"inner rungs of the walls: {rungs} up the first, {rungs} down the second"),
        (strip, "points of the strip"),
        (corners - strip, "repeats: corners at the position of the one kept before"),
        (corners, "corners of the outer loop"),
    ]
    marks = "    = ="
    return [f"{mark} {number:>4}  {what}" for mark, (number, what) in zip(marks, rows)]


def run_close(program, record):
    """What the program writes on this record."""
    path = Path(program) if program else BUILT
    shown = program or BUILT.relative_to(ROOT)
    if not path.is_file():
        raise Mistake(f"there is no program close at {shown}; name it by --close or CLOSE")
    try:
        done = subprocess.run([path.resolve()], input=record, capture_output=True, timeout=60)
    except OSError as error:
        raise Mistake(f"{shown} cannot be run: {error.strerror}") from None
    except subprocess.TimeoutExpired:
        raise Mistake(f"{shown} did not end within a minute") from None
    if done.returncode != 0:
        raise Mistake(f"{shown} ended with status {done.returncode}")
    return done.stdout
