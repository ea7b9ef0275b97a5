"""The sizes of a face record, read so that a refusal's place can be named. The record may well be
wrong: what cannot be read is left out."""

import struct
from dataclasses import dataclass

from .layout import KINDS


@dataclass
class Sizes:
    length: int
    kind: str
    counts: list


def sizes_of(record):
    kind = KINDS[record[1]] if len(record) > 1 and record[1] < len(KINDS) else None
    loops = record[2] if len(record) > 2 else 0
    whole = len(record) >= 5 + 2 * loops
    counts = list(struct.unpack_from(f"<{loops}H", record, 5)) if whole else []
    return Sizes(len(record), kind, counts)
