"""The records of a call file, as docs/CALL_FILE.md has them: 20 bytes to a call. Above them stand
the three kinds of totals that the files of the trials have, as docs/TRIALS.md has them.

A module for other scripts, such as trials/outside.py FILE:

    encode(Call(WRITE, key=5, handle=1, value=54))    the bytes of a record
    decode(record)                                    its call, or None if it is malformed
    decode(record, totals=True)                       the same, where totals are kinds too
    split(data)                                       the records of a whole file
"""

import struct
from dataclasses import dataclass

LENGTH = 20

BEGIN_READER = 1
BEGIN_UPDATER = 2
READ = 3
WRITE = 4
COMMIT = 5
ABORT = 6
RECLAIM = 7

# The kinds of the trials: one for each summary.
TOTAL_SUM = 8
TOTAL_SMALLEST = 9
TOTAL_NONZERO = 10

TOTALS = (TOTAL_SUM, TOTAL_SMALLEST, TOTAL_NONZERO)

FIELDS = ("key", "count", "handle", "value")

# The fields that each kind uses. The others are zero, or the record is malformed.
USED = {
    BEGIN_READER: (),
    BEGIN_UPDATER: (),
    READ: ("key", "count", "handle"),
    WRITE: ("key", "handle", "value"),
    COMMIT: ("handle",),
    ABORT: ("handle",),
    RECLAIM: (),
}
USED_WITH_TOTALS = USED | dict.fromkeys(TOTALS, USED[READ])

# Kind, gap, key, count, pad, handle, value: little-endian, and nothing between them.
LAYOUT = struct.Struct("<BBHHHIQ")


@dataclass(frozen=True)
class Call:
    """One call; `key` is also the first key of a range."""

    kind: int
    key: int = 0
    count: int = 0
    handle: int = 0
    value: int = 0


def encode(call: Call, gap: int = 0, pad: int = 0) -> bytes:
    """The record of a call. A gap or pad that is not 0 makes it malformed, and so does a call
    of no kind, or with something in a field that its kind does not use."""
    return LAYOUT.pack(call.kind, gap, call.key, call.count, pad, call.handle, call.value)


def decode(record: bytes, totals: bool = False) -> Call | None:
    """The call of a record, or None if the record is malformed."""
    if len(record) != LENGTH:
        return None
    kind, gap, key, count, pad, handle, value = LAYOUT.unpack(record)
    call = Call(kind, key, count, handle, value)
    return call if gap == pad == 0 and is_proper(call, totals) else None


def fields_used(totals: bool) -> dict[int, tuple[str, ...]]:
    """The kinds that there are, with totals or of the format alone, and the fields of each."""
    return USED_WITH_TOTALS if totals else USED


def is_proper(call: Call, totals: bool) -> bool:
    """Whether the call is of a kind that there is, with zero in every field not used."""
    used = fields_used(totals).get(call.kind)
    return used is not None and all(
        name in used or getattr(call, name) == 0 for name in FIELDS
    )


def split(data: bytes) -> list[bytes]:
    """The records of a file's bytes, in order; the last may be short."""
    return [data[at:at + LENGTH] for at in range(0, len(data), LENGTH)]
