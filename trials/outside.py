#!/usr/bin/env python3
"""The ledger of docs/RULES.md, written from the documents alone, to answer call files.

    trials/outside.py FILE
    trials/outside.py --keys 8 --cells 4 < FILE
    trials/outside.py FILE --totals

Prints the line of each record of the call file, as docs/CALL_FILE.md has them, and with --totals
that of a total too, as docs/TRIALS.md has it.

It keeps every version ever committed and judges each call from these: there is no store and no
validator in it. Nor is there a trim, since a stamp that is trimmed can clash with no one: no
answer depends on it.
"""

import argparse
import sys
from bisect import bisect_left
from collections.abc import Iterable, Iterator
from contextlib import nullcontext
from dataclasses import dataclass, field
from enum import Enum
from itertools import takewhile
from operator import attrgetter
from typing import BinaryIO

import records
from records import Call

MOST_KEYS = 1024
MOST_CELLS = 2048
MOST_ACTIVE = 16
LIST_LENGTH = 32
MOST_TICKS = 4294967294


@dataclass(frozen=True)
class Settings:
    """What store, validator and engine are set up with, which may be refused, and whether the file's
    format has totals."""

    keys: int = 64
    cells: int = 256
    grain: int = 1  # keys to a granule
    last_tick: int = MOST_TICKS
    places: int = 64  # length of the buffer lent to every read
    totals: bool = False  # whether the kinds of totals are read, or are malformed as others are


@dataclass(frozen=True)
class Limits:
    """What a ledger is made with, once it is known which set-ups are refused."""

    keys: int
    cells: int
    grain: int
    last_tick: int


def store_limits(settings: Settings) -> tuple[int, int]:
    """Keys and cells of the store: none of either if its set-up is refused."""
    accepted = 1 <= settings.keys <= MOST_KEYS and 1 <= settings.cells <= MOST_CELLS
    return (settings.keys, settings.cells) if accepted else (0, 0)


def validator_keys(settings: Settings) -> int:
    """Keys of the validator: none if its set-up is refused. It has as many stamps as granules,
    so that only keys and grain can be wrong."""
    accepted = 1 <= settings.keys <= MOST_KEYS and 1 <= settings.grain <= settings.keys
    return settings.keys if accepted else 0


def limits_of(settings: Settings) -> Limits:
    """The ledger's limits: nothing at all if the engine's own check refuses. Where store and
    validator are both refused they agree on no keys, and the engine still has its ticks."""
    keys, cells = store_limits(settings)
    if not 1 <= settings.last_tick <= MOST_TICKS or keys != validator_keys(settings):
        return Limits(keys=0, cells=0, grain=1, last_tick=0)
    return Limits(keys, cells, settings.grain, settings.last_tick)


class Fault(Enum):
    """The refusals of calls, by number."""

    KEY_OUTSIDE = 5
    SHORT_BUFFER = 6
    MALFORMED = 7
    NO_TRANSACTION = 9
    READER_WRITES = 10
    TOO_MANY_ACTIVE = 11
    CLOCK_SPENT = 12
    READ_LIST_FULL = 13
    WRITE_LIST_FULL = 14

    @property
    def layer(self) -> int:
        return 4 if self is Fault.MALFORMED else 3


class Refused(Exception):
    """A call was refused. It is raised before the call has changed anything."""

    def __init__(self, fault: Fault, place: int):
        super().__init__(f"refused {fault.layer} {fault.value} {place}")


@dataclass
class Version:
    """A committed value of a key, present in a cell or removed."""

    key: int
    stamp: int
    value: int
    present: bool = True


# Stands for the base version of every key; it takes no cell.
BASE = Version(key=0, stamp=0, value=0, present=False)

stamp_of = attrgetter("stamp")


@dataclass
class Transaction:
    """An active transaction. A reader's lists stay empty."""

    start: int
    is_updater: bool
    read_list: list[tuple[int, int]] = field(default_factory=list)  # first and count
    write_list: dict[int, int] = field(default_factory=dict)  # a key written again keeps its place

    def would_join(self, first: int, count: int) -> bool:
        """Whether a read or a total of this range makes the read list longer."""
        return self.is_updater and count > 0 and (first, count) not in self.read_list


def figure(summary: int, first: int, values: list[int]) -> str:
    """The figure of the values of the keys from the first on, as a total's line has it."""
    match summary:
        case records.TOTAL_SUM:
            return f"sum {sum(values) % 2**64}"
        case records.TOTAL_SMALLEST if not values:
            return "smallest none"
        case records.TOTAL_SMALLEST:
            smallest = min(values)
            return f"smallest {smallest} {first + values.index(smallest)}"
        case records.TOTAL_NONZERO:
            return f"nonzero {sum(value != 0 for value in values)}"
    raise ValueError(f"a summary of kind {summary}")


class Ledger:
    """All that answers depend on, with the calls."""

    def __init__(self, settings: Settings):
        self.limits = limits_of(settings)
        self.places = settings.places
        self.totals = settings.totals
        self.clock = 0
        self.active: dict[int, Transaction] = {}  # by start, which is the handle
        self.versions: list[Version] = []  # every one ever committed, stamps rising
        self.of_key: dict[int, list[Version]] = {}  # the same versions, by key
        self.present: list[Version] = []  # those marked present, so that none is searched for

    def answer(self, number: int, record: bytes) -> str:
        """The line of a record."""
        try:
            result = self.result(number, records.decode(record, self.totals))
        except Refused as refusal:
            result = str(refusal)
        return f"{number} {result}"

    def result(self, number: int, call: Call | None) -> str:
        if call is None:
            raise Refused(Fault.MALFORMED, number)
        match call.kind:
            case records.BEGIN_READER:
                return f"began {self.begin(is_updater=False)}"
            case records.BEGIN_UPDATER:
                return f"began {self.begin(is_updater=True)}"
            case records.READ:
                values = self.read(call.handle, call.key, call.count)
                return " ".join(["read", *map(str, values)])
            case records.WRITE:
                self.write(call.handle, call.key, call.value)
                return "wrote"
            case records.COMMIT:
                return self.commit(call.handle)
            case records.ABORT:
                self.abort(call.handle)
                return "aborted"
            case records.RECLAIM:
                return f"reclaimed {self.reclaim()}"
            case summary if summary in records.TOTALS:
                return self.total(call.handle, call.key, call.count, summary)
        raise ValueError(f"a call of kind {call.kind}")

    # The seven calls. Each makes its checks in the order of the rules, and then its changes.

    def begin(self, is_updater: bool) -> int:
        """Answers the handle."""
        if len(self.active) == MOST_ACTIVE:
            raise Refused(Fault.TOO_MANY_ACTIVE, MOST_ACTIVE)
        if self.is_spent():
            raise Refused(Fault.CLOCK_SPENT, self.limits.last_tick)
        start = self.draw()
        self.active[start] = Transaction(start, is_updater)
        return start

    def read(self, handle: int, first: int, count: int) -> list[int]:
        """Answers the values of the range, by rising key."""
        transaction = self.transaction(handle)
        self.check_range(first, count)
        if count > self.places:
            raise Refused(Fault.SHORT_BUFFER, self.places)
        return self.look(transaction, first, count)

    def total(self, handle: int, first: int, count: int, summary: int) -> str:
        """Answers the figure of the range that the summary says."""
        transaction = self.transaction(handle)
        self.check_range(first, count)
        return figure(summary, first, self.look(transaction, first, count))

    def write(self, handle: int, key: int, value: int) -> None:
        transaction = self.transaction(handle)
        if not transaction.is_updater:
            raise Refused(Fault.READER_WRITES, handle)
        if key >= self.limits.keys:
            raise Refused(Fault.KEY_OUTSIDE, key)
        write_list = transaction.write_list
        if key not in write_list and len(write_list) == LIST_LENGTH:
            raise Refused(Fault.WRITE_LIST_FULL, handle)
        write_list[key] = value

    def commit(self, handle: int) -> str:
        """Answers the verdict, as its line has it."""
        transaction = self.transaction(handle)
        # Judged while it is still active, and ended whatever the verdict.
        verdict = self.verdict(transaction) if transaction.is_updater else "closed"
        del self.active[handle]
        return verdict

    def abort(self, handle: int) -> None:
        self.transaction(handle)
        del self.active[handle]

    def reclaim(self) -> int:
        """Marks the dead versions removed, and answers how many are newly marked."""
        dead = self.dead()
        for version in dead:
            version.present = False
        self.present = [version for version in self.present if version.present]
        return len(dead)

    # Ticks and transactions

    def is_spent(self) -> bool:
        return self.clock == self.limits.last_tick

    def draw(self) -> int:
        self.clock += 1
        return self.clock

    def transaction(self, handle: int) -> Transaction:
        if handle not in self.active:
            raise Refused(Fault.NO_TRANSACTION, handle)
        return self.active[handle]

    # Ranges

    def check_range(self, first: int, count: int) -> None:
        if first + count > self.limits.keys:
            raise Refused(Fault.KEY_OUTSIDE, first)

    def look(self, transaction: Transaction, first: int, count: int) -> list[int]:
        """What the transaction reads under the keys of the range, for a read or for a total; the
        last check of either is that the range may join the read list."""
        if transaction.would_join(first, count):
            if len(transaction.read_list) == LIST_LENGTH:
                raise Refused(Fault.READ_LIST_FULL, transaction.start)
            transaction.read_list.append((first, count))
        return [self.value_for(transaction, key) for key in range(first, first + count)]

    # Versions

    def as_of(self, key: int, tick: int) -> Version:
        """The key's newest version stamped below the tick."""
        versions = self.of_key.get(key, [])
        below = bisect_left(versions, tick, key=stamp_of)
        return versions[below - 1] if below else BASE

    def value_for(self, transaction: Transaction, key: int) -> int:
        """What the transaction reads under the key."""
        if not transaction.is_updater:
            return self.as_of(key, transaction.start).value
        if key in transaction.write_list:
            return transaction.write_list[key]
        return self.as_of(key, self.clock + 1).value  # no stamp is above the clock

    def horizon(self) -> int:
        """The least start of the active readers, or the tick that is drawn next."""
        starts = (each.start for each in self.active.values() if not each.is_updater)
        return min(starts, default=self.clock + 1)

    def is_dead(self, version: Version, horizon: int) -> bool:
        """Whether a newer version of its key has a stamp below the horizon."""
        return self.as_of(version.key, horizon).stamp > version.stamp

    def dead(self) -> list[Version]:
        """The dead versions among those present."""
        horizon = self.horizon()
        return [version for version in self.present if self.is_dead(version, horizon)]

    def free(self) -> int:
        return self.limits.cells - len(self.present)

    # The verdict on an updater

    def verdict(self, updater: Transaction) -> str:
        writes = len(updater.write_list)
        # Whatever the verdict: later reclaims find fewer versions to remove.
        if writes > self.free():
            self.reclaim()
        clash = self.clash(updater)
        if clash is not None:
            key, stamp = clash
            return f"restart {key} {stamp}"
        if self.is_spent():
            return "spent"
        live = len(self.present) - len(self.dead())
        if live + writes > self.limits.cells:
            return f"full {writes} {self.free()}"
        return f"committed {self.install(updater.write_list)}"

    def clash(self, updater: Transaction) -> tuple[int, int] | None:
        """The first key read whose granule was written into by an updater committed after the
        start of this one, with the greatest tick of such a commit; or None."""
        stamps = self.stamps_above(updater.start)
        for first, count in updater.read_list:
            for key in range(first, first + count):
                stamp = stamps.get(self.granule(key))
                if stamp is not None:
                    return key, stamp
        return None

    def stamps_above(self, start: int) -> dict[int, int]:
        """For each granule written into by a commit after the start, the greatest such tick."""
        stamps: dict[int, int] = {}
        for version in takewhile(lambda each: each.stamp > start, reversed(self.versions)):
            # Newest first, so the first stamp of a granule is its greatest.
            stamps.setdefault(self.granule(version.key), version.stamp)
        return stamps

    def granule(self, key: int) -> int:
        return key // self.limits.grain

    def install(self, write_list: dict[int, int]) -> int:
        """Makes versions of the writes, and answers the commit tick."""
        tick = self.draw()
        for key, value in write_list.items():
            version = Version(key, tick, value)
            self.versions.append(version)
            self.of_key.setdefault(key, []).append(version)
            self.present.append(version)
        return tick


def answers(settings: Settings, call_records: Iterable[bytes]) -> Iterator[str]:
    """The lines of the records, each as soon as its record is there."""
    ledger = Ledger(settings)
    for number, record in enumerate(call_records, start=1):
        yield ledger.answer(number, record)


def run(settings: Settings, data: bytes) -> list[str]:
    """The lines of a whole call file."""
    return list(answers(settings, records.split(data)))


def add_settings(parser: argparse.ArgumentParser) -> None:
    """Adds the options of a set-up to a parser, and the one for totals."""
    usual = Settings()
    parser.add_argument("--keys", type=int, default=usual.keys, help="number of keys")
    parser.add_argument("--cells", type=int, default=usual.cells, help="number of cells")
    parser.add_argument("--grain", type=int, default=usual.grain, help="keys to a granule")
    parser.add_argument("--last-tick", type=int, default=usual.last_tick,
                        help="the last tick that can be drawn")
    parser.add_argument("--places", type=int, default=usual.places,
                        help="length of the buffer lent to every read")
    parser.add_argument("--totals", action="store_true", help="with the kinds of totals, 8 to 10")


def settings_of(arguments: argparse.Namespace) -> Settings:
    """The settings that the options give."""
    return Settings(
        keys=arguments.keys,
        cells=arguments.cells,
        grain=arguments.grain,
        last_tick=arguments.last_tick,
        places=arguments.places,
        totals=arguments.totals,
    )


def records_of(stream: BinaryIO) -> Iterator[bytes]:
    """The records of a stream, each as soon as its bytes are there; the last may be short."""
    return iter(lambda: stream.read(records.LENGTH), b"")


def main() -> None:
    parser = argparse.ArgumentParser(description="Answers a call file by the rules alone.")
    add_settings(parser)
    parser.add_argument("file", nargs="?", help="a call file; standard input without one")
    arguments = parser.parse_args()
    source = open(arguments.file, "rb") if arguments.file else nullcontext(sys.stdin.buffer)
    with source as stream:
        for line in answers(settings_of(arguments), records_of(stream)):
            print(line, flush=True)


if __name__ == "__main__":
    main()
