#!/usr/bin/env python3
"""Checks the laws on a call file and its lines, whoever printed them.

    trials/check_serial.py CALLS LINES [--keys .. as of outside.py]
    trials/check_serial.py --set crates/trials/data

From the calls and the lines alone it rebuilds the transactions, puts them into
the serial order (a committed updater at its commit tick, a reader at its start),
runs them one at a time on a table of zeros, and compares what every accepted
read or total gives there with what its line has; only writes set a value of it.
It checks that who ended before another began stands before it, and that ticks
are drawn in turn. Nothing of the outside implementation is asked for that, not
even how a record is taken apart.

Last it asks the outside implementation for the lines without the reclaims and
with a reclaim before every call: no other line may change.
"""

import argparse
import collections
import itertools
import os
import struct
import sys
from dataclasses import dataclass, field

from outside import Ledger, Settings, add_settings, settings_of

LENGTH = 20
RECLAIM = bytes([7]) + bytes(LENGTH - 1)

# The results that an accepted call of each kind may have.
ANSWERS = {
    1: ["began"],
    2: ["began"],
    3: ["read"],
    4: ["wrote"],
    5: ["closed", "restart", "spent", "full", "committed"],
    6: ["aborted"],
    7: ["reclaimed"],
}
TOTAL_ANSWERS = {8: ["sum"], 9: ["smallest"], 10: ["nonzero"]}
LOOKS = (3, *TOTAL_ANSWERS)


class Unlawful(Exception):
    """A law does not hold."""


def demand(holds, what):
    if not holds:
        raise Unlawful(what)


@dataclass
class Transaction:
    updates: bool
    start: int
    began: int  # the number of its begin's record
    ended: int = None  # the number of its commit's or abort's record
    place: int = None  # where it stands in the serial order, if anywhere
    steps: list = field(default_factory=list)  # accepted reads, totals and writes


def fields_of(record):
    """Kind, key, count, handle and value; only accepted records are asked for."""
    kind, key, count, handle, value = struct.unpack("<BxHHxxIQ", record)
    return kind, key, count, handle, value


def cut(data):
    return [data[at : at + LENGTH] for at in range(0, len(data), LENGTH)]


def numbers_of(number, result, words):
    """The numbers behind a line's result; only a smallest may be none."""
    if result == "smallest" and words == ["none"]:
        return [None]
    demand(all(word.isdecimal() for word in words), f"line {number}: {result} {words}")
    return [int(word) for word in words]


def seen(result, first, values):
    """What a read or a total shows of the values of the keys from the first on, as the numbers of
    its line."""
    if result == "sum":
        return [sum(values) % 2**64]
    if result == "smallest":
        return list(min(zip(values, itertools.count(first)), default=(None,)))
    if result == "nonzero":
        return [len(values) - values.count(0)]
    return values


class Retelling:
    """The transactions of a call file, as its calls and lines tell of them."""

    def __init__(self, data, lines, totals):
        records = cut(data)
        demand(len(lines) == len(records), f"{len(records)} records, {len(lines)} lines")
        self.answers = ANSWERS | TOTAL_ANSWERS if totals else ANSWERS
        self.transactions = []
        self.active = {}
        self.clock = 0
        for number, (record, line) in enumerate(zip(records, lines), 1):
            shown, result, *words = line.split(" ")
            demand(shown == str(number), f"line {number} is numbered {shown}")
            if result != "refused":
                demand(len(record) == LENGTH, f"record {number} is short, but accepted")
                self.accept(number, record, result, numbers_of(number, result, words))

    def draw(self, number, tick):
        self.clock += 1
        demand(tick == self.clock, f"line {number} draws {tick} instead of {self.clock}")

    def accept(self, number, record, result, numbers):
        kind, key, count, handle, value = fields_of(record)
        demand(result in self.answers.get(kind, []), f"line {number}: kind {kind} got {result}")
        if kind == 7:
            return
        if result == "began":
            self.draw(number, numbers[0])
            transaction = Transaction(kind == 2, numbers[0], number)
            if not transaction.updates:
                transaction.place = transaction.start
            self.transactions.append(transaction)
            self.active[transaction.start] = transaction
            return
        demand(handle in self.active, f"line {number}: {handle} is not active")
        transaction = self.active[handle]
        if kind in LOOKS:
            # Of zeros a line has as many numbers as of any values; of no keys it has these.
            zeros = seen(result, key, [0] * count)
            fits = len(numbers) == len(zeros) and (count > 0 or numbers == zeros)
            demand(fits, f"line {number}: {result} {numbers} of {count} keys")
            transaction.steps.append((number, result, key, count, numbers))
        elif result == "wrote":
            demand(transaction.updates, f"line {number}: a reader wrote")
            transaction.steps.append((number, result, key, 1, value))
        else:
            self.end(number, transaction, result, numbers)

    def end(self, number, transaction, result, numbers):
        transaction.ended = number
        del self.active[transaction.start]
        if result != "aborted":
            closes = result == "closed"
            demand(closes != transaction.updates, f"line {number}: the wrong kind is {result}")
        if result == "committed":
            self.draw(number, numbers[0])
            transaction.place = numbers[0]

    def serial_order(self):
        placed = [t for t in self.transactions if t.place is not None]
        return sorted(placed, key=lambda t: t.place)


def check_serial(order):
    """Runs the transactions singly; answers how many values and figures were compared."""
    table = collections.defaultdict(int)
    compared = 0
    for transaction in order:
        for number, result, key, count, given in transaction.steps:
            if result == "wrote":
                table[key] = given
                continue
            serial = seen(result, key, [table[k] for k in range(key, key + count)])
            demand(serial == given, f"line {number} gives {given}, a serial run {serial}")
            compared += count if result == "read" else 1
    return compared


def check_time(order):
    """Who ended before another began stands before it."""
    # Going back through the order, the earliest end of those who stand later
    # must not lie before a begin of those who stand earlier.
    earliest_end = None
    for transaction in reversed(order):
        late = earliest_end is not None and earliest_end < transaction.began
        demand(not late, f"who began at line {transaction.began} stands before one ended then")
        if transaction.ended is not None:
            ends = [end for end in (earliest_end, transaction.ended) if end is not None]
            earliest_end = min(ends)


def check_reclaims(settings, data, lines):
    """Striking the reclaims out, or putting some in, changes no other line."""
    without, with_more = Ledger(settings), Ledger(settings)
    for number, (record, line) in enumerate(zip(cut(data), lines), 1):
        with_more.answer(0, RECLAIM)
        after = with_more.answer(number, record)
        if record != RECLAIM:
            demand(after == line, f"{line} is {after} with more reclaims")
            struck = without.answer(number, record)
            demand(struck == line, f"{line} is {struck} without reclaims")


def check(settings, data, lines):
    """Checks all laws; answers how many transactions, and how many values and figures, were
    compared."""
    order = Retelling(data, lines, settings.totals).serial_order()
    compared = check_serial(order)
    check_time(order)
    check_reclaims(settings, data, lines)
    return len(order), compared


def read_pair(calls, lines):
    with open(calls, "rb") as file:
        data = file.read()
    with open(lines) as file:
        return data, file.read().splitlines()


def read_set(folder):
    """Name, settings, bytes and lines of each file of a set; a set is read with totals."""
    with open(os.path.join(folder, "settings")) as file:
        for line in file:
            name, *numbers = line.split()
            stem = os.path.join(folder, name)
            data, lines = read_pair(stem + ".calls", stem + ".lines")
            yield name, Settings(*map(int, numbers), totals=True), data, lines


def main():
    parser = argparse.ArgumentParser(description="check the laws on call files and their lines")
    parser.add_argument("calls", nargs="?", help="a call file")
    parser.add_argument("lines", nargs="?", help="its lines")
    parser.add_argument("--set", metavar="FOLDER", help="check all files of a set")
    add_settings(parser)
    arguments = parser.parse_args()
    if arguments.set is not None:
        trials = list(read_set(arguments.set))
    elif arguments.lines is not None:
        data, lines = read_pair(arguments.calls, arguments.lines)
        trials = [(arguments.calls, settings_of(arguments), data, lines)]
    else:
        parser.error("a call file and its lines, or --set")
    unlawful = 0
    for name, settings, data, lines in trials:
        try:
            transactions, compared = check(settings, data, lines)
            order = f"{transactions} transactions in order"
            print(f"{name}: {order}, {compared} values and figures alike")
        except Unlawful as fault:
            print(f"{name}: {fault}")
            unlawful += 1
    sys.exit(1 if unlawful else 0)


if __name__ == "__main__":
    main()
