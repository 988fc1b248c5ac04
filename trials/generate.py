#!/usr/bin/env python3
"""Random call files, by seed.

    trials/generate.py 7 > FILE                      one file at the programs' set-up
    trials/generate.py 7 --style reports --keys 9 --cells 20 > FILE
    trials/generate.py 7 --totals > FILE             one with totals
    trials/generate.py --set crates/trials/data      the committed set, and what it covers

The generator watches the lines of the outside implementation, so that it knows
which handles are live; it looks at nothing else of it.
"""

import argparse
import collections
import os
import random
import sys
from dataclasses import replace

from outside import LIST_LENGTH, MOST_ACTIVE, MOST_TICKS, Ledger, Settings
from outside import add_settings, settings_of
from records import (
    ABORT,
    BEGIN_READER,
    BEGIN_UPDATER,
    COMMIT,
    LENGTH,
    READ,
    RECLAIM,
    TOTALS,
    WRITE,
    Call,
    decode,
    encode,
    fields_used,
)

MOST_16, MOST_32, MOST_64 = 2**16 - 1, 2**32 - 1, 2**64 - 1


class Generator:
    def __init__(self, seed, settings):
        self.dice = random.Random(seed)
        self.settings = settings
        self.ledger = Ledger(settings)
        self.records = []
        self.lines = []
        self.readers = []  # live handles
        self.updaters = []
        self.ended = []
        self.ranges = collections.defaultdict(list)  # read or totalled, by handle

    # Making calls

    def put(self, record):
        self.records.append(record)
        self.lines.append(self.ledger.answer(len(self.records), record))
        return self.lines[-1].split()[1:]

    def begin(self, kind):
        answer = self.put(encode(Call(kind)))
        if answer[0] != "began":
            return None
        live = self.updaters if kind == BEGIN_UPDATER else self.readers
        live.append(int(answer[1]))
        return live[-1]

    def read(self, handle, first, count):
        """A read of the range; with totals, now and then a total in its place."""
        if self.settings.totals and self.below(3) == 0:
            self.total(handle, first, count)
        else:
            self.look(READ, handle, first, count)

    def total(self, handle, first, count):
        self.look(self.dice.choice(TOTALS), handle, first, count)

    def look(self, kind, handle, first, count):
        self.put(encode(Call(kind, first, count, handle)))
        self.ranges[handle].append((first, count))

    def write(self, handle, key):
        self.put(encode(Call(WRITE, key, 0, handle, self.value())))

    def end(self, kind, handle):
        self.put(encode(Call(kind, handle=handle)))
        for live in (self.readers, self.updaters):
            if handle in live:
                live.remove(handle)
                self.ended.append(handle)

    # Choosing fields

    def below(self, bound):
        return self.dice.randrange(max(bound, 1))

    def value(self):
        choices = (self.below(55), self.below(55), self.dice.getrandbits(64), 0, MOST_64)
        return self.dice.choice(choices)

    def handle(self, live):
        """Mostly a live handle; else an ended one or one made up."""
        turn = self.below(20)
        if live and turn < 17:
            return self.dice.choice(live)
        if self.ended and turn < 19:
            return self.dice.choice(self.ended)
        made_up = (0, len(self.records) + 1, self.dice.getrandbits(32), MOST_32)
        return self.dice.choice(made_up)

    def key(self):
        """Mostly a hot key, so that transactions meet; now and then one past the edge."""
        keys = self.settings.keys
        turn = self.below(20)
        if turn < 10:
            return self.below(min(keys, 4))
        if turn < 18:
            return self.below(keys)
        return self.dice.choice((max(keys, 1) - 1, keys, keys + 1, MOST_16))

    def range(self):
        keys, places = self.settings.keys, self.settings.places
        turn = self.below(20)
        if turn < 8:
            return self.below(min(keys, 4)), 1 + self.below(3)
        if turn < 13:
            first = self.below(keys)
            return first, self.below(min(keys - first, 12) + 1)
        first = self.dice.choice((0, 1, max(keys, 1) - 1, keys, keys + 1, MOST_16))
        count = self.dice.choice((0, 0, 1, 2, keys, places, places + 1, MOST_16))
        return first, min(count, MOST_16)

    # Moves: a call or a few

    def begin_reader(self):
        self.begin(BEGIN_READER)

    def begin_updater(self):
        self.begin(BEGIN_UPDATER)

    def read_some(self):
        self.read(self.handle(self.readers + self.updaters), *self.range())

    def write_some(self):
        # A reader that writes is refused: rare, but not left out.
        live = self.readers if self.below(12) == 0 else self.updaters
        self.write(self.handle(live), self.key())

    def commit(self):
        live = self.readers if self.below(5) == 0 else self.updaters
        self.end(COMMIT, self.handle(live))

    def abort(self):
        self.end(ABORT, self.handle(self.readers + self.updaters))

    def reclaim(self):
        self.put(encode(Call(RECLAIM)))

    def malformed(self):
        used = fields_used(self.settings.totals)
        kind = self.dice.choice(list(used))
        fields = {"key": MOST_16, "count": MOST_16, "handle": MOST_32, "value": MOST_64}
        unused = [field for field in fields if field not in used[kind]]
        wrong = self.below(5)
        if wrong == 0:
            unknown = (0, 11, 128, 255) if self.settings.totals else (0, 8, 9, 128, 255)
            self.put(encode(Call(self.dice.choice(unknown))))
        elif wrong == 1:
            self.put(encode(Call(kind), gap=1 + self.below(255)))
        elif wrong == 2:
            self.put(encode(Call(kind), pad=self.dice.choice((1, 255, 256, MOST_16))))
        elif wrong == 3:
            field = self.dice.choice(unused)
            one_bit = 1 << self.below(fields[field].bit_length())
            self.put(encode(Call(kind, **{field: one_bit})))
        else:
            self.put(bytes(self.dice.getrandbits(8) for _ in range(LENGTH)))

    def post(self):
        """A short updater that writes a few keys, and reads one of them or none."""
        handle = self.begin(BEGIN_UPDATER)
        if handle is None:
            return
        keys = [self.below(self.settings.keys) for _ in range(1 + self.below(3))]
        if self.below(2):
            self.read(handle, keys[0], 1)
        for key in keys:
            self.write(handle, key)
        self.end(COMMIT, handle)

    def report(self):
        """A reader that stays while many post: under it nothing that it sees may go."""
        handle = self.begin(BEGIN_READER)
        for _ in range(4 + self.below(8)):
            self.post()
            if handle is not None and self.below(3) == 0:
                self.read(handle, *self.range())

    def meet(self):
        """Who read a key, and who writes one beside it and commits first."""
        keys, grain = self.settings.keys, max(self.settings.grain, 1)
        first, second = self.begin(BEGIN_UPDATER), self.begin(BEGIN_UPDATER)
        if first is None or second is None:
            return
        key = self.below(keys)
        self.read(first, key, 1)
        near = key + self.dice.choice((-grain, -1, 0, 1, grain - 1, grain))
        self.write(second, min(max(near, 0), max(keys, 1) - 1))
        self.write(first, self.key())
        self.end(COMMIT, second)
        self.end(COMMIT, first)

    def fill_reads(self):
        """An updater whose read list runs full, and who then reads on."""
        handle = self.begin(BEGIN_UPDATER)
        keys = max(self.settings.keys, 1)
        shapes = [(f, n) for f in range(keys) for n in (1, 2, 3) if f + n <= keys]
        self.dice.shuffle(shapes)
        for shape in shapes[: LIST_LENGTH + 2]:
            self.read(handle or 0, *shape)
        self.read(handle or 0, *shapes[0])  # there already
        self.read(handle or 0, keys, 0)  # joins nothing
        self.read(handle or 0, 0, min(self.settings.places + 1, MOST_16))  # a buffer too short

    def fill_writes(self):
        """An updater whose write list runs full, and who then writes on."""
        handle = self.begin(BEGIN_UPDATER)
        keys = list(range(max(self.settings.keys, 1)))
        self.dice.shuffle(keys)
        for key in keys[: LIST_LENGTH + 2]:
            self.write(handle or 0, key)
        self.write(handle or 0, keys[0])  # in its old place
        if handle is not None and self.below(4):
            self.end(COMMIT, handle)

    def crowd(self):
        """Begin until no more may begin, and once more."""
        for _ in range(MOST_ACTIVE + 1):
            kind = self.dice.choice((BEGIN_READER, BEGIN_UPDATER))
            if self.begin(kind) is None:
                break
        self.begin(kind)

    def clear(self):
        """End all who are active but one."""
        for handle in (self.readers + self.updaters)[1:]:
            self.end(self.dice.choice((COMMIT, COMMIT, ABORT)), handle)

    def total_some(self):
        self.total(self.handle(self.readers + self.updaters), *self.range())

    def total_again(self):
        """A total of a range that its transaction looked at before, if there is one."""
        handle = self.handle(self.readers + self.updaters)
        self.total(handle, *self.dice.choice(self.ranges.get(handle) or [self.range()]))

    def total_nothing(self):
        """A total of no keys: in the table, at its edge or past it."""
        keys = self.settings.keys
        first = self.dice.choice((0, self.below(keys), keys, keys, keys + 1, MOST_16))
        self.total(self.handle(self.readers + self.updaters), first, 0)

    def total_alike(self):
        """Neighbouring keys with values that are alike, 0 or near 2^64, and their totals."""
        handle = self.begin(BEGIN_UPDATER)
        if handle is None:
            return
        first = self.below(self.settings.keys)
        count = min(1 + self.below(5), self.settings.keys - first)
        least = self.dice.choice((0, 1, MOST_64 - 1))
        for key in range(first, first + count):
            value = self.dice.choice((least, least, least + 1, MOST_64))
            self.put(encode(Call(WRITE, key, 0, handle, value)))
        for kind in TOTALS:
            self.look(kind, handle, first, count)
        self.end(COMMIT, handle)

    def cut(self):
        """A short last record."""
        record = encode(Call(self.dice.choice((BEGIN_READER, READ, RECLAIM))))
        self.put(record[: self.dice.choice((1, 2, 10, 19))])


USUAL = {
    "begin_reader": 4,
    "begin_updater": 10,
    "read_some": 24,
    "write_some": 24,
    "commit": 14,
    "abort": 3,
    "reclaim": 4,
    "malformed": 2,
}

# What every style has beside, where there are totals.
WITH_TOTALS = {
    "total_some": 12,
    "total_again": 8,
    "total_nothing": 3,
    "total_alike": 3,
}

STYLES = {
    "mixed": {},
    "meetings": {"meet": 20},
    "reports": {"report": 6, "post": 8, "abort": 1, "begin_reader": 1},
    "lists": {"fill_reads": 4, "fill_writes": 5, "clear": 8, "begin_updater": 2},
    "tight": {
        "post": 10,
        "meet": 10,
        "reclaim": 16,
        "begin_reader": 1,
        "begin_updater": 4,
        "clear": 3,
    },
    "slow": {"begin_updater": 16, "commit": 6, "clear": 1},
    "crowds": {"crowd": 3, "clear": 2},
    "broken": {"malformed": 60},
    "all": {
        "meet": 6,
        "report": 2,
        "post": 6,
        "fill_reads": 1,
        "fill_writes": 1,
        "crowd": 1,
        "clear": 3,
        "malformed": 4,
    },
}


def play(seed, settings, style, calls):
    """A generator that has made its calls."""
    generator = Generator(seed, settings)
    weights = USUAL | STYLES[style]
    if settings.totals:
        weights |= WITH_TOTALS
    while len(generator.records) < calls:
        (move,) = generator.dice.choices(list(weights), list(weights.values()))
        getattr(generator, move)()
    if generator.below(2):
        generator.cut()
    return generator


def generate(seed, settings, style="all", calls=300):
    """A random call file: its bytes, and the lines of the outside implementation."""
    generator = play(seed, settings, style, calls)
    return b"".join(generator.records), generator.lines


def random_settings(dice):
    """Settings from the least to the greatest, mostly small, now and then refused ones."""
    keys = dice.choice((1, 2, 3, 5, 8, 16, 33, 40, 64, 64, 100, 1023, 1024))
    cells = dice.choice((1, 2, 3, 5, 8, 16, 32, 33, 64, 100, 256, 2047, 2048))
    grain = dice.choice((1, 1, 1, 2, 3, 4, 7, 16, keys - 1, keys))
    last_tick = dice.choice((1, 2, 3, 10, 30, 100, MOST_TICKS, MOST_TICKS, MOST_TICKS))
    places = dice.choice((0, 1, 2, 5, 16, 64, 64, keys, 1024, 1100))
    if dice.randrange(40) == 0:
        return dice.choice(
            (
                Settings(0, cells, 1, last_tick, places),
                Settings(1025, cells, 1, last_tick, places),
                Settings(keys, 0, 1, last_tick, places),
                Settings(keys, 2049, 1, last_tick, places),
                Settings(keys, cells, 1, 0, places),
                Settings(keys, cells, 1, MOST_TICKS + 1, places),
            )
        )
    return Settings(keys, cells, min(max(grain, 1), keys), last_tick, places)


# The committed set: a name, settings, style, seed and how many calls. Only a file whose settings
# have totals is made with them, but all are answered with them.
COMMITTED = [
    ("usual", Settings(), "all", 1, 260),
    ("afternoon", Settings(), "reports", 2, 260),
    ("one-key", Settings(1, 1, 1, MOST_TICKS, 1), "all", 3, 200),
    ("few-cells", Settings(5, 6, 1, MOST_TICKS, 8), "tight", 4, 300),
    ("long-report", Settings(16, 24, 1, MOST_TICKS, 16), "reports", 5, 300),
    ("lists", Settings(64, 40, 1, MOST_TICKS, 64), "lists", 6, 300),
    ("crowds", Settings(8, 12, 1, 36, 8), "crowds", 4, 200),
    ("one-tick", Settings(4, 4, 1, 1, 4), "mixed", 8, 60),
    ("last-ticks", Settings(12, 6, 1, 40, 12), "slow", 9, 240),
    ("tight-ticks", Settings(3, 4, 1, 30, 3), "tight", 20, 140),
    ("twenty-ticks", Settings(6, 8, 3, 20, 6), "slow", 19, 160),
    ("no-places", Settings(40, 40, 1, MOST_TICKS, 0), "mixed", 10, 160),
    ("broken", Settings(9, 16, 1, 90, 4), "broken", 11, 240),
    ("largest", Settings(1024, 2048, 1, MOST_TICKS, 1024), "mixed", 12, 120),
    ("refused-setup", Settings(64, 256, 1, 0, 64), "all", 13, 80),
    ("pairs", Settings(7, 20, 2, MOST_TICKS, 7), "meetings", 14, 260),
    ("fours", Settings(32, 64, 4, MOST_TICKS, 32), "meetings", 15, 260),
    ("one-granule", Settings(24, 30, 24, 70, 24), "all", 16, 260),
    ("coarse-reports", Settings(33, 12, 16, MOST_TICKS, 33), "reports", 17, 260),
    ("coarse-lists", Settings(100, 256, 7, MOST_TICKS, 20), "lists", 18, 300),
    ("totals", Settings(8, 12, 1, MOST_TICKS, 4, totals=True), "all", 30, 180),
    ("totals-reports", Settings(12, 16, 1, MOST_TICKS, 12, totals=True), "reports", 39, 180),
    ("totals-lists", Settings(40, 50, 1, MOST_TICKS, 40, totals=True), "lists", 27, 180),
    ("totals-coarse", Settings(30, 40, 4, MOST_TICKS, 30, totals=True), "meetings", 26, 180),
    ("totals-broken", Settings(9, 16, 1, 90, 4, totals=True), "broken", 35, 120),
]

TOTAL_LINES = (
    ["sum", "smallest", "smallest none", "nonzero"]
    + [f"total refused 3 {number}" for number in (5, 9, 13)]
)
LINES = (
    "began read wrote closed spent full committed aborted".split()
    + ["restart by the key", "restart by one beside", "reclaimed none", "reclaimed some"]
    + ["refused 4 7"]
    + [f"refused 3 {number}" for number in (5, 6, 9, 10, 11, 12, 13, 14)]
    + TOTAL_LINES
)


def kind_of(call, line, ledger):
    """What the coverage table counts the line of a call under; a malformed record has no call."""
    words = line.split()[1:]
    if words[0] == "refused":
        refusal = " ".join(words[:3])
        return f"total {refusal}" if call is not None and call.kind in TOTALS else refusal
    if words == ["smallest", "none"]:
        return "smallest none"
    if words[0] == "reclaimed":
        return "reclaimed none" if words[1] == "0" else "reclaimed some"
    if words[0] == "restart":
        key, stamp = int(words[1]), int(words[2])
        stamps = [version.stamp for version in ledger.of_key.get(key, [])]
        return "restart by the key" if stamp in stamps else "restart by one beside"
    return words[0]


def print_coverage(counts):
    """A table of the lines of each kind and where they came; answers whether all came."""
    total = collections.Counter()
    for count in counts.values():
        total.update(count)
    print(f"{'line':<24}{'lines':>8}{'files':>8}")
    for kind in LINES:
        files = sum(1 for count in counts.values() if count[kind])
        print(f"{kind:<24}{total[kind]:>8}{files:>8}")
    unknown = sorted(set(total) - set(LINES))
    missing = [kind for kind in LINES if not total[kind]]
    print(f"{'all':<24}{total.total():>8}{len(counts):>8}")
    if unknown or missing:
        print(f"unknown: {unknown}, missing: {missing}")
    return not unknown and not missing


def answered(settings, records):
    """The lines that the program trials must print (it takes totals in every file), and how many
    of each kind."""
    ledger = Ledger(replace(settings, totals=True))
    lines = [ledger.answer(number, record) for number, record in enumerate(records, 1)]
    calls = [decode(record, totals=True) for record in records]
    kinds = (kind_of(call, line, ledger) for call, line in zip(calls, lines))
    return lines, collections.Counter(kinds)


def write_set(folder, files):
    """Write call files with their lines and a list of their settings; answers how many lines of
    each kind each file has."""
    os.makedirs(folder, exist_ok=True)
    counts = {}
    with open(os.path.join(folder, "settings"), "w") as listing:
        for name, settings, style, seed, calls in files:
            made = play(seed, settings, style, calls)
            lines, counts[name] = answered(settings, made.records)
            with open(os.path.join(folder, name + ".calls"), "wb") as file:
                file.write(b"".join(made.records))
            with open(os.path.join(folder, name + ".lines"), "w") as file:
                file.writelines(line + "\n" for line in lines)
            numbers = (settings.keys, settings.cells, settings.grain, settings.last_tick)
            print(name, *numbers, settings.places, file=listing)
    return counts


def main():
    parser = argparse.ArgumentParser(description="make random call files")
    parser.add_argument("seed", nargs="?", type=int)
    parser.add_argument("--style", choices=STYLES, default="all")
    parser.add_argument("--calls", type=int, default=300)
    parser.add_argument("--set", metavar="FOLDER", help="write the committed set there")
    add_settings(parser)
    arguments = parser.parse_args()
    if arguments.set is not None:
        counts = write_set(arguments.set, COMMITTED)
        sys.exit(0 if print_coverage(counts) else 1)
    if arguments.seed is None:
        parser.error("a seed or --set")
    data, _ = generate(arguments.seed, settings_of(arguments), arguments.style, arguments.calls)
    sys.stdout.buffer.write(data)


if __name__ == "__main__":
    main()
