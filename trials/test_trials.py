#!/usr/bin/env python3
"""Tests of the trials' own parts: python3 trials/test_trials.py"""

import filecmp
import os
import random
import tempfile
import unittest
from dataclasses import replace

from check_serial import Retelling, Transaction, Unlawful, check, check_serial, check_time
from generate import COMMITTED, LINES, STYLES, generate, random_settings, write_set
from outside import LIST_LENGTH, MOST_TICKS, Ledger, Settings, figure, run
from records import READ, TOTALS, Call, decode, encode, split

DATA = os.path.join(os.path.dirname(os.path.abspath(__file__)), "..", "crates", "trials", "data")

EXAMPLE = """
2 0 0 0 0   | 1 began 1
4 5 0 1 54  | 2 wrote
1 0 0 0 0   | 3 began 2
2 0 0 0 0   | 4 began 3
3 5 1 3 0   | 5 read 0
5 0 0 1 0   | 6 committed 4
3 5 2 2 0   | 7 read 0 0
5 0 0 3 0   | 8 restart 5 4
7 0 0 0 0   | 9 reclaimed 0
5 0 0 2 0   | 10 closed
3 64 0 2 0  | 11 refused 3 9 2
1 0 0 0 0   | 12 began 5
3 5 1 5 0   | 13 read 54
3 64 0 5 0  | 14 read
3 64 1 5 0  | 15 refused 3 5 64
"""

# The values 2^64 - 1, 0, 2 and 2, as their updater and a later reader see them.
TOTALS_EXAMPLE = """
2 0 0 0 0   | 1 began 1
4 3 0 1 18446744073709551615 | 2 wrote
4 5 0 1 2   | 3 wrote
4 6 0 1 2   | 4 wrote
8 3 4 1 0   | 5 sum 3
9 3 4 1 0   | 6 smallest 0 4
10 3 4 1 0  | 7 nonzero 3
5 0 0 1 0   | 8 committed 2
1 0 0 0 0   | 9 began 3
8 3 4 3 0   | 10 sum 3
9 5 2 3 0   | 11 smallest 2 5
10 4 1 3 0  | 12 nonzero 0
9 64 0 3 0  | 13 smallest none
8 64 0 3 0  | 14 sum 0
10 0 0 3 0  | 15 nonzero 0
9 64 1 3 0  | 16 refused 3 5 64
5 0 0 3 0   | 17 closed
8 0 1 3 0   | 18 refused 3 9 3
"""

BEGIN_READER, BEGIN_UPDATER, RECLAIM = "1 0 0 0 0", "2 0 0 0 0", "7 0 0 0 0"


def file_of(*calls):
    return b"".join(encode(Call(*map(int, call.split()))) for call in calls)


def results(settings, *calls):
    return [line.split(" ", 1)[1] for line in run(settings, file_of(*calls))]


def as_read(record):
    """The record, or where it is that of a total, that of the read that the total is."""
    call = decode(record, totals=True)
    is_total = call is not None and call.kind in TOTALS
    return encode(replace(call, kind=READ)) if is_total else record


def example(text=EXAMPLE):
    rows = [row.split("|") for row in text.strip().splitlines()]
    return file_of(*[call for call, _ in rows]), [line.strip() for _, line in rows]


class Examples(unittest.TestCase):
    def test_call_file(self):
        data, lines = example()
        self.assertEqual(run(Settings(), data), lines)

    def test_spent(self):
        settings = Settings(last_tick=1)
        self.assertEqual(results(settings, BEGIN_UPDATER, "5 0 0 1 0"), ["began 1", "spent"])

    def test_full(self):
        calls = [BEGIN_UPDATER, "4 0 0 1 1", "4 1 0 1 1", "5 0 0 1 0"]
        self.assertEqual(results(Settings(cells=1), *calls)[-1], "full 2 1")

    def test_cell_had_by_a_reclaim(self):
        calls = [BEGIN_UPDATER, "4 0 0 1 1", "5 0 0 1 0"]
        calls += [BEGIN_UPDATER, "4 0 0 3 1", "5 0 0 3 0"]
        calls += [BEGIN_UPDATER, "4 0 0 5 1", "5 0 0 5 0"]
        self.assertEqual(results(Settings(cells=2), *calls)[-1], "committed 6")

    def test_cell_held_by_a_reader(self):
        calls = [BEGIN_UPDATER, "4 0 0 1 1", "5 0 0 1 0", BEGIN_READER]
        calls += [BEGIN_UPDATER, "4 0 0 4 1", "5 0 0 4 0"]
        calls += [BEGIN_UPDATER, "4 0 0 6 1", "5 0 0 6 0"]
        self.assertEqual(results(Settings(cells=2), *calls)[-1], "full 1 0")

    def test_granules_of_four(self):
        for key, verdict in ((3, "restart 0 3"), (4, "committed 4")):
            calls = [BEGIN_UPDATER, "3 0 1 1 0", BEGIN_UPDATER, f"4 {key} 0 2 1"]
            calls += ["5 0 0 2 0", "5 0 0 1 0"]
            self.assertEqual(results(Settings(grain=4), *calls)[-1], verdict)

    def test_who_read_nothing(self):
        calls = [BEGIN_UPDATER, "3 9 0 1 0", BEGIN_UPDATER, "4 9 0 2 1"]
        calls += ["4 9 0 1 2", "5 0 0 2 0", "5 0 0 1 0"]
        self.assertEqual(results(Settings(), *calls)[-1], "committed 4")

    def test_seventeenth(self):
        self.assertEqual(results(Settings(), *[BEGIN_READER] * 17)[-1], "refused 3 11 16")

    def test_full_lists(self):
        reads = [f"3 {key} 1 1 0" for key in range(33)]
        answers = results(Settings(), BEGIN_UPDATER, *reads, reads[0], "3 64 0 1 0")
        self.assertEqual(answers[-4:], ["read 0", "refused 3 13 1", "read 0", "read"])
        writes = [f"4 {key} 0 1 7" for key in range(33)]
        answers = results(Settings(), BEGIN_UPDATER, *writes, writes[0])
        self.assertEqual(answers[-3:], ["wrote", "refused 3 14 1", "wrote"])

    def test_refused_setup(self):
        calls = [BEGIN_UPDATER, "3 0 0 0 0", "4 0 0 1 0", "5 0 0 1 0", "6 0 0 1 0", RECLAIM]
        nine = "refused 3 9 1"
        expected = ["refused 3 12 0", "refused 3 9 0", nine, nine, nine, "reclaimed 0"]
        for settings in (
            Settings(cells=0),
            Settings(cells=2049),
            Settings(grain=65),
            Settings(last_tick=0),
            Settings(last_tick=MOST_TICKS + 1),
        ):
            self.assertEqual(results(settings, *calls), expected)


    def test_no_keys(self):
        # Store and validator are both refused, and agree in having no keys.
        calls = [BEGIN_UPDATER, "3 0 0 1 0", "3 0 1 1 0", "4 0 0 1 0", "5 0 0 1 0", RECLAIM]
        five = "refused 3 5 0"
        expected = ["began 1", "read", five, five, "committed 2", "reclaimed 0"]
        for settings in (Settings(keys=0), Settings(keys=1025), Settings(cells=0, grain=0)):
            self.assertEqual(results(settings, *calls), expected)


class Totals(unittest.TestCase):
    settings = Settings(totals=True)

    def total(self, *calls, **settings):
        return results(replace(self.settings, **settings), *calls)

    def write_some(self, *values):
        """Begins updater 1, who writes the values from key 0 on."""
        return [BEGIN_UPDATER, *(f"4 {key} 0 1 {value}" for key, value in enumerate(values))]

    def test_worked_example(self):
        data, lines = example(TOTALS_EXAMPLE)
        self.assertEqual(run(self.settings, data), lines)

    def test_sum_wraps_around(self):
        most = 2**64 - 1
        calls = self.write_some(most, most, 1, 1)
        for count, total in ((1, most), (2, most - 1), (3, most), (4, 0)):
            answer = self.total(*calls, f"8 0 {count} 1 0")[-1]
            self.assertEqual(answer, f"sum {total}", f"{count} keys")

    def test_equal_smallest(self):
        calls = self.write_some(9, 7, 8, 7, 7)
        for first, count, total in ((0, 5, "7 1"), (2, 3, "7 3"), (0, 1, "9 0"), (4, 2, "0 5")):
            answer = self.total(*calls, f"9 {first} {count} 1 0")[-1]
            self.assertEqual(answer, f"smallest {total}")

    def test_no_keys(self):
        for first in (0, 63, 64):
            calls = [BEGIN_UPDATER, *(f"{kind} {first} 0 1 0" for kind in TOTALS)]
            self.assertEqual(self.total(*calls)[1:], ["sum 0", "smallest none", "nonzero 0"])
        self.assertEqual(self.total(BEGIN_UPDATER, "9 65 0 1 0")[-1], "refused 3 5 65")

    def test_restart(self):
        for count, verdict in ((2, "restart 1 3"), (1, "committed 4"), (0, "committed 4")):
            for kind in TOTALS:
                calls = [BEGIN_UPDATER, f"{kind} 0 {count} 1 0", BEGIN_UPDATER, "4 1 0 2 5"]
                calls += ["5 0 0 2 0", "5 0 0 1 0"]
                self.assertEqual(self.total(*calls)[-1], verdict)

    def test_a_read_and_a_total_join_once(self):
        for one, other in ((3, 8), (9, 3), (10, 9)):
            calls = [f"{one} {key} 1 1 0" for key in range(31)] + [f"{other} 0 1 1 0"]
            calls += ["3 40 1 1 0", "3 41 1 1 0"]
            answers = self.total(BEGIN_UPDATER, *calls)
            self.assertEqual(answers[-2:], ["read 0", "refused 3 13 1"])

    def test_full_read_list(self):
        totals = [f"10 {key} 1 1 0" for key in range(33)]
        answers = self.total(BEGIN_UPDATER, *totals, totals[0], "8 31 1 1 0", "9 64 0 1 0")
        expected = ["nonzero 0", "refused 3 13 1", "nonzero 0", "sum 0", "smallest none"]
        self.assertEqual(answers[-5:], expected)

    def test_order_of_checks(self):
        totals = [f"8 {key} 1 1 0" for key in range(32)]
        answers = self.total(BEGIN_UPDATER, *totals, "8 64 1 2 0", "8 40 25 1 0", "8 40 24 1 0")
        self.assertEqual(answers[-3:], ["refused 3 9 2", "refused 3 5 40", "refused 3 13 1"])

    def test_no_buffer(self):
        calls = [BEGIN_READER, "3 0 1 1 0", "8 0 64 1 0"]
        self.assertEqual(self.total(*calls, places=0)[1:], ["refused 3 6 0", "sum 0"])

    def test_refused_setup(self):
        for kind in TOTALS:
            self.assertEqual(self.total(f"{kind} 0 0 0 0", cells=0), ["refused 3 9 0"])
        calls = [BEGIN_UPDATER, "8 0 0 1 0", "9 0 0 1 0", "10 0 1 1 0", "8 1 0 1 0"]
        expected = ["sum 0", "smallest none", "refused 3 5 0", "refused 3 5 1"]
        self.assertEqual(self.total(*calls, keys=0)[1:], expected)

    def test_is_its_read(self):
        """With every total made the read that it is, no other line changes."""
        styles = list(STYLES)
        for seed in range(18):
            settings = random_settings(random.Random(f"reads {seed}"))
            settings = replace(settings, places=2**16, totals=True)
            data, lines = generate(seed, settings, styles[seed % len(styles)], 120)
            as_reads = run(settings, b"".join(map(as_read, split(data))))
            for record, line, expected in zip(split(data), lines, as_reads):
                number, result, *values = expected.split()
                if result == "read" and record[0] in TOTALS:
                    call = decode(record, totals=True)
                    expected = f"{number} {figure(call.kind, call.key, list(map(int, values)))}"
                self.assertEqual(line, expected)

    def test_off(self):
        data, lines = example(TOTALS_EXAMPLE)
        answers = run(Settings(), data)
        for number, (record, line) in enumerate(zip(split(data), lines), 1):
            malformed = f"{number} refused 4 7 {number}"
            self.assertEqual(answers[number - 1], malformed if record[0] in TOTALS else line)


class Records(unittest.TestCase):
    def test_encoded_is_decoded(self):
        for call in (Call(1), Call(3, 65535, 513, 70000), Call(4, 258, 0, 9, 2**64 - 1)):
            self.assertEqual(decode(encode(call)), call)
            self.assertEqual(decode(encode(call), totals=True), call)
        for kind in TOTALS:
            call = Call(kind, 65535, 513, 70000)
            self.assertEqual(decode(encode(call), totals=True), call)
            self.assertIsNone(decode(encode(call)))

    def test_malformed(self):
        good = bytearray(encode(Call(5, handle=3)))
        for at in (1, 2, 3, 4, 5, 6, 7, 12, 19):
            bad = bytearray(good)
            bad[at] = 1
            self.assertIsNone(decode(bytes(bad)), f"byte {at}")
        self.assertIsNone(decode(bytes(20)))
        self.assertIsNone(decode(encode(Call(8))))
        self.assertIsNone(decode(bytes(good[:19])))

    def test_malformed_totals(self):
        for kind in TOTALS:
            good = bytearray(encode(Call(kind, 1, 2, 3)))
            for at in (1, 6, 7, 12, 19):
                bad = bytearray(good)
                bad[at] = 1
                self.assertIsNone(decode(bytes(bad), totals=True), f"kind {kind}, byte {at}")
            self.assertIsNone(decode(bytes(good[:19]), totals=True))
        for kind in (0, 11, 255):
            self.assertIsNone(decode(encode(Call(kind)), totals=True))

    def test_short_last_record(self):
        data = file_of(BEGIN_READER, RECLAIM)[:-1]
        self.assertEqual(run(Settings(), data), ["1 began 1", "2 refused 4 7 2"])


class Laws(unittest.TestCase):
    def refuse(self, number, line, text=EXAMPLE, settings=Settings()):
        """The example, with one line changed, must be refused."""
        data, lines = example(text)
        self.assertNotEqual(lines[number - 1], line)
        lines[number - 1] = line
        with self.assertRaises(Unlawful):
            check(settings, data, lines)

    def test_example(self):
        data, lines = example()
        self.assertEqual(check(Settings(), data, lines), (3, 3))

    def test_unlawful_lines(self):
        self.refuse(7, "7 read 54 0")  # not as of its start
        self.refuse(13, "13 read 0")  # a commit not seen
        self.refuse(7, "7 read 0")  # a value short
        self.refuse(6, "6 committed 5")  # a tick left out
        self.refuse(10, "10 committed 5")  # a reader commits
        self.refuse(11, "11 read")  # of one who ended
        self.refuse(9, "10 reclaimed 0")  # a wrong number

    def test_totals_example(self):
        data, lines = example(TOTALS_EXAMPLE)
        self.assertEqual(check(Settings(totals=True), data, lines), (2, 9))
        with self.assertRaises(Unlawful):
            check(Settings(), data, lines)  # there are no such kinds

    def test_unlawful_totals(self):
        for number, line in (
            (5, "5 sum 18446744073709551619"),  # not wrapped around
            (5, "5 smallest 0 4"),  # of another summary
            (5, "5 sum none"),  # no number
            (6, "6 smallest none"),  # of no keys
            (7, "7 nonzero 4"),  # a zero counted
            (10, "10 sum 0"),  # a commit not seen
            (11, "11 smallest 2 6"),  # not the lowest key
            (11, "11 smallest 2"),  # no key
            (13, "13 smallest 0 64"),  # a key past the table
            (14, "14 sum 1"),  # not neutral
            (15, "15 nonzero none"),  # no number
            (18, "18 sum 0"),  # of one who ended
        ):
            self.refuse(number, line, TOTALS_EXAMPLE, Settings(totals=True))

    def test_figures_against_a_serial_run(self):
        # No table is asked but the serial one, and it is fed the writes alone.
        data, lines = example(TOTALS_EXAMPLE)
        order = Retelling(data, lines, totals=True).serial_order()
        self.assertEqual(check_serial(order), 9)
        for number, line in ((5, "5 sum 2"), (6, "6 smallest 0 3"), (12, "12 nonzero 1")):
            changed = [*lines[:number - 1], line, *lines[number:]]
            with self.assertRaises(Unlawful):
                check_serial(Retelling(data, changed, totals=True).serial_order())

    def test_no_keys_are_neutral_to_who_is_aborted(self):
        data = file_of(BEGIN_UPDATER, "9 0 0 1 0", "6 0 0 1 0")
        Retelling(data, ["1 began 1", "2 smallest none", "3 aborted"], totals=True)
        with self.assertRaises(Unlawful):
            Retelling(data, ["1 began 1", "2 smallest 0 0", "3 aborted"], totals=True)

    def test_order_against_time(self):
        first = Transaction(True, 1, began=1, ended=2)
        second = Transaction(True, 3, began=3, ended=5)
        third = Transaction(False, 4, began=4)  # still active
        check_time([first, third, second])
        check_time([first, second, third])
        for order in ([second, first, third], [third, second, first]):
            with self.assertRaises(Unlawful):
                check_time(order)

    def test_random_files(self):
        styles = list(STYLES)
        for seed in range(128):
            settings = replace(random_settings(random.Random(seed)), totals=seed >= 64)
            data, lines = generate(seed, settings, styles[seed % len(styles)], 120)
            self.assertEqual(run(settings, data), lines)
            self.assertEqual(len(split(data)), len(lines))
            check(settings, data, lines)


class CommittedSet(unittest.TestCase):
    def test_stands_as_it_is_made(self):
        with tempfile.TemporaryDirectory() as folder:
            counts = write_set(folder, COMMITTED)
            names = sorted(os.listdir(folder))
            self.assertEqual(names, sorted(os.listdir(DATA)))
            alike, _, _ = filecmp.cmpfiles(folder, DATA, names, shallow=False)
            self.assertEqual(alike, names)
        self.assertEqual(set().union(*counts.values()), set(LINES))

    def test_totals_and_read_lists(self):
        """A full read list takes a total, and a key that was totalled and not read restarts."""
        taken = restarts = 0
        for _, settings, style, seed, calls in COMMITTED:
            data, _ = generate(seed, settings, style, calls)
            ledger = Ledger(replace(settings, totals=True))
            read = set()  # handles, each with a key
            for number, record in enumerate(split(data), 1):
                call = decode(record, totals=True)
                if call is None:
                    continue
                active = ledger.active.get(call.handle)
                was_full = active is not None and len(active.read_list) == LIST_LENGTH
                _, result, *words = ledger.answer(number, record).split()
                if result == "read":
                    keys = range(call.key, call.key + call.count)
                    read.update((call.handle, key) for key in keys)
                elif result in ("sum", "smallest", "nonzero"):
                    taken += was_full and call.count > 0
                elif result == "restart":
                    restarts += (call.handle, int(words[0])) not in read
        self.assertGreater(taken, 0)
        self.assertGreater(restarts, 0)


if __name__ == "__main__":
    unittest.main()
