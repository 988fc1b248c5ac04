#!/usr/bin/env python3
"""Compares programs with the outside implementation, line by line.

    trials/compare.py                                    both programs, 40 files each
    trials/compare.py crates/calllog/out/calllog --files 500 --calls 2000 --seed 9

Each file is random, by seed and style, at the programs' set-up. The first file of
each style is piped in one record at a time, and each line must come before the
next record is sent. The laws (check_serial.py) are checked on what the program
printed.

    trials/compare.py --trials crates/trials/out/trials      40 files over random settings

makes a folder of files over random settings, with totals in them, and lets the
program `trials` compare them, over every pair of store and validator.
"""

import argparse
import os
import random
import select
import subprocess
import sys
import tempfile
from dataclasses import replace

from check_serial import Unlawful, check
from generate import STYLES, TOTAL_LINES, generate, print_coverage, random_settings, write_set
from outside import Settings
from records import split

HERE = os.path.dirname(os.path.abspath(__file__))
PROGRAMS = [os.path.join(HERE, "..", "crates", name, "out", name) for name in ("calllog", "callchain")]
PATIENCE = 10  # seconds for one line


def lines_at_once(program, data):
    done = subprocess.run([program], input=data, stdout=subprocess.PIPE, check=True)
    return done.stdout.decode().splitlines()


def lines_one_at_a_time(program, data):
    """Sends a record only when the line of the one before it has come."""
    lines = []
    pipes = {"stdin": subprocess.PIPE, "stdout": subprocess.PIPE}
    with subprocess.Popen([program], bufsize=0, **pipes) as process:
        for record in split(data):
            process.stdin.write(record)
            if len(record) < 20:
                break
            lines.append(next_line(process.stdout))
            if lines[-1] is None:
                process.kill()
                return lines
        process.stdin.close()
        lines += process.stdout.read().decode().splitlines()
    return lines


def next_line(stream):
    """The next line of an unbuffered stream; None if it does not come."""
    line = b""
    while not line.endswith(b"\n"):
        ready, _, _ = select.select([stream], [], [], PATIENCE)
        piece = os.read(stream.fileno(), 1) if ready else b""
        if not piece:
            return None
        line += piece
    return line.decode().rstrip("\n")


def first_difference(expected, lines):
    if expected == lines:
        return None
    for one, other in zip(expected, lines):
        if one != other:
            return f"expected {one!r}, got {other!r}"
    return f"expected {len(expected)} lines, got {len(lines)}"


def compare(program, arguments):
    """Compares a program on random files; answers how many differed."""
    settings = Settings()
    styles = list(STYLES)
    compared = differing = 0
    for turn in range(arguments.files):
        seed, style = arguments.seed + turn, styles[turn % len(styles)]
        data, expected = generate(seed, settings, style, arguments.calls)
        ask = lines_one_at_a_time if turn < len(styles) else lines_at_once
        lines = ask(program, data)
        difference = first_difference(expected, lines)
        if difference is None:
            try:
                check(settings, data, lines)
            except Unlawful as fault:
                difference = str(fault)
        if difference is not None:
            print(f"seed {seed}, style {style}, {arguments.calls} calls: {difference}")
            differing += 1
        compared += len(expected)
    name = os.path.basename(program)
    print(f"{name}: {arguments.files} files, {compared} calls compared, {differing} files differ")
    return differing


def compare_settings(program, arguments):
    """Lets the program `trials` compare files over random settings."""
    styles = list(STYLES)
    files = []
    for turn in range(arguments.files):
        seed = arguments.seed + turn
        settings = replace(random_settings(random.Random(f"settings {seed}")), totals=True)
        files.append((f"seed-{seed}", settings, styles[turn % len(styles)], seed, arguments.calls))
    with tempfile.TemporaryDirectory() as folder:
        counts = write_set(folder, files)
        print_coverage(counts)
        ask = [os.path.abspath(program)]  # it reads the folder that it is run in
        done = subprocess.run(ask, cwd=folder, stdout=subprocess.PIPE, check=True)
    lines = done.stdout.decode().splitlines()
    differing = [line for line in lines if "differ" in line]
    print("\n".join(differing + lines[-1:]))
    compared = sum(count.total() for count in counts.values())
    totals = sum(count[kind] for count in counts.values() for kind in TOTAL_LINES)
    print(f"{len(files)} files, {compared} calls compared, {totals} of the lines answer totals")
    return len(differing)


def main():
    parser = argparse.ArgumentParser(description="compare programs with the outside implementation")
    parser.add_argument("programs", nargs="*", default=PROGRAMS)
    parser.add_argument("--trials", metavar="PROGRAM", help="over random settings, by this program")
    parser.add_argument("--files", type=int, default=40)
    parser.add_argument("--calls", type=int, default=400, help="calls in a file, at least")
    parser.add_argument("--seed", type=int, default=1, help="of the first file")
    arguments = parser.parse_args()
    if arguments.trials is not None:
        sys.exit(1 if compare_settings(arguments.trials, arguments) else 0)
    sys.exit(1 if sum([compare(program, arguments) for program in arguments.programs]) else 0)


if __name__ == "__main__":
    main()
