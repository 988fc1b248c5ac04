#!/usr/bin/env python3
"""Brings the names of the repository's own definitions and lemmas to one spelling.

usage: python3 tools/respell.py            at the top of the repository, once, after the move to the newer Rattle's own spelling

A type, and a fact that is spelled as one, is in upper camel case (Goes-on: GoesOn); every other definition, lemma, field and
ghost member is in snake case (newest-in: newest_in, momentAnswer: moment_answer). Names that Rattle makes, names of std, the
functions of src/, strings, and words of comments keep their spelling. It stops where two names would fall together.
"""

import os
import re
import sys

NAME = r"[^\s(){}\[\],;:.\"«»⌜⌝|]+"
WORD = re.compile(NAME)
# what Rattle makes: the goals that an answer file proves
GOAL = re.compile(r"(goal|goals|need|rules|Goals|Needs)\.")


def files(root, ends):
    for folder, dirs, names in os.walk(root):
        dirs[:] = sorted(d for d in dirs if d not in ("out", ".git", "target"))
        for n in sorted(names):
            if n.endswith(ends):
                yield os.path.join(folder, n)


def read(path):
    with open(path, encoding="utf-8") as f:
        return f.read()


# The counts of dead versions in a ledger and of those that a prune of a store removes would fall together.
APART = {"deadCount": "pruned_count"}


def snake(name):
    if name in APART:
        return APART[name]
    if re.search(r"[a-z][A-Z]", name) and name[0].islower():
        name = re.sub(r"(?<=[a-z])([A-Z])", lambda m: "_" + m[1].lower(), name)
    return name.replace("-", "_")


def camel(name):
    return "".join(part[:1].upper() + part[1:] for part in re.split("[-_]", name))


def new_name(name, result):
    """The new spelling of a definition with this result; a name with a fact in front keeps the fact's capitals."""
    if name[0].isupper():
        return camel(name) if result.endswith("Type 0") else name
    return snake(name)


def declared(path):
    """The names that a file declares, each with what it results in."""
    lead = r"^\s*(?:abbrev pub |abbrev |unfoldable pub |unfoldable |pub )?"
    for line in read(path).split("\n"):
        kind = re.match(rf"^\s*(?:pub )?(?:record|data) ({NAME})", line)
        other = re.match(rf"{lead}(?!record |data |use |mod |abbrev |pub |ruleset |module |let |in )({NAME}) : (.*)$", line)
        if kind:
            yield kind[1], "Type 0"
        elif other and not GOAL.match(other[2]):
            yield other[1], other[2]


def ghost_members(path):
    for m in re.finditer(r"^\s*ghost (\w+)\s*[:=]", read(path), re.M):
        yield m[1], ""


def foreign(paths):
    """The names that some file imports from std or another library."""
    found = set()
    for p in paths:
        for m in re.finditer(r"^(?:ghost )?use (?!Rattle\.\w+\.(?:specs|proofs))[^\n{]*\{([^}]*)\}", read(p), re.M):
            found |= set(WORD.findall(m[1]))
        for m in re.finditer(r"^(?:ghost )?use Rattle\.std\.[^\n{]*\{([^}]*)\}", read(p), re.M):
            found |= set(WORD.findall(m[1]))
    return found


def mapping():
    antt = list(files("crates", ".antt"))
    rt = list(files("crates", ".rt"))
    names = {}
    for p in antt:
        for name, result in declared(p):
            if "-" in name or re.search(r"[a-z][A-Z]", name) if name[0].islower() else re.search("[-_]", name):
                names.setdefault(name, result)
    for p in rt:
        for name, result in ghost_members(p):
            if re.search(r"[a-z][A-Z]", name):
                names.setdefault(name, result)
    ours = {n: new_name(n, r) for n, r in names.items()}
    ours = {n: m for n, m in ours.items() if n != m}
    taken = foreign(antt + rt)
    clash = sorted(n for n in ours if n in taken)
    words = {}
    for p in antt:
        for w in set(WORD.findall(read(p))):
            words.setdefault(w, set()).add(p)
    together = sorted((n, m, sorted(words[m] & words[n])) for n, m in ours.items() if words.get(m, set()) & words.get(n, set()))
    twice = {}
    for n, m in ours.items():
        twice.setdefault(m, []).append(n)
    return ours, clash, together, {m: ns for m, ns in twice.items() if len(ns) > 1}


def turned(text, ours):
    return WORD.sub(lambda m: ours.get(m[0], m[0]), text)


def turn(path, ours):
    """Turns the code of a file: no comment, no string."""
    out = []
    for line in read(path).split("\n"):
        mark = {".antt": "--", ".rt": "//"}[os.path.splitext(path)[1]]
        at = line.find(mark)
        while at > 0 and mark == "--" and not line[at - 1].isspace():
            at = line.find(mark, at + 2)
        code, comment = (line, "") if at < 0 else (line[:at], line[at:])
        parts = re.split(r'("(?:[^"\\]|\\.)*")', code)
        out.append("".join(p if p.startswith('"') else turned(p, ours) for p in parts) + comment)
    return "\n".join(out)


def turn_page(path, ours):
    """Turns what a page has between backticks."""
    return re.sub(r"`([^`\n]+)`", lambda m: "`" + turned(m[1], ours) + "`", read(path))


def main():
    ours, clash, together, twice = mapping()
    if clash or twice:
        sys.exit(f"also a name of a library: {clash}\nfall together: {twice}")
    for n, m, where in together:
        print(f"look: {n} becomes {m}, which is there already: {', '.join(where)}")
    changed = 0
    for path in list(files("crates", (".antt", ".rt"))):
        text = turn(path, ours)
        if text != read(path):
            with open(path, "w", encoding="utf-8") as f:
                f.write(text)
            changed += 1
    for path in list(files("crates", ".edit")):
        lines = [turned(l, ours) if l.startswith(("old:", "new:")) else l for l in read(path).split("\n")]
        if "\n".join(lines) != read(path):
            with open(path, "w", encoding="utf-8") as f:
                f.write("\n".join(lines))
            changed += 1
    for path in [p for p in files("docs", ".md")] + ["README.md"]:
        text = turn_page(path, ours)
        if text != read(path):
            with open(path, "w", encoding="utf-8") as f:
                f.write(text)
            changed += 1
    print(f"{len(ours)} names, {changed} files")


main()
