#!/usr/bin/env python3
"""Brings this repository's own definitions and lemmas to today's spelling: words in snake case, a dash only between two names.

usage: python3 tools/port_names.py [--names] [--write]     at the top of the repository, once, after the kit's port.py

It turns the names that specs/ and proofs/ define, wherever they stand: in specs/, proofs/, the ghost parts of src/, must-fail/ and
docs/. Functions of src/, exported names and modules keep theirs, types too but for three that had a dash. Names that would fall
together in a file are printed, and then nothing is written. With --write it is written all the same: a word and a function of src/
may have one name, and of those that are printed each pair is such a one. --names prints old and new names and writes nothing.
"""

import os
import re
import sys

TOKEN = re.compile(r"(?<![\w'◌·-])[^\W\d_][\w']*(?:-[\w'≤<+*≡]+)*")
MARKS = r"(?:(?:pattern|unfoldable|abbrev|pub) )*"
DEFINES = re.compile(r"^\s*" + MARKS + r"([^\W\d_][\w'≤<+*≡-]*)(?: \{[^}]*\})?\s*:(?!:)", re.M)
TYPE = re.compile(r"^\s*" + MARKS + r"(?:record|data) ([^\W\d_][\w'-]*)", re.M)
MARKED = re.compile(r"^\s*" + r"(?:(?:pattern|pub) )*(?:unfoldable|abbrev) (?:pub )?([^\W\d_][\w'≤<+*≡-]*)", re.M)
# Words of the library after which a lemma is named.
WORDS = set("length append map sum replicate reverse drop take set get head suc zero le lt eq mem add mul sub div".split())
# Where a lemma would fall together with the word that it is about, and a field with a limit; and types.
GIVEN = {
    "line-of": "line_of_lem",
    "run-of": "run_of_lem",
    "next-at": "next_at_lem",
    "read-on": "read_on_lem",
    "empty-day": "empty_day_lem",
    "cells-most": "cells_at_most",
    "places-most": "places_at_most",
    "Spot-of": "SpotOf",
    "Day-records": "DayRecords",
    "Counts-nothing": "CountsNothing",
}
# Constructors stand several to a line.
CONSTRUCTORS = ["openRun", "closeRun", "readSet"]
# What the kit's port.py turned in sources and proofs; the edits and pages are still to follow.
PORTED = """
add-at add-spec add-turned add-words apart-from at-drop at-other at-x both-true by-index by-kind bytesOf call-stays
callOf cell-in cellAt cells-at cellsIn cellsOf chain-next chain-steps clear-spec close-spec copy-spec count-spec
counting-more cut-at cut-right cut-short each-at each-same each-set either-true empty-right ends-open enum-told
fill-spec filled-more filled-none first-back first-cell first-passes firstAt found-target free-in free-walk from-list
going-end going-next going-start going-step has-end has-in head-at head-spec headOf inSet kept-next kept-row
kept-target kindAt kindOf length-at length-most lengthAt lengthOf lengths-none lent-fits less-one lineAt lineOf
link-stays linkIn list-at list-length list-of listsOf many-is map-each mark-spec named-here next-word nextAt nextOf
no-cell no-cells no-lengths no-such noRun none-each none-free none-here none-yet not-sound number-at number-small
numberAt numberOf once-more one-more one-of one-way open-full open-spec or-comm over-no over-yes own-room owner-at
pair-comm pair-is pairAt place-is placeOf put-count put-spec read-spec readAll readOn reading-small readingOf resultOf
room-within round-trip row-of rows-none run-spec runAt runOf same-cases same-length same-refl same-runs same-self
same-taken samePair second-back seen-at set-first shift-count shift-in stackOf step-spec storeWords sub-read sum-same
sumTo table-is taken-more taken-refused taken-start target-at targetOf to-cell too-long total-ext turn-even turns-fit
turns-next two-runs two-sized valueOf walk-ends walks-more whole-long word-same writes-at writes-more writes-one
yes-both yes-le
""".split()
# Names of the library that a file of this repository cites as they stand, and names that the check makes, are no names of ours.
MADE = re.compile(r"requires|^(?:returns|enum|struct|cast|overflow|slice|array|shared|invariant|decreases|loop)\b")


def files(*ends):
    for top in ("crates", "docs"):
        for folder, dirs, names in os.walk(top):
            dirs[:] = sorted(d for d in dirs if d != "out")
            for name in sorted(names):
                if name.endswith(ends) and name != "PORT.md":
                    yield os.path.join(folder, name)


def read(path):
    with open(path, encoding="utf-8") as f:
        return f.read()


def of_function(path):
    return path.endswith(("Proof.antt", "Invariants.antt", "Answers.antt"))


def snake(name):
    return re.sub(r"(?<=[a-z0-9])([A-Z])(?=[a-z])", lambda m: "_" + m.group(1).lower(), name)


def defined():
    """Each name that specs/ and proofs/ define, and those among them that are words: marked, or a type."""
    names, words = set(), set(WORDS)
    for path in files(".antt"):
        text = re.sub(r"^\s*--.*$", "", read(path), flags=re.M)
        for m in DEFINES.finditer(text):
            rest = text[m.end() : m.end() + 5]
            if not (of_function(path) and rest.startswith(" tie.")):
                names.add(m.group(1))
        names |= set(TYPE.findall(text))
        if not of_function(path):
            words |= {w for m in MARKED.finditer(text) if "_" in (w := snake(m.group(1))) and "-" not in w}
    return {n for n in names if not MADE.search(n)}, words


def turned(name, words):
    """The name in today's spelling."""
    if name in GIVEN:
        return GIVEN[name]
    if name[0].isupper():
        return name
    if name.endswith("-spec"):
        return name.replace("-", "_")
    parts = [snake(p) for p in name.split("-")]
    out = parts[0]
    for before, part in zip(parts, parts[1:]):
        out += ("-" if before in words and part in words else "_") + part
    return out


def respell(text, path, new):
    if path.endswith((".edit", ".md")):
        new = {**{n: snake(n.replace("-", "_")) for n in PORTED}, **new}
    put = lambda m: new.get(m.group(0), m.group(0))
    if path.endswith(".md"):
        return re.sub(r"`[^`\n]*`", lambda m: TOKEN.sub(put, m.group(0)), text)
    if path.endswith(".edit"):
        return "".join(TOKEN.sub(put, s) if s.startswith(("old:", "new:")) else s for s in text.splitlines(True))
    comment = "--" if path.endswith(".antt") else "//"
    # A dashed word of a comment may be plain English: only names with a capital inside are turned there.
    put_in_comment = lambda m: m.group(0) if "-" in m.group(0) else put(m)
    return "".join(TOKEN.sub(put_in_comment if s.lstrip().startswith(comment) else put, s) for s in text.splitlines(True))


def main():
    names, words = defined()
    new = {n: t for n in [*names, *CONSTRUCTORS] if (t := turned(n, words)) != n}
    clashes = []
    for path in files(".antt", ".rt"):
        if of_function(path) and not path.endswith("Proof.antt"):
            continue
        tokens = set(TOKEN.findall(read(path)))
        back = {}
        for n in tokens:
            back.setdefault(new.get(n, n), []).append(n)
        clashes += [f"{path}: {t}: {', '.join(sorted(ns))}" for t, ns in sorted(back.items()) if len(ns) > 1]
    for line in clashes:
        print("together: " + line)
    if "--names" in sys.argv:
        for n in sorted(new):
            print(n, new[n])
    if clashes and "--write" not in sys.argv:
        raise SystemExit(1)
    if "--names" in sys.argv:
        return
    for path in files(".antt", ".rt", ".edit", ".md"):
        old = read(path)
        text = respell(old, path, new)
        if text != old:
            with open(path, "w", encoding="utf-8") as f:
                f.write(text)


main()
