#!/usr/bin/env python3
"""Tells which must-fail edits no longer fit the text that they change.

usage: python3 tools/edits.py [CRATE..]     at the top of the repository

An edit names a file and then pairs of an old and a new text. Each old text has to stand exactly once in that file, as the
earlier pairs left it, and differ from its new text. Each edit that doesn't fit is printed with the text and how often it stands.
"""
import glob
import os
import sys


def read(path):
    """The edit's file and its pairs of old and new text."""
    file, pairs, old = None, [], None
    for line in open(path, encoding="utf-8").read().split("\n"):
        if line.startswith("file: "):
            file = line[len("file: ") :]
        elif line.startswith("old: "):
            old = line[len("old: ") :]
        elif line.startswith("new:") and old is not None:
            pairs.append((old, line[len("new: ") :]))
            old = None
    return file, pairs


def edits(names):
    """Each edit of the gate, and of more-edits/, with the crate that it changes."""
    for path in sorted(glob.glob("crates/*/must-fail/*.edit") + glob.glob("more-edits/*/*.edit")):
        crate = path.split("/")[1]
        if not names or crate in names:
            yield crate, path


def faults(crate, path):
    file, pairs = read(path)
    if file is None or not pairs:
        return ["no file or no pair"]
    where = f"crates/{crate}/{file}"
    if not os.path.isfile(where):
        return [f"no file {where}"]
    text, found = open(where, encoding="utf-8").read(), []
    for old, new in pairs:
        if text.count(old) != 1:
            found.append(f"{text.count(old)} times: {old}")
        if old == new:
            found.append(f"changes nothing: {old}")
        text = text.replace(old, new, 1)
    return found


def main():
    all_of_them = bad = 0
    for crate, path in edits(sys.argv[1:]):
        all_of_them += 1
        found = faults(crate, path)
        bad += bool(found)
        for f in found:
            print(f"{path}\n    {f}")
    print(f"{all_of_them} edits, {bad} do not fit")
    sys.exit(bool(bad))


main()
