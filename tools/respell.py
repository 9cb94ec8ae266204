#!/usr/bin/env python3
"""Brings the repository's own definitions, lemmas and fields of records to snake case.

usage: python3 tools/respell.py [--names]     at the top of the repository, once, right after the toolchain's port.py

Every name that a file of specs/ or of proofs/ declares is taken (the answers in a function's own folder of proofs/ are
the toolchain's names, and stay), `windowOf` and `window-of` become `window_of`; where two names would fall together, or a
lemma would have a definition's name, the one that had a dash ends in `_lem`. Types keep their capital, and names of src/,
of C, of programs' inputs and outputs stay. It writes .antt and .rt files (code, and names in backticks in comments), the
must-fail edits and the pages (names in backticks alone). --names prints the old and new names and writes nothing.
"""
import collections
import glob
import os
import re
import sys

WORD = re.compile(r"[^\s(){}\[\],;.:=\"`|⌜⌝]+")
HEAD = re.compile(r"^(?:(?:pub|abbrev|unfoldable|ruleset|data|record)\s+)+([^\s:(){}=]+)|^([^\s:(){}=.,]+)\s*:(?!:)|^(?:  )pub ([^\s:(){}=.,]+)\s*:")
FIELD = re.compile(r"^\s+(?:pub )?([^\s:(){}λ.,]+)\s*:")
BLOCK = re.compile(r"^\s*(?:(?:pub|abbrev|unfoldable)\s+)*(?:data|record)\b")
INNER = re.compile(r"^( +)(?:(?:pub|abbrev|unfoldable)\s+)*([^\s:(){}=.,]+)\s*:(?!:)")
# Names whose first part is the older library's word for what is now another.
WORDS = {"getD": "get_or", "get_d": "get_or"}


def own_files():
    """The files whose names are the repository's own: specs/ and the lemma files of proofs/."""
    for f in sorted(glob.glob("crates/*/specs/**/*.antt", recursive=True) + glob.glob("crates/*/proofs/**/*.antt", recursive=True)):
        if not re.search(r"/proofs/.+/(Proof|Answers|Invariants)\.antt$", f):
            yield f


def snake(name):
    parts = []
    for p in name.split("-"):
        if not p[:1].isupper():
            p = re.sub(r"([a-z0-9])([A-Z])", lambda m: m.group(1) + "_" + m.group(2).lower(), p)
        parts.append(p)
    new = "_".join(parts)
    for old, now in WORDS.items():
        new = re.sub(rf"^{snake_word(old)}(?=_|$)", now, new) if new != snake_word(old) else new
    return new


def snake_word(w):
    return re.sub(r"([a-z0-9])([A-Z])", lambda m: m.group(1) + "_" + m.group(2).lower(), w)


def declared():
    heads, fields, inner = collections.Counter(), collections.Counter(), set()
    for f in own_files():
        text = open(f, encoding="utf-8").read()
        inside, depth, section = False, 0, False
        for line in text.split("\n"):
            if line.lstrip().startswith("--"):
                continue
            indent = len(line) - len(line.lstrip())
            if BLOCK.match(line):
                inside, depth = True, indent
            elif line.strip() and indent <= depth:
                inside = False
            if line.strip() and not indent:
                section = line.startswith("module _")
            m = FIELD.match(line) if inside and indent > depth else None
            if m:
                fields[m.group(1)] += 1
                continue
            # A lemma of a section: its signature, and an equation for it at the same depth.
            m = INNER.match(line) if section and not inside else None
            if m and re.search(rf"(?m)^{m.group(1)}{re.escape(m.group(2))}(?: [^:\n]*)?=", text):
                if m.group(2) not in heads:
                    inner.add(m.group(2))
                heads[m.group(2)] += 1
            m = HEAD.match(line)
            if m and not line.startswith(("use ", "unfolding ", "pub mod ", "mod ")):
                name = next(g for g in m.groups() if g)
                inner.discard(name)
                heads[name] += 1
    return heads, fields, inner


def renaming():
    heads, fields, inner = declared()
    new = {}
    for n in sorted(heads):
        # A lemma named after a type keeps the dash: IsPrefix-mem.
        if n[:1].isupper() or not re.match(r"[a-z]", n):
            continue
        s = snake(n)
        if s != n:
            new[n] = s
    taken = collections.defaultdict(list)
    for n in heads:
        taken[new.get(n, n)].append(n)
    for s, olds in taken.items():
        if len(olds) > 1:
            for n in olds:
                if "-" in n or n == s and n not in inner and any(re.search("[a-z][A-Z]", o) for o in olds):
                    new[n] = s + "_lem"
    of_fields = {}
    for n in sorted(fields):
        s = snake(n)
        if s != n and re.match(r"[a-z]", n):
            of_fields[n] = s
    return new, of_fields


def turn(text, new, of_fields, path, whole=""):
    """The text with each name respelled that stands as a word of its own; after a dot only a field of an own record."""
    answers = re.search(r"/proofs/.+/(Proof|Answers|Invariants)\.antt$", path) is not None
    # The modules that the file calls by a name of its own.
    own = r"(?m)^(?:ghost )?use Rattle\.(?!std\b)\S+\.(?:specs|proofs)\.\S+ as (\w+);?$"
    alias = set(re.findall(own, whole)) - {"tie", "goal"}
    # The names that the file takes from a library, which stay.
    taken = re.findall(r"(?m)^(?:ghost )?use (?!Rattle\.(?!std\b))\S+\.\{([^}]*)\}", whole)
    new = {n: s for n, s in new.items() if n not in {w.strip().split(" ")[0] for names in taken for w in names.split(",")}}

    def one(m):
        w = m.group(0)
        before = text[m.start() - 1] if m.start() else " "
        if before == "." and not text[: m.start()].endswith(".."):
            if re.search(r"Rattle[.\w]*\.[A-Z]\w*\.$", text[max(0, m.start() - 80) : m.start()]):
                return new.get(w, w)
            if (re.search(r"(?<![.\w'-])(\w+)\.$", text[: m.start()]) or [""])[0][:-1] in alias:
                return new.get(w, w)
            if w in of_fields and not (answers and "-" in w):
                return of_fields[w]
            return w
        if w in new:
            return new[w]
        return of_fields.get(w, w)

    return WORD.sub(one, text)


def code(path, new, of_fields):
    mark = "//" if path.endswith(".rt") else "--"
    out = []
    whole = open(path, encoding="utf-8").read()
    for line in whole.split("\n"):
        head, sep, comment = line, "", ""
        i = line.find(mark)
        if i >= 0 and (i == 0 or line[i - 1] == " "):
            head, sep, comment = line[:i], mark, line[i + 2 :]
        pieces = re.split(r'("(?:[^"\\]|\\.)*")', head) if path.endswith(".rt") else [head]
        for k in range(0, len(pieces), 2):
            pieces[k] = turn(pieces[k], new, of_fields, path, whole)
        comment = re.sub(r"`[^`]*`", lambda m: turn(m.group(0), new, of_fields, path), comment)
        out.append("".join(pieces) + sep + comment)
    return "\n".join(out)


def page(path, new, of_fields):
    return re.sub(r"`[^`\n]*`", lambda m: turn(m.group(0), new, of_fields, path), open(path, encoding="utf-8").read())


def main():
    new, of_fields = renaming()
    if "--names" in sys.argv:
        for n, s in sorted(new.items()):
            print(n, s)
        for n, s in sorted(of_fields.items()):
            print("." + n, "." + s)
        return
    for f in sorted(glob.glob("crates/*/*/**/*", recursive=True)):
        if f.endswith((".antt", ".rt")) and "/out/" not in f and os.path.isfile(f):
            write(f, code(f, new, of_fields))
    for f in sorted(glob.glob("crates/*/must-fail/*.edit") + glob.glob("more-edits/*/*.edit")):
        lines = []
        for line in open(f, encoding="utf-8").read().split("\n"):
            if line.startswith(("old:", "new:")):
                line = line[:4] + turn(line[4:], new, of_fields, f)
            lines.append(line)
        write(f, "\n".join(lines))
    for f in ["README.md"] + sorted(glob.glob("docs/*.md")):
        write(f, page(f, new, of_fields))


def write(path, text):
    if open(path, encoding="utf-8").read() != text:
        with open(path, "w", encoding="utf-8") as f:
            f.write(text)


main()
