#!/usr/bin/env python3
"""Turns this repository's own definitions and lemmas to one spelling, by whole words.

usage: python3 tools/spelling.py [ROOT]      run once, on the tree as port.py leaves it

A name that begins small is in snake case. In a lemma a dash stays only between two names (a definition of specs/, a word of the library, a type); a plain word is joined by `_`.
Where two names would fall together, the lemma takes `_lem` at its end. Turned: all .antt files, clauses and `ghost use` lines of .rt files, code spans of README.md and docs/*.md.
Functions, types, fields of src/, strings, inputs and outputs keep their names. What is turned is printed, a line for each name.
"""
import collections
import os
import re
import sys

SIG = re.compile(r"^(\s*)((?:abbrev |unfoldable |pub )*)(?:(data|record) )?([^\s:(){}=;,]+)((?: [({][^=]*?[)}])*| \{ℓ\})\s*:(?![:=])")
RULE = re.compile(r"^\s*(?:pub )?ruleset ([^\s=]+) =")
WORD = re.compile(r'[^\s(){}.;,@"«»\[\]`]+')
LIBRARY = {"length", "take", "drop", "map", "set", "append", "replicate", "sum"}
# the proofs of these walk the code by hand, under names that the older check made
BY_HAND = ("marks/proofs/raise_in/", "marks/proofs/raise/", "lines/proofs/+put_decimal/", "replicas/proofs/first_hold/", "replicas/proofs/holds_replica/")


def files(root, *ends):
    for folder, dirs, names in os.walk(os.path.join(root, "crates")):
        dirs[:] = sorted(d for d in dirs if d != "out")
        for n in sorted(names):
            if n.endswith(ends):
                yield os.path.join(folder, n)


def read(path):
    with open(path, encoding="utf-8") as f:
        return f.read()


def by_hand(path):
    return any(it in path for it in BY_HAND)


def declared(root):
    """The names that files of specs/ and proofs/ declare; those of specs/ apart. Answers to goals are the check's names and stay."""
    own, specs = set(), set()
    for p in files(root, ".antt"):
        if by_hand(p):
            continue
        for line in read(p).split("\n"):
            m = RULE.match(line)
            if m:
                own.add(m[1])
                continue
            m = SIG.match(line)
            if not m or m[4] in ("let", "λ", "in", "--"):
                continue
            if line[m.end():].strip().startswith(("tie.", "statement")):
                continue
            own.add(m[4])
            if "/specs/" in p:
                specs.add(m[4])
    return own, specs


def snake(word):
    """camelCase to snake_case; a word that begins with a capital is a type or a fact and stays."""
    if not re.match(r"[a-zμ]", word):
        return word
    return re.sub(r"(?<=[a-z0-9])([A-Z])", lambda m: "_" + m[1].lower(), word)


def spelled(name, names):
    if name.endswith("-spec"):
        return snake(name.replace("-", "_"))
    parts = name.split("-")
    out = snake(parts[0])
    for a, b in zip(parts, parts[1:]):
        joins = re.match(r"[A-Z]", a) or re.match(r"[A-Z]", b) or (a in names and b in names)
        out += ("-" if joins else "_") + snake(b)
    return out


def table(root):
    own, specs = declared(root)
    crates = set(os.listdir(os.path.join(root, "crates")))
    for p in (it for it in files(root, ".antt") if not by_hand(it)):
        # a name that some file has from the library keeps its spelling
        for m in re.finditer(r"use ([^\s{};]+)\.\{([^}]*)\}", read(p)):
            if not (m[1].startswith("Rattle.") and m[1].split(".")[1] in crates):
                own -= {w.strip() for w in m[2].split(",")}
    names = specs | LIBRARY
    new = {n: spelled(n, names) for n in own}
    falls = collections.defaultdict(list)
    for n, t in new.items():
        falls[t].append(n)
    for t, olds in falls.items():
        # of two that fall together the definition has the name
        olds.sort(key=lambda n: (snake(n) == n, "-" in n, n not in specs, n))
        for n in olds[1:]:
            new[n] = t + "_lem"
    # the names that are used beside them: imports, parameters, fields
    used = set()
    for p in files(root, ".antt", ".rt"):
        for m in re.finditer(r"(?m)^\s*(?:ghost |pub )?use Rattle\.std\.[^\n;]*\{([^}]*)\}", read(p)):
            used |= {w.strip().split(" as ")[-1] for w in m[1].split(",")}
    for p in files(root, ".rt"):
        used |= set(re.findall(r"\b([a-z_0-9]+): ", read(p)))
    for n in sorted(own):
        if new[n] != n and new[n] in used:
            new[n] += "_lem" if "-" in n or n not in specs else "_of"
    return {n: t for n, t in new.items() if n != t}


def turn(text, rows, comments):
    """Whole words of code; in comments those in code spans and those that no prose has."""

    def word(m):
        return rows.get(m[0], m[0])

    def comment(t):
        t = re.sub(r"`[^`\n]*`", lambda s: WORD.sub(word, s[0]), t)
        return WORD.sub(lambda m: rows.get(m[0], m[0]) if re.search("[a-z][A-Z]", m[0]) else m[0], t)

    out = []
    for line in text.split("\n"):
        at = re.search(r"(?:^|\s)" + comments + r".*$", line)
        cut = at.start() if at else len(line)
        out.append(WORD.sub(word, line[:cut]) + comment(line[cut:]))
    return "\n".join(out)


CLAUSE = re.compile(r"(?:requires|ensures)\s*(?:\w+\s*)?\{|ghost\s*(?:\w+\s*:\s*)?\{|ghost\s+use\b")


def turn_source(text, rows):
    out, at = [], 0
    for m in CLAUSE.finditer(text):
        if m.start() < at:
            continue
        if m[0].startswith("ghost") and "use" in m[0]:
            end = text.index(";", m.start()) + 1
        else:
            depth, end = 1, m.end()
            while depth:
                depth += {"{": 1, "}": -1}.get(text[end], 0)
                end += 1
        out += [source_comments(text[at:m.start()], rows), turn(text[m.start():end], rows, "//")]
        at = end
    return "".join(out) + source_comments(text[at:], rows)


def source_comments(text, rows):
    keep = lambda m: m[1] + turn("//" + m[2], rows, "//")[2:] if m[1].endswith("//") else m[0]
    return re.sub(r"(?m)^(\s*//)(.*)$", keep, text)


def main(argv):
    root = argv[1] if len(argv) > 1 else "."
    rows = table(root)
    for n in sorted(rows):
        print(f"{n}\t{rows[n]}")
    for p in files(root, ".antt"):
        if by_hand(p):
            continue
        old = read(p)
        new = turn(old, rows, "--")
        if new != old:
            with open(p, "w", encoding="utf-8") as f:
                f.write(new)
    for p in files(root, ".rt"):
        old = read(p)
        new = turn_source(old, rows)
        if new != old:
            with open(p, "w", encoding="utf-8") as f:
                f.write(new)
    docs = os.path.join(root, "docs")
    for p in [os.path.join(root, "README.md")] + [os.path.join(docs, n) for n in sorted(os.listdir(docs)) if n.endswith(".md")]:
        old = read(p)
        new = re.sub(r"`[^`\n]*`", lambda s: WORD.sub(lambda m: rows.get(m[0], m[0]), s[0]), old)
        if new != old:
            with open(p, "w", encoding="utf-8") as f:
                f.write(new)
    return 0


if __name__ == "__main__":
    raise SystemExit(main(sys.argv))
