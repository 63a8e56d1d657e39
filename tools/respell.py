#!/usr/bin/env python3
"""Brings this repository's own definitions and lemmas to the spelling of today's Rattle; run once, right after the toolchain's port.py.

A function, lemma, field or constructor is in snake case: columnOf is column_of. A dash joins two names and an underscore adds a plain word:
length-digits-small is length-digits_small, as length and digits are functions. Types keep their capitals, functions of src/ and exported names are
not touched, nor are names that the check makes (goals, loops, proofs of functions).

tools/respell.py --list prints old and new without writing.
"""
import glob
import os
import re
import sys

ROOT = os.path.dirname(os.path.dirname(os.path.abspath(__file__)))
WORD = re.compile(r"[^\s(){}\[\];,.`\"⌜⌝:]+")
MODIFIERS = r"(?:(?:abbrev|unfoldable|pub|private)\s+)*"
DECLARED = re.compile(r"^(\s*)" + MODIFIERS + r"([^\s:(){}\[\],;.]+)\s*(?:\([^)]*\)\s*|\{[^}]*\}\s*)*:\s")
RULESET = re.compile(r"^\s*" + MODIFIERS + r"ruleset\s+([^\s:(){}\[\],;.]+)")
WORDS_OF_STD = set(
    """length take drop map set sets append replicate get_or filter fold sum min max reverse zip cond pow add sub mul div mod eqb ltb leb digits""".split()
)
# Fields of one record, where a definition has the name: what the foot's sums are said to be.
CHOSEN = {"received-shown": "received_is_shown", "surrendered-shown": "surrendered_is_shown", "balance-shown": "balance_is_shown"}
# Names that the check asks for or makes; a proof file has them under these very names.
MADE = re.compile(
    r"^(\+.*|.*-spec|.*-meets|.*-walks|.*-requires(-\d+)?|returns.*|loop\d*-.*|invariant-.*|decreases-.*|overflow.*|part-.*-(start|end)(-\d+)?|(add|sub|mul|div|rem|cast|shl|shr)-[a-z0-9_-]+"
    r"|array-.*|slice-.*|shared-slice-.*|element-.*|bounds-.*|enum-known-so-far|unreachable.*|measure-.*|ghost-.*)$"
)


def texts():
    for p in sorted(glob.glob(os.path.join(ROOT, "crates/*/**/*"), recursive=True)):
        if "/out/" not in p and p.endswith((".antt", ".rt", ".edit")):
            yield p


def declared():
    """The names declared in lemma and definition files, and those that specs/ declares."""
    names, of_specs, in_functions = set(), set(), set()
    for p in texts():
        if not p.endswith(".antt"):
            continue
        part = os.path.relpath(p, ROOT).split(os.sep)
        function = part[2] == "proofs" and len(part) > 4
        for line in open(p, encoding="utf-8"):
            m = DECLARED.match(line) or None
            name = m.group(2) if m else None
            m = RULESET.match(line)
            name = m.group(1) if m else name
            if not name or not name[0].islower():
                continue
            if function:
                in_functions.add(name)
            else:
                names.add(name)
            if part[2] == "specs":
                of_specs.add(name)
    return names, of_specs, in_functions


def snake(name):
    return re.sub(r"(?<=[a-z0-9])([A-Z])", lambda m: "_" + m.group(1).lower(), name)


def dashed(name, known):
    """Words joined by dashes: a dash stays between two known names."""
    words = name.split("-")
    parts, i = [], 0
    while i < len(words):
        for j in range(len(words), i, -1):
            w = "_".join(words[i:j])
            if w in known or j == i + 1:
                parts.append((w, w in known))
                i = j
                break
    out = parts[0][0]
    for (_, left), (w, right) in zip(parts, parts[1:]):
        out += ("-" if left and right else "_") + w
    return out


def local_names():
    """Bound names in camel case, which no line declares."""
    found = set()
    for p in texts():
        if p.endswith(".antt"):
            for line in open(p, encoding="utf-8"):
                found |= {w for w in WORD.findall(line.split("--")[0]) if re.fullmatch(r"[a-z][a-z0-9]*[A-Z][A-Za-z0-9]*", w)}
    return found


def respelled(name, known):
    s = name
    if re.search(r"[a-z0-9][A-Z]", s) and "ℕ" not in s and "ℤ" not in s:
        s = snake(s)
    if "-" in s.strip("-"):
        s = dashed(s, known)
    return s


def table():
    """Old names to new ones. Where two fall together the definition has the name and the lemma takes _lem."""
    names, of_specs, in_functions = declared()
    known = {snake(n) for n in of_specs if "-" not in n} | WORDS_OF_STD
    every = {n for n in names | in_functions | local_names() if n in names or not MADE.match(n)}
    new = {}
    taken = {n for n in every if respelled(n, known) == n}
    for n in sorted(every - taken, key=lambda n: (n not in of_specs, "-" in n, n)):
        s = respelled(n, known)
        if n in CHOSEN:
            new[n] = CHOSEN[n]
            taken.add(CHOSEN[n])
            continue
        if s in taken and n in of_specs and s not in of_specs:
            new[s] = s + "_lem"
            taken.add(s + "_lem")
        elif s in taken:
            s += "_lem"
        if s in taken and s not in new:
            raise SystemExit(f"{n}: {s} is taken")
        taken.add(s)
        new[n] = s
    return new


def turned(text, new, path):
    if path.endswith(".rt"):
        return re.sub(r"\b[a-z][A-Za-z0-9]*[A-Z][A-Za-z0-9]*\b", lambda m: new.get(m.group(0), m.group(0)), text)
    if path.endswith(".edit") and "file: src/" in text:
        return text

    def word(m):
        return new.get(m.group(0), m.group(0))

    out = []
    for line in text.split("\n"):
        code, dash, comment = line.partition("--") if line.lstrip().startswith("--") or " -- " in line else (line, "", "")
        code = WORD.sub(word, code)
        comment = re.sub(r"`[^`]*`", lambda m: WORD.sub(word, m.group(0)), comment)
        comment = re.sub(r"\b[a-z][A-Za-z0-9]*[A-Z][A-Za-z0-9]*\b", lambda m: new.get(m.group(0), m.group(0)), comment)
        out.append(code + dash + comment)
    return "\n".join(out)


def main():
    new = table()
    if "--list" in sys.argv:
        for n, s in new.items():
            print(n, s)
        return 0
    for p in texts():
        old = open(p, encoding="utf-8").read()
        got = turned(old, new, p)
        if got != old:
            open(p, "w", encoding="utf-8").write(got)
    return 0


if __name__ == "__main__":
    sys.exit(main())
