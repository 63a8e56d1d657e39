#!/usr/bin/env python3
"""Checks that every file and name that docs/PROMISES.md and docs/GLOSSARY.md cite exists, that every public function has a contract, and that
no crate but those of the units and of the reader builds kilograms from a number.

A sentence of the promises is quoted on a line of its own, `> sentence`, and has three parts below it, each on its line: `- **stated by**: ..`,
`- **refused edits**: ..` and `- **tests**: ..`, a dash where there is none. A word of the glossary is a line, `- **word**: ..`.

  `name` (crate/specs/File)   a definition of that file, `name` (crate/proofs/File) a theorem; a folder may stand for its files
  `crate::name`               a function, struct, enum, type or constant of the crate's code; `Type::name` a method
  `file.rs::name`             a test of host/rust, `file.c::name` a function of host/
  `crate/label`               among the refused edits: crates/crate/must-fail/label.edit
  `folder/file`               any other file of the repository
"""

import pathlib
import re
import sys

ROOT = pathlib.Path(__file__).resolve().parent.parent
CRATES = ROOT / "crates"
PROMISES = ROOT / "docs/PROMISES.md"
GLOSSARY = ROOT / "docs/GLOSSARY.md"
PARTS = ["stated by", "refused edits", "tests"]
PART = re.compile(r"- \*\*([^*]+)\*\*: *(.*)")
CITED = re.compile(r"`([^`]+)`|\(((?:[a-z_]+)/(?:specs|proofs)(?:/\w+)?)\)")
WORDS = {"requires", "ensures"}
KILOGRAM_BUILDERS = {"units", "statement_parse"}


def read_all(files, what):
    texts = [file.read_text() for file in files]
    if not texts:
        raise LookupError(f"no {what}")
    return "\n".join(texts)


def read_place(place):
    """The text of a file of definitions or proofs, or of all files of the folder."""
    file = CRATES / f"{place}.antt"
    return read_all([file] if file.is_file() else sorted((CRATES / place).glob("*.antt")), f"file {place}")


def has_definition(text, name):
    return re.search(rf"^ *(?:unfoldable |abbrev )*(?:pub )?(?:record |data )?{re.escape(name)} [^\n]*:", text, re.M)


def check_code(owner, name):
    """A name of a crate's code, or a method of a type."""
    files = sorted(CRATES.glob(f"{owner}/src/*.rt"))
    if not owner.islower():
        files = [file for file in CRATES.glob("*/src/*.rt") if re.search(rf"impl {owner}[ <]", file.read_text())]
    if not re.search(rf"\b(?:fn|struct|enum|const|type) {re.escape(name)}\b", read_all(files, f"code of {owner}")):
        raise LookupError(f"no {owner}::{name}")


def check_test(file, name):
    """A test of host/rust, or a function of a C file of host/."""
    if file.endswith(".rs"):
        pattern, files = rf"#\[test\]\s+fn {re.escape(name)}\b", (ROOT / "host/rust").rglob(file)
    else:
        pattern, files = rf"^\w[^\n;]*\b{re.escape(name)}\([^;]*\)\n\{{", (ROOT / "host").glob(file)
    if not re.search(pattern, read_all(files, f"file {file}"), re.M):
        raise LookupError(f"no {file}::{name}")


def check_named(name):
    owner, last = name.split("::")
    check_test(owner, last) if "." in owner else check_code(owner, last)


def check_part(part):
    """Counts the names; a definition or theorem belongs to the next place behind it."""
    waiting, count = [], 0
    for name, place in CITED.findall(part):
        if place:
            text = read_place(place)
            missing = [one for one in waiting if not has_definition(text, one)]
            if missing:
                raise LookupError(f"no {missing[0]} in {place}")
            waiting = []
        elif "::" in name:
            check_named(name)
        elif "/" in name:
            if not (ROOT / name.split()[0]).exists():
                raise LookupError(f"no file {name}")
        elif name not in WORDS:
            waiting.append(name)
        count += not place
    if waiting:
        raise LookupError(f"no place is cited for {waiting[0]}")
    return count


def check_edits(part, cited):
    for label in re.findall(r"`([^`]+)`", part):
        crate, _, name = label.partition("/")
        if not (CRATES / crate / "must-fail" / f"{name}.edit").is_file():
            raise LookupError(f"no must-fail edit {label}")
        cited.add(label)


def read_sentences(text):
    """Each sentence below the first section's heading: its line's number, itself, and its parts by name, in order."""
    sentences, began = [], False
    for number, line in enumerate(text.splitlines(), 1):
        began = began or line.startswith("## ")
        if not began or not line or line.startswith("## "):
            continue
        part = PART.fullmatch(line)
        if line.startswith("> "):
            sentences.append((number, line[2:].strip(), []))
        elif part and sentences:
            sentences[-1][2].append(part.groups())
        else:
            sentences.append((number, "", []))
    return sentences


def check_sentence(sentence, parts, cited):
    if not sentence:
        raise LookupError("this is neither a sentence nor a part of one")
    if [name for name, _ in parts] != PARTS or not all(words for _, words in parts):
        raise LookupError(f"a sentence has the parts {', '.join(PARTS)}, and - where there is nothing")
    stated, edits, tests = (words for _, words in parts)
    check_edits(edits, cited)
    return check_part(stated) + check_part(tests)


def misplaced_words():
    """The lines of the glossary that do not say where their words are defined, or say it wrongly."""
    found, count = [], 0
    for number, line in enumerate(GLOSSARY.read_text().splitlines(), 1):
        if not line.startswith("- "):
            continue
        count += 1
        try:
            if check_part(line) == 0:
                raise LookupError("no name is cited")
        except LookupError as reason:
            found.append(f"docs/GLOSSARY.md:{number}: {reason}")
    return found, count


def uncontracted():
    """The public functions that ask something of their caller, or say nothing of their answer."""
    found, count = [], 0
    for file in sorted(CRATES.glob("*/src/*.rt")):
        for name, clauses in re.findall(r"\bpub (?:extern \"C\" )?fn (\w+)(.*?)\{\n", file.read_text(), re.S):
            count += 1
            if re.search(r"\brequires( \w+)? \{", clauses) or not re.search(r"\bensures( \w+)? \{", clauses):
                found.append(f"{file.relative_to(ROOT)}: {name} has a requires, or no ensures")
    return found, count


def built_kilograms():
    """Where kilograms are built from a number: the crate of the units and the reader of a statement alone may."""
    files = [file for file in sorted(CRATES.glob("*/src/*.rt")) if file.parts[-3] not in KILOGRAM_BUILDERS]
    return [f"{file.relative_to(ROOT)} builds kilograms from a number" for file in files if "Kilograms(" in file.read_text()]


def main():
    names, cited, wrong = 0, set(), []
    sentences = read_sentences(PROMISES.read_text())
    for number, sentence, parts in sentences:
        try:
            names += check_sentence(sentence, parts, cited)
        except LookupError as reason:
            wrong.append(f"docs/PROMISES.md:{number}: {reason}")
    misplaced, words = misplaced_words()
    bare, functions = uncontracted()
    found = wrong + misplaced + bare + built_kilograms()
    for reason in found:
        print(reason)
    if found:
        sys.exit(1)
    edits = len(list(CRATES.glob("*/must-fail/*.edit")))
    print(f"the promises' {len(sentences)} sentences cite {names} names and {len(cited)} must-fail edits, and each is there")
    print(f"no sentence cites the other {edits - len(cited)} must-fail edits; each of {functions} public functions has a contract and asks nothing")
    print(f"what the glossary's {words} lines cite is there")


main()
