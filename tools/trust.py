#!/usr/bin/env python3
"""Counts the specs files that docs/TRUST.md lists. A file stands in one group there, put by hand, with words on what it holds.

  tools/trust.py           writes the lines of each file, the sum of each group and the sum of all
  tools/trust.py --check   fails where a count is not current, where a file is in no group or in two, is listed and gone, or has no words;
                           where a specs/Lib.antt does more than pass names on, as they are; where a contract or a definition cites a proof;
                           and where a check assumed what docs/TRUST.md does not quote
"""

import re
import sys
from collections import Counter
from pathlib import Path

ROOT = Path(__file__).resolve().parent.parent
CRATES = ROOT / "crates"
TRUST = ROOT / "docs/TRUST.md"
ROW = re.compile(r"\| *(\w+/specs/\w+) *\|([^|]*)\|(.*)\|")
SUM = re.compile(r"(In all )?\d+ files of \d+ lines, \d+ without imports and blank lines\.")
PASSED_ON = re.compile(r"|--.*|pub mod \w+|(?:unfoldable )?pub use [^\s{}]+(?:\{[^{}]*\})?")


def lines_of(name):
    return (CRATES / f"{name}.antt").read_text().splitlines()


def has_code(line):
    return bool(line.strip()) and not line.startswith("use ")


def count_of(name):
    lines = lines_of(name)
    return f"{len(lines)}, generated" if "made this file" in lines[0] else str(len(lines))


def sum_of(names):
    lines = [line for name in names for line in lines_of(name)]
    return f"{len(names)} files of {len(lines)} lines, {sum(map(has_code, lines))} without imports and blank lines."


def counted(text, every):
    """The text with every count and sum as it is now; a group's sum stands below its table."""
    lines, group = [], []
    for line in [*text.splitlines(), "# the end"]:
        row, total = ROW.fullmatch(line), SUM.fullmatch(line)
        if row:
            group.append(row[1])
            line = f"| {row[1]} | {count_of(row[1])} | {row[3].strip()} |"
        elif total and total[1]:
            line = total[1] + sum_of(every)
        elif total:
            line, group = sum_of(group), []
        elif group and line.startswith("#"):
            sys.exit(f"docs/TRUST.md: no sum stands below the group of {group[0]}")
        lines.append(line)
    return "\n".join(lines[:-1]) + "\n"


def misplaced(rows):
    """The files that are in no group or in two, and those that are gone."""
    files = {f"{file.parts[-3]}/specs/{file.stem}" for file in CRATES.glob("*/specs/*.antt") if file.name != "Lib.antt"}
    listed = Counter(row[1] for row in rows)
    said = [f"docs/TRUST.md has {name} in no group" for name in sorted(files - set(listed))]
    said += [f"docs/TRUST.md lists {name}, which is gone" for name in sorted(set(listed) - files)]
    return said + [f"docs/TRUST.md lists {name} {times} times" for name, times in sorted(listed.items()) if times > 1]


def wordless(rows):
    return [f"docs/TRUST.md has no words on {row[1]}" for row in rows if not row[3].strip()]


def not_passed_on():
    """What a Lib.antt has besides names passed on as they are: nobody reads it for a definition."""
    said = []
    for file in sorted(CRATES.glob("*/specs/Lib.antt")):
        for number, line in enumerate(file.read_text().splitlines(), 1):
            renames = " as " in line and not line.startswith("--")
            if renames or not PASSED_ON.fullmatch(line):
                said.append(f"{file.relative_to(ROOT)}:{number} {'renames' if renames else 'does more than pass names on'}: {line}")
    return said


def citing_proofs():
    files = sorted([*CRATES.glob("*/src/*.rt"), *CRATES.glob("*/specs/*.antt")])
    cites = re.compile(r"^(?:ghost |unfoldable |pub )*use (?!Rattle\.std\.)\S*\.proofs\.", re.M)
    return [f"{file.relative_to(ROOT)} cites a proof" for file in files if cites.search(file.read_text())]


def unquoted(text):
    """What the last checks of programs assumed, as far as the text does not quote it."""
    logs = [log.read_text(errors="replace") for log in [ROOT / "target/gate.log"] if log.is_file()]
    assumed = {line for log in logs for line in re.findall(r"^axioms .*$", log, re.M)}
    return [f"docs/TRUST.md does not quote what a check assumed: {line}" for line in sorted(assumed - set(re.findall(r"`([^`]+)`", text)))]


def stop_at(said):
    if said:
        sys.exit("\n".join(said))


def main():
    text = TRUST.read_text()
    rows = [row for row in map(ROW.fullmatch, text.splitlines()) if row]
    stop_at(misplaced(rows))
    every = [row[1] for row in rows]
    now = counted(text, every)
    if sys.argv[1:] != ["--check"]:
        TRUST.write_text(now)
        return
    stale = [] if now == text else ["docs/TRUST.md: a count is not current; tools/trust.py writes them"]
    stop_at(stale + wordless(rows) + not_passed_on() + citing_proofs() + unquoted(text))
    print(f"docs/TRUST.md lists the definitions as they stand: {sum_of(every)}")


main()
