#!/usr/bin/env python3
"""Reads in target/gate.log why each must-fail edit was refused, in that run of `rt ci` or in an earlier one of the same files, which it says again.

An edit is a wrong program, and is to be refused because a fact no longer holds. One that is bad, is not refused, or is refused only because a name is
not there, says nothing of the program and fails this check. `tools/edits.py --all` prints the first error of each.
"""

import re
import sys
from pathlib import Path

ROOT = Path(__file__).resolve().parent.parent
LOG = ROOT / "target/gate.log"
TRIED = re.compile(r"^rt: must-fail (\S+/\S+?)(?:\.edit)?: (.*)$", re.M)
OK = re.compile(r"^rt: ok;.*?must-fail edits: (\d+) refused(.*)$", re.M)
NEED = re.compile(r"it is not proved that .*\(`([^`]+)`\)|error: `([^`]+)`")
RANGE = re.compile(r"^(?:overflow_|nonzero_|bounds-|slice_bounds-|offset_bounds-)")


def kind(said):
    if not said.startswith("refused, as it must be"):
        return "bad"
    if "only because a proof file names" in said:
        return "name"
    if "only by a limit" in said:
        return "limit"
    need = NEED.search(said)
    return "range" if need and RANGE.search(need[1] or need[2]) else "fact"


def main():
    text = LOG.read_text(errors="replace")
    kinds = {"fact": [], "range": [], "limit": [], "name": [], "bad": []}
    for label, said in TRIED.findall(text):
        kinds[kind(said)].append(label)
        if "--all" in sys.argv:
            print(f"{label}: {kind(said)}: {said[:300]}")
    for label in kinds["bad"]:
        print(f"{label}: it was not refused, or could not be tried")
    for label in kinds["name"]:
        print(f"{label}: it was refused only because a name is not there")
    labels = {f"{edit.parent.parent.name}/{edit.stem}" for edit in ROOT.glob("crates/*/must-fail/*.edit")}
    edits = len(labels)
    unsaid = sorted(labels - {label for label, _ in TRIED.findall(text)})
    for label in unsaid:
        print(f"{label}: rt ci does not say why it was refused")
    ok = OK.search(text)
    every = ok is not None and int(ok[1]) == edits and ", bad" not in ok[2] and " bad" not in ok[2].split(";")[0]
    if not every:
        print(f"rt ci does not say that all {edits} must-fail edits are refused")
    print(
        f"of {edits} must-fail edits {len(kinds['fact'])} are refused at a fact, {len(kinds['range'])} at a number's range, "
        f"{len(kinds['limit'])} at a limit of the prover"
    )
    sys.exit(0 if every and not unsaid and not kinds["bad"] and not kinds["name"] else 1)


main()
