#!/usr/bin/env python3
"""Writes the default tables of crate `schedules` from the sheet data/schedules-2017.csv, a line for each column:
schedule (4 or 6), kind (G stock, R residue), type, first listed age, then the cells in tonnes per hectare.

  tools/schedules.py           writes src/cells.rt and specs/Cells.antt
  tools/schedules.py --check   fails where the two files are not what the sheet gives
"""
import sys
from decimal import Decimal
from pathlib import Path

ROOT = Path(__file__).resolve().parent.parent
SHEET = ROOT / "data/schedules-2017.csv"
CRATE = ROOT / "crates/schedules"
TYPES = [f"P{n}" for n in range(1, 10)] + ["D", "S", "H", "N"]
REGIONS = ["Auckland", "BayOfPlenty", "CanterburyWestCoast", "Gisborne", "HawkesBaySouthernNorthIsland", "NelsonMarlborough",
           "Otago", "Southland", "WaikatoTaupo"]
OTHERS = [("D", "DouglasFir"), ("S", "ExoticSoftwoods"), ("H", "ExoticHardwoods"), ("N", "Indigenous")]
TABLES = [("4", "G"), ("6", "G"), ("6", "R")]
SOURCE = "tools/schedules.py made this file from data/schedules-2017.csv."


def tenths(cell):
    """A cell of the sheet, in tonnes with at most one decimal, as tenths of a tonne."""
    value = Decimal(cell) * 10
    if value != int(value) or not 0 <= value <= 30000:
        sys.exit(f"{SHEET.name}: {cell} is no cell")
    return int(value)


def read_sheet():
    """The columns by (schedule, kind, type): the first age and the cells in tenths."""
    columns = {}
    for line in SHEET.read_text().splitlines():
        schedule, kind, forest, first, *cells = line.split(",")
        if (schedule, kind, forest) in columns:
            sys.exit(f"{SHEET.name}: {schedule},{kind},{forest} stands twice")
        columns[schedule, kind, forest] = int(first), [tenths(c) for c in cells]
    wanted = {(s, k, f) for s, k in TABLES for f in TYPES}
    if set(columns) != wanted:
        sys.exit(f"{SHEET.name}: the columns are not those of Schedules 4 and 6")
    return columns


def table(columns, schedule, kind):
    return [columns[schedule, kind, forest] for forest in TYPES]


def filled(numbers):
    """Numbers in lines of 99 columns at most, as `rt fmt` lays them out."""
    lines = []
    for number in numbers:
        if lines and len(f"{lines[-1]} {number},") <= 99:
            lines[-1] += f" {number},"
        else:
            lines.append(f"    {number},")
    return lines


def constant(name, kind, lines, count):
    return f"pub const {name}: [{kind}; {count}] = [\n" + "".join(f"{line}\n" for line in lines) + "];\n"


def numbers(name, items):
    return constant(name, "u16", filled(items), len(items))


def cells(columns):
    return [cell for _, column in columns for cell in column]


def place(start, length, first, indent):
    """A column's start among the joined cells, its length and its first age."""
    inner = "".join(f"{indent}    {name}: {value},\n" for name, value in (("start", start), ("len", length), ("first", first)))
    return f"Place {{\n{inner}{indent}}}"


def places(columns, start, indent):
    """The place of each type; bare land, in front, has none."""
    rows = [place(0, 0, 0, indent("B"))]
    for forest, (first, column) in zip(TYPES, columns):
        rows.append(place(start, len(column), first, indent(forest)))
        start += len(column)
    return rows


def by_type(name, kind, columns, start):
    """A function from a type to its column's place."""
    of = dict(zip(["B"] + TYPES, places(columns, start, lambda f: " " * (12 if f.startswith("P") else 8))))
    regions = "".join(f"            Region::{region} => {of[f'P{n}']},\n" for n, region in enumerate(REGIONS, 1))
    others = "".join(f"        Forest::{forest} => {of[letter]},\n" for letter, forest in OTHERS)
    return (f"pub fn {name}(forest: Forest) -> Place\n    ensures {{ result ≡ place_six Kind.{kind} forest }}\n{{\n"
            f"    match forest {{\n        Forest::Bare => {of['B']},\n        Forest::Radiata(region) => match region {{\n{regions}        }},\n"
            f"{others}    }}\n}}\n")


def code(four, stock, residue):
    return "\n".join([
        f"// {SOURCE}\n// The cells of Schedules 4 and 6 in tenths of a tonne per hectare, column after column, and the columns' places.\n"
        "ghost use Rattle.std.specs.Prelude.{◌≡◌};\n"
        "ghost use Rattle.schedules.specs.{Kind, place_six};\n\nuse super::Place;\nuse forest::{Forest, Region};\n",
        numbers("SCHEDULE_FOUR", cells(four)),
        numbers("SCHEDULE_SIX", cells(stock) + cells(residue)),
        constant("PLACES_FOUR", "Place", [f"    {row}," for row in places(four, 0, lambda _: " " * 4)], len(four) + 1),
        by_type("stock_place", "Stock", stock, 0),
        by_type("residue_place", "Residue", residue, len(cells(stock))),
    ])


def definition(name, title, columns):
    lines = [f"-- {title}", f"unfoldable pub {name} : List Column", f"{name} ="]
    for forest, (first, column) in zip(TYPES, columns):
        joint = "" if forest == TYPES[0] else "∷ "
        lines.append(f"    -- {forest}")
        lines.append(f"    {joint}listed {first} ({' ∷ '.join(map(str, column))} ∷ [])")
    return "\n".join(lines + ["    ∷ []", ""])


def specs(four, stock, residue):
    return "\n".join([
        f"-- {SOURCE}\n-- The columns of Schedules 4 and 6 (002, Appendix 2): the first listed age, then a cell for each age in tenths of a tonne per hectare.",
        "use Rattle.std.specs.Prelude.{◌∷◌}\nuse Rattle.laws.specs.{List, []}\nuse Rattle.schedules.specs.Columns.{Column, listed}\n",
        definition("stock4", "Schedule 4, pre-1990 forest land: carbon stock", four),
        definition("stock6", "Schedule 6, post-1989 forest land: carbon stock", stock),
        definition("residue6", "Schedule 6, post-1989 forest land: residue of cleared trees", residue),
    ])


def main():
    columns = read_sheet()
    tables = [table(columns, *t) for t in TABLES]
    made = {CRATE / "src/cells.rt": code(*tables), CRATE / "specs/Cells.antt": specs(*tables)}
    if sys.argv[1:] == ["--check"]:
        stale = [str(p.relative_to(ROOT)) for p, text in made.items() if not p.exists() or p.read_text() != text]
        if stale:
            sys.exit(f"{' and '.join(stale)}: not what the sheet gives; run tools/schedules.py")
        print(f"the default tables are the sheet's: {sum(len(c) for t in tables for _, c in t)} cells in {len(columns)} columns")
    elif not sys.argv[1:]:
        for path, text in made.items():
            path.write_text(text)
    else:
        sys.exit(__doc__)


main()
