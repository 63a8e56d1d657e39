"""Sheets between the field unit, the program `sheet` and python3's csv module, which stands for a map office's programs.

  python3 host/test_sheets.py FIELD_UNIT SHEET_PROGRAM

Sheets that csv writes are imported, and leave the files that the same S lines leave. Exports are read by csv as the rows
of the book's accepted S lines, and imported back onto its A lines they leave what its A and S lines leave.
"""

import csv
import io
import pathlib
import subprocess
import sys
import tempfile

from header import MOST_AREAS, MOST_SUBS

NAMES = ["statement", "table"]
NONE_YET = {"statement": b"H,0\n", "table": b""}
HEADING = ["area", "sub", "hectares", "type", "planted"]
TYPES = ["P1", "P9", "D", "S", "H", "N"]
COLUMNS = ["T,G,D,0,1,4.5,10,20", "T,R,D,0,0.5,2,5,8"]
QUOTINGS = [csv.QUOTE_MINIMAL, csv.QUOTE_ALL]
PRINTED_CASE = pathlib.Path(__file__).resolve().parent.parent / "crates/book/stdin"
# Thousands of syncs are made, and cost nothing here.
IN_MEMORY = pathlib.Path("/dev/shm")


def expect(holds, words):
    if not holds:
        sys.exit(f"test_sheets: {words}")


class Unit:
    """A field unit, and the folder that its files stand in."""

    def __init__(self, program, folder):
        self.program, self.folder = program, folder

    def run(self, words, lines=()):
        given = "".join(line + "\n" for line in lines).encode()
        return subprocess.run([self.program, *words], cwd=self.folder, input=given, capture_output=True)

    def started(self, lines):
        """Takes lines from an empty holding: those that were taken."""
        for name in NAMES:
            (self.folder / name).unlink(missing_ok=True)
        answers = self.run(NAMES, lines).stdout.decode().splitlines()
        expect(len(answers) == len(lines), f"{len(answers)} answers to {len(lines)} lines")
        return [line for line, answer in zip(lines, answers) if ": refused" not in answer]

    def kept(self):
        files = {name: self.folder / name for name in NAMES}
        return {name: file.read_bytes() if file.exists() else NONE_YET[name] for name, file in files.items()}

    def kept_after(self, lines):
        taken = self.started(lines)
        expect(taken == lines, f"of {lines} only {taken} are taken")
        return self.kept()

    def takes(self, sheet):
        (self.folder / "sheet.csv").write_bytes(sheet)
        ended = self.run(["--sheet", "sheet.csv", *NAMES])
        expect(ended.returncode == 0 and ended.stdout == b"sheet.csv: taken\n", f"{ended} of {sheet}")

    def refuses(self, sheet, number):
        before = self.kept()
        (self.folder / "sheet.csv").write_bytes(sheet)
        ended = self.run(["--sheet", "sheet.csv", *NAMES])
        refused = ended.stdout.startswith(f"sheet.csv: refused ({number}): ".encode())
        expect(ended.returncode == 1 and refused, f"{ended} of {sheet}, where {number} is due")
        expect(self.kept() == before, f"the refused {sheet} changed {before}")


def written(rows, quoting, end="\r\n"):
    text = io.StringIO(newline="")
    csv.writer(text, quoting=quoting, lineterminator=end).writerows(rows)
    return text.getvalue().encode()


def read(sheet):
    return list(csv.reader(io.StringIO(sheet.decode(), newline=""), strict=True))


def rows_of(areas, subs):
    """Rows that go round the areas."""
    for sub in range(1, subs + 1):
        for area in range(1, areas + 1):
            forest = TYPES[(area + sub) % len(TYPES)]
            standing = ["B", "0"] if sub % 5 == 0 else [forest, str(1960 + sub)]
            yield [str(area), str(sub), f"{area + sub}.{83 * sub:04}", *standing]


def line_of(row):
    return ",".join(["S", *row])


def check_imports(unit):
    """Sheets of csv's, with a participant's table and without one."""
    count = 0
    for columns in [[], COLUMNS]:
        for areas, subs in [(1, 0), (1, 1), (2, 3), (16, 16), (2, 17), (2, MOST_SUBS - 1), (MOST_AREAS, MOST_SUBS)]:
            opened = columns + [f"A,{area},{2008 + area}" for area in range(1, areas + 1)]
            rows = list(rows_of(areas, subs))
            expected = unit.kept_after(opened + [line_of(row) for row in rows])
            for quoting in QUOTINGS:
                sheet = written([HEADING, *rows], quoting)
                for ended in [sheet, sheet.removesuffix(b"\r\n")]:
                    unit.started(opened)
                    unit.takes(ended)
                    expect(unit.kept() == expected, f"{ended} leaves {unit.kept()}")
                    count += 1
    return count


def check_refused(unit):
    """Fields that csv must quote are no fields of an S line, and csv's other dialects are no sheet."""
    row = ["1", "1", "1", "B", "0"]
    unit.started(["A,1,2010"])
    for quoting in QUOTINGS:
        for place, name in enumerate(HEADING):
            for odd, number in [("1,5", 1), ("1\n", 1), ("1\r\n", 1), ('1"', 3), ("1\r", 3)]:
                due = number if name == "type" else 1
                unit.refuses(written([HEADING, row[:place] + [odd] + row[place + 1 :]], quoting), due)
        unit.refuses(written([HEADING, row], quoting, end="\n"), 41)
        unit.refuses(written([HEADING, row, row[:4]], quoting), 42)
        unit.refuses(written([row], quoting), 42)
        unit.refuses(written([HEADING, row, row], quoting), 25)
    unit.refuses("\ufeff".encode() + written([HEADING, row], csv.QUOTE_MINIMAL), 42)
    many = [["1", str(1 + number % 99), "1", "B", "0"] for number in range(100_000)]
    unit.refuses(written([HEADING, *many], csv.QUOTE_MINIMAL), 26)


def books():
    yield []
    yield PRINTED_CASE.read_text().splitlines()
    yield ["A,7,2010", "S,7,1,1.50,B,0", "S,7,1,2,B,0", "S,8,1,1,B,0", "S,7,2,01,B,0", "A,8,2010", "S,8,1,1,B,0", "W,8"]
    subs = [line_of(row) for row in rows_of(MOST_AREAS, MOST_SUBS + 1)]
    opened = [f"A,{area},{2008 + area}" for area in range(1, MOST_AREAS + 2)]
    yield COLUMNS + opened + subs + ["R,3,2020", "W,3", "C,1,1,2020"]


def check_export(unit, program, lines):
    """How many rows the export of the book has."""
    book = "".join(line + "\n" for line in lines).encode()
    sheet = subprocess.run([program], input=book, capture_output=True, check=True).stdout
    taken = unit.started(lines)
    subs = [line for line in taken if line.startswith("S,")]
    rows = read(sheet)
    expect(rows == [HEADING] + [line.split(",")[1:] for line in subs], f"{sheet} of {book}")
    expect(sheet == written(rows, csv.QUOTE_ALL), f"{sheet} is not as csv writes it, each field quoted")
    columns, opened = ([line for line in taken if line.startswith(letter)] for letter in ["T,", "A,"])
    expected = unit.kept_after(columns + opened + subs)
    unit.started(columns + opened)
    unit.takes(sheet)
    expect(unit.kept() == expected, f"{sheet} imported leaves {unit.kept()}")
    return len(subs)


def check_oversized(program):
    for length, printed in [(65536, b'"area",'), (65537, b"X,0,1\n")]:
        ended = subprocess.run([program], input=b"\n" * length, capture_output=True, check=True)
        expect(ended.stdout.startswith(printed), f"a book of {length} bytes gives {ended.stdout}")


def main(unit_program, sheet_program):
    unit_program, sheet_program = (str(pathlib.Path(path).resolve()) for path in [unit_program, sheet_program])
    with tempfile.TemporaryDirectory(dir=IN_MEMORY if IN_MEMORY.is_dir() else None) as folder:
        unit = Unit(unit_program, pathlib.Path(folder))
        imports = check_imports(unit)
        check_refused(unit)
        rows = sum(check_export(unit, sheet_program, lines) for lines in books())
    check_oversized(sheet_program)
    print(f"python's csv wrote {imports} sheets that were imported, and read back {rows} rows that were exported")


main(*sys.argv[1:])
