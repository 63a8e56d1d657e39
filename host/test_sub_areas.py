"""Areas of many sub-areas in the programs: up to the limit each takes them, and the next one is 26.

  python3 host/test_sub_areas.py FIELD_UNIT BOOK_PROGRAM SHEET_PROGRAM

For each count of sub-areas the same area comes to `book` and `sheet` as a book, and to the field unit as lines, as a sheet
and as a statement in its file. Sub-area n has n hectares, so that a return tells whether each is counted.
"""

import pathlib
import subprocess
import sys
import tempfile

from header import MOST_SUBS

# Document 01's limit and one more, up to the present limit, and past it.
COUNTS = [16, 17, MOST_SUBS - 1, MOST_SUBS, MOST_SUBS + 1]
# Ten tonnes a hectare at three years, and four and a half at two.
COLUMN = "T,G,D,0,1,4.5,10,20"
IN_MEMORY = pathlib.Path("/dev/shm")


def expect(found, due, of):
    if found != due:
        sys.exit(f"test_sub_areas: {found!r} of {of}, where {due!r} is due")


def text_of(lines, end="\n"):
    return "".join(line + end for line in lines)


def rows_of(count):
    return [f"7,{sub},{sub},D,2008" for sub in range(1, count + 1)]


def book_of(count):
    return [COLUMN, "A,7,2010"] + [f"S,{row}" for row in rows_of(count)] + ["R,7,2010"]


def hectares_of(count):
    return count * (count + 1) // 2


def return_of(count):
    tonnes = (5500 * hectares_of(count) + 500) // 1000
    return f"R,7,2010,2010,{tonnes},{tonnes},0,{tonnes}", f"F,{tonnes},0,{tonnes}"


def statement_of(count):
    """Before the return."""
    subs = [f"S,{sub},{10 * sub},D,2008,B,0,0" for sub in range(1, count + 1)]
    return text_of(["H,1", f"A,7,2010,2010,0,0,0,{4500 * hectares_of(count)},0,0,{count}"] + subs)


def run(program, words=(), given="", folder=None):
    ended = subprocess.run([program, *words], input=given.encode(), capture_output=True, cwd=folder)
    return ended.returncode, ended.stdout.decode()


def check_book(program, count):
    taken = min(count, MOST_SUBS)
    refused = count - taken
    filed, foot = return_of(taken)
    listing = [f"X,{3 + MOST_SUBS},26"] * refused + [filed, foot, f"E,{3 + taken},{refused}"]
    expect(run(program, given=text_of(book_of(count)))[1], text_of(listing), f"`book` on {count} sub-areas")


def check_sheet(program, count):
    rows = ["area,sub,hectares,type,planted"] + rows_of(min(count, MOST_SUBS))
    quoted = [",".join(f'"{field}"' for field in row.split(",")) for row in rows]
    expect(run(program, given=text_of(book_of(count)))[1], text_of(quoted, "\r\n"), f"`sheet` on {count} sub-areas")


class Unit:
    """A field unit, and the folder that its files stand in."""

    def __init__(self, program, folder):
        self.program, self.folder = program, folder
        self.statement, self.sheet = folder / "statement", folder / "sheet.csv"

    def opened(self):
        for file in self.folder.iterdir():
            file.unlink()
        self.run(["statement", "table"], text_of([COLUMN, "A,7,2010"]))

    def run(self, words, given=""):
        return run(self.program, words, given, self.folder)

    def check_lines(self, count):
        taken = min(count, MOST_SUBS)
        refused = [f"{MOST_SUBS + 1}: refused (26): forty-eight sub-areas stand"] * (count - taken)
        answers = [f"{number}: taken" for number in range(1, taken + 1)] + refused
        self.opened()
        status, printed = self.run(["statement", "table"], text_of(f"S,{row}" for row in rows_of(count)))
        expect((status, printed), (len(refused), text_of(answers)), f"{count} lines")
        expect(self.statement.read_text(), statement_of(taken), f"the file after {count} lines")
        expect(self.run(["statement", "table"], "R,7,2010")[1], f"1: {return_of(taken)[0]}\n", f"{count} lines, and a return")
        expect(self.run(["--foot", "statement"])[1], return_of(taken)[1] + "\n", f"{count} lines, and a return")

    def import_rows(self, rows):
        self.sheet.write_text(text_of(["area,sub,hectares,type,planted"] + rows, "\r\n"), newline="")
        return self.run(["--sheet", "sheet.csv", "statement", "table"])

    def check_sheet(self, count):
        self.opened()
        ended = self.import_rows(rows_of(count))
        if count <= MOST_SUBS:
            expect(ended, (0, "sheet.csv: taken\n"), f"a sheet of {count} rows")
            expect(self.statement.read_text(), statement_of(count), f"the file after a sheet of {count} rows")
        else:
            expect(ended, (1, "sheet.csv: refused (26): forty-eight sub-areas stand\n"), f"a sheet of {count} rows")
            expect(self.statement.read_text(), statement_of(0), f"the file after a sheet of {count} rows")

    def check_statement(self, count):
        """The file is read as it stands, and the heading of a sheet alone leaves it byte for byte."""
        self.opened()
        self.statement.write_text(statement_of(count))
        read = count <= MOST_SUBS
        expect(self.run(["--foot", "statement"]), (0, "F,0,0,0\n") if read else (1, ""), f"the foot of {count} sub-areas")
        said = "taken" if read else "refused (11): the statement file is damaged"
        expect(self.import_rows([]), (0 if read else 1, f"sheet.csv: {said}\n"), f"a file of {count} sub-areas")
        expect(self.statement.read_text(), statement_of(count), f"the file of {count} sub-areas, read and written")


def main(unit_program, book_program, sheet_program):
    unit_program, book_program, sheet_program = (
        str(pathlib.Path(path).resolve()) for path in [unit_program, book_program, sheet_program]
    )
    with tempfile.TemporaryDirectory(dir=IN_MEMORY if IN_MEMORY.is_dir() else None) as folder:
        unit = Unit(unit_program, pathlib.Path(folder))
        for count in COUNTS:
            check_book(book_program, count)
            check_sheet(sheet_program, count)
            unit.check_lines(count)
            unit.check_sheet(count)
            unit.check_statement(count)
    print(f"the programs take areas of {', '.join(map(str, COUNTS[:-1]))} sub-areas, and not of {COUNTS[-1]}")


main(*sys.argv[1:])
