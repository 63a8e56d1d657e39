"""Kills a field unit before and after every system call that it makes, and looks at what it kept.

  python3 host/test_killed.py FIELD_UNIT KILL_AT

The files must be those after the lines that were answered, or after one line more, and a next sitting must go on from there;
of a sheet, those before all its rows or after them.
A kill leaves what was written, and a loss of power only what was synced. So the order of calls is held too: the bytes
written and synced, then the rename, then the folder synced, and then the answer.
"""

import itertools
import pathlib
import subprocess
import sys
import tempfile

from header import MOST_AREAS, MOST_SUBS

KILLED = 137
UNWATCHED = 125
NAMES = ["statement", "table"]
# Thousands of syncs are made, and cost nothing here.
IN_MEMORY = pathlib.Path("/dev/shm")
PRINTED_CASE = pathlib.Path(__file__).resolve().parent.parent / "crates/book/stdin"


def expect(holds, words):
    if not holds:
        sys.exit(f"test_killed: {words}")


def once(calls):
    """A call that is made several times on end, once."""
    return [call for call, _ in itertools.groupby(calls)]


class Unit:
    """A field unit, and the folder that its two files stand in."""

    def __init__(self, program, killer, folder):
        self.program, self.killer, self.folder = program, killer, folder

    def put(self, files):
        for file in self.folder.iterdir():
            file.unlink()
        for name, content in files.items():
            (self.folder / name).write_bytes(content)

    def files(self):
        return {file.name: file.read_bytes() for file in self.folder.iterdir()}

    def kept(self):
        return {name: content for name, content in self.files().items() if name in NAMES}

    def sit(self, lines, stop=None, inside=True, before=()):
        """A sitting with these lines, killed at a stop if one is given: its status, answers and calls."""
        words = [self.program] if stop is None else [self.killer, str(stop), self.program]
        words += before
        words += NAMES if inside else [f"{self.folder.name}/{name}" for name in NAMES]
        ended = subprocess.run(
            words, cwd=self.folder if inside else self.folder.parent, input=b"".join(lines), capture_output=True
        )
        calls = ended.stderr.decode().splitlines()
        expect(ended.returncode != UNWATCHED, " ".join(calls))
        answers = [line.split(b": ", 1)[1] for line in ended.stdout.splitlines(keepends=True)]
        return ended.returncode, answers, calls


class Case:
    """Lines, the files before them and after each, and the answers: a sitting for each line, not killed."""

    def __init__(self, unit, first, lines):
        self.unit, self.lines, self.states, self.answers, self.tried = unit, lines, [], [], []
        unit.put({})
        unit.sit(first)
        self.states.append(unit.kept())
        for line in lines:
            self.answers += unit.sit([line])[1]
            self.states.append(unit.kept())

    def check_calls(self, inside):
        expected = []
        for line, answer in zip(self.lines, self.answers):
            name = "table.new" if line.startswith(b"T") else "statement.new"
            if not answer.startswith(b"refused"):
                expected += [f"write {name}", f"fsync {name}", "rename", f"fsync {self.unit.folder.name}"]
            expected.append("write standard output")
        self.unit.put(self.states[0])
        calls = self.unit.sit(self.lines, 0, inside)[2]
        for number, (call, due) in enumerate(itertools.zip_longest(once(calls), once(expected)), 1):
            expect(call == due, f"call {number} is `{call}` and not `{due}`")

    def check_killed(self, stop):
        """Whether there was such a stop."""
        self.unit.put(self.states[0])
        status, answers, _ = self.unit.sit(self.lines, stop)
        answered, kept = len(answers), self.unit.kept()
        at = f"killed at stop {stop}, with {answered} of {len(self.lines)} lines answered:"
        expect(answers == self.answers[:answered], f"{at} the answers are {answers}")
        expect(kept in self.states[answered : answered + 2], f"{at} {kept} is kept")
        self.check_next(self.states.index(kept, answered), f"{at} in the next sitting")
        return status == KILLED

    def check_next(self, lasting, then):
        """A sitting with the lines that are left, on the files as they are left; where these are new."""
        files = self.unit.files()
        if files in self.tried:
            return
        self.tried.append(files)
        _, answers, _ = self.unit.sit(self.lines[lasting:])
        expect(answers == self.answers[lasting:], f"{then} the answers are {answers}")
        files = self.unit.files()
        expect(files == self.states[-1], f"{then} {files} is kept")

    def check(self):
        """The number of stops that it was killed at."""
        self.check_calls(inside=True)
        self.check_calls(inside=False)
        return next(stop for stop in itertools.count(1) if not self.check_killed(stop)) - 1


class Sheet:
    """A sheet, and the files before and after it."""

    def __init__(self, unit, first, rows):
        self.unit, self.path = unit, unit.folder.parent / "sheet.csv"
        self.path.write_bytes(b"area,sub,hectares,type,planted\r\n" + b"".join(row + b"\r\n" for row in rows))
        unit.put({})
        unit.sit(first)
        self.before = unit.kept()
        self.answers = self.sit()[1]
        self.after = unit.kept()

    def sit(self, stop=None):
        return self.unit.sit([], stop, before=["--sheet", self.path])

    def check_calls(self):
        self.unit.put(self.before)
        calls = once(self.sit(0)[2])
        kept = ["write statement.new", "fsync statement.new", "rename", f"fsync {self.unit.folder.name}"]
        expect(calls == kept + ["write standard output"], f"the calls of a sheet are {calls}")

    def check_killed(self, stop):
        """Whether there was such a stop."""
        self.unit.put(self.before)
        status, answers, _ = self.sit(stop)
        kept = self.unit.kept()
        whole = kept == self.after or (not answers and kept == self.before)
        expect(whole, f"a sheet killed at stop {stop}, with the answers {answers}: {kept} is kept")
        return status == KILLED

    def check(self):
        """The number of stops that it was killed at."""
        expect(self.answers == [b"taken\n"] and self.after != self.before, f"the sheet is {self.answers}")
        self.check_calls()
        return next(stop for stop in itertools.count(1) if not self.check_killed(stop)) - 1


def all_areas():
    return [f"A,{area},2008\n".encode() for area in range(1, MOST_AREAS + 1)]


def all_sub_areas():
    """With them, a statement of more bytes than one call writes."""
    places = itertools.product(range(1, MOST_AREAS + 1), range(1, MOST_SUBS + 1))
    return [f"{area},{sub},{10 + sub}.{area % 10},P{1 + sub % 9},{1960 + sub}".encode() for area, sub in places]


def main(program, killer):
    with tempfile.TemporaryDirectory(dir=IN_MEMORY if IN_MEMORY.is_dir() else None) as above:
        folder = pathlib.Path(above, "kept")
        folder.mkdir()
        unit = Unit(str(pathlib.Path(program).resolve()), str(pathlib.Path(killer).resolve()), folder)
        stops = Case(unit, [], PRINTED_CASE.read_bytes().splitlines(keepends=True)).check()
        rows = all_sub_areas()
        lines = [b"S," + row + b"\n" for row in rows]
        stops += Case(unit, all_areas() + lines, [b"R,7,2010\n", b"W,16\n"]).check()
        stops += Sheet(unit, all_areas(), rows).check()
    print(f"the field unit was killed at {stops} stops and kept what it had answered")


main(*sys.argv[1:])
