#!/usr/bin/env python3
"""Refuses memory, reads and writes in every place of each stored run and example, and prints a line for each case.

    python3 faults/run.py [NAME ...]

NAME is a folder of examples/, or `stored` for the stored run of the program; all of them where none is given. The
program is built first where it has to be. Each case is one run of the real program, in which one call of the C library
is refused; `refuse.c` stands before the library for that. What has to come:

    alloc   the Nth allocation: status 5, and a front of the text; or status 0 and all of it, where the run gets on
            without that allocation
    open    the Nth file: status 3, the texts of the statements before its LOAD, and the line that names it
    read    the Nth read: the same, for the file that is being read
    write   the Nth write: status 4, and a front of the text; so for a full device, and a reader that is gone
    short   each read and write moves one byte at most: status 0, and the whole text

Behind the run the program reads the files again, for what it says on standard error. Where one of these calls is refused, the
status is 0, and the text whole.
"""

import os
import re
import subprocess
import sys
import tempfile
from pathlib import Path
from typing import NamedTuple

TOP = Path(__file__).resolve().parent.parent
STORED = TOP / "crates" / "margrave_cli"
PROGRAM = STORED / "out" / "margrave_cli"

# How many bytes of a file the program asks for at a time.
PIECE = 4096


class Run(NamedTuple):
    status: int
    text: bytes
    counts: dict


class Case(NamedTuple):
    name: str
    folder: Path
    script: str
    text: bytes


class Refuser:
    """Runs the program with one call refused."""

    def __init__(self, scratch):
        self.library = scratch / "refuse.so"
        self.counts = scratch / "counts"
        source = Path(__file__).with_name("refuse.c")
        subprocess.run(["cc", "-shared", "-fPIC", "-O1", "-o", self.library, source, "-ldl"], check=True)

    def run(self, case, out=subprocess.PIPE, **refused):
        self.counts.unlink(missing_ok=True)
        given = {"LD_PRELOAD": str(self.library), "COUNTS": str(self.counts), **refused}
        done = subprocess.run([PROGRAM, case.script], cwd=case.folder, env={**os.environ, **given}, stdin=subprocess.DEVNULL, stdout=out, stderr=subprocess.DEVNULL)
        lines = self.counts.read_text().splitlines() if self.counts.exists() else []
        return Run(done.returncode, done.stdout or b"", {kind: int(count) for kind, count in map(str.split, lines)})


def cases(names):
    stored = Case("stored", STORED / "data", (STORED / "args").read_text().strip(), (STORED / "stdout").read_bytes())
    examples = [
        Case(folder.name, TOP, str(script.relative_to(TOP)), (folder / "expected").read_bytes())
        for folder in sorted((TOP / "examples").iterdir())
        if folder.is_dir()
        for script in folder.glob("*.margrave")
    ]
    return [case for case in [stored, *examples] if not names or case.name in names]


def loaded_files(case):
    """The files that the script loads, each with what is written before its turn."""
    script = (case.folder / case.script).read_text()
    files = [line.split('"')[1] for line in script.splitlines() if line.startswith("LOAD ")]
    starts = [match.start() for match in re.finditer(rb"^loaded ", case.text, re.MULTILINE)]
    return [(case.script, b"")] + [(file, case.text[:start]) for file, start in zip(files, starts)]


class Judge:
    """Prints a line for each case, and counts those that went wrong."""

    def __init__(self):
        self.passed = 0
        self.failed = 0

    def line(self, case, what, run, is_right):
        self.passed += is_right
        self.failed += not is_right
        verdict = "as promised" if is_right else "WRONG"
        print(f"{case.name}: {what}: status {run.status}, {len(run.text)} of {len(case.text)} bytes: {verdict}")


def refuse_memory(case, refuser, judge, count):
    for at in range(1, count + 1):
        run = refuser.run(case, REFUSE="alloc", AT=str(at))
        is_front = run.status == 5 and case.text.startswith(run.text)
        is_whole = run.status == 0 and case.text == run.text
        judge.line(case, f"alloc {at} of {count}", run, is_front or is_whole)


def calls_of(kind, case, name):
    """How many calls of this kind the run takes for a file: it is opened once, and read by pieces until one is empty."""
    return 1 if kind == "open" else -(-(case.folder / name).stat().st_size // PIECE) + 1


def refuse_reads(case, refuser, judge, kind, count):
    files = [file for file in loaded_files(case) for _ in range(calls_of(kind, case, file[0]))]
    for at in range(1, count + 1):
        run = refuser.run(case, REFUSE=kind, AT=str(at))
        if at > len(files):
            judge.line(case, f"{kind} {at} of {count}, behind the run", run, run.status == 0 and run.text == case.text)
            continue
        name, before = files[at - 1]
        wanted = before + f"read fault: {name}\n".encode()
        judge.line(case, f"{kind} {at} of {count}, {name}", run, run.status == 3 and run.text == wanted)


def refuse_writes(case, refuser, judge, count):
    for at in range(1, count + 1):
        run = refuser.run(case, REFUSE="write", AT=str(at))
        judge.line(case, f"write {at} of {count}", run, run.status == 4 and case.text.startswith(run.text))
    with open("/dev/full", "wb") as full:
        run = refuser.run(case, out=full)
    judge.line(case, "a full device", run, run.status == 4)
    reader, writer = os.pipe()
    os.close(reader)
    run = refuser.run(case, out=writer)
    os.close(writer)
    judge.line(case, "a reader that is gone", run, run.status == 4)


def check(case, refuser, judge):
    whole = refuser.run(case)
    judge.line(case, "nothing refused", whole, whole.status == 0 and whole.text == case.text)
    refuse_memory(case, refuser, judge, whole.counts["alloc"])
    refuse_reads(case, refuser, judge, "open", whole.counts["open"])
    refuse_reads(case, refuser, judge, "read", whole.counts["read"])
    refuse_writes(case, refuser, judge, whole.counts["write"])
    short = refuser.run(case, SHORT="1")
    judge.line(case, "short reads and writes", short, short.status == 0 and short.text == case.text)


def main():
    # The launcher builds the program where it has to.
    subprocess.run([TOP / "margrave", "-x"], stdout=subprocess.DEVNULL)
    judge = Judge()
    with tempfile.TemporaryDirectory() as scratch:
        refuser = Refuser(Path(scratch))
        for case in cases(sys.argv[1:]):
            check(case, refuser, judge)
    print(f"faults: {judge.passed} passed, {judge.failed} failed")
    return 1 if judge.failed else 0


if __name__ == "__main__":
    sys.exit(main())
