"""Times margrave, and beside it z3, on the least packet that an extended access list permits.

    python3 bench/extended.py PROGRAM [ENTRIES ...]

PROGRAM is the built program; the numbers of entries, from 1 to 5000, are 50, 200 and 500 where none are given. The lists
are made here, the same in each run: line k is

    access-list 101 permit|deny tcp 10.A.B.0 0.0.0.255 any eq P

with A, B, P and the verdict from the k-th number of a linear congruential generator that begins at the seed. The
question is for the least packet that the list permits: the least source, of these the least destination, and so on in
the order of the fields. Each time is the median of five runs in milliseconds of wall time from the start of the process
to its end. The runs of margrave and z3 take turns, and their answers are compared. Without z3 its columns hold `-`.
"""

import re
import shutil
import statistics
import sys
import tempfile
from pathlib import Path
from typing import NamedTuple

from first_path import RUNS, arguments, dotted, matches, ran, versions

SIZES = [50, 200, 500]
SEEDS = [0, 1]
LIST = 101
TCP = 6
HOSTS = 0x000000FF

# The fields of a packet in order, and their bits.
FIELDS = [
    ("src_in", 32),
    ("dst_in", 32),
    ("sport_in", 16),
    ("dport_in", 16),
    ("proto", 8),
    ("flags", 6),
    ("icmp_type", 8),
    ("icmp_code", 8),
]


class Entry(NamedTuple):
    verdict: str
    network: int
    port: int


def generated(count, seed):
    """The entries of a list that the generator makes from the seed."""
    entries = []
    number = seed
    for _ in range(count):
        number = (number * 1103515245 + 12345) % 2**31
        verdict = "deny" if number // 16777216 % 4 == 0 else "permit"
        network = (10 << 24) + (number // 65536 % 256 << 16) + (number // 256 % 256 << 8)
        entries.append(Entry(verdict, network, number % 1024))
    return entries


def configuration(entries):
    lines = []
    for entry in entries:
        source = f"{dotted(entry.network)} {dotted(HOSTS)}"
        lines.append(f"access-list {LIST} {entry.verdict} tcp {source} any eq {entry.port}\n")
    return "".join(lines)


SCRIPT = f'LOAD IOS "list" AS router;\nEXPLORE router.acl.{LIST}:permit(<req>);\nSHOW ONE;\n'


def matched(entry):
    """The SMT-LIB test that the entry matches the packet."""
    source = matches(entry.network, HOSTS).replace("src", "src_in")
    return f"(and (= proto #x{TCP:02x}) {source} (= dport_in #x{entry.port:04x}))"


def question(entries):
    """The SMT-LIB question for the least packet that the first matching entry permits."""
    declared = "".join(f"(declare-const {name} (_ BitVec {bits}))\n" for name, bits in FIELDS)
    opened = "".join(
        f"(ite {matched(entry)} {'true' if entry.verdict == 'permit' else 'false'}\n" for entry in entries
    )
    least = "".join(f"(minimize {name})\n" for name, _ in FIELDS)
    names = " ".join(name for name, _ in FIELDS)
    return f"{declared}(assert {opened}false{')' * len(entries)})\n{least}(check-sat)\n(get-value ({names}))\n"


def number_of(text):
    if "." in text:
        return sum(int(part) << shift for part, shift in zip(text.split("."), (24, 16, 8, 0)))
    return int(text)


def ask_margrave(program, folder):
    printed, milliseconds = ran([program, "script"], folder)
    values = dict(re.findall(r"^  (\w+) = (\S+)$", printed, re.MULTILINE))
    return [number_of(values[name]) for name, _ in FIELDS if name in values], milliseconds


def ask_z3(z3, folder):
    printed, milliseconds = ran([z3, "question.smt2"], folder)
    values = {}
    for name, base, digits in re.findall(r"\((\w+) #([xb])([0-9a-f]+)\)", printed):
        values[name] = int(digits, 16 if base == "x" else 2)
    return [values[name] for name, _ in FIELDS if name in values], milliseconds


def row(size, seed, program, z3, folder):
    entries = generated(size, seed)
    (folder / "list").write_text(configuration(entries))
    (folder / "script").write_text(SCRIPT)
    (folder / "question.smt2").write_text(question(entries))
    ours, theirs = [], []
    for _ in range(RUNS):
        answer, milliseconds = ask_margrave(program, folder)
        ours.append(milliseconds)
        if z3:
            other, milliseconds = ask_z3(z3, folder)
            theirs.append(milliseconds)
            if answer != other:
                sys.exit(f"{size} entries of seed {seed}: margrave answers {answer}, z3 {other}")
    mine = statistics.median(ours)
    compared = f"{statistics.median(theirs):.1f} | {mine / statistics.median(theirs):.2f}" if z3 else "- | -"
    return f"| {size} | {seed} | {mine:.1f} | {compared} |"


def main():
    given = arguments(__doc__, SIZES, 1)
    program = str(Path(given.program).resolve())
    z3 = shutil.which("z3")
    with tempfile.TemporaryDirectory() as name:
        folder = Path(name)
        print("| entries | seed | margrave (ms) | z3 (ms) | margrave/z3 |")
        print("| ---: | ---: | ---: | ---: | ---: |")
        for seed in SEEDS:
            for size in given.sizes:
                print(row(size, seed, program, z3, folder), flush=True)
        print()
        print(versions(program, z3, folder))


if __name__ == "__main__":
    main()
