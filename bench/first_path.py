"""Times margrave, and beside it z3, on the least source address that a standard access list permits.

    python3 bench/first_path.py PROGRAM [ENTRIES ...]

PROGRAM is the built program; the numbers of entries, from 2 to 5000, are 50, 500 and 5000 where none are given. The
lists are made here, the same in each run. Each of them denies single hosts in a shuffled order, and its last entry
permits the network 10.0.0.0/8, or the hosts .1 of it; the question is for the least permitted address of 10.0.0.0/8.

    packed   the first addresses of the network are denied, and the network permitted
    spread   addresses at equal distances over the network are denied, and the network permitted
    stepped  the hosts .1 of the first /24 networks are denied, and all of the hosts .1 permitted

Each time is the median of five runs, in milliseconds of wall time from the start of the process to its end, so that
it has the start and the reading of the files in it. The runs of margrave and z3 take turns. Each answer is checked
against the one that the list is made for. Without z3 its columns hold `-`.
"""

import argparse
import hashlib
import os
import platform
import re
import shutil
import statistics
import subprocess
import sys
import tempfile
import time
from pathlib import Path
from typing import NamedTuple

RUNS = 5
SIZES = [50, 500, 5000]
LIST = 1
NETWORK = 10 << 24
NETWORK_WILDCARD = 0x00FFFFFF
FOURTH_OCTET_FIXED = 0x00FFFF00
ALL_BITS = 0xFFFFFFFF

# A prime above the greatest number of hosts, so that its multiples visit each of them.
STRIDE = 7919


class Entry(NamedTuple):
    verdict: str
    address: int
    wildcard: int


class Case(NamedTuple):
    entries: list
    least: int


def shuffled(count):
    """The numbers below the count in an order that is the same in each run."""
    return [index * STRIDE % count for index in range(count)]


def denied_hosts(first, step, count):
    return [Entry("deny", first + number * step, 0) for number in shuffled(count)]


def packed(size):
    hosts = denied_hosts(NETWORK, 1, size - 1)
    permit = Entry("permit", NETWORK, NETWORK_WILDCARD)
    return Case(hosts + [permit], NETWORK + size - 1)


def spread(size):
    step = (NETWORK_WILDCARD + 1) // (size - 1)
    hosts = denied_hosts(NETWORK, step, size - 1)
    permit = Entry("permit", NETWORK, NETWORK_WILDCARD)
    return Case(hosts + [permit], NETWORK + 1)


def stepped(size):
    hosts = denied_hosts(NETWORK + 1, 256, size - 1)
    permit = Entry("permit", NETWORK + 1, FOURTH_OCTET_FIXED)
    return Case(hosts + [permit], NETWORK + 1 + 256 * (size - 1))


FAMILIES = [packed, spread, stepped]


def dotted(address):
    return ".".join(str(address >> shift & 255) for shift in (24, 16, 8, 0))


def source(entry):
    if entry.wildcard == 0:
        return f"host {dotted(entry.address)}"
    return f"{dotted(entry.address)} {dotted(entry.wildcard)}"


def configuration(entries):
    return "".join(f"access-list {LIST} {entry.verdict} {source(entry)}\n" for entry in entries)


def script(file):
    return (
        f'LOAD IOS "{file}" AS router;\n'
        f"EXPLORE router.acl.{LIST}:permit(<req>) AND src_in IN {dotted(NETWORK)} {dotted(NETWORK_WILDCARD)};\n"
        "SHOW ONE;\n"
    )


def matches(address, wildcard):
    """The SMT-LIB test that the source is the address but for the bits of the wildcard."""
    if wildcard == 0:
        return f"(= src #x{address:08x})"
    fixed = ALL_BITS & ~wildcard
    return f"(= (bvand src #x{fixed:08x}) #x{address & fixed:08x})"


def permitted(entries):
    """The SMT-LIB term that the first entry that matches the source permits it."""
    opened = []
    for entry in entries:
        test = matches(entry.address, entry.wildcard)
        opened.append(f"(or {test}\n" if entry.verdict == "permit" else f"(and (not {test})\n")
    return "".join(opened) + "false" + ")" * len(entries)


def least_that(*conditions):
    """The SMT-LIB question for the least source that meets the conditions."""
    asserted = "".join(f"(assert {condition})\n" for condition in conditions)
    return f"(declare-const src (_ BitVec 32))\n{asserted}(minimize src)\n(check-sat)\n(get-value (src))\n"


def ran(words, folder):
    """What the command prints, and its wall time in milliseconds."""
    start = time.perf_counter()
    done = subprocess.run(words, cwd=folder, stdout=subprocess.PIPE, text=True)
    milliseconds = (time.perf_counter() - start) * 1000
    if done.returncode != 0:
        sys.exit(f"{words[0]} ended with status {done.returncode}: {done.stdout.strip()}")
    return done.stdout, milliseconds


def ask_margrave(program, folder):
    printed, milliseconds = ran([program, "script"], folder)
    found = re.search(r"^  src_in = (\S+)$", printed, re.MULTILINE)
    return found and found[1], milliseconds


def ask_z3(z3, folder):
    printed, milliseconds = ran([z3, "question.smt2"], folder)
    found = re.search(r"#x([0-9a-f]{8})", printed)
    return found and dotted(int(found[1], 16)), milliseconds


def check(what, answer, least):
    if answer != dotted(least):
        sys.exit(f"{what}: the least source is {dotted(least)}, the answer {answer}")


def check_unsigned(z3, folder):
    """Checks that z3 takes the least bit-vector in the unsigned order, in which 127.255.255.255 is before 128.0.0.0."""
    below = 0x7FFFFFFF
    condition = f"(or {matches(below + 1, 0)} {matches(below, 0)})"
    (folder / "question.smt2").write_text(least_that(condition))
    check("z3 on two addresses", ask_z3(z3, folder)[0], below)


def write_case(case, folder):
    (folder / "list").write_text(configuration(case.entries))
    (folder / "script").write_text(script("list"))
    in_network = matches(NETWORK, NETWORK_WILDCARD)
    (folder / "question.smt2").write_text(least_that(in_network, permitted(case.entries)))


def medians(program, z3, case, folder):
    """The median times of margrave and z3; None for z3 where it is not installed."""
    ours, theirs = [], []
    for _ in range(RUNS):
        answer, milliseconds = ask_margrave(program, folder)
        check("margrave", answer, case.least)
        ours.append(milliseconds)
        if z3:
            answer, milliseconds = ask_z3(z3, folder)
            check("z3", answer, case.least)
            theirs.append(milliseconds)
    return statistics.median(ours), statistics.median(theirs) if z3 else None


def row(family, size, program, z3, folder):
    case = family(size)
    write_case(case, folder)
    ours, theirs = medians(program, z3, case, folder)
    compared = f"{theirs:.1f} | {ours / theirs:.2f}" if z3 else "- | -"
    return f"| {size} | {family.__name__} | {ours:.1f} | {compared} |"


def versions(program, z3, folder):
    digest = hashlib.sha256(Path(program).read_bytes()).hexdigest()[:12]
    solver = ran([z3, "--version"], folder)[0].strip() if z3 else "no z3"
    return (
        f"{os.cpu_count()} processors; margrave with SHA-256 {digest}..; {solver}; "
        f"Python {platform.python_version()}"
    )


def entry_count(fewest):
    """Reads the words that are numbers of entries, from the fewest to 5000."""

    def read(word):
        if word.isdecimal() and fewest <= int(word) <= 5000:
            return int(word)
        raise argparse.ArgumentTypeError(f"{word} is not from {fewest} to 5000")

    return read


def arguments(description, sizes, fewest):
    parser = argparse.ArgumentParser(description=description, formatter_class=argparse.RawDescriptionHelpFormatter)
    parser.add_argument("program", metavar="PROGRAM")
    parser.add_argument("sizes", metavar="ENTRIES", nargs="*", type=entry_count(fewest), default=sizes)
    return parser.parse_args()


def main():
    given = arguments(__doc__, SIZES, 2)
    program = str(Path(given.program).resolve())
    z3 = shutil.which("z3")
    with tempfile.TemporaryDirectory() as name:
        folder = Path(name)
        if z3:
            check_unsigned(z3, folder)
        print("| entries | family | margrave (ms) | z3 (ms) | margrave/z3 |")
        print("| ---: | --- | ---: | ---: | ---: |")
        for family in FAMILIES:
            for entries in given.sizes:
                print(row(family, entries, program, z3, folder), flush=True)
        print()
        print(versions(program, z3, folder))


if __name__ == "__main__":
    main()
