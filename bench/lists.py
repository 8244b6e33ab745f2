"""Times margrave on one list and margrave_sat on two, and beside them z3 on the same questions.

    python3 bench/lists.py PROGRAM SAT [--entries N,N] [--families A,B] [--questions A,B] [--seconds S] [--plain]

PROGRAM is the built `margrave`, SAT the built `margrave_sat`. The lists are made here, the same in each run, with 1,000 and
5,000 entries where no numbers are given. The families are those of bench/first_path.py (`packed`, `spread`, `stepped`),
bench/extended.py (`generated`) and bench/search.py (`overlap`, and `alternating` of 43 lines), and two more:

    random     permit|deny tcp with a source prefix, a destination prefix and a port of its own in each line
    unsettled  100 lines, in turn a host as source and a host as destination, each with a port of its own, asked for a range of
               other ports: no bit of a port is given

The questions:

    least   the least packet that the list permits and the family asks for, by `margrave`; z3 is asked for the least one too,
            or with --plain for any one
    differ  `SAT lists differ`: the list, and the list with the other verdict in one entry that decides a packet: some packet
    same    `SAT lists differ`: the list, and the same turned round as far as it decides the same: no packet
    widen   `SAT lists widen`: the list without some denying entries, and the turned one without some permitting ones: no packet

Turned round means: each entry stands before those that stood before it, but behind those among them that have a packet in
common with it and the other verdict. Each time is the median of five runs, or of as many as begin within two seconds; runs of
margrave and z3 take turns. It is wall time in seconds, from the start of the process to its end; a process has S seconds of
processor time (60) and 4 GB. Memory is the most that the process held, in megabytes, but not less than what this script
takes, some 20. The last column names the targets that
are missed: a ratio of 0.5, or 1 for `unsettled`, and 1,000 MB. Answers of both are compared, and each packet of margrave is
tried on the lists. Without z3 its columns hold `-`.
"""

import argparse
import heapq
import random
import re
import resource
import shutil
import statistics
import sys
import tempfile
import time
from pathlib import Path
from typing import NamedTuple

import extended
import first_path
import sat
import search
from extended import FIELDS, number_of
from first_path import ALL_BITS, RUNS, dotted, versions

SIZES = [1000, 5000]
SHORT = 2.0
MOST_MEMORY = 4 << 30
TARGET_MEMORY = 1000
TARGETS = {"unsettled": 1.0}
TARGET = 0.5
QUESTIONS = ["least", "differ", "same", "widen"]
PROTOCOLS = {"tcp": 6, "udp": 17, "ip": None}
ANY = (0, ALL_BITS)
PORTS = (0, 65535)


class Entry(NamedTuple):
    """An entry as it is read back from its line, so that z3 and this script judge what margrave reads."""

    line: str
    permits: bool
    protocol: object
    source: tuple
    target: tuple
    ports: tuple


class Family(NamedTuple):
    entries: list
    tests: str


class Ran(NamedTuple):
    answer: object
    seconds: float
    memory: float
    ended: str


def read_address(words):
    word = words.pop(0)
    if word == "any":
        return ANY
    if word == "host":
        return number_of(words.pop(0)), 0
    return number_of(word), number_of(words.pop(0))


def read_entry(line):
    words = line.split()
    standard, permits = int(words[1]) < 100, words[2] == "permit"
    words = words[3:]
    if standard:
        return Entry(line, permits, None, read_address(words), ANY, PORTS)
    protocol = PROTOCOLS[words.pop(0)]
    source, target = read_address(words), read_address(words)
    ports = PORTS
    if words:
        numbers = [int(word) for word in words[1:]]
        ports = numbers[0], numbers[-1]
    return Entry(line, permits, protocol, source, target, ports)


def with_verdict(entry, permits):
    word = "permit" if permits else "deny"
    return read_entry(re.sub("permit|deny", word, entry.line, count=1))


def family_of(text, tests=""):
    return Family([read_entry(line) for line in text.splitlines()], tests)


def standard(make):
    def family(size):
        tests = f" AND src_in IN {dotted(first_path.NETWORK)} {dotted(first_path.NETWORK_WILDCARD)}"
        return family_of(first_path.configuration(make(size).entries), tests)

    return family


def prefix(draw):
    length = draw.randint(8, 32)
    return f"{search.network(draw.getrandbits(24), length)} {search.wildcard(length)}"


def random_entries(size):
    draw = random.Random(5)
    lines = []
    for port in draw.sample(range(65536), size):
        verdict = draw.choice(["permit", "deny"])
        lines.append(f"access-list 101 {verdict} tcp {prefix(draw)} {prefix(draw)} eq {port}\n")
    return family_of("".join(lines))


def unsettled(size):
    lines = []
    for host in range(1, size // 2 + 1):
        lines.append(f"access-list 101 permit tcp host 10.0.0.{host} any eq {2 * host}\n")
        lines.append(f"access-list 101 permit tcp any host 10.1.0.{host} eq {2 * host + 1}\n")
    return family_of("".join(lines), " AND dport_in IN 1000 TO 65535")


FAMILIES = {
    "packed": standard(first_path.packed),
    "spread": standard(first_path.spread),
    "stepped": standard(first_path.stepped),
    "generated": lambda size: family_of(extended.configuration(extended.generated(size, 0))),
    "overlap": lambda size: family_of(*search.overlap(size, 0)),
    "random": random_entries,
    "alternating": lambda _: family_of(*search.alternating(20)),
    "unsettled": lambda _: unsettled(100),
}
ONE_SIZE = {"alternating", "unsettled"}


def agree(one, other):
    return not (one[0] ^ other[0]) & ~(one[1] | other[1])


def meet(one, other):
    """Whether some packet is matched by both."""
    return (
        agree(one.source, other.source)
        and agree(one.target, other.target)
        and max(one.ports[0], other.ports[0]) <= min(one.ports[1], other.ports[1])
        and (one.protocol is None or other.protocol is None or one.protocol == other.protocol)
    )


def turned(entries):
    """The entries in the most turned order in which those that meet with different verdicts keep theirs."""
    behind = [[] for _ in entries]
    before = [0] * len(entries)
    for verdict in (True, False):
        others = [place for place, entry in enumerate(entries) if entry.permits != verdict]
        for place, entry in enumerate(entries):
            if entry.permits == verdict:
                behind[place] = [other for other in others if other > place and meet(entry, entries[other])]
    for places in behind:
        for place in places:
            before[place] += 1
    free = [-place for place, count in enumerate(before) if count == 0]
    heapq.heapify(free)
    order = []
    while free:
        place = -heapq.heappop(free)
        order.append(entries[place])
        for other in behind[place]:
            before[other] -= 1
            if before[other] == 0:
                heapq.heappush(free, -other)
    return order


def matches(entry, packet):
    return (
        entry.protocol in (None, packet["proto"])
        and agree(entry.source, (packet["src_in"], 0))
        and agree(entry.target, (packet["dst_in"], 0))
        and entry.ports[0] <= packet["dport_in"] <= entry.ports[1]
    )


def decides(entries, packet):
    """The place of the entry that decides the packet, and the verdict."""
    for place, entry in enumerate(entries):
        if matches(entry, packet):
            return place, entry.permits
    return None, False


def changed(entries):
    """The list with the other verdict in one entry, of those from the middle on, whose least packet it decides."""
    for place in range(len(entries) // 2, len(entries)):
        entry = entries[place]
        packet = {
            "src_in": entry.source[0] & ~entry.source[1],
            "dst_in": entry.target[0] & ~entry.target[1],
            "dport_in": entry.ports[0],
            "proto": entry.protocol or 0,
        }
        if decides(entries, packet)[0] == place:
            return entries[:place] + [with_verdict(entry, not entry.permits)] + entries[place + 1 :]
    sys.exit("no entry behind the middle decides its least packet")


def without_tenths(entries, permits):
    """The list without each tenth of the entries of this verdict."""
    places = [place for place, entry in enumerate(entries) if entry.permits == permits]
    left = set(places[9::10])
    return [entry for place, entry in enumerate(entries) if place not in left]


def smt_address(name, pattern):
    if pattern == ANY:
        return []
    if pattern[1] == 0:
        return [f"(= {name} #x{pattern[0]:08x})"]
    fixed = ALL_BITS & ~pattern[1]
    return [f"(= (bvand {name} #x{fixed:08x}) #x{pattern[0] & fixed:08x})"]


def smt_match(entry):
    parts = smt_address("src_in", entry.source) + smt_address("dst_in", entry.target)
    if entry.protocol is not None:
        parts.append(f"(= proto #x{entry.protocol:02x})")
    low, high = entry.ports
    if low == high:
        parts.append(f"(= dport_in #x{low:04x})")
    elif entry.ports != PORTS:
        parts += [f"(bvuge dport_in #x{low:04x})", f"(bvule dport_in #x{high:04x})"]
    return f"(and {' '.join(parts)})" if parts else "true"


def smt_permits(entries):
    opened = "".join(f"(ite {smt_match(entry)} {str(entry.permits).lower()}\n" for entry in entries)
    return f"{opened}false{')' * len(entries)}"


def read_tests(tests):
    """The tests of a question as pairs: a field, and a function that says of a number whether it holds."""
    found = []
    for name, first, to, second in re.findall(r"AND (\w+) IN (\S+) (TO )?(\S+)", tests):
        found.append((name, number_of(first), bool(to), number_of(second)))
    return found


def hold(tests, packet):
    for name, first, is_range, second in read_tests(tests):
        value = packet[name]
        if not (first <= value <= second if is_range else agree((value, 0), (first, second))):
            return False
    return True


def smt_tests(tests):
    widths = dict(FIELDS)
    terms = []
    for name, first, is_range, second in read_tests(tests):
        bits = widths[name]
        if is_range:
            low, high = f"(_ bv{first} {bits})", f"(_ bv{second} {bits})"
            terms.append(f"(bvuge {name} {low}) (bvule {name} {high})")
        else:
            fixed = ~second & ((1 << bits) - 1)
            terms.append(f"(= (bvand {name} (_ bv{fixed} {bits})) (_ bv{first & fixed} {bits}))")
    return " ".join(terms)


def smt(asserted, least):
    declared = "".join(f"(declare-const {name} (_ BitVec {bits}))\n" for name, bits in FIELDS)
    wanted = "".join(f"(minimize {name})\n" for name, _ in FIELDS) if least else ""
    names = " ".join(name for name, _ in FIELDS)
    return f"{declared}(assert {asserted})\n{wanted}(check-sat)\n(get-value ({names}))\n"


def text_of(entries):
    return "".join(entry.line + "\n" for entry in entries)


def prepare(question, family, least, folder):
    """Writes what is asked of margrave and of z3; the two lists, of which `least` has one."""
    entries = family.entries
    first, second = entries, []
    if question == "least":
        name = entries[0].line.split()[1]
        asked = f"EXPLORE r.acl.{name}:permit(<req>){family.tests}"
        (folder / "script").write_text(f'LOAD IOS "first" AS r;\n{asked};\nSHOW ONE;\n')
        asserted = f"(and {smt_tests(family.tests)} {smt_permits(first)})"
    else:
        if question == "differ":
            second = changed(entries)
        elif question == "same":
            second = turned(entries)
        else:
            first, second = without_tenths(entries, False), without_tenths(turned(entries), True)
        form = "(and (not {}) {})" if question == "widen" else "(distinct {} {})"
        asserted = form.format(smt_permits(first), smt_permits(second))
        (folder / "second").write_text(text_of(second))
    (folder / "first").write_text(text_of(first))
    (folder / "question.smt2").write_text(smt(asserted, question == "least" and least))
    return first, second


def ask(words, folder, seconds, read):
    limits = [(resource.RLIMIT_CPU, seconds), (resource.RLIMIT_AS, MOST_MEMORY)]
    status, output, spent, memory = sat.timed(words, folder, limits)
    answer, ended = read(status, output)
    if ended and status < 0 and spent >= seconds:
        ended = f"over {seconds} s"
    return Ran(answer, spent, memory, ended)


def read_margrave(status, output):
    if status != 0:
        return None, f"status {status}"
    if output.endswith("no scenario\n"):
        return "no packet", ""
    values = dict(re.findall(r"^  (\w+) = (\S+)$", output, re.MULTILINE))
    return {name: number_of(values[name]) for name, _ in FIELDS}, ""


def read_sat(status, output):
    if status == 20:
        return "no packet", ""
    if status != 10:
        return None, f"status {status}"
    values = output.split("\nv ")[1].split()
    bits = ["0" if value.startswith("-") else "1" for value in values[2:]]
    packet = {}
    for name, width in FIELDS:
        packet[name] = int("".join(bits[:width]), 2)
        bits = bits[width:]
    return packet, ""


def read_z3(status, output):
    if output.startswith("unsat"):
        return "no packet", ""
    if not output.startswith("sat"):
        return None, f"status {status}"
    values = {}
    for name, base, digits in re.findall(r"\((\w+) #([xb])([0-9a-f]+)\)", output):
        values[name] = int(digits, 16 if base == "x" else 2)
    return values, ""


def is_right(question, family, lists, packet):
    verdicts = [decides(entries, packet)[1] for entries in lists]
    if question == "least":
        return verdicts[0] and hold(family.tests, packet)
    return verdicts[0] != verdicts[1]


def check(what, question, ours, theirs, least):
    """Stops where the answers are not one: a packet or none, and for `least` the same packet."""
    answers = [run.answer for run in (ours, theirs) if run and run.answer is not None]
    expected = {"differ": False, "same": True, "widen": True}.get(question)
    for answer in answers:
        if expected is not None and (answer == "no packet") != expected:
            sys.exit(f"{what}: the answer is {answer}")
    if len(answers) == 2 and question == "least":
        kinds = [answer == "no packet" for answer in answers]
        if kinds[0] != kinds[1] or least and answers[0] != answers[1]:
            sys.exit(f"{what}: margrave answers {answers[0]}, z3 {answers[1]}")


def medians(words, read, z3, folder, seconds):
    """What margrave and z3 answer, with the median of their times and the most memory."""
    began = time.perf_counter()
    ours, theirs = [], []
    while len(ours) < RUNS and (not ours or time.perf_counter() - began < SHORT):
        ours.append(ask(words, folder, seconds, read))
        if z3:
            theirs.append(ask([z3, "question.smt2"], folder, seconds, read_z3))
    return middle(ours), middle(theirs)


def middle(runs):
    if not runs:
        return None
    spent = statistics.median(run.seconds for run in runs)
    return runs[0]._replace(seconds=spent, memory=max(run.memory for run in runs))


def columns(run):
    if run is None:
        return "- | - | -"
    said = run.ended or ("no packet" if run.answer == "no packet" else "a packet")
    return f"{run.seconds:.3f} | {run.memory:.0f} | {said}"


def missed(name, ours, ratio):
    if ours.ended:
        return "answer"
    misses = ["ratio"] if ratio is not None and ratio > TARGETS.get(name, TARGET) else []
    return ", ".join(misses + (["memory"] if ours.memory > TARGET_MEMORY else []))


def row(question, name, family, given, z3, folder):
    lists = prepare(question, family, not given.plain, folder)
    lists = [entries for entries in lists if entries]
    words, read = [given.program, "script"], read_margrave
    if question != "least":
        asked = "widen" if question == "widen" else "differ"
        words, read = [given.sat, "lists", asked, "first", "second"], read_sat
    ours, theirs = medians(words, read, z3, folder, given.seconds)
    what = f"{question} of {name}"
    check(what, question, ours, theirs, not given.plain)
    if isinstance(ours.answer, dict) and not is_right(question, family, lists, ours.answer):
        sys.exit(f"{what}: the lists do not decide {ours.answer} as is answered")
    # Where the limit of time ended z3, the true ratio is below the one to this limit.
    is_known = theirs and not ours.ended and (not theirs.ended or theirs.ended.startswith("over"))
    ratio = ours.seconds / theirs.seconds if is_known else None
    said = "-" if ratio is None else f"{'< ' if theirs.ended else ''}{ratio:.2f}"
    head = f"| {question} | {name} | {len(family.entries)}"
    return f"{head} | {columns(ours)} | {columns(theirs)} | {said} | {missed(name, ours, ratio)} |"


def names_of(known):
    def read(word):
        names = word.split(",")
        for name in names:
            if name not in known:
                raise argparse.ArgumentTypeError(f"{name} is none of {', '.join(known)}")
        return names

    return read


def sizes_of(word):
    count = first_path.entry_count(40)
    return [count(number) for number in word.split(",")]


def arguments():
    parser = argparse.ArgumentParser(description=__doc__, formatter_class=argparse.RawDescriptionHelpFormatter)
    parser.add_argument("program", metavar="PROGRAM")
    parser.add_argument("sat", metavar="SAT")
    parser.add_argument("--entries", metavar="N,N", type=sizes_of, default=SIZES)
    parser.add_argument("--families", metavar="A,B", type=names_of(list(FAMILIES)), default=list(FAMILIES))
    parser.add_argument("--questions", metavar="A,B", type=names_of(QUESTIONS), default=QUESTIONS)
    parser.add_argument("--seconds", metavar="S", type=int, default=60)
    parser.add_argument("--plain", action="store_true")
    given = parser.parse_args()
    given.program = str(Path(given.program).resolve())
    given.sat = str(Path(given.sat).resolve())
    return given


def main():
    given = arguments()
    z3 = shutil.which("z3")
    head = ["question", "family", "entries", "margrave (s)", "MB", "answer", "z3 (s)", "MB", "answer", "ratio", "misses"]
    with tempfile.TemporaryDirectory() as temporary:
        folder = Path(temporary)
        print(f"| {' | '.join(head)} |")
        print("| --- | --- | ---: | ---: | ---: | --- | ---: | ---: | --- | ---: | --- |")
        for question in given.questions:
            for name in given.families:
                for size in given.entries[:1] if name in ONE_SIZE else given.entries:
                    print(row(question, name, FAMILIES[name](size), given, z3, folder), flush=True)
        print()
        least = "any packet" if given.plain else "the least packet"
        print(f"{versions(given.program, z3, folder)}; z3 is asked for {least} where margrave gives the least")


if __name__ == "__main__":
    main()
