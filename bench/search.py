"""Times margrave on lists that need a search which learns.

    python3 bench/search.py PROGRAM

PROGRAM is the built program. Two families of extended lists are made here, the same in each run:

- `alternating`: in turn `permit tcp host 10.0.0.K any eq 443` and `permit tcp any host 10.1.0.K eq 22`, then lines for ports 25
  and 53 and `deny ip any any`; asked for the least permitted packet for a port from 32768 on, which no line has. Plain
  backtracking tries each class of sources with each class of destinations.
- `overlap`: `permit|deny tcp|udp 10.A.B.0/P 10.C.D.0/Q range LOW HIGH` with prefixes of 8 to 24 bits that overlap, from a
  seed; asked for the least permitted packet.

Each time is the median of five runs in milliseconds of wall time from the start of the process to its end.
"""

import statistics
import sys
import tempfile
import time
from pathlib import Path
from subprocess import run

RUNS = 5


def alternating(pairs):
    lines = []
    for host in range(1, pairs + 1):
        lines.append(f"access-list 101 permit tcp host 10.0.0.{host} any eq 443\n")
        lines.append(f"access-list 101 permit tcp any host 10.1.0.{host} eq 22\n")
    lines.append("access-list 101 permit tcp any any eq 25\n")
    lines.append("access-list 101 permit udp any any eq 53\n")
    lines.append("access-list 101 deny ip any any\n")
    return "".join(lines), " AND dport_in IN 32768 32767"


def wildcard(length):
    ones = (1 << (32 - length)) - 1
    return ".".join(str(ones >> shift & 255) for shift in (24, 16, 8, 0))


def network(number, length):
    value = (10 << 24 | number & 0xFFFFFF) & ~((1 << (32 - length)) - 1) & 0xFFFFFFFF
    return ".".join(str(value >> shift & 255) for shift in (24, 16, 8, 0))


def overlap(count, seed):
    lines = []
    number = seed
    drawn = []
    for _ in range(8 * count):
        number = (number * 1103515245 + 12345) % 2**31
        drawn.append(number // 65536)
    for line in range(count):
        a, b, c, d, e, f, g, h = drawn[8 * line : 8 * line + 8]
        verdict = "deny" if a % 4 else "permit"
        protocol = "udp" if b % 3 == 0 else "tcp"
        p, q = 8 + c % 17, 8 + d % 17
        low = e % 60000
        high = low + f % 5000
        source = f"{network(g << 8 | a, p)} {wildcard(p)}"
        target = f"{network(h << 8 | b, q)} {wildcard(q)}"
        lines.append(f"access-list 101 {verdict} {protocol} {source} {target} range {low} {high}\n")
    return "".join(lines), ""


def timed(program, lines, tests):
    with tempfile.TemporaryDirectory() as folder:
        Path(folder, "list").write_text(lines)
        script = Path(folder, "script")
        script.write_text(f'LOAD IOS "list" AS r; EXPLORE r.acl.101:permit(<req>){tests}; SHOW ONE;')
        times, text = [], b""
        for _ in range(RUNS):
            began = time.perf_counter()
            answer = run([program, "script"], cwd=folder, capture_output=True, timeout=600)
            times.append(1000 * (time.perf_counter() - began))
            text = answer.stdout
        first = text.split(b"\n")[1].decode()
        return statistics.median(times), first


def main():
    program = str(Path(sys.argv[1]).resolve())
    print("| family | lines | margrave (ms) | answer |")
    print("| --- | ---: | ---: | --- |")
    families = [("alternating", *alternating(20)), ("alternating", *alternating(100))]
    families += [(f"overlap, seed {seed}", *overlap(count, seed)) for count in (50, 500) for seed in (0, 1)]
    for name, lines, tests in families:
        spent, first = timed(program, lines, tests)
        print(f"| {name} | {lines.count(chr(10))} | {spent:.1f} | {first} |", flush=True)


if __name__ == "__main__":
    main()
