"""Compares margrave_sat with a stock solver, and times the search and the checker apart.

    python3 bench/sat.py PROGRAM [FIXED_ORDER.cpp]

PROGRAM is the built `margrave_sat`; `minisat` is to be installed (Debian's package of this name). Made here, the same in
each run:

- 500 random clause sets over 10 to 60 variables: the two solvers give one answer, each model that is written holds, and
  each certificate is accepted by `margrave_sat check`, but not with its last step left out.
- a chain of 2^19 clauses that follow from one another, and 200,000 gates made and made again.
- random clauses of three literals without a model, of which the derivations have 10,000 steps and more: `solve`, `solve`
  with its certificate, and `check`, in seconds of wall time, with the most memory that each took, in megabytes. With the
  source of a yardstick, a plain search that learns over the same order, that is compiled by c++ and timed beside them.
"""

import os
import random
import resource
import subprocess
import sys
import tempfile
import time
from pathlib import Path

SETS = 500
CHAIN = 1 << 19
GATES = 200000
# seed and variables; the clauses are 4.4 times as many
HARD = ((1, 120), (2, 140), (3, 160))


def timed(words, folder=None, limits=()):
    """The status, the front of the output, seconds and the most memory in megabytes, but not less than what this script takes.

    The limits are pairs of a name of `resource` and a number; the system ends the child that goes over one.
    """
    began = time.perf_counter()
    with tempfile.TemporaryFile() as out:
        child = subprocess.Popen(words, cwd=folder, stdout=out, stderr=subprocess.DEVNULL)
        for name, most in limits:
            resource.prlimit(child.pid, name, (most, most))
        _, status, used = os.wait4(child.pid, 0)
        spent = time.perf_counter() - began
        out.seek(0)
        front = out.read(1 << 16).decode()
        return os.waitstatus_to_exitcode(status), front, spent, used.ru_maxrss / 1024


def text_of(variables, clauses):
    lines = [f"p cnf {variables} {len(clauses)}\n"]
    lines += [" ".join(map(str, clause)) + " 0\n" for clause in clauses]
    return "".join(lines)


def random_clauses(draw, variables, count, most):
    clauses = []
    for _ in range(count):
        length = draw.randint(2, most)
        chosen = draw.sample(range(1, variables + 1), min(length, variables))
        clauses.append([var if draw.random() < 0.5 else -var for var in chosen])
    return clauses


def holds(clauses, output):
    head, values, end = output.split("\n")
    assert head == "s SATISFIABLE" and values.startswith("v ") and values.endswith(" 0") and not end
    true = set(map(int, values[2:-2].split()))
    return all(any(lit in true for lit in clause) for clause in clauses)


def compare(program, folder):
    """How many random sets have a model, of all; each is tried with both solvers."""
    draw = random.Random(11)
    file, proof, cut = folder / "f", folder / "g", folder / "h"
    with_model = 0
    for _ in range(SETS):
        variables = draw.randint(10, 60)
        clauses = random_clauses(draw, variables, int(variables * draw.uniform(1.2, 3.4)), 3)
        file.write_text(text_of(variables, clauses))
        proof.unlink(missing_ok=True)
        status, output, _, _ = timed([program, "solve", file, "--certificate", proof])
        stock = subprocess.run(["minisat", "-verb=0", file], capture_output=True).returncode
        assert status == stock and status in (10, 20), (status, stock, clauses)
        if status == 10:
            assert holds(clauses, output) and not proof.exists()
            with_model += 1
            continue
        assert output == "s UNSATISFIABLE\n"
        assert timed([program, "check", file, proof])[:2] == (0, "accepted\n")
        lines = proof.read_text().splitlines()
        cut.write_text("\n".join(lines[:-2] + ["qed"]) + "\n")
        assert timed([program, "check", file, cut])[0] == 1
    return with_model


def row(name, spent, memory, more=""):
    print(f"{name:34} {spent:8.3f} s {memory:8.1f} MB  {more}")


def yardstick_of(source, folder):
    binary = folder / "yardstick"
    subprocess.run(["c++", "-O2", "-std=c++17", "-o", binary, source], check=True)
    return binary


def hard(program, folder, yardstick):
    file, proof = folder / "hard", folder / "proof"
    for seed, variables in HARD:
        draw = random.Random(seed)
        clauses = []
        for _ in range(int(4.4 * variables)):
            chosen = draw.sample(range(1, variables + 1), 3)
            clauses.append([var if draw.random() < 0.5 else -var for var in chosen])
        file.write_text(text_of(variables, clauses))
        status, _, spent, memory = timed([program, "solve", file])
        row(f"{variables} variables: solve", spent, memory, f"status {status}")
        if status == 20:
            _, _, spent, memory = timed([program, "solve", file, "--certificate", proof])
            row("  with its certificate", spent, memory)
            steps = len(proof.read_text().splitlines()) - 2
            status, _, spent, memory = timed([program, "check", file, proof])
            row("  check", spent, memory, f"status {status}, {steps} items")
        if yardstick:
            _, output, spent, memory = timed([yardstick, file])
            row("  yardstick", spent, memory, " ".join(output.split())[:60])


def main():
    program = Path(sys.argv[1]).resolve()
    with tempfile.TemporaryDirectory() as name:
        folder = Path(name)
        yardstick = yardstick_of(sys.argv[2], folder) if len(sys.argv) > 2 else None
        print(f"random sets: {compare(program, folder)} of {SETS} have a model, and all answers agree")
        with (folder / "chain").open("w") as chain:
            chain.write(f"p cnf {CHAIN} {CHAIN}\n1 0\n")
            chain.writelines(f"-{var} {var + 1} 0\n" for var in range(1, CHAIN))
        status, _, spent, memory = timed([program, "solve", folder / "chain"])
        row("chain of 2^19 clauses: solve", spent, memory, f"status {status}")
        if yardstick:
            _, _, spent, memory = timed([yardstick, folder / "chain"])
            row("  yardstick", spent, memory)
        _, output, spent, memory = timed([program, "gates", str(GATES)])
        row("200,000 gates", spent, memory, output.strip())
        hard(program, folder, yardstick)


if __name__ == "__main__":
    main()
