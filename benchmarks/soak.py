#!/usr/bin/env python3
"""Solves small formulas with and without reducers for a while, and compares what comes of them.

    soak.py GLUCORED [--minutes N] [--seed N] [--limit SECONDS]

Each formula is drawn: clauses of two to five literals near the point where half of such formulas are satisfiable, or the
pigeonhole principle with a clause left out or not. It is solved with --reducers 0, and then with 1 to 8 reducers and a
drawn --capacity and --offer. The verdicts have to be the same, each model is tried on the formula, and each proof log is
checked by glucored and by check_log.py beside this file. What differs, fails or does not end within the limit is printed
with the seed that makes it again.
"""
import argparse
import os
import random
import subprocess
import sys
import tempfile
import time

HERE = os.path.dirname(os.path.abspath(__file__))


def drawn(rng):
    kind = rng.randrange(4)
    if kind == 0:
        pigeons, holes = rng.randrange(4, 8), 0
        holes = pigeons - 1
        clauses = [[(p * holes) + h + 1 for h in range(holes)] for p in range(pigeons)]
        clauses += [[-(p * holes + h + 1), -(q * holes + h + 1)] for h in range(holes) for p in range(pigeons)
                    for q in range(p)]
        if rng.random() < 0.5:
            clauses.pop(rng.randrange(len(clauses)))
        return pigeons * holes, clauses
    width = kind + 1
    ratio = {2: 1.0, 3: 4.26, 4: 9.9}[width]
    variables = rng.randrange(5, {2: 400, 3: 120, 4: 50}[width])
    count = int(variables * ratio * rng.uniform(0.9, 1.15)) + 1
    clauses = []
    for _ in range(count):
        size = max(1, width + rng.choice((0, 0, 0, 1)))
        chosen = rng.sample(range(1, variables + 1), min(size, variables))
        clauses.append([v if rng.random() < 0.5 else -v for v in chosen])
    return variables, clauses


def solve(program, cnf, log, words, limit):
    """The verdict, or why there is none; and the model."""
    try:
        done = subprocess.run([program, "solve", cnf, log, *words], capture_output=True, text=True, timeout=limit)
    except subprocess.TimeoutExpired:
        return "no end", None
    lines = done.stdout.split("\n")
    verdict = {10: "s SATISFIABLE", 20: "s UNSATISFIABLE"}.get(done.returncode)
    if verdict is None or lines[0] != verdict:
        return f"status {done.returncode}: {lines[0]}", None
    model = {int(word) for line in lines if line.startswith("v") for word in line.split()[1:]}
    return verdict, model


def is_good(program, cnf, log, clauses, verdict, model):
    if verdict == "s SATISFIABLE":
        return all(any(lit in model for lit in clause) for clause in clauses)
    ours = subprocess.run([program, "check", cnf, log], capture_output=True, text=True)
    other = subprocess.run([sys.executable, os.path.join(HERE, "check_log.py"), cnf, log], capture_output=True, text=True)
    return ours.stdout == "s VERIFIED\n" and other.returncode == 0


def main():
    parser = argparse.ArgumentParser(description=__doc__, formatter_class=argparse.RawDescriptionHelpFormatter)
    parser.add_argument("glucored")
    parser.add_argument("--minutes", type=float, default=60)
    parser.add_argument("--seed", type=int, default=1)
    parser.add_argument("--limit", type=float, default=60)
    options = parser.parse_args()
    end = time.monotonic() + 60 * options.minutes
    seed, runs, wrong, verdicts = options.seed, 0, 0, {}
    with tempfile.TemporaryDirectory() as folder:
        cnf, log = os.path.join(folder, "f.cnf"), os.path.join(folder, "f.lrat")
        while time.monotonic() < end:
            rng = random.Random(seed)
            variables, clauses = drawn(rng)
            with open(cnf, "w") as out:
                out.write(f"p cnf {variables} {len(clauses)}\n")
                out.writelines(" ".join(map(str, clause)) + " 0\n" for clause in clauses)
            first = None
            for reducers in [0] + sorted(rng.sample(range(1, 9), 3)):
                words = ["--reducers", str(reducers), "--capacity", str(rng.choice((1, 2, 10, 1000)))]
                words += ["--offer", str(rng.choice((2, 5, 1000000)))]
                verdict, model = solve(options.glucored, cnf, log, words, options.limit)
                first = first or verdict
                runs += 1
                good = model is not None and verdict == first
                if not good or not is_good(options.glucored, cnf, log, clauses, verdict, model):
                    wrong += 1
                    print(f"seed {seed}, {' '.join(words)}: {verdict}, and {first} with none", flush=True)
                verdicts[verdict] = verdicts.get(verdict, 0) + 1
            seed += 1
    print(f"{seed - options.seed} formulas, {runs} runs, {wrong} wrong; {verdicts}")


if __name__ == "__main__":
    main()
