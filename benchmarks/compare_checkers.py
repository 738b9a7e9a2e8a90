#!/usr/bin/env python3
"""Compares `glucored check` with check_log.py on random small formulas and logs, with and without faults.

    compare_checkers.py PROGRAM [--rounds N] [--seed N]

Each round writes a formula and a log, runs the program, and compares its output and exit status with what check_log.py
says: the verdict, and the first refused line with its cause and id. It stops at the first difference and keeps the two
files. At the end it prints how often each answer came.
"""
import argparse
import collections
import pathlib
import random
import subprocess
import sys
import tempfile

from check_log import Checker

GREATEST_ID = (1 << 63) - 1


def literal(rng, count):
    return rng.choice((1, -1)) * rng.randint(1, count)


def formula(rng):
    """A few variables, and short clauses over them; some are tautologies or have a literal twice."""
    count = rng.randint(1, 6)
    clauses = [[literal(rng, count) for _ in range(rng.choice((1, 2, 2, 2, 3, 3)))] for _ in range(rng.randint(1, 24))]
    return count, clauses


def hints_of(rng, checker, lemma):
    """Hints by unit propagation in a random order, some of them not needed."""
    true = {-lit for lit in lemma}
    ids = list(checker.live)
    rng.shuffle(ids)
    hints = []
    for _ in range(4):
        for id in ids:
            unfalse = {lit for lit in checker.live[id] if -lit not in true}
            if not unfalse:
                return hints + [id], True
            if len(unfalse) == 1 and (unfalse - true or rng.random() < 0.05):
                hints.append(id)
                true |= unfalse
    return hints, False


def addition(rng, checker):
    """An addition that is right where one was found in a few tries, and then perhaps a fault in it."""
    for _ in range(8):
        lemma = [literal(rng, checker.vars) for _ in range(rng.choice((0, 0, 1, 1, 2, 2, 3)))]
        hints, right = hints_of(rng, checker, lemma)
        if right:
            break
    id = checker.last + rng.choice((1, 1, 1, 1, 2, 5, 1000))
    fault = rng.random()
    if fault < 0.02:
        id = rng.randint(1, max(1, checker.last))
    elif fault < 0.04:
        lemma = lemma + [literal(rng, 1) * (checker.vars + rng.randint(1, 3))]
    elif fault < 0.07:
        hints.insert(rng.randint(0, len(hints)), rng.randint(1, min(checker.last + 5, GREATEST_ID)))
    elif fault < 0.09 and hints:
        hints[rng.randrange(len(hints))] = rng.randint(1, min(checker.last + 2, GREATEST_ID))
    elif fault < 0.11 and hints:
        hints.pop(rng.randrange(len(hints)))
    elif fault < 0.13:
        hints.append(rng.randint(1, 1 << 62))
    elif fault < 0.15:
        rng.shuffle(hints)
    elif fault < 0.18:
        id = rng.choice((1 << 40, (1 << 62) + rng.randint(0, 9), checker.last * 5 + 3000, GREATEST_ID))
        id = max(id, checker.last + 1)
    id = min(id, GREATEST_ID)
    return f"{id} {' '.join(map(str, lemma + [0] + hints + [0]))}"


def deletion(rng, checker):
    """A deletion of live ids; a few name one twice, or one that is not live."""
    ids = rng.sample(list(checker.live), min(len(checker.live), rng.choice((0, 1, 1, 2, 3))))
    fault = rng.random()
    if fault < 0.03 and ids:
        ids.append(rng.choice(ids))
    elif fault < 0.06:
        ids.insert(rng.randint(0, len(ids)), rng.randint(1, min(checker.last + 3, GREATEST_ID)))
    return f"{checker.last} d {' '.join(map(str, ids + [0]))}"


def log_of(rng, count, clauses):
    """A log, and the answer to it."""
    checker = Checker(count, clauses)
    lines, answer = [], None
    for number in range(1, rng.randint(2, 40)):
        line = deletion(rng, checker) if rng.random() < 0.25 else addition(rng, checker)
        if checker.last == GREATEST_ID:
            line = deletion(rng, checker)
        lines.append(line)
        why = checker.line(line.split())
        if why is not None and answer is None:
            answer = f"s NOT VERIFIED\nc log line {number}: {why[0]} {why[1]}\n"
    if answer is None:
        answer = "s VERIFIED\n" if checker.refuted else "s NOT VERIFIED\nc log: NoEmptyClause\n"
    return lines, answer


def main():
    parser = argparse.ArgumentParser(description=__doc__, formatter_class=argparse.RawDescriptionHelpFormatter)
    parser.add_argument("program")
    parser.add_argument("--rounds", type=int, default=5000)
    parser.add_argument("--seed", type=int, default=1)
    options = parser.parse_args()
    rng = random.Random(options.seed)
    folder = pathlib.Path(tempfile.mkdtemp(prefix="compare_checkers_"))
    cnf, log = folder / "f.cnf", folder / "f.lrat"
    answers = collections.Counter()
    for number in range(options.rounds):
        count, clauses = formula(rng)
        lines, answer = log_of(rng, count, clauses)
        cnf.write_text(f"p cnf {count} {len(clauses)}\n" + "".join(" ".join(map(str, c + [0])) + "\n" for c in clauses))
        log.write_text("".join(line + "\n" for line in lines))
        ran = subprocess.run([options.program, "check", cnf, log], capture_output=True, text=True)
        status = 0 if answer == "s VERIFIED\n" else 1
        if ran.stdout != answer or ran.returncode != status:
            print(f"round {number} differs, see {folder}: expected {answer!r}, got {ran.stdout!r} {ran.returncode}")
            sys.exit(1)
        answers[answer.split(": ")[-1].split()[0] if "c log" in answer else "Verified"] += 1
    print(f"{options.rounds} rounds agree:", ", ".join(f"{name} {n}" for name, n in sorted(answers.items())))
    log.unlink()
    cnf.unlink()
    folder.rmdir()


if __name__ == "__main__":
    main()
