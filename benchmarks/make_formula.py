#!/usr/bin/env python3
"""Makes a random formula in DIMACS CNF, to time how long it takes to read one and to take it into the checker.

    make_formula.py CNF [--vars N] [--clauses N] [--width N] [--seed N]
"""
import argparse
import random


def main():
    parser = argparse.ArgumentParser(description=__doc__, formatter_class=argparse.RawDescriptionHelpFormatter)
    parser.add_argument("cnf")
    parser.add_argument("--vars", type=int, default=100_000)
    parser.add_argument("--clauses", type=int, default=5_000_000)
    parser.add_argument("--width", type=int, default=4)
    parser.add_argument("--seed", type=int, default=1)
    options = parser.parse_args()
    rng = random.Random(options.seed)
    names = [f"{sign}{var} " for var in range(1, options.vars + 1) for sign in ("", "-")]
    with open(options.cnf, "w", buffering=1 << 20) as cnf:
        cnf.write(f"p cnf {options.vars} {options.clauses}\n")
        for _ in range(options.clauses):
            cnf.write("".join(rng.choices(names, k=options.width)) + "0\n")


if __name__ == "__main__":
    main()
