#!/usr/bin/env python3
"""Makes a formula in DIMACS CNF that has a structure, as planned circuits and checked models have.

    make_structured.py multiplier CNF [--bits N] [--product N]
    make_structured.py counter CNF [--bits N] [--steps N] [--target N]
    make_structured.py register CNF [--bits N] [--steps N] [--taps N] [--seed N]

multiplier: the Tseitin clauses of an array multiplier of two numbers of N bits, whose product is the given number.
counter: a counter of N bits with an input that makes it count and one that clears it, unrolled over N steps from zero;
it is to reach the target at the last step.
register: a shift register of N bits with an input, whose first bit becomes the parity of the input and of N drawn taps,
unrolled over N steps from all zeros; it is to be all ones at the last step.
"""
import argparse
import random


class Circuit:
    """Gates as clauses, over variables that are given out in order. A constant is True or False."""

    def __init__(self):
        self.vars = 0
        self.clauses = []

    def new(self):
        self.vars += 1
        return self.vars

    def add(self, *lits):
        if any(lit is True for lit in lits):
            return
        self.clauses.append([lit for lit in lits if lit is not False])

    def both(self, a, b):
        if a is False or b is False:
            return False
        if a is True:
            return b
        if b is True:
            return a
        out = self.new()
        self.add(-out, a)
        self.add(-out, b)
        self.add(out, -a, -b)
        return out

    def opposite(self, a):
        return not a if isinstance(a, bool) else -a

    def either(self, a, b):
        return self.opposite(self.both(self.opposite(a), self.opposite(b)))

    def parity(self, a, b):
        if isinstance(a, bool):
            a, b = b, a
        if isinstance(b, bool):
            return self.opposite(a) if b else a
        out = self.new()
        self.add(-out, a, b)
        self.add(-out, -a, -b)
        self.add(out, -a, b)
        self.add(out, a, -b)
        return out

    def majority(self, a, b, c):
        for first, second, third in ((a, b, c), (b, a, c), (c, a, b)):
            if isinstance(first, bool):
                return self.either(second, third) if first else self.both(second, third)
        out = self.new()
        for first, second in ((a, b), (a, c), (b, c)):
            self.add(out, -first, -second)
            self.add(-out, first, second)
        return out

    def require(self, lit, value):
        self.add(lit if value else self.opposite(lit))

    def write(self, name):
        with open(name, "w") as cnf:
            cnf.write(f"p cnf {self.vars} {len(self.clauses)}\n")
            cnf.writelines(" ".join(map(str, clause)) + " 0\n" for clause in self.clauses)


def multiplier(options):
    circuit = Circuit()
    left = [circuit.new() for _ in range(options.bits)]
    right = [circuit.new() for _ in range(options.bits)]
    total = [False] * (2 * options.bits)
    for shift, bit in enumerate(right):
        carry = False
        for k, other in enumerate(left):
            part = circuit.both(bit, other)
            held = total[shift + k]
            total[shift + k] = circuit.parity(circuit.parity(held, part), carry)
            carry = circuit.majority(held, part, carry)
        total[shift + options.bits] = carry
    for k, bit in enumerate(total):
        circuit.require(bit, options.product >> k & 1)
    return circuit


def counter(options):
    circuit = Circuit()
    state = [False] * options.bits
    for _ in range(options.steps):
        carry, clear = circuit.new(), circuit.new()
        following = []
        for bit in state:
            following.append(circuit.both(circuit.parity(bit, carry), -clear))
            carry = circuit.both(bit, carry)
        state = following
    for k, bit in enumerate(state):
        circuit.require(bit, options.target >> k & 1)
    return circuit


def register(options):
    rng = random.Random(options.seed)
    taps = rng.sample(range(options.bits), options.taps)
    circuit = Circuit()
    state = [False] * options.bits
    for _ in range(options.steps):
        first = circuit.new()
        for tap in taps:
            first = circuit.parity(first, state[tap])
        state = [first] + state[:-1]
    for bit in state:
        circuit.require(bit, True)
    return circuit


def main():
    parser = argparse.ArgumentParser(description=__doc__, formatter_class=argparse.RawDescriptionHelpFormatter)
    kinds = parser.add_subparsers(dest="kind", required=True)
    for make, numbers in (
        (multiplier, {"bits": 64, "product": (2**61 - 1) * (2**59 - 55)}),
        (counter, {"bits": 32, "steps": 400, "target": 300}),
        (register, {"bits": 64, "steps": 4000, "taps": 8, "seed": 1}),
    ):
        kind = kinds.add_parser(make.__name__)
        kind.add_argument("cnf")
        for name, value in numbers.items():
            kind.add_argument(f"--{name}", type=int, default=value, metavar="N")
        kind.set_defaults(make=make)
    options = parser.parse_args()
    options.make(options).write(options.cnf)


if __name__ == "__main__":
    main()
