#!/usr/bin/env python3
"""Writes the larger examples, each a formula in DIMACS CNF in canonical form.

    make_examples.py FOLDER

sudoku9.cnf: a sudoku of nine by nine with seventeen clues, the fewest that leave one solution (from Gordon Royle's list).
hanoi4.cnf: the towers of Hanoi with four disks as a plan of fifteen moves, the fewest that there are.
multipliers4.cnf: a miter of two array multipliers of four bits, one with its factors exchanged, that differ.
mutex24.cnf: Peterson's algorithm (1981) for two processes, unrolled over 24 steps, with both in the critical section.
"""
import itertools
import os
import sys

sys.path.insert(0, os.path.join(os.path.dirname(os.path.abspath(__file__)), "..", "benchmarks"))
from make_structured import Circuit

CLUES = "000000010400000000020000000000050407008000300001090000300400200050100000000806000"


def sudoku():
    formula = Circuit()
    cell = {at: formula.new() for at in itertools.product(range(9), range(9), range(9))}
    groups = [[(row, column) for column in range(9)] for row in range(9)]
    groups += [[(row, column) for row in range(9)] for column in range(9)]
    groups += [[(3 * (box // 3) + k // 3, 3 * (box % 3) + k % 3) for k in range(9)] for box in range(9)]
    for row, column in itertools.product(range(9), range(9)):
        formula.add(*(cell[row, column, digit] for digit in range(9)))
        for one, other in itertools.combinations(range(9), 2):
            formula.add(-cell[row, column, one], -cell[row, column, other])
    for group, digit in itertools.product(groups, range(9)):
        for one, other in itertools.combinations(group, 2):
            formula.add(-cell[(*one, digit)], -cell[(*other, digit)])
    for at, clue in enumerate(CLUES):
        if clue != "0":
            formula.add(cell[at // 9, at % 9, int(clue) - 1])
    return formula


def hanoi(disks, steps):
    formula = Circuit()
    pegs = range(3)
    there = {at: formula.new() for at in itertools.product(range(steps + 1), range(disks), pegs)}
    ways = [(source, target) for source in pegs for target in pegs if source != target]
    moves = {at: formula.new() for at in itertools.product(range(steps), range(disks), ways)}
    for time, disk in itertools.product(range(steps + 1), range(disks)):
        formula.add(*(there[time, disk, peg] for peg in pegs))
        for one, other in itertools.combinations(pegs, 2):
            formula.add(-there[time, disk, one], -there[time, disk, other])
    for time in range(steps):
        all_moves = [moves[time, disk, way] for disk in range(disks) for way in ways]
        formula.add(*all_moves)
        for one, other in itertools.combinations(all_moves, 2):
            formula.add(-one, -other)
        for disk, (source, target) in itertools.product(range(disks), ways):
            move = moves[time, disk, (source, target)]
            formula.add(-move, there[time, disk, source])
            formula.add(-move, there[time + 1, disk, target])
            for smaller in range(disk):
                formula.add(-move, -there[time, smaller, source])
                formula.add(-move, -there[time, smaller, target])
        for disk, peg in itertools.product(range(disks), pegs):
            leaving = [moves[time, disk, way] for way in ways if way[0] == peg]
            formula.add(-there[time, disk, peg], there[time + 1, disk, peg], *leaving)
    for disk in range(disks):
        formula.add(there[0, disk, 0])
        formula.add(there[steps, disk, 2])
    return formula


def product(formula, left, right):
    bits = len(left)
    total = [False] * (2 * bits)
    for shift, bit in enumerate(right):
        carry = False
        for k, other in enumerate(left):
            part = formula.both(bit, other)
            held = total[shift + k]
            total[shift + k] = formula.parity(formula.parity(held, part), carry)
            carry = formula.majority(held, part, carry)
        total[shift + bits] = carry
    return total


def multipliers(bits):
    formula = Circuit()
    left = [formula.new() for _ in range(bits)]
    right = [formula.new() for _ in range(bits)]
    one, other = product(formula, left, right), product(formula, right, left)
    formula.add(*(formula.parity(a, b) for a, b in zip(one, other)))
    return formula


def mutex(steps):
    """A process is idle, wants the turn, waits, or is in its critical section."""
    formula = Circuit()

    def choose(test, one, other):
        return formula.either(formula.both(test, one), formula.both(formula.opposite(test), other))

    flags, turn = [False, False], False
    places = [[True, False, False, False], [True, False, False, False]]
    for _ in range(steps):
        moving = formula.new()
        acts = [formula.opposite(moving), moving]
        new_flags, new_turn, new_places = list(flags), turn, []
        for me, other in ((0, 1), (1, 0)):
            idle, wants, waits, inside = places[me]
            mine = turn if me else formula.opposite(turn)
            free = formula.either(formula.opposite(flags[other]), mine)
            enters = formula.both(waits, free)
            stays = formula.both(waits, formula.opposite(free))
            following = [inside, idle, formula.either(wants, stays), enters]
            new_places.append([choose(acts[me], new, old) for new, old in zip(following, places[me])])
            begins, leaves = formula.both(acts[me], idle), formula.both(acts[me], inside)
            new_flags[me] = formula.both(formula.either(flags[me], begins), formula.opposite(leaves))
            gives = formula.both(acts[me], wants)
            new_turn = choose(gives, not me, new_turn)
        flags, turn, places = new_flags, new_turn, new_places
    formula.require(places[0][3], True)
    formula.require(places[1][3], True)
    return formula


def main():
    folder = sys.argv[1]
    examples = {"sudoku9": sudoku(), "hanoi4": hanoi(4, 15), "multipliers4": multipliers(4), "mutex24": mutex(24)}
    for name, formula in examples.items():
        formula.write(os.path.join(folder, name + ".cnf"))


if __name__ == "__main__":
    main()
