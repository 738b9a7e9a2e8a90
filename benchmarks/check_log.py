#!/usr/bin/env python3
"""A small LRAT checker that is read off the format's rules, to compare `glucored check` with.

    check_log.py CNF LOG [--every]

It prints what `glucored check` prints for a log that is well spelt. With --every it goes on after a refused line, which
changes nothing, and prints each refused line.
"""
import sys


def formula_of(path):
    """The number of variables, and the clauses."""
    words = []
    with open(path) as text:
        for line in text:
            if not line.startswith("c"):
                words.extend(line.split())
    count, clauses, clause = int(words[2]), [], []
    for word in words[4:]:
        if int(word) == 0:
            clauses.append(clause)
            clause = []
        else:
            clause.append(int(word))
    return count, clauses


class Checker:
    """The live clauses by their ids, the greatest id so far, and whether the empty clause was added."""

    def __init__(self, count, clauses):
        self.vars = count
        self.live = dict(enumerate(clauses, 1))
        self.last = len(clauses)
        self.refuted = False

    def line(self, words):
        """Takes a line, or answers why it is refused and the id that is named."""
        if len(words) > 1 and words[1] == "d":
            return self.delete([int(word) for word in words[2:-1]])
        close = words.index("0", 1)
        return self.add(int(words[0]), [int(w) for w in words[1:close]], [int(w) for w in words[close + 1:-1]])

    def add(self, id, lemma, hints):
        if id <= self.last:
            return "IdNotGreater", id
        if any(abs(lit) > self.vars for lit in lemma):
            return "VarAbove", id
        true = {-lit for lit in lemma}
        for hint in hints:
            if hint not in self.live:
                return "NotLive", hint
            unfalse = {lit for lit in self.live[hint] if -lit not in true}
            if not unfalse:
                break
            if len(unfalse) > 1:
                return "HintNotUnit", hint
            true |= unfalse
        else:
            return "NoConflict", id
        self.live[id] = lemma
        self.last = id
        self.refuted = self.refuted or not lemma
        return None

    def delete(self, ids):
        seen = set()
        for id in ids:
            if id not in self.live or id in seen:
                return "NotLive", id
            seen.add(id)
        for id in ids:
            del self.live[id]
        return None


def main():
    every = "--every" in sys.argv
    names = [word for word in sys.argv[1:] if not word.startswith("--")]
    checker = Checker(*formula_of(names[0]))
    refused = 0
    with open(names[1]) as log:
        for number, line in enumerate(log, 1):
            words = line.split()
            if not words or words[0].startswith("c"):
                continue
            why = checker.line(words)
            if why is not None:
                refused += 1
                if every:
                    print(f"c log line {number}: {why[0]} {why[1]}")
                else:
                    print(f"s NOT VERIFIED\nc log line {number}: {why[0]} {why[1]}")
                    sys.exit(1)
    if every:
        print(f"c {refused} lines refused")
    if not checker.refuted:
        print("s NOT VERIFIED\nc log: NoEmptyClause")
        sys.exit(1)
    print("s VERIFIED")


if __name__ == "__main__":
    main()
