#!/usr/bin/env python3
"""Makes a formula in DIMACS CNF and an LRAT proof log for it, of a wanted size, whose verdict is known.

    make_log.py CNF LOG --kind near|scattered|deleting [--megabytes N | --lines N] [--clauses N] [--groups N]
                        [--huge-ids] [--seed N]

The formula is random Horn clauses over groups of 128 variables (each with a random sign), and four clauses over two
more variables that nothing satisfies. A lemma is a chain of unit steps: some variables of a group are taken as true,
then live clauses whose body is true and whose head is not known yet are cited one by one, and the last one's head is
the lemma's. So each hint is unit as it is read, by construction. The last two lines refute the four clauses.

near       cites the latest clauses of one group at a time
scattered  cites clauses from all over the live ids
deleting   the same, and a line deletes as many lemmas as were added, so that the number of live clauses stays
"""
import argparse
import random

GROUP = 128


class Log:
    """The live clauses by the pairs of variables that their bodies have, and the files that are written."""

    def __init__(self, options, log):
        self.rng = random.Random(options.seed)
        self.kind = options.kind
        self.groups = options.groups
        self.vars = 2 + GROUP * options.groups
        self.signs = [0] + [self.rng.choice((1, -1)) for _ in range(self.vars)]
        self.by_pair = [{} for _ in range(options.groups)]
        self.clauses = {}
        self.lemmas = []
        self.log = log
        self.written = 0
        self.lines = 0
        self.hints = 0

    def keep(self, group, id, body, head):
        """Files a clause under one pair of its body."""
        x, y = sorted(self.rng.sample(body, 2))
        self.by_pair[group].setdefault(x * GROUP + y, []).append(id)
        self.clauses[id] = (body, head)

    def lits(self, group, body, head):
        """The literals of the clause that says: where the body is true, the head is true."""
        base, signs = 3 + group * GROUP, self.signs
        lits = [-(base + v) * signs[base + v] for v in body]
        lits.append((base + head) * signs[base + head])
        self.rng.shuffle(lits)
        return lits

    def base_clause(self, group, id):
        """A random clause of the formula."""
        chosen = self.rng.sample(range(GROUP), self.rng.choice((3, 3, 4)))
        self.keep(group, id, chosen[:-1], chosen[-1])
        return self.lits(group, chosen[:-1], chosen[-1])

    def cited(self, group, true, order):
        """A live clause whose body is true and whose head is not, or none after some tries."""
        rng, by_pair, clauses = self.rng, self.by_pair[group], self.clauses
        near = self.kind == "near"
        for _ in range(60):
            x, y = order[int(rng.random() * len(order))], order[int(rng.random() * len(order))]
            ids = by_pair.get(x * GROUP + y if x < y else y * GROUP + x)
            while ids:
                at = int(rng.random() * len(ids))
                if near:
                    at = max(0, len(ids) - 1 - at % 4)
                id = ids[at]
                if id in clauses:
                    body, head = clauses[id]
                    if head not in true and all(v in true for v in body):
                        return id, head
                    break
                ids[at] = ids[-1]
                ids.pop()
        return None

    def lemma(self, group, id):
        """A chain of 20 to 90 hints, and the lemma that it shows."""
        rng = self.rng
        body = rng.sample(range(GROUP), rng.randint(2, 8))
        order, true, hints = list(body), set(body), []
        wanted = rng.randint(20, 90)
        head = None
        while len(hints) < wanted:
            found = self.cited(group, true, order)
            if found is None:
                if len(order) > GROUP - 2:
                    break
                head = None
                more = rng.choice([v for v in range(GROUP) if v not in true])
                body.append(more)
                order.append(more)
                true.add(more)
                continue
            cite, head = found
            hints.append(cite)
            order.append(head)
            true.add(head)
        if head is None:
            return None
        self.write(f"{id} {' '.join(map(str, self.lits(group, body, head)))} 0 {' '.join(map(str, hints))} 0\n")
        self.hints += len(hints)
        self.keep(group, id, body, head)
        return id

    def delete(self, last, count):
        """A line that deletes lemmas."""
        gone = []
        for _ in range(count):
            at = self.rng.randrange(len(self.lemmas))
            self.lemmas[at], self.lemmas[-1] = self.lemmas[-1], self.lemmas[at]
            gone.append(self.lemmas.pop())
            del self.clauses[gone[-1]]
        self.write(f"{last} d {' '.join(map(str, gone))} 0\n")

    def write(self, text):
        self.log.write(text)
        self.written += len(text)
        self.lines += 1


def main():
    parser = argparse.ArgumentParser(description=__doc__, formatter_class=argparse.RawDescriptionHelpFormatter)
    parser.add_argument("cnf")
    parser.add_argument("log")
    parser.add_argument("--kind", choices=("near", "scattered", "deleting"), default="scattered")
    parser.add_argument("--megabytes", type=float, default=200)
    parser.add_argument("--lines", type=int, default=1 << 62)
    parser.add_argument("--clauses", type=int, default=400_000)
    parser.add_argument("--groups", type=int, default=16)
    parser.add_argument("--huge-ids", action="store_true", help="ids of the lemmas are spread up to 2^62")
    parser.add_argument("--seed", type=int, default=1)
    options = parser.parse_args()
    with open(options.log, "w", buffering=1 << 20) as log:
        made = Log(options, log)
        with open(options.cnf, "w") as cnf:
            cnf.write(f"p cnf {made.vars} {options.clauses + 4}\n1 2 0\n1 -2 0\n-1 2 0\n-1 -2 0\n")
            for i in range(options.clauses):
                group = i * options.groups // options.clauses if options.kind == "near" else i % options.groups
                cnf.write(" ".join(map(str, made.base_clause(group, i + 5))) + " 0\n")
        id = options.clauses + 4
        step = (1 << 62) // 10**7 if options.huge_ids else 1
        while made.written < options.megabytes * 1e6 and made.lines < options.lines:
            if options.kind == "near":
                group = made.lines // 5000 % options.groups
            else:
                group = made.rng.randrange(options.groups)
            id += step
            if made.lemma(group, id) is None:
                continue
            made.lemmas.append(id)
            if options.kind == "deleting" and len(made.lemmas) >= min(100_000, options.clauses // 2):
                made.delete(id, made.rng.randint(1, 3))
        made.write(f"{id + 1} 1 0 1 2 0\n")
        made.write(f"{id + 2} 0 {id + 1} 3 4 0\n")
    print(f"{made.lines} lines, {made.hints} hints, {made.written} bytes")


if __name__ == "__main__":
    main()
