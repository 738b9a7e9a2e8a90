#!/usr/bin/env python3
"""Watches a running gate (`rt ci`), and prints as Markdown what each crate's proofs, tests and must-fail edits cost.

Usage: measure_gate.py [--top FOLDER | --pid PID] [--every SECONDS] [--dearest N] > table.md

It waits for an `rt ci` at the top of this repository (or in FOLDER), looks at the processes below it twice a second
until it ends, and changes nothing: it reads /proc alone. Times are processor time, user and system, of a process and
all that it started. What a process used between the last look and its end is not seen; the last line says how much
that is, by what the system counts for all children of `rt ci`. Crates whose work an earlier run kept cost nothing but
their tests' runs. Ended by Ctrl-C, it prints what it has seen so far.
"""
import argparse
import collections
import os
import re
import sys
import time

TICK = os.sysconf("SC_CLK_TCK")
KINDS = ("proofs", "tests", "edits", "runs")


def read(path):
    try:
        with open(path, "rb") as file:
            return file.read().decode(errors="replace")
    except OSError:
        return ""


def words_of(pid):
    return read(f"/proc/{pid}/cmdline").split("\0")[:-1]


def folder_of(pid):
    try:
        return os.readlink(f"/proc/{pid}/cwd")
    except OSError:
        return ""


class Process:
    """One line of /proc: its parent, when it began, its own time, and that of its children that have ended."""

    def __init__(self, stat):
        fields = stat[stat.rindex(")") + 2 :].split()
        self.parent, self.begun = int(fields[1]), int(fields[19])
        self.own, self.ended = (sum(map(int, fields[at : at + 2])) / TICK for at in (11, 13))


def processes():
    found = {}
    for name in filter(str.isdigit, os.listdir("/proc")):
        stat = read(f"/proc/{name}/stat")
        if stat:
            found[int(name)] = Process(stat)
    return found


def find_gate(top):
    """The `rt ci` that runs at the top of the repository, once there is one."""
    while True:
        for name in filter(str.isdigit, os.listdir("/proc")):
            words = words_of(name)
            is_gate = any(os.path.basename(a) == "rt" and b == "ci" for a, b in zip(words, words[1:]))
            if is_gate and folder_of(name) == top:
                return int(name)
        time.sleep(0.5)


def edited_files(edit, crate):
    """The files that a must-fail edit changes, as they read with it."""
    path, old, texts = "", "", {}
    for line in read(edit).split("\n"):
        word, _, rest = line.partition(": ")
        if word == "file":
            path = rest.strip()
        elif word == "old":
            old = rest
        elif line.startswith("new:"):
            texts[path] = texts.get(path, read(f"{crate}/{path}")).replace(old, rest)
    return texts


def edit_in(room, crate):
    """The name of the edit that is tried in this folder; the check that all begin with has none."""
    folder = f"{crate}/must-fail"
    for name in sorted(os.listdir(folder)) if os.path.isdir(folder) else []:
        texts = edited_files(f"{folder}/{name}", crate)
        if texts and all(read(f"{room}/{path}") == text for path, text in texts.items()):
            return name
    return "the crate as it stands"


class Work:
    """One process that the gate started: what it is for, and the most time that was seen of it."""

    def __init__(self, pid, top):
        self.pid, self.top, self.seconds = pid, top, 0.0
        self.crate = self.kind = None
        self.what = ""

    def look(self):
        """Finds out what it is for. It begins as Python, which then turns into the command."""
        words, folder = words_of(self.pid), folder_of(self.pid)
        program = next((it for it in words if re.match(r".*/rt-run-\d+-[^/]*/bin/", it)), "")
        if words and os.path.basename(words[0]) == "rattle" and "--crate-name" in words:
            self.crate = words[words.index("--crate-name") + 1]
            self.kind = "edits" if "/rt-edit-" in folder else "tests" if "--test" in words else "proofs"
            if self.kind == "edits":
                self.what = edit_in(folder, f"{self.top}/crates/{self.crate}")
        elif program:
            self.crate, self.kind = re.sub(r"_tests(\.by-rattle)?$|\.by-rattle$", "", os.path.basename(program)), "runs"
        elif words and os.path.basename(words[0]).startswith("rattle") and f"{self.top}/crates/" in f"{folder}/":
            self.crate, self.kind = os.path.basename(folder), "proofs"


class Watch:
    """All that a gate was seen to do."""

    def __init__(self, pid, top):
        self.pid, self.top = pid, top
        self.begun, self.works = time.monotonic(), {}
        self.own = self.counted = 0.0
        self.before = None

    def look(self):
        """Looks once, and returns whether the gate still runs."""
        found = processes()
        if self.pid not in found:
            return False
        self.own, self.counted = found[self.pid].own, found[self.pid].ended
        self.before = self.counted if self.before is None else self.before
        children = collections.defaultdict(list)
        for pid, process in found.items():
            children[process.parent].append(pid)
        for pid in children[self.pid]:
            work = self.works.setdefault((pid, found[pid].begun), Work(pid, self.top))
            if not work.kind:
                work.look()
            below, at = [pid], 0
            while at < len(below):
                below += children[below[at]]
                at += 1
            work.seconds = max(work.seconds, sum(found[it].own + found[it].ended for it in below))
        return True

    def table(self, dearest):
        costs, tries = collections.defaultdict(collections.Counter), collections.Counter()
        for work in self.works.values():
            if work.kind:
                costs[work.crate][work.kind] += work.seconds
                tries[work.crate] += work.kind == "edits" and work.what.endswith(".edit")
        total = collections.Counter()
        for cost in costs.values():
            total.update(cost)
        whole = sum(total.values())
        yield "| crate | proofs | tests | edits | tried | runs | all | share |"
        yield "|---|---|---|---|---|---|---|---|"
        rows = sorted(costs.items(), key=lambda it: -sum(it[1].values()))
        for name, cost in [*((f"`{crate}`", cost) for crate, cost in rows), ("all", total)]:
            number = sum(tries.values()) if name == "all" else tries[name.strip("`")]
            row = [f"{cost[kind]:,.0f} s" for kind in KINDS]
            row[3:3] = [str(number)]
            row += [f"{sum(cost.values()):,.0f} s", f"{100 * sum(cost.values()) / max(whole, 1e-9):.0f} %"]
            yield f"| {name} | {' | '.join(row)} |"
        edits = collections.Counter()
        for work in self.works.values():
            if work.kind == "edits":
                edits[f"`{work.crate}`: {work.what.removesuffix('.edit')}"] += work.seconds
        if edits and dearest:
            yield ""
            yield "| dearest of the edits | processor time |"
            yield "|---|---|"
            yield from (f"| {name} | {seconds:,.0f} s |" for name, seconds in edits.most_common(dearest))
        yield ""
        seen, counted = sum(work.seconds for work in self.works.values()), self.counted - (self.before or 0)
        yield (
            f"Watched for {time.monotonic() - self.begun:,.0f} s; `rt ci` itself took {self.own:,.0f} s of processor "
            f"time. The system counts {counted:,.0f} s for its children that ended, and {seen:,.0f} s were seen."
        )


def main():
    parser = argparse.ArgumentParser(description=__doc__, formatter_class=argparse.RawDescriptionHelpFormatter)
    here = os.path.dirname(os.path.dirname(os.path.realpath(__file__)))
    parser.add_argument("--top", default=here, help="the repository whose gate is watched (default: this one)")
    parser.add_argument("--pid", type=int, help="the process of an `rt ci` that runs already")
    parser.add_argument("--every", type=float, default=0.5, help="seconds between two looks (default: 0.5)")
    parser.add_argument("--dearest", type=int, default=20, help="how many of the dearest edits to list (default: 20)")
    given = parser.parse_args()
    top = folder_of(given.pid) if given.pid else os.path.realpath(given.top)
    print(f"waiting for rt ci in {top}" if not given.pid else f"watching {given.pid}", file=sys.stderr)
    watch = Watch(given.pid or find_gate(top), top)
    try:
        while watch.look():
            time.sleep(given.every)
    except KeyboardInterrupt:
        pass
    print(*watch.table(given.dearest), sep="\n")


if __name__ == "__main__":
    main()
