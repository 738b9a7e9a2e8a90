#!/usr/bin/env python3
"""Times turns at the lock of gr_turn beside a plain ticket lock in C (lock_loops.c), in one run.

    measure_lock.py PROGRAM [--runs N] [--own] [--case THREADS:TURNS[:WORK]]..

PROGRAM is the built crate gr_timing_lock. The C program is built by gcc or clang, at -O3, and waits in two ways: it
yields between two looks (`yield`), or gives the processor's hint alone (`spin`). Behind each turn are WORK steps of
arithmetic, whose checksum all programs have to agree on. Each run times all in turn; what is taken off is the least that
the same program needed for no turns. With --own, cases of one or two threads have processors 0 and 1 for themselves, by real-time priority,
which needs root: they are short. A line a case: the wall time per turn of each run in nanoseconds, the median, and the
processor time per turn; then the median and the range over the runs of the ratio to the faster C program of the same run.
"""
import argparse
import os
import shutil
import statistics
import subprocess
import sys
import tempfile
import time

CASES = ["1:2000000", "2:300000", "2:300000:200", "8:20000", "8:20000:1000"]
LIMIT = 60


def alone():
    os.sched_setaffinity(0, {0, 1})
    os.sched_setscheduler(0, os.SCHED_FIFO, os.sched_param(1))


def seconds(words, own):
    begun = time.monotonic()
    ran = subprocess.Popen(words, stdout=subprocess.PIPE, preexec_fn=alone if own else None)
    said = ran.stdout.read().decode().strip()
    _, status, used = os.wait4(ran.pid, 0)
    if os.waitstatus_to_exitcode(status) != 0:
        sys.exit(f"{words} ended with {os.waitstatus_to_exitcode(status)}")
    return time.monotonic() - begun, used.ru_utime + used.ru_stime, said


def least_of(many, own):
    measured = [seconds(words, own)[:2] for words in many]
    return min(wall for wall, _ in measured), min(used for _, used in measured)


def main():
    parser = argparse.ArgumentParser(description=__doc__, formatter_class=argparse.RawDescriptionHelpFormatter)
    parser.add_argument("program")
    parser.add_argument("--runs", type=int, default=5)
    parser.add_argument("--own", action="store_true")
    parser.add_argument("--case", action="append")
    parser.add_argument("--spin-too", action="store_true", help="also time `spin` where threads outnumber processors")
    options = parser.parse_args()
    compiler = shutil.which("gcc") or shutil.which("clang")
    if not compiler:
        sys.exit("neither gcc nor clang is there")
    source = os.path.join(os.path.dirname(os.path.abspath(__file__)), "lock_loops.c")
    with tempfile.TemporaryDirectory() as folder:
        plain = os.path.join(folder, "lock_loops")
        subprocess.run([compiler, "-O3", "-pthread", "-o", plain, source], check=True)
        print(f"load {os.getloadavg()[0]:.1f} on {os.cpu_count()} processors")
        for case in options.case or CASES:
            threads, turns, work = (case.split(":") + ["0"])[:3]
            programs = {"gr_turn": [options.program], "yield": [plain, "yield"], "spin": [plain, "spin"]}
            if int(threads) > os.cpu_count() and not options.spin_too:
                del programs["spin"]
            own = options.own and int(threads) <= 2
            whole = int(threads) * int(turns)
            idle = {name: least_of([words + [threads, "0", work]] * options.runs, own) for name, words in programs.items()}
            times = {name: [] for name in programs}
            used = {name: [] for name in programs}
            for _ in range(options.runs):
                answers = set()
                for name, words in programs.items():
                    wall, busy, said = seconds(words + [threads, turns, work], own)
                    if not said.startswith(f"{whole} entries, {whole} turns, "):
                        sys.exit(f"{words}: {said}")
                    answers.add(said)
                    times[name].append((wall - idle[name][0]) / whole * 1e9)
                    used[name].append((busy - idle[name][1]) / whole * 1e9)
                if len(answers) != 1:
                    sys.exit(f"{case}: the checksums differ: {answers}")
            for name in programs:
                print(
                    f"{threads} threads, {turns} turns each, work {work}, {name}: "
                    + " ".join(f"{t:.0f}" for t in times[name])
                    + f" ns a turn, median {statistics.median(times[name]):.0f};"
                    + f" processor time {statistics.median(used[name]):.0f} ns"
                )
            in_c = [name for name in programs if name != "gr_turn"]
            ratios = [times["gr_turn"][k] / min(times[name][k] for name in in_c) for k in range(options.runs)]
            print(
                f"{threads} threads, {turns} turns each, work {work}: to the faster C program, median"
                f" {statistics.median(ratios):.2f}, {min(ratios):.2f} to {max(ratios):.2f};"
                f" load {os.getloadavg()[0]:.1f}",
                flush=True,
            )


if __name__ == "__main__":
    main()
