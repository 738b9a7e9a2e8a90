#!/usr/bin/env python3
"""Times the propagation loop of gr_timing beside the same loop in C (propagation_loop.c), in one run.

    measure_propagation.py PROGRAM CNF[:ROUNDS].. [--runs N] [--core N] [--instructions]

PROGRAM is the built crate gr_timing; ROUNDS is 100 where it is left out. The C program is built by gcc and by clang,
where they are there, at -O3. Each run times all programs in turn on a formula, and takes off what the same program
needs for no rounds. Lines for each formula: the processor time of each run, and the median and the range over the runs
of the ratio to the faster C program of the same run. With --instructions valgrind counts each program's instructions
too, which takes some fifty times as long, and the ratio is to the fewer.
"""
import argparse
import os
import re
import shutil
import statistics
import subprocess
import sys
import tempfile


def said_by(words):
    ran = subprocess.Popen(words, stdout=subprocess.PIPE, stderr=subprocess.PIPE)
    said, heard = ran.stdout.read().decode().strip(), ran.stderr.read().decode()
    _, status, used = os.wait4(ran.pid, 0)
    if os.waitstatus_to_exitcode(status) != 0:
        sys.exit(f"{' '.join(words)} ended with {os.waitstatus_to_exitcode(status)}: {heard}")
    return used.ru_utime, said, heard


def seconds(program, loop, cnf, rounds):
    empty, _, _ = said_by([program, loop, cnf, "0"])
    whole, said, _ = said_by([program, loop, cnf, str(rounds)])
    return whole - empty, said


def instructions(program, loop, cnf, rounds):
    counts = []
    for number in (0, rounds):
        tool = ["valgrind", "--tool=callgrind", "--callgrind-out-file=/dev/null"]
        _, _, heard = said_by([*tool, program, loop, cnf, str(number)])
        counts.append(int(re.search(r"Collected : (\d+)", heard).group(1)))
    return counts[1] - counts[0]


def built(folder, loop):
    source = os.path.join(os.path.dirname(os.path.abspath(__file__)), f"{loop}_loop.c")
    programs = {}
    for compiler in ("gcc", "clang"):
        if shutil.which(compiler):
            programs[compiler] = os.path.join(folder, compiler)
            subprocess.run([compiler, "-O3", "-o", programs[compiler], source], check=True)
    if not programs:
        sys.exit("neither gcc nor clang is there")
    return programs


def measure_time(programs, loop, cnf, rounds, runs):
    times = {name: [] for name in programs}
    for _ in range(runs):
        answers = set()
        for name, program in programs.items():
            time, said = seconds(program, loop, cnf, rounds)
            times[name].append(time)
            answers.add(said)
        if len(answers) != 1:
            sys.exit(f"{cnf}: the checksums differ: {answers}")
    for name, list_of_times in times.items():
        print(f"{cnf} {name}: " + " ".join(f"{time:.3f}" for time in list_of_times) + " s")
    peers = [name for name in programs if name != "gr_timing"]
    ratios = [times["gr_timing"][k] / min(times[name][k] for name in peers) for k in range(runs)]
    least = min(times["gr_timing"]) / min(min(times[name]) for name in peers)
    print(
        f"{cnf}: to the faster C program, median {statistics.median(ratios):.2f},"
        f" {min(ratios):.2f} to {max(ratios):.2f}; of the least times {least:.2f}",
        flush=True,
    )


def measure_instructions(programs, loop, cnf, rounds):
    counts = {name: instructions(program, loop, cnf, rounds) for name, program in programs.items()}
    print(f"{cnf} instructions: " + ", ".join(f"{name} {count / 1e6:.1f} million" for name, count in counts.items()))
    fewest = min(count for name, count in counts.items() if name != "gr_timing")
    print(f"{cnf}: instructions to the fewer of C, {counts['gr_timing'] / fewest:.2f}", flush=True)


def main(loop, description):
    parser = argparse.ArgumentParser(description=description, formatter_class=argparse.RawDescriptionHelpFormatter)
    parser.add_argument("program")
    parser.add_argument("formulas", nargs="+", metavar="CNF[:ROUNDS]")
    parser.add_argument("--runs", type=int, default=7)
    parser.add_argument("--core", type=int)
    parser.add_argument("--instructions", action="store_true")
    options = parser.parse_args()
    if options.core is not None:
        os.sched_setaffinity(0, {options.core})
    with tempfile.TemporaryDirectory() as folder:
        programs = {"gr_timing": options.program, **built(folder, loop)}
        for formula in options.formulas:
            cnf, _, number = formula.partition(":")
            rounds = int(number or 100)
            measure_time(programs, loop, cnf, rounds, options.runs)
            if options.instructions:
                measure_instructions(programs, loop, cnf, rounds)


if __name__ == "__main__":
    main("propagation", __doc__)
