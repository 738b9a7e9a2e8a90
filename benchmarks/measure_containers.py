#!/usr/bin/env python3
"""Times the loops of gr_timing beside the same loops in C (container_loops.c, order_loop.c), in one run.

    measure_containers.py PROGRAM [--runs N] [--core N]

PROGRAM is the built crate gr_timing. The C program is built by gcc and by clang, where they are there, at -O3. Each
run times all programs in turn, and takes off what the same program needs for no rounds. A line a loop: the processor
time of each run, the least of each program, and the median and the range over the runs of the ratio to the faster C
program of the same run.
"""
import argparse
import os
import shutil
import statistics
import subprocess
import sys
import tempfile

# A loop of gr_timing, its rounds, and the C source and its word for the same loop.
LOOPS = [
    ("arena", 400, "container_loops.c", "arena"),
    ("trail", 300, "container_loops.c", "trail"),
    ("watches", 700, "container_loops.c", "watches"),
    ("order", 100_000, "order_loop.c", "order"),
    ("order", 100_000, "order_loop.c", "list"),
]


def seconds(program, loop, rounds):
    ran = subprocess.Popen([program, loop, str(rounds)], stdout=subprocess.PIPE)
    said = ran.stdout.read().decode().strip()
    _, status, used = os.wait4(ran.pid, 0)
    if os.waitstatus_to_exitcode(status) != 0:
        sys.exit(f"{program} {loop} {rounds} ended with {os.waitstatus_to_exitcode(status)}")
    return used.ru_utime, said


def main():
    parser = argparse.ArgumentParser(description=__doc__, formatter_class=argparse.RawDescriptionHelpFormatter)
    parser.add_argument("program")
    parser.add_argument("--runs", type=int, default=7)
    parser.add_argument("--core", type=int)
    options = parser.parse_args()
    if options.core is not None:
        os.sched_setaffinity(0, {options.core})
    here = os.path.dirname(os.path.abspath(__file__))
    compilers = [name for name in ("gcc", "clang") if shutil.which(name)]
    if not compilers:
        sys.exit("neither gcc nor clang is there")
    with tempfile.TemporaryDirectory() as folder:
        built = {}
        for source in sorted({source for _, _, source, _ in LOOPS}):
            for compiler in compilers:
                built[source, compiler] = os.path.join(folder, f"{source}.{compiler}")
                command = [compiler, "-O3", "-o", built[source, compiler], os.path.join(here, source)]
                subprocess.run(command, check=True)
        for loop, rounds, source, word in LOOPS:
            programs = {compiler: (built[source, compiler], word) for compiler in compilers}
            compare(loop, rounds, word, {"gr_timing": (options.program, loop), **programs}, options.runs)


def compare(loop, rounds, word, programs, runs):
    times = {name: [] for name in programs}
    for _ in range(runs):
        answers = set()
        for name, (program, its_word) in programs.items():
            empty, _ = seconds(program, its_word, 0)
            whole, said = seconds(program, its_word, rounds)
            times[name].append(whole - empty)
            answers.add(said)
        if len(answers) != 1:
            sys.exit(f"{loop}: the checksums differ: {answers}")
    for name, list_of_times in times.items():
        print(f"{loop} {name}: " + " ".join(f"{t:.3f}" for t in list_of_times) + " s")
    in_c = [name for name in programs if name != "gr_timing"]
    ratios = [times["gr_timing"][k] / min(times[name][k] for name in in_c) for k in range(runs)]
    least = min(times["gr_timing"]) / min(min(times[name]) for name in in_c)
    print(
        f"{loop}: to the faster C program ({word}), median {statistics.median(ratios):.2f},"
        f" {min(ratios):.2f} to {max(ratios):.2f}; of the least times {least:.2f}"
    )


if __name__ == "__main__":
    main()
