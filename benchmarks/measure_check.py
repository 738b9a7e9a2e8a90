#!/usr/bin/env python3
"""Times `glucored check` from its start to its verdict, and prints each run.

    measure_check.py PROGRAM CNF LOG [--runs N] [--core N]

A line a run: wall time, user and system time, megabytes (10^6 bytes) of the log and of both files a second of processor
time (user and system), and peak memory. With --core the runs stay on that processor.
"""
import argparse
import os
import subprocess
import time


def main():
    parser = argparse.ArgumentParser(description=__doc__, formatter_class=argparse.RawDescriptionHelpFormatter)
    parser.add_argument("program")
    parser.add_argument("cnf")
    parser.add_argument("log")
    parser.add_argument("--runs", type=int, default=5)
    parser.add_argument("--core", type=int)
    options = parser.parse_args()
    if options.core is not None:
        os.sched_setaffinity(0, {options.core})
    log_size = os.path.getsize(options.log) / 1e6
    size = log_size + os.path.getsize(options.cnf) / 1e6
    for _ in range(options.runs):
        begun = time.monotonic()
        ran = subprocess.Popen([options.program, "check", options.cnf, options.log], stdout=subprocess.PIPE)
        said = ran.stdout.read().decode().strip().replace("\n", " / ")
        _, status, used = os.wait4(ran.pid, 0)
        wall = time.monotonic() - begun
        spent = used.ru_utime + used.ru_stime
        print(
            f"wall {wall:.2f} s, user {used.ru_utime:.2f} s, system {used.ru_stime:.2f} s,"
            f" log {log_size / spent:.1f} MB/s, both {size / spent:.1f} MB/s,"
            f" peak {used.ru_maxrss / 1024:.0f} MiB, status {os.waitstatus_to_exitcode(status)}: {said}"
        )


if __name__ == "__main__":
    main()
