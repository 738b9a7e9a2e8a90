#!/usr/bin/env python3
"""Runs glucored where memory, files, pipes or texts fail, and judges each end.

    hostile.py PROGRAM [--rounds N] [--seed N] [--only KIND] [--limit SECONDS]

A run has to end within the limit, with a status that its surroundings allow, and with output that is true: all of what
is due, or where something failed a front part of it. A model is tried on the formula. A refutation stands only over a
proof log that `glucored check` and check_log.py beside this file accept. Where no log is due its file is as it was, and
where writing it failed there is a front part of an accepted one. What is due for a text is read off it by
plain_texts.py, and found by a plain solver, also for texts that were damaged.

    memory    an address space of a growing size, from one in which the program cannot begin
    calls     the first, second, .. call for memory, for a thread, to open, to read or to write fails, or it and all
              behind it; each read and write takes one byte (refuse_calls.c; needs a C compiler)
    full      a full device, a folder or nothing in place of the proof log; a full device as standard output
    quota     a limit on the size of files, of which the system tells by an error or by a signal
    disk      a full file system (needs root)
    closed    no standard output, and no standard input or error
    pipe      a reader that ends at once or after some bytes, where the system tells it by a signal or an error
    files     files that are missing, empty or not to be read, folders, and names that are no text
    formulas  formulas, cut or with flipped bits, for solve: N drawn ones
    logs      formulas and proof logs, cut or with flipped bits, for check: N drawn pairs

The last two are drawn from the seed. What is wrong is printed with its command, and the files are kept. The exit
status is 1 where anything was wrong.
"""
import argparse
import os
import sys
import tempfile

import hostile_kinds
from hostile_judge import Judge


def main():
    parser = argparse.ArgumentParser(description=__doc__, formatter_class=argparse.RawDescriptionHelpFormatter)
    parser.add_argument("program")
    parser.add_argument("--rounds", type=int, default=3000)
    parser.add_argument("--seed", type=int, default=1)
    parser.add_argument("--only", choices=list(hostile_kinds.KINDS), action="append", metavar="KIND")
    parser.add_argument("--limit", type=float, default=120)
    options = parser.parse_args()
    with tempfile.TemporaryDirectory(prefix="hostile_") as folder:
        judge = Judge(os.path.abspath(options.program), folder, options.limit)
        for kind in options.only or hostile_kinds.KINDS:
            judge.begin(kind)
            hostile_kinds.KINDS[kind](judge, options)
        judge.print_table()
    sys.exit(1 if judge.wrong else 0)


if __name__ == "__main__":
    main()
