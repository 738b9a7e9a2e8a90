#!/usr/bin/env python3
"""Times conflict analysis in gr_timing beside the same loop in C (analysis_loop.c), in one run.

    measure_analysis.py PROGRAM CNF[:ROUNDS].. [--runs N] [--core N] [--instructions]

As measure_propagation.py, whose options it has: but each of the formula's conflicts is analysed ROUNDS times, and what
is taken off is what the program needs to come to the conflicts.
"""
from measure_propagation import main

if __name__ == "__main__":
    main("analysis", __doc__)
