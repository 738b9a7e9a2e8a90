#!/usr/bin/env python3
"""Says which large blocks of memory `glucored check` had mapped at once, at most.

    measure_blocks.py PROGRAM CNF LOG [--least KIB]

It runs the program under strace, which has to be there, and follows the anonymous blocks of at least so many KiB that it
maps, remaps and gives back: the C library maps each large allocation by itself. It prints the most that was mapped at
once, with the blocks of that time, the largest first.
"""
import argparse
import os
import re
import subprocess
import tempfile

CALL = re.compile(r"(?:\d+ +)?(mmap|mremap|munmap)\((.*)\) += (0x[0-9a-f]+|-?\d+)")


def peak_of(trace, least):
    """The most bytes that were mapped at once in such blocks, and the blocks of that time."""
    blocks, most, at_most = {}, 0, []
    for line in trace:
        match = CALL.match(line)
        if not match or match.group(3).startswith("-"):
            continue
        call, words, result = match.group(1), [w.strip() for w in match.group(2).split(",")], int(match.group(3), 16)
        if call == "mmap":
            if "MAP_ANONYMOUS" in words[3] and "PROT_WRITE" in words[2] and int(words[1]) >= least:
                blocks[result] = int(words[1])
        elif call == "munmap":
            blocks.pop(int(words[0], 16), None)
        else:
            blocks.pop(int(words[0], 16), None)
            if int(words[2]) >= least:
                blocks[result] = int(words[2])
        if sum(blocks.values()) > most:
            most, at_most = sum(blocks.values()), sorted(blocks.values(), reverse=True)
    return most, at_most


def main():
    parser = argparse.ArgumentParser(description=__doc__, formatter_class=argparse.RawDescriptionHelpFormatter)
    parser.add_argument("program")
    parser.add_argument("cnf")
    parser.add_argument("log")
    parser.add_argument("--least", type=int, default=256, help="the least size of a block, in KiB")
    options = parser.parse_args()
    with tempfile.NamedTemporaryFile("r", suffix=".strace") as trace:
        ran = subprocess.Popen(
            ["strace", "-f", "-o", trace.name, "-e", "trace=mmap,mremap,munmap"]
            + [options.program, "check", options.cnf, options.log],
            stdout=subprocess.PIPE,
        )
        said = ran.stdout.read().decode().strip().replace("\n", " / ")
        _, status, _ = os.wait4(ran.pid, 0)
        most, blocks = peak_of(trace, options.least * 1024)
    print(f"blocks mapped at once: {most / 1e6:.1f} MB, of " + " + ".join(f"{b / 1e6:.1f}" for b in blocks) + " MB")
    print(f"status {os.waitstatus_to_exitcode(status)}: {said}")


if __name__ == "__main__":
    main()
