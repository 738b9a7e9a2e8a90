#!/usr/bin/env python3
"""Times `glucored solve` with different numbers of reducers, and draws the times as a picture.

    measure_reducers.py GLUCORED FORMULA.. [--reducers N..] [--options WORDS] [--repeat N] [--check] [--picture SVG]

Each formula is solved N times with each number of reducers, in turn, so that what else the machine does falls on all alike.
A row has, for each number of reducers, the median of the wall times (and the least and the most) in seconds, and the
median of the processor time. Below are the geometric means of the medians over those without reducers. Verdicts that
differ are named. With `--options "--conflicts 8000"` the search ends after so many conflicts, and the ratio tells what
reducers do to its own speed. With `--check` each refutation's proof log is verified by `glucored check`.
"""
import argparse
import math
import os
import resource
import statistics
import subprocess
import tempfile
import time

COLOURS = ["#666666", "#b3261e", "#1f5fa8", "#2e7d32", "#8e24aa"]


class Run:
    """One call: its status, wall time and processor time."""

    def __init__(self, command):
        before, begun = resource.getrusage(resource.RUSAGE_CHILDREN), time.monotonic()
        self.status = subprocess.run(command, stdout=subprocess.DEVNULL, stderr=subprocess.DEVNULL).returncode
        self.wall, after = time.monotonic() - begun, resource.getrusage(resource.RUSAGE_CHILDREN)
        self.processor = after.ru_utime + after.ru_stime - before.ru_utime - before.ru_stime


def solve_all(options, formula, proof):
    runs = {reducers: [] for reducers in options.reducers}
    for _ in range(options.repeat):
        for reducers in options.reducers:
            words = ["solve", formula, proof, "--reducers", str(reducers), *options.options.split()]
            runs[reducers].append(Run([options.glucored, *words]))
            if options.check and runs[reducers][-1].status == 20:
                if Run([options.glucored, "check", formula, proof]).status != 0:
                    print(f"REFUSED LOG: {formula} with {reducers} reducers", flush=True)
    return runs


def picture(rows, reducers):
    """For each formula a group of bars: the medians over that of the first number of reducers."""
    width, height, high = 100 + 110 * len(rows), 300, 1.5
    lines = [f'<svg xmlns="http://www.w3.org/2000/svg" viewBox="0 0 {width} {height}" font-family="sans-serif" font-size="12">']
    lines.append(f'<rect width="{width}" height="{height}" fill="white"/>')

    def level(ratio):
        return height - 50 - (height - 90) * min(ratio, high) / high

    for step in range(0, 7):
        ratio = step * high / 6
        lines.append(f'<line x1="50" y1="{level(ratio):.1f}" x2="{width - 20}" y2="{level(ratio):.1f}" stroke="#ddd"/>')
        lines.append(f'<text x="44" y="{level(ratio) + 4:.1f}" text-anchor="end">{ratio:.2f}</text>')
    for at, (name, medians) in enumerate(rows):
        for which, median in enumerate(medians):
            x, ratio = 62 + 110 * at + 84 * which / len(medians), median / medians[0]
            lines.append(f'<rect x="{x:.1f}" y="{level(ratio):.1f}" width="{84 / len(medians) - 3:.1f}" '
                         f'height="{level(0) - level(ratio):.1f}" fill="{COLOURS[which % len(COLOURS)]}"/>')
        lines.append(f'<text x="{104 + 110 * at}" y="{height - 32}" text-anchor="middle">{name}</text>')
        lines.append(f'<text x="{104 + 110 * at}" y="{height - 16}" text-anchor="middle">{medians[0]:.2f} s</text>')
    for which, number in enumerate(reducers):
        lines.append(f'<text x="{60 + 110 * which}" y="20" fill="{COLOURS[which % len(COLOURS)]}">{number} reducers</text>')
    return "\n".join(lines + ["</svg>\n"])


def main():
    parser = argparse.ArgumentParser(description=__doc__, formatter_class=argparse.RawDescriptionHelpFormatter)
    parser.add_argument("glucored")
    parser.add_argument("formulas", nargs="+")
    parser.add_argument("--reducers", type=int, nargs="+", default=[0, 1, 2])
    parser.add_argument("--options", default="")
    parser.add_argument("--repeat", type=int, default=5)
    parser.add_argument("--check", action="store_true")
    parser.add_argument("--picture")
    options = parser.parse_args()
    print("| formula |" + "".join(f" {n} reducers | processor time |" for n in options.reducers))
    print("|---|" + "---|---|" * len(options.reducers))
    rows = []
    with tempfile.TemporaryDirectory() as folder:
        for formula in options.formulas:
            runs = solve_all(options, formula, os.path.join(folder, "proof"))
            medians, cells = [], []
            for of_one in runs.values():
                walls = sorted(run.wall for run in of_one)
                medians.append(statistics.median(walls))
                cells.append(f" {medians[-1]:.2f} ({walls[0]:.2f} to {walls[-1]:.2f}) |"
                             f" {statistics.median(run.processor for run in of_one):.2f} |")
            verdicts = {run.status for of_one in runs.values() for run in of_one}
            name = os.path.basename(formula).removesuffix(".cnf")
            rows.append((name, medians))
            print(f"| `{name}` |" + "".join(cells) + ("  DIFFERENT VERDICTS" if len(verdicts) > 1 else ""), flush=True)
    for which, number in enumerate(options.reducers):
        logs = [math.log(medians[which] / medians[0]) for _, medians in rows]
        print(f"{number} reducers: geometric mean {math.exp(sum(logs) / len(logs)):.3f}, most {math.exp(max(logs)):.3f}")
    if options.picture:
        with open(options.picture, "w") as out:
            out.write(picture(rows, options.reducers))


if __name__ == "__main__":
    main()
