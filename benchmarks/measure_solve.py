#!/usr/bin/env python3
"""Times solvers on the formulas of a folder, and draws the times as a picture.

    measure_solve.py GLUCORED FOLDER [--options WORDS] [--repeat N] [--limit SECONDS] [--picture SVG]

Each formula (*.cnf) is solved by the built program GLUCORED, and by minisat and cadical where they are on the PATH; glucored
writes its proof log, cadical a DRAT proof, and minisat none. A time is processor time, the least of N runs. Verdicts that
differ are named. The picture has for each solver its times in ascending order, on a scale of powers of ten.
"""
import argparse
import glob
import math
import os
import resource
import shutil
import subprocess
import tempfile

COLOURS = {"glucored": "#b3261e", "minisat": "#1f5fa8", "cadical": "#2e7d32"}


def commands(options, proof):
    yield "glucored", lambda cnf: [options.glucored, "solve", cnf, proof, *options.options.split()]
    if shutil.which("minisat"):
        yield "minisat", lambda cnf: ["minisat", "-verb=0", cnf]
    if shutil.which("cadical"):
        yield "cadical", lambda cnf: ["cadical", "-q", cnf, proof]


def seconds_of(command, limit):
    before = resource.getrusage(resource.RUSAGE_CHILDREN)
    try:
        done = subprocess.run(command, stdout=subprocess.DEVNULL, stderr=subprocess.DEVNULL, timeout=limit)
    except subprocess.TimeoutExpired:
        return None, None
    after = resource.getrusage(resource.RUSAGE_CHILDREN)
    return done.returncode, after.ru_utime + after.ru_stime - before.ru_utime - before.ru_stime


def picture(times, limit):
    low, high, width, height = 0.01, limit, 640, 360
    count = max(len(ts) for ts in times.values())

    def place(rank, seconds):
        x = 60 + (width - 90) * (rank + 1) / count
        y = height - 40 - (height - 70) * math.log(max(seconds, low) / low) / math.log(high / low)
        return f"{x:.1f},{y:.1f}"

    lines = [f'<svg xmlns="http://www.w3.org/2000/svg" viewBox="0 0 {width} {height}" font-family="sans-serif" font-size="12">']
    lines.append(f'<rect width="{width}" height="{height}" fill="white"/>')
    seconds = low
    while seconds <= high:
        x, y = place(-1, seconds).split(",")
        lines.append(f'<line x1="{x}" y1="{y}" x2="{width - 30}" y2="{y}" stroke="#ddd"/>')
        lines.append(f'<text x="52" y="{float(y) + 4:.1f}" text-anchor="end">{seconds:g} s</text>')
        seconds *= 10
    lines.append(f'<text x="{width / 2}" y="{height - 12}" text-anchor="middle">formulas solved within the time</text>')
    for at, (name, solved) in enumerate(times.items()):
        points = " ".join(place(rank, seconds) for rank, seconds in enumerate(sorted(solved)))
        lines.append(f'<polyline points="{points}" fill="none" stroke="{COLOURS[name]}" stroke-width="2"/>')
        lines.append(f'<text x="80" y="{30 + 18 * at}" fill="{COLOURS[name]}">{name}: {len(solved)} solved</text>')
    return "\n".join(lines + ["</svg>\n"])


def main():
    parser = argparse.ArgumentParser(description=__doc__, formatter_class=argparse.RawDescriptionHelpFormatter)
    parser.add_argument("glucored")
    parser.add_argument("folder")
    parser.add_argument("--options", default="")
    parser.add_argument("--repeat", type=int, default=1)
    parser.add_argument("--limit", type=float, default=100)
    parser.add_argument("--picture")
    options = parser.parse_args()
    with tempfile.TemporaryDirectory() as folder:
        solvers = dict(commands(options, os.path.join(folder, "proof")))
        times = {name: [] for name in solvers}
        print(f"{'formula':32}" + "".join(f"{name:>10}" for name in solvers))
        for cnf in sorted(glob.glob(os.path.join(options.folder, "*.cnf"))):
            verdicts, row = set(), []
            for name, command in solvers.items():
                runs = [seconds_of(command(cnf), options.limit) for _ in range(options.repeat)]
                solved = [seconds for status, seconds in runs if status in (10, 20)]
                verdicts |= {status for status, _ in runs if status in (10, 20)}
                row.append(f"{min(solved):10.2f}" if solved else f"{'-':>10}")
                times[name] += [min(solved)] if solved else []
            note = "  DIFFERENT VERDICTS" if len(verdicts) > 1 else ""
            print(f"{os.path.basename(cnf):32}" + "".join(row) + note, flush=True)
    for name, solved in times.items():
        print(f"{name}: {len(solved)} solved, {sum(solved):.2f} s")
    if options.picture:
        with open(options.picture, "w") as out:
            out.write(picture(times, options.limit))


if __name__ == "__main__":
    main()
