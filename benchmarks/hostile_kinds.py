"""The kinds of failing surroundings that hostile.py runs a program in."""
import fcntl
import os
import random
import resource
import shutil
import signal
import subprocess
import sys
import time

from hostile_judge import BEFORE, SATISFIABLE, UNSATISFIABLE, USAGE, Text
from hostile_texts import TEXTS, damaged, drawn, laid_out

HERE = os.path.dirname(os.path.abspath(__file__))
ALONE, BESIDE = ["--reducers", "0"], ["--reducers", "2"]
NOBODY = 65534
# How many files the program opens before those that its words name.
KEPT_NUMBERS = 3
WRONG_WORDS = [[], [""], ["\n"], ["solve"], ["solve", "a"], ["solve", "a" * 100000], ["audit", "a", "b"],
               ["solve", b"\xff.cnf", "b"], ["check", b"\xff", b"\xfe"], ["solve", "a", "b", "--reducers", "9"],
               ["large", "pigeons", "51"]]
UNBEGUN = {"not begun", 127, "SIGKILL", "SIGSEGV", "SIGABRT"}


def logs_of(judge, names):
    """The proof logs that the program writes without reducers."""
    logs = {}
    for name in names:
        judge.put(TEXTS[name].text)
        judge.run(["solve", judge.cnf, judge.log, *ALONE])
        with open(judge.log, "rb") as file:
            logs[name] = file.read()
    return logs


def some(count, most):
    """The numbers from 1 to the count: all of them, or the first ones and some of the others."""
    first = range(1, min(count, most // 2) + 1)
    step = max(1, (count - len(first)) // (most // 2))
    return [*first, *range(len(first) + 1, count + 1, step)]


def memory(judge, asked):
    logs = logs_of(judge, ["refuted", "pigeons"])
    sizes = [*range(1 << 18, 1 << 24, 1 << 17)]
    while sizes[-1] < 1 << 30:
        sizes.append(sizes[-1] * 9 // 8 >> 12 << 12)
    for size in sizes:
        before = lambda: resource.setrlimit(resource.RLIMIT_AS, (size, size))
        # Where the program cannot begin, the system ends it: without words it then does not tell its usage either.
        may = {6} if judge.run([], before=before).status == 2 else {6} | UNBEGUN
        for name in ("refuted", "met", "pigeons"):
            for words in (ALONE, BESIDE):
                allowed = {TEXTS[name].status} | (may if size < 1 << 30 else set())
                judge.solve(TEXTS[name], words, allowed, f"{size:,} bytes, {name}", before=before)
        for name, log in logs.items():
            judge.check(TEXTS[name], log, {0} | may, f"{size:,} bytes, {name}", before=before)


def built_library(judge):
    compiler = shutil.which("cc") or shutil.which("gcc") or shutil.which("clang")
    if not compiler:
        print("calls: left out, since there is no C compiler", file=sys.stderr)
        return None
    made = os.path.join(judge.folder, "refuse_calls.so")
    words = [compiler, "-O1", "-shared", "-fPIC", "-o", made, os.path.join(HERE, "refuse_calls.c"), "-ldl"]
    subprocess.run(words, check=True)
    return made


def counts_of(end):
    """How many calls of each kind there were."""
    return {name: int(count) for name, count in (line.split() for line in end.err.decode().splitlines())}


def statuses(call, number, due, words, goes_on):
    """Which statuses a run may end with whose call of this number fails, and with `goes_on` all behind it. The first
    files that are opened keep the numbers of the standard streams, and a run does without them."""
    if call == "memory":
        return {due, 6}
    if call == "thread":
        return {due}
    if call == "open" and number <= KEPT_NUMBERS and not goes_on:
        return {due}
    if call == "read" or (call == "open" and (number <= KEPT_NUMBERS + 1 or words is None)):
        return {4}
    return {5} if words != BESIDE else {5, due}


def calls(judge, asked):
    library = built_library(judge)
    if library is None:
        return
    logs = logs_of(judge, ["refuted", "pigeons"])
    runs = [(name, words) for name in ("refuted", "met", "pigeons") for words in (ALONE, BESIDE)]
    for name, words in runs + [("refuted", None), ("pigeons", None)]:
        text, due = TEXTS[name], TEXTS[name].status if words else 0

        def run(allowed, where, refuse, **more):
            environment = {"LD_PRELOAD": library, "REFUSE": refuse}
            where = f"{refuse}, {name}{where}"
            if words is None:
                return judge.check(text, logs[name], allowed, where, environment=environment)
            return judge.solve(text, words, allowed, where, environment=environment, **more)

        run({due}, "", "short")
        for call, count in counts_of(run({due}, "", "none")).items():
            for number in some(count, 100):
                is_last = call == "write" and number == count and words == ALONE
                for goes_on in (False, True):
                    allowed = statuses(call, number, due, words, goes_on)
                    run(allowed, "", f"{call}:{number}{'+' if goes_on else ''}", is_log_due=is_last)


def full(judge, asked):
    none, folder = os.path.join(judge.folder, "none", "f.lrat"), judge.folder
    for name, text in TEXTS.items():
        for words in (ALONE, BESIDE):
            for log in ("/dev/full", none, folder, os.path.join(folder, "x" * 300)):
                judge.solve(text, words, {5 if text.status == 20 else text.status}, f"{name}, log {log[:40]}", log=log)
            with open("/dev/full", "wb") as out:
                how = {"stdout": out, "is_kept": False, "is_log_due": True}
                judge.solve(text, words, {5}, f"{name}, output to /dev/full", **how)
    for name, log in logs_of(judge, ["refuted", "pigeons"]).items():
        for damaged in (log, log[:len(log) // 2], log[:-2] + b"x\n"):
            with open("/dev/full", "wb") as out:
                judge.check(TEXTS[name], damaged, {5}, f"{name}, output to /dev/full", is_kept=False, stdout=out)


def limited_files(size, by):
    def before():
        signal.signal(signal.SIGXFSZ, by)
        resource.setrlimit(resource.RLIMIT_FSIZE, (size, size))

    return before


def around(size, count):
    return sorted({*range(0, size, size // count + 1), size - 1, size, size + 1})


def quota(judge, asked):
    logs = logs_of(judge, ["refuted", "pigeons"])
    path = os.path.join(judge.folder, "out")
    for by, failed in ((signal.SIG_IGN, 5), (signal.SIG_DFL, "SIGXFSZ")):
        for name, log in logs.items():
            for size in around(len(log), 100):
                before, where = limited_files(size, by), f"{name}, files up to {size:,} bytes"
                judge.solve(TEXTS[name], ALONE, {failed if size < len(log) else 20}, where, before=before)
                judge.solve(TEXTS[name], BESIDE, {failed, 20}, where, before=before)
        for name, due in (("refuted", UNSATISFIABLE), ("wide", SATISFIABLE + b"." * 130000)):
            for size in around(len(due), 50):
                with open(path, "wb") as out:
                    how = {"before": limited_files(size, by), "stdout": out}
                    allowed = {failed, TEXTS[name].status}
                    where = f"{name}, files up to {size:,} bytes, output to one"
                    judge.solve(TEXTS[name], ALONE, allowed, where, **how)


def disk(judge, asked):
    place = os.path.join(judge.folder, "disk")
    os.makedirs(place, exist_ok=True)
    size = len(logs_of(judge, ["pigeons"])["pigeons"])
    for pages in range(1, size // 4096 + 8, 2):
        words = ["mount", "-t", "tmpfs", "-o", f"size={4 * pages}k", "tmpfs", place]
        if os.geteuid() != 0 or subprocess.run(words, stderr=subprocess.DEVNULL).returncode != 0:
            print("disk: left out, since no file system can be mounted", file=sys.stderr)
            return
        try:
            for words in (ALONE, BESIDE):
                for name in ("refuted", "met", "pigeons"):
                    allowed = {TEXTS[name].status} | ({5} if name == "pigeons" else set())
                    log = os.path.join(place, "f.lrat")
                    judge.solve(TEXTS[name], words, allowed, f"{name}, a file system of {4 * pages} KiB", log=log)
                    if os.path.exists(log):
                        os.remove(log)
        finally:
            subprocess.run(["umount", place], check=True)


def closing(numbers, ignores=False):
    """What closes these files in the child, and perhaps ignores the signal of a broken pipe."""
    def before():
        if ignores:
            signal.signal(signal.SIGPIPE, signal.SIG_IGN)
        for number in numbers:
            os.close(number)

    return before


def closed(judge, asked):
    logs = logs_of(judge, ["refuted", "pigeons"])
    for numbers in ((0,), (1,), (2,), (0, 1), (0, 2), (1, 2), (0, 1, 2)):
        has_out = 1 not in numbers
        how = {"before": closing(numbers), "is_kept": has_out}
        where = f"closed {numbers}"
        for name, text in TEXTS.items():
            for words in (ALONE, BESIDE):
                judge.solve(text, words, {text.status if has_out else 5}, f"{where}, {name}", is_log_due=True, **how)
        for name, log in logs.items():
            for damaged in (log, log[:len(log) // 2], log[:-2] + b"x\n"):
                judge.check(TEXTS[name], damaged, None if has_out else {5}, f"{where}, {name}", **how)
        judge.other([], {2 if has_out else 5}, f"{where}, no words", USAGE if has_out else b"", before=how["before"])


def with_small_output(before):
    """What is called in a child whose output goes into a pipe that holds no more than a page."""
    def both():
        fcntl.fcntl(1, 1031, 4096)  # F_SETPIPE_SZ
        before()

    return both


def read_some(count):
    """What reads so many bytes of the output, and then ends."""
    def during(child):
        seen, number = b"", child.stdout.fileno()
        while len(seen) < count:
            piece = os.read(number, count - len(seen))
            if not piece:
                break
            seen += piece
        child.stdout.close()
        return seen

    return during


def broken_output():
    """A pipe that nobody reads."""
    reader, writer = os.pipe()
    os.close(reader)
    return os.fdopen(writer, "wb")


def read_log(judge, path, count):
    """What reads so many bytes of the log from a pipe of this name, and then ends. It keeps them in the log's file."""
    reader = os.open(path, os.O_RDONLY | os.O_NONBLOCK)
    fcntl.fcntl(reader, 1031, 4096)  # F_SETPIPE_SZ

    def during(child):
        seen = b""
        while len(seen) < count:
            try:
                piece = os.read(reader, count - len(seen))
            except BlockingIOError:
                piece = b""
            seen += piece
            if not piece:
                if child.poll() is not None:
                    break
                time.sleep(0.001)
        os.close(reader)
        with open(judge.log, "wb") as file:
            file.write(seen or BEFORE)

    return during


def feed(text, size):
    """What hands a text on in pieces of this size."""
    def during(child):
        pieces = [text[at:at + size] for at in range(0, len(text), size)]
        try:
            for piece in pieces:
                os.write(child.stdin.fileno(), piece)
                time.sleep(0.001)
        except BrokenPipeError:
            pass  # It has read enough.
        child.stdin.close()
        child.stdin = None

    return during


def pipe(judge, asked):
    logs = logs_of(judge, ["refuted", "pigeons"])
    named = os.path.join(judge.folder, "named")
    os.mkfifo(named)
    for ignores, failed in ((False, {"SIGPIPE", 5}), (True, {5})):
        before, where = closing((), ignores), f"signal {'ignored' if ignores else 'not ignored'}"
        for name, text in TEXTS.items():
            for words in (ALONE, BESIDE):
                with broken_output() as out:
                    how = {"before": before, "stdout": out, "is_kept": False, "is_log_due": True}
                    judge.solve(text, words, failed, f"{where}, {name}, no reader", **how)
        with broken_output() as out:
            how = {"before": before, "stdout": out, "is_kept": False}
            judge.check(TEXTS["refuted"], logs["refuted"], failed, f"{where}, no reader", **how)
        for count in range(1, 140000, 3000):
            allowed = failed if count < 100000 else failed | {10}
            judge.solve(TEXTS["wide"], ALONE, allowed, f"{where}, a reader of {count:,} bytes",
                        before=with_small_output(before), during=read_some(count), is_kept=False)
        for count in around(len(logs["pigeons"]), 40)[1:]:
            allowed = failed if count + 9000 < len(logs["pigeons"]) else failed | {20}
            judge.solve(TEXTS["pigeons"], ALONE, allowed, f"{where}, a reader of {count:,} bytes of the log", log=named,
                        seen_log=judge.log, is_log_cut=count < len(logs["pigeons"]), before=before,
                        during=read_log(judge, named, count))
    for name, text in TEXTS.items():
        for size in (1, 7, 100) if len(text.text) < 100 else (1000,):
            judge.solve(text, ALONE, {text.status}, f"{name}, a formula in pieces of {size} bytes", cnf="/dev/stdin",
                        stdin=subprocess.PIPE, during=feed(text.text, size))


def unread(judge):
    """How a child is run that may not read a file of the mode 0, and not write one of the mode 0444."""
    os.chmod(judge.folder, 0o755)
    return (lambda: os.setuid(NOBODY)) if os.geteuid() == 0 else None


def files(judge, asked):
    met, refuted = TEXTS["met"], TEXTS["refuted"]
    log = logs_of(judge, ["refuted"])["refuted"]
    names = ["", "/proc/self/mem", judge.folder] + [os.path.join(judge.folder, name) for name in ("none", "x" * 300)]
    for name in names:
        for words in (ALONE, BESIDE):
            judge.solve(met, words, {4}, f"formula {name[:40]!r}", cnf=name)
        judge.check(refuted, log, {4}, f"formula {name[:40]!r}", cnf=name)
        judge.check(refuted, log, {4}, f"log {name[:40]!r}", log_name=name)
    for text in (Text(b""), Text(b"\x1f\x8b\x08\x00\x00"), Text(b"\0" * 100000), Text(b"c" * 1000000),
                 Text(b"p cnf 1 1\n" + b"1" * 1000000 + b" 0\n"), Text(b"p cnf 1 1\n" + b"0" * 1000000 + b"1 0\n"),
                 Text(b"\n" * 1000000 + refuted.text), Text(b"p cnf 0 0"), Text(b"p cnf 0 1\n0")):
        judge.solve(text, BESIDE, {text.status}, f"formula {text.text[:20]!r}")
        judge.check(text, log, None, f"formula {text.text[:20]!r}")
    for other in (b"", b"\x1f\x8b\x08\x00\x00", b"\0" * 100000, b"c" * 1000000 + b"\n" + log, b"9" * 1000000,
                  b"0" * 1000000 + b"5 0 1 2 3 4 0\n", b"5 0 " + b"1 " * 1000000 + b"0\n"):
        judge.check(refuted, other, None, f"log {other[:20]!r}")
    judge.put(met.text)
    judge.solve(Text(b""), ALONE, {3}, "formula /dev/null", cnf="/dev/null")
    for words in WRONG_WORDS:
        judge.other(words, {2}, f"words {str(words)[:60]}", USAGE)
    before = unread(judge)
    for path, mode, allowed in ((judge.cnf, 0, {4}), (judge.log, 0o444, {5})):
        judge.put(refuted.text)
        os.chmod(path, mode)
        judge.other(["solve", judge.cnf, judge.log], allowed, f"mode {mode:o} of {path}", before=before)
        os.chmod(path, 0o644)


def formulas(judge, asked):
    for number in range(asked.rounds):
        rng = random.Random(f"formula {asked.seed} {number}")
        text = Text(damaged(rng, laid_out(rng, *drawn(rng))))
        words = ["--reducers", str(rng.choice((0, 0, 1, 2, 8)))]
        judge.solve(text, words, {text.status}, f"number {number}")


def logs(judge, asked):
    number = 0
    rng = random.Random(f"log {asked.seed}")
    while number < asked.rounds:
        base = Text(laid_out(rng, *drawn(rng)))
        if base.status != 20:
            continue
        words = ["--reducers", str(rng.choice((0, 2)))]
        judge.put(base.text)
        judge.run(["solve", judge.cnf, judge.log, *words])
        with open(judge.log, "rb") as file:
            log = file.read()
        for _ in range(6):
            which = rng.randrange(6)
            text = Text(damaged(rng, base.text), 20) if which == 0 else base
            judge.check(text, log if which == 0 else damaged(rng, log), None, f"number {number}")
            number += 1


KINDS = {kind.__name__: kind for kind in (memory, calls, full, quota, disk, closed, pipe, files, formulas, logs)}
