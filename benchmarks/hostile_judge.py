"""Runs of a program in failing surroundings, and what is wrong with their ends: the judge of hostile.py."""
import collections
import os
import shutil
import signal
import subprocess
import sys
import tempfile
import threading

from plain_texts import NO_EMPTY_CLAUSE, VERIFIED, Fault, is_satisfiable, log_answer, read_formula

SATISFIABLE, UNSATISFIABLE = b"s SATISFIABLE\n", b"s UNSATISFIABLE\n"
USAGE = b"c usage: glucored solve CNF LOG"
# What stands in a log's file before a run.
BEFORE = b"c as before\n"

End = collections.namedtuple("End", "status out err")


def model_text(positive):
    words = [str(var if is_true else -var) for var, is_true in enumerate(positive, 1)]
    lines = [words[at:at + 20] for at in range(0, len(words), 20)] or [[]]
    lines[-1].append("0")
    return SATISFIABLE + "".join(f"v {' '.join(line)}\n" for line in lines).encode()


def content_of(out):
    """What a file has that took the output."""
    if out == subprocess.PIPE or not os.path.isfile(out.name):
        return b""
    with open(out.name, "rb") as file:
        return file.read()


class Text:
    """A formula's text, and what is due for it. The status of `solve` may be told where a plain solver takes long."""

    def __init__(self, text, status=None):
        self.text, self.fault, self.variables, self.clauses = text, None, 0, []
        try:
            self.variables, self.clauses = read_formula(text)
            self.status = status or (10 if is_satisfiable(self.clauses) else 20)
        except Fault as fault:
            self.status, self.fault = 3, fault.text

    def why_wrong(self, out, is_whole):
        """What is wrong with this output of `solve`, which is to be the whole or a front part of what is due."""
        positive, due = [], self.fault or UNSATISFIABLE
        if self.status == 10:
            signs = [word[:1] != b"-" for word in out[len(SATISFIABLE):].split() if word != b"v"]
            positive = signs[:self.variables] + [True] * (self.variables - len(signs))
            due = model_text(positive)
        if not due.startswith(out):
            return f"the output {out[:80]!r} is not true"
        if is_whole and out != due:
            return f"the output {out[:80]!r} is not whole"
        if self.status == 10 and out == due and not self.is_met(positive):
            return "the model does not satisfy the formula"
        return None

    def is_met(self, positive):
        return all(any(positive[abs(lit) - 1] == (lit > 0) for lit in clause) for clause in self.clauses)


class Judge:
    """Runs the program, and counts how it ends."""

    def __init__(self, program, folder, limit):
        self.program, self.folder, self.limit = program, folder, limit
        self.cnf, self.log = os.path.join(folder, "f.cnf"), os.path.join(folder, "f.lrat")
        self.kinds, self.kind, self.wrong, self.accepted = {}, None, 0, 0
        self.kept, self.last_accepted = None, None

    def begin(self, kind):
        self.kind = kind
        self.kinds[kind] = collections.Counter(), []

    def run(self, words, before=None, stdout=subprocess.PIPE, environment=None, stdin=subprocess.DEVNULL, during=None):
        """Runs the program with these words. `before` is called in the child, and `during` beside it, before its end is
        waited for."""
        how = {"stdin": stdin, "stdout": stdout, "stderr": subprocess.PIPE, "preexec_fn": before}
        try:
            child = subprocess.Popen([self.program, *words], **how, env=environment and {**os.environ, **environment})
        except OSError as why:
            return End("not begun", b"", str(why).encode())
        late = []
        timer = threading.Timer(self.limit, lambda: (late.append(True), child.kill()))
        timer.start()
        with child:
            seen = during(child) if during else None
            out, err = child.communicate()
        timer.cancel()
        status = child.returncode
        status = "no end" if late else signal.Signals(-status).name if status < 0 else status
        return End(status, seen or out or content_of(stdout), err or b"")

    def put(self, text, log=BEFORE):
        for path, content in ((self.cnf, text), (self.log, log)):
            with open(path, "wb") as file:
                file.write(content)

    def solve(self, text, options, allowed, where, log=None, cnf=None, is_kept=True, is_log_due=False,
              seen_log=None, is_log_cut=False, **how):
        """Solves a text, and judges the end. `is_kept` says that standard output is kept, `is_log_due` that a
        refutation has a whole log also where its verdict was not written, and `seen_log` where the log is found; where
        that is cut, only its front is judged."""
        self.put(text.text)
        log = log or self.log
        words = ["solve", self.cnf if cnf is None else cnf, log, *options]
        end = self.run(words, **how)
        why = self.why_wrong_status(end, allowed)
        why = why or text.why_wrong(end.out, is_kept and end.status == text.status)
        why = why or self.why_wrong_log(end, text, seen_log or log, is_log_due, is_log_cut)
        self.note(end, why, words, where)
        return end

    def check(self, text, log, allowed, where, is_kept=True, cnf=None, log_name=None, **how):
        """Checks a log, and judges the end. Where None is allowed it is to be the one that is due."""
        self.put(text.text, log)
        due, status = (text.fault, 3) if text.fault else log_answer(text.variables, text.clauses, log)
        words = ["check", self.cnf if cnf is None else cnf, self.log if log_name is None else log_name]
        end = self.run(words, **how)
        why = self.why_wrong_status(end, allowed or {status})
        if not why and not due.startswith(end.out):
            why = f"the output {end.out[:80]!r} is not the due {due!r}"
        if not why and is_kept and end.status in (0, 1, 3) and end.out != due:
            why = f"the output {end.out[:80]!r} is not all of the due {due!r}"
        self.note(end, why, words, where)
        return end

    def other(self, words, allowed, where, out=b"", **how):
        """Runs other words, and judges the status and the front of the output."""
        end = self.run(words, **how)
        why = self.why_wrong_status(end, allowed)
        if not why and (not end.out.startswith(out) or (not out and end.out)):
            why = f"the output is {end.out[:80]!r}"
        self.note(end, why, words, where)

    def why_wrong_status(self, end, allowed):
        return None if end.status in allowed else f"it is not among {', '.join(map(str, sorted(allowed, key=str)))}"

    def why_wrong_log(self, end, text, path, is_due, is_cut):
        is_said = end.status == 20 or UNSATISFIABLE in end.out
        if not os.path.isfile(path):
            return "a refutation without a log" if is_said else None
        with open(path, "rb") as file:
            log = file.read()
        if not is_cut and (is_said or (is_due and text.status == 20)):
            return self.why_refused(text, log, path)
        if log == BEFORE:
            return None
        if text.status != 20 or not (is_cut or end.status in (5, 6, "SIGPIPE", "SIGXFSZ")):
            return "the log's file is not as it was"
        front = log[:log.rfind(b"\n") + 1]
        answer, _ = log_answer(text.variables, text.clauses, front)
        return None if answer in (VERIFIED, NO_EMPTY_CLAUSE) else "the log is wrong as far as it goes"

    def why_refused(self, text, log, path):
        """Why a log is not accepted, by either checker."""
        if self.last_accepted == (text.text, log):
            return None
        if log_answer(text.variables, text.clauses, log)[0] != VERIFIED:
            return "the log is refused by check_log.py"
        end = self.run(["check", self.cnf, path])
        if end[:2] != (0, VERIFIED):
            return f"the log is refused by check: {end.status} {end.out[:80]!r}"
        self.last_accepted = text.text, log
        self.accepted += 1
        return None

    def note(self, end, why, words, where):
        ends, wrong = self.kinds[self.kind]
        ends[end.status] += 1
        if why is None:
            return
        self.wrong += 1
        self.kept = self.kept or tempfile.mkdtemp(prefix="hostile_wrong_")
        folder = os.path.join(self.kept, str(self.wrong))
        os.mkdir(folder)
        for path in (self.cnf, self.log):
            shutil.copy(path, folder)
        wrong.append(f"{where}: {why}")
        print(f"{self.kind}, {where}: {' '.join(map(repr, words))} ended with {end.status}: {why}; files in {folder}; "
              f"it wrote {end.out[:200]!r}, {end.err[:200]!r}", file=sys.stderr, flush=True)

    def print_table(self):
        print("| kind | cases | ends by status | wrong |\n|---|---|---|---|")
        for kind, (ends, wrong) in self.kinds.items():
            ordered = sorted(ends.items(), key=lambda it: (isinstance(it[0], str), it[0]))
            told = ", ".join(f"{status}: {count:,}" for status, count in ordered)
            print(f"| {kind} | {sum(ends.values()):,} | {told} | {len(wrong) or 'none'} |")
        print(f"\n{self.accepted:,} different proof logs were accepted by both checkers.")
