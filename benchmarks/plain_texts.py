"""Formulas and proof logs as they are to be read, and a plain solver: what hostile.py judges a program's answers by."""
import re

from check_log import Checker

MOST_VARIABLES, MOST_CLAUSES, MOST_LITERALS, MOST_ID = 1_000_000, 5_000_000, 20_000_000, 2**63 - 1
WORD, COUNT, NUMBER = re.compile(rb"[^ \t\r]+"), re.compile(rb"[0-9]+"), re.compile(rb"-?[0-9]+")
VERIFIED, NO_EMPTY_CLAUSE = b"s VERIFIED\n", b"s NOT VERIFIED\nc log: NoEmptyClause\n"


class Fault(Exception):
    """The first fault of a formula's text: its line and its kind."""

    def __init__(self, line, kind):
        super().__init__(line, kind)
        self.text = f"c fault: line {line}: {kind}\n".encode()


def refuse(is_bad, line, kind):
    if is_bad:
        raise Fault(line, kind)


def value_of(digits):
    """The number, or a greater one than any limit: Python refuses to read very many digits."""
    digits = digits.lstrip(b"0") or b"0"
    return int(digits) if len(digits) < 30 else 10**30


def words_of(text):
    """The words with their lines, but for those of comments."""
    for line, part in enumerate(text.split(b"\n"), 1):
        words = WORD.findall(part)
        if words and not words[0].startswith(b"c"):
            yield from ((line, word) for word in words)


def header_of(words, end):
    line, word = next(words, (end, b""))
    refuse(word != b"p", line, "NoHeader")
    line, word = next(words, (end, b""))
    refuse(word != b"cnf", line, "BadHeader")
    counts = []
    for most in (MOST_VARIABLES, MOST_CLAUSES):
        line, word = next(words, (end, b""))
        refuse(not COUNT.fullmatch(word), line, "BadHeader")
        counts.append(value_of(word))
        refuse(counts[-1] > most, line, "TooLarge")
    return counts


def read_formula(text):
    """The number of variables and the clauses. Raises the text's first fault."""
    words, end = words_of(text), text.count(b"\n") + 1
    variables, count = header_of(words, end)
    clauses, clause, literals = [], [], 0
    for line, word in words:
        if word.startswith(b"%") and not clause:
            refuse(len(clauses) < count, line, "TooFew")
            return variables, clauses
        refuse(not NUMBER.fullmatch(word), line, "BadToken")
        refuse(not clause and len(clauses) >= count, line, "TooMany")
        size = value_of(word.lstrip(b"-"))
        if size == 0:
            clauses.append(clause)
            clause = []
            continue
        refuse(size > variables, line, "VarAbove")
        literals += 1
        refuse(literals > MOST_LITERALS, line, "TooLarge")
        clause.append(-size if word.startswith(b"-") else size)
    refuse(clause, end, "Unended")
    refuse(len(clauses) < count, end, "TooFew")
    return variables, clauses


class Misspelt(Exception):
    """How a line of a proof log is misspelt."""


def id_of(word):
    size = value_of(word) if COUNT.fullmatch(word) else 0
    return size if 1 <= size <= MOST_ID else None


def ids_up_to_end(words, negative):
    """The ids of a list that ends the line. `negative` is what a line with a negative number is called."""
    if not words or b"0" not in words or words.index(b"0") != len(words) - 1:
        raise Misspelt("BadLine")
    ids, is_negative = [], False
    for word in words[:-1]:
        id = id_of(word)
        if id is None and not (word.startswith(b"-") and COUNT.fullmatch(word[1:])):
            raise Misspelt("BadLine")
        is_negative = is_negative or id is None
        ids.append(id)
    if is_negative:
        raise Misspelt(negative)
    return ids


def literal_of(word):
    size = value_of(word.lstrip(b"-")) if NUMBER.fullmatch(word) else 0
    if not 1 <= size <= MOST_VARIABLES:
        raise Misspelt("BadLine")
    return -size if word.startswith(b"-") else size


def take_line(checker, words):
    """Hands a line to the checker, and answers why it is refused. Raises how it is misspelt."""
    if len(words) > 1 and words[1] == b"d":
        if not COUNT.fullmatch(words[0]):
            raise Misspelt("BadLine")
        return checker.delete(ids_up_to_end(words[2:], "BadLine"))
    id = id_of(words[0])
    if id is None or b"0" not in words[1:]:
        raise Misspelt("BadLine")
    close = words.index(b"0", 1)
    lemma = [literal_of(word) for word in words[1:close]]
    return checker.add(id, lemma, ids_up_to_end(words[close + 1:], "RatHint"))


def log_answer(variables, clauses, log):
    """The output that is due for a proof log, and the exit status."""
    checker = Checker(variables, clauses)
    for number, line in enumerate(log.split(b"\n"), 1):
        words = WORD.findall(line)
        if not words or words[0].startswith(b"c"):
            continue
        try:
            why = take_line(checker, words)
        except Misspelt as how:
            return f"c fault: log line {number}: {how}\n".encode(), 3
        if why is not None:
            return f"s NOT VERIFIED\nc log line {number}: {why[0]} {why[1]}\n".encode(), 1
    return (VERIFIED, 0) if checker.refuted else (NO_EMPTY_CLAUSE, 1)


def assume(clauses, literal):
    return [clause - {-literal} for clause in clauses if literal not in clause]


def can_be_met(clauses):
    while True:
        shortest = min(clauses, key=len, default=None)
        if not shortest:
            return shortest is None
        literal = min(shortest, key=abs)
        if len(shortest) > 1:
            return can_be_met(assume(clauses, literal)) or can_be_met(assume(clauses, -literal))
        clauses = assume(clauses, literal)


def is_satisfiable(clauses):
    """By splitting and unit propagation: for small formulas."""
    sets = [frozenset(clause) for clause in clauses]
    return can_be_met([clause for clause in sets if not any(-literal in clause for literal in clause)])
