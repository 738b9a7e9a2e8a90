"""The formulas that hostile.py runs a program on: a few that stay, drawn ones, and what damages them."""
from hostile_judge import Text


def text_of(variables, clauses):
    lines = [" ".join(map(str, [*clause, 0])) for clause in clauses]
    return "\n".join([f"p cnf {variables} {len(clauses)}", *lines, ""]).encode()


def pigeons(count):
    holes = count - 1
    place = lambda pigeon, hole: pigeon * holes + hole + 1
    clauses = [[place(pigeon, hole) for hole in range(holes)] for pigeon in range(count)]
    clauses += [[-place(one, hole), -place(other, hole)] for hole in range(holes) for one in range(count)
                for other in range(one)]
    return count * holes, clauses


TEXTS = {
    "refuted": Text(text_of(2, [[1, 2], [1, -2], [-1, 2], [-1, -2]])),
    "met": Text(text_of(3, [[1], [-1, -2], [2, 3]])),
    "pigeons": Text(text_of(*pigeons(8)), 20),
    "wide": Text(text_of(20000, [[1, 2], [-1, 20000]]), 10),
    "at fault": Text(b"p cnf 1 1\n2 0\n"),
}


def drawn(rng):
    """A small formula: a few pigeons, or short clauses, some with a literal twice or with its negation."""
    if rng.random() < 0.1:
        variables, clauses = pigeons(rng.randrange(2, 6))
        return variables, rng.sample(clauses, len(clauses) - rng.randrange(2))
    variables, width = rng.randrange(1, 31), rng.choice((1, 2, 3, 3, 3))
    count = int(variables * {1: 0.8, 2: 1.3, 3: 4.5}[width] * rng.uniform(0.8, 1.5)) + 1
    literal = lambda: rng.choice((1, -1)) * rng.randint(1, variables)
    return variables, [[literal() for _ in range(max(rng.random() < 0.99, width + rng.choice((-1, 0, 0, 0, 1))))]
                       for _ in range(count)]


def laid_out(rng, variables, clauses):
    """A formula's text, in one of the forms in which it may come."""
    head, _, rest = text_of(variables, clauses).decode().partition("\n")
    if rng.random() < 0.3:
        rest = "".join(rng.choice(" \n\t\r") if byte == " " else byte for byte in rest)
    if rng.random() < 0.3:
        rest = rest.replace("\n", rng.choice(("\r\n", "\n\n", " \nc 1 2 0\n", "\t\n")))
    text = head + "\n" + rest
    if rng.random() < 0.2:
        text = "c drawn\n" + text + rng.choice(("%\n0\n", "c end", "%", "\n\n"))
    return text.encode()


def damaged(rng, text):
    """The text cut, or with flipped bits: of any byte, or of its digits, which leaves more of the text as it was."""
    parts = bytearray(text)
    how = rng.randrange(8)
    if how == 0:
        del parts[rng.randrange(len(parts) + 1):]
    if how == 1:
        at = rng.randrange(len(parts))
        del parts[at:at + rng.randrange(1, 20)]
    places = range(len(parts)) if how < 4 else [at for at, byte in enumerate(parts) if byte in b"1234567"]
    for _ in range(rng.choice((1, 1, 1, 2, 5)) if how > 1 and places else 0):
        parts[rng.choice(places)] ^= 1 << rng.randrange(8 if how < 4 else 3)
    return bytes(parts)
