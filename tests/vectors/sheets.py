#!/usr/bin/env python3
"""Writes the stored input of the program sheet_cases, and the output that the reference expects of it.

    python3 tests/vectors/sheets.py

It is run from the root of the repository.
"""

import random
import sys

sys.path.insert(0, "tests/reference")

import run as reference  # noqa: E402
from records import *  # noqa: E402, F403

SEED = 20261118
CRATE = "crates/sheet_cases"

SEVEN = residues(7)
ONE = curve(0, 0, 0, 0, 1)
D, E = (2, 6, 0, 2, 1, 0), (2, 2, 6, 1, 1, 0)
POINT = (1, 0, 0, 0, 1, 1)
START = SEVEN + ONE

# The worked sheet of the rules.
WORKED = START + enter(0, D) + enter(1, E) + add(2, 0, 1) + show(2) + show(16)

# A sheet with all kinds; where a run is cut off, as many of its records count as came before.
ALL_KINDS = SEVEN + pairs(3) + ONE + enter(0, D) + enter(1, E) + add(2, 0, 1) + double(3, 0) + negate(4, 3) + show(4) + show(2)

# A record of each kind that is in turn and accepted at its stage, and the sheets that lead up to the stages.
RECORDS = [SEVEN, nine(), pairs(3), ONE, enter(0, D), add(2, 0, 1), double(2, 0), negate(2, 0), show(0)]
STAGES = [b"", SEVEN, nine(), SEVEN + pairs(3), START, SEVEN + pairs(3) + ONE]

UNKNOWN = (0, 10, 16, 17, 63, 255)


def with_numbers(divisor, **numbers):
    """A divisor with some of its numbers replaced, each by its name."""
    names = ("degree", "u1", "u0", "v1", "v0", "n")
    return tuple(numbers.get(name, old) for name, old in zip(names, divisor))


def registers():
    for register in (16, 255):
        yield START + enter(register, D)
        yield START + enter(register, (3, 9, 9, 9, 9, 9))
        for places in ((register, 0, 0), (0, register, 0), (0, 0, register)):
            yield START + enter(0, D) + add(*places) + show(0)
        for kind in (double, negate):
            for places in ((register, 0), (0, register)):
                yield START + enter(0, D) + kind(*places) + show(0)
        yield START + show(register)
    yield START + b"".join(show(i) for i in range(18))


def moduli():
    for m in (0, 1, 2, 3, 4, 5, 9, 15, 255, 256, 257, 8187, 8189, 8190, 8191, 8192, 8193, 65534, 65535):
        yield residues(m) + ONE + show(0) + residues(5)
    # Two moduli that are refused, then one that is not.
    yield residues(8192) + residues(9) + residues(5) + residues(7) + ONE + show(0)


def pairs_over():
    below = [(residues(m), m) for m in (3, 7, 251)] + [(nine(), 9)]
    for base, q in below:
        for r in sorted({*range(min(q, 10)), q - 1, q, q + 1, 65535}):
            yield base + pairs(r) + curve(0, 0, 0, 1, q) + show(0)
    for m in (257, 8191):
        for r in (0, 3, m, 65535):
            yield residues(m) + pairs(r) + curve(0, 0, 0, 1, 1) + show(0)
    # A second one after an accepted one, and after refused ones.
    yield SEVEN + pairs(3) + pairs(5) + ONE + show(0)
    yield SEVEN + pairs(2) + pairs(7) + pairs(5) + pairs(3) + ONE + show(0)
    yield nine() + pairs(1) + pairs(9) + pairs(4) + pairs(4) + curve(0, 0, 0, 1, 80) + show(0)


def curves():
    for place in range(5):
        for base, q in ((SEVEN, 7), (nine(), 9), (residues(8191), 8191), (SEVEN + pairs(3), 49)):
            for number in (q - 1, q, 65535):
                coefficients = [0] * 5
                coefficients[place] = number
                yield base + curve(*coefficients) + show(0)
    # x⁶, x⁶ + 1 where 1 + 1 + 1 is 0, (x³ + 1)², (x² + 1)³ and x⁶ + x.
    for base in (SEVEN, nine(), residues(3), residues(8191), SEVEN + pairs(3)):
        for coefficients in ((0, 0, 0, 0, 0), (0, 0, 0, 0, 1), (0, 2, 0, 0, 1), (3, 0, 3, 0, 1), (0, 0, 0, 1, 0)):
            yield base + curve(*coefficients) + show(0)
    # Refused with 5 and with 8, accepted, and out of turn.
    yield SEVEN + curve(7, 0, 0, 0, 0) + curve(0, 0, 0, 0, 0) + ONE + ONE + enter(0, D) + show(0)


def divisors():
    for divisor in (D, E, POINT, NEUTRAL, (0, 0, 0, 0, 0, 0), (0, 0, 0, 0, 0, 2)):
        yield START + enter(15, divisor) + show(15)
        degree = divisor[0]
        for n in (3 - degree, 255):
            yield START + enter(15, with_numbers(divisor, n=n)) + show(15)
        for other in (3, 4, 128, 255):
            yield START + enter(15, with_numbers(divisor, degree=other)) + show(15)
        for name in ("u1", "u0", "v1", "v0"):
            for number in (0, 1, 6, 7, 256, 65535):
                yield START + enter(15, with_numbers(divisor, **{name: number})) + show(15)
    # 4 before 5, and 5 before 9.
    yield START + enter(0, (2, 7, 7, 7, 7, 1)) + enter(0, (1, 7, 7, 7, 7, 0)) + enter(0, (2, 7, 1, 1, 1, 0)) + show(0)


def ends():
    for stage in STAGES:
        for record in RECORDS:
            for length in range(1, len(record)):
                yield stage + record[:length]


def unknown():
    for stage in STAGES:
        for kind in UNKNOWN:
            yield stage + bytes([kind])
            yield stage + bytes([kind]) + SEVEN + ONE + show(0) + show(16)


def turns():
    for stage in STAGES:
        for record in RECORDS:
            yield stage + record
            yield stage + record + record + SEVEN + ONE + show(0)
    # Out of turn before everything that is wrong besides.
    yield SEVEN + residues(9) + enter(99, (9, 9, 9, 9, 9, 9)) + add(99, 99, 99) + show(99)


def operands():
    begin = START + enter(0, D) + enter(1, E)
    for target in range(3):
        for first in range(3):
            for second in range(3):
                yield begin + add(target, first, second) + show(0) + show(1) + show(2)
            for kind in (double, negate):
                yield begin + kind(target, first) + show(0) + show(1) + show(2)
    yield begin + add(0, 0, 1) * 20 + show(0) + double(0, 0) * 20 + show(0) + negate(0, 0) * 2 + show(0)
    yield begin + negate(2, 0) + add(2, 2, 0) + show(2) + enter(3, POINT) + double(4, 3) + show(4)


def lengths():
    yield b""
    yield WORKED
    # The longest output: the shortest way to a curve, and Shows for the rest of the sheet.
    short = nine() + curve(0, 0, 0, 1, 0)
    yield short + show(15) * ((4096 - len(short)) // 2)
    yield (START + show(0) * 4096)[:4095]
    yield (START + show(0) * 4096)[:4096]
    yield (START + show(0) * 4096)[:4097]
    yield nine() * 4096
    yield nine() * 4097
    for kind in (0, 255):
        yield bytes([kind]) * 4096
        yield bytes([kind]) * 4097
    for length in (4096, 4097):
        yield WORKED + bytes(length - len(WORKED))


def outputs():
    for room in (0, 1, 15, 4096, 24575, 24577, 49152, 65535):
        for sheet in (b"", WORKED, nine() * 4097):
            yield room, sheet


def random_sheets():
    rng = random.Random(SEED)
    over = grounds(rng)
    for i in range(300):
        yield structured(rng, over[i % len(over)])
    for _ in range(100):
        yield noise(rng, 60)


def truncations():
    for length in range(len(ALL_KINDS) + 1):
        yield ALL_KINDS[:length]


GROUPS = [
    ("registers above 15, for every kind that has registers, in every place", registers),
    ("moduli", moduli),
    ("Pairs over residues and over Nine", pairs_over),
    ("curves", curves),
    ("divisors", divisors),
    ("sheets that end inside a record, for every kind at every stage", ends),
    ("kinds that are unknown, at every stage; what follows is not read", unknown),
    ("every kind at every stage", turns),
    ("targets that are operands", operands),
    ("every truncation of a sheet with all kinds", truncations),
    ("sheets of no byte, of the most bytes and of one more; the longest output", lengths),
    ("random sheets", random_sheets),
]

BAD_LINES = ["0", "0g", "01 07", "x:01", "65536:01", ":01", "24576:1", "1:2:03"]


def expected(room, sheet):
    """The line that the program prints for a sheet."""
    answer, output = reference.host(sheet, bytes(room))
    written = output[:answer] if answer < 65536 else b""
    return f"{answer} {written.hex()}".rstrip()


def main():
    lines, answers = [], []
    for title, sheets in GROUPS:
        lines += ["", f"# {title}"]
        for sheet in sheets():
            lines.append(sheet.hex() or "24576:")
            answers.append(expected(24576, sheet))
    lines += ["", "# outputs of another length"]
    for room, sheet in outputs():
        lines.append(f"{room}:{sheet.hex()}")
        answers.append(expected(room, sheet))
    lines += ["", "# lines that are no sheet", *BAD_LINES]
    answers += ["bad line"] * len(BAD_LINES)
    for name, text in (("stdin", lines), ("stdout", answers)):
        with open(f"{CRATE}/{name}", "w", encoding="ascii") as file:
            file.write("\n".join(text) + "\n")


if __name__ == "__main__":
    main()
