#!/usr/bin/env python3
"""Holds the proved run against the reference on random sheets.

    python3 tests/fuzz/fuzz.py SEED COUNT

It is run from the root of the repository and needs target/fuzz/driver, which `make fuzz` builds. It reports what came up, and the
first sheet on which the two differ, with status 1.
"""

import random
import subprocess
import sys
import time
from collections import Counter

sys.path.insert(0, "tests/reference")

import records  # noqa: E402
import run as reference  # noqa: E402

DRIVER = "target/fuzz/driver"
BATCH = 1000
OUTPUT = bytes(reference.OUTPUT)


def sheet(rng, grounds):
    """A random sheet: for the most part a structured one, as it is or mutated."""
    pick = rng.random()
    if pick < 0.10:
        return records.noise(rng, 80)
    made = records.structured(rng, rng.choice(grounds))
    if pick < 0.35:
        return records.mutated(rng, made)
    if pick < 0.355:
        # Up to the greatest length and beyond it, with records that the reference is quick at.
        length = rng.choice((4094, 4095, 4096, 4097, rng.randrange(300, 4097)))
        return (made + rng.choice((records.show(3), records.nine(), records.negate(2, 2))) * 4097)[:length]
    return made


def four(number):
    return number.to_bytes(4, "little")


def answers(sheets):
    """What the driver answers to each sheet: the number and the bytes written; short of some where it fails."""
    given = b"".join(four(len(s)) + s for s in sheets)
    done = subprocess.run([DRIVER], input=given, stdout=subprocess.PIPE, check=False)
    at, found = 0, []
    while at + 4 <= len(done.stdout):
        answer = int.from_bytes(done.stdout[at : at + 4], "little")
        written = answer if answer < 65536 else 0
        found.append((answer, done.stdout[at + 4 : at + 4 + written]))
        at += 4 + written
    return found if done.returncode == 0 else found[: len(sheets) - 1]


def expected(one):
    answer, output = reference.host(one, OUTPUT)
    return answer, output[:answer] if answer < 65536 else b""


def first_difference(sheets, wanted):
    """The first sheet that is answered otherwise, each given to a driver of its own; none where there is no such sheet."""
    for one, want in zip(sheets, wanted):
        got = answers([one])
        if got != [want]:
            return one, want, got
    return None


class Tally:
    """What came up: records by kind, replies by refusal number and by the refused record's kind."""

    def __init__(self):
        self.sheets, self.kinds, self.refusals, self.shown = 0, Counter(), Counter(), 0

    def count(self, one, answer, written):
        self.sheets += 1
        if answer >= 65536:
            self.refusals[answer - 65536, 0] += 1
            return
        at = 0
        while at < len(one) and one[at] in reference.BODY:
            self.kinds[one[at]] += 1
            at += 1 + reference.BODY[one[at]]
        at = 0
        while at < len(written):
            if written[at] == reference.SHOWN:
                self.shown += 1
                at += 12
            else:
                known = written[at + 1] if written[at + 1] in reference.BODY else 0
                self.refusals[written[at + 2], known] += 1
                at += 3

    def report(self):
        print(f"{self.sheets} sheets, {sum(self.kinds.values())} records, {self.shown} divisors shown")
        print("records by kind: " + ", ".join(f"{kind}: {n}" for kind, n in sorted(self.kinds.items())))
        for number in sorted({number for number, _ in self.refusals}):
            by_kind = {kind: n for (refused, kind), n in sorted(self.refusals.items()) if refused == number}
            kinds = ", ".join(f"{n} of kind {kind}" for kind, n in by_kind.items() if kind)
            print(f"refusal {number}: {sum(by_kind.values())}" + (f" ({kinds})" if kinds else ""))


def main(seed, count):
    rng, tally, begin = random.Random(seed), Tally(), time.monotonic()
    grounds = records.grounds(rng)
    while tally.sheets < count:
        sheets = [sheet(rng, grounds) for _ in range(min(BATCH, count - tally.sheets))]
        wanted = [expected(one) for one in sheets]
        if answers(sheets) != wanted:
            one, want, got = first_difference(sheets, wanted) or (b"".join(sheets), "as the reference", "in one run of the driver")
            print(f"DIFFERENCE, seed {seed}\nsheet {one.hex()}\nreference {want}\nproved run {got}")
            return 1
        for one, (answer, written) in zip(sheets, wanted):
            tally.count(one, answer, written)
    print(f"seed {seed}: no difference, {time.monotonic() - begin:.0f} seconds")
    tally.report()
    return 0


if __name__ == "__main__":
    sys.exit(main(int(sys.argv[1]), int(sys.argv[2])))
