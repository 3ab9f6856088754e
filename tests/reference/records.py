"""The records of a sheet as bytes, and random sheets made of them.

A random sheet mostly gets past its field and its curve, so that divisors are added: curves that are accepted and divisors that
are valid are found beforehand, by the arithmetic of the reference.
"""

import run as reference

RESIDUES, NINE, PAIRS, CURVE, ENTER, ADD, DOUBLE, NEGATE, SHOW = range(1, 10)
NEUTRAL = (0, 0, 0, 0, 0, 1)


def two(number):
    return bytes([number % 256, number // 256])


def residues(m):
    return bytes([RESIDUES]) + two(m)


def nine():
    return bytes([NINE])


def pairs(r):
    return bytes([PAIRS]) + two(r)


def curve(*coefficients):
    """The coefficients are f4 to f0."""
    return bytes([CURVE]) + b"".join(map(two, coefficients))


def enter(register, divisor):
    """The divisor is degree, u1, u0, v1, v0, n."""
    degree, *coefficients, n = divisor
    return bytes([ENTER, register, degree]) + b"".join(map(two, coefficients)) + bytes([n])


def add(target, first, second):
    return bytes([ADD, target, first, second])


def double(target, register):
    return bytes([DOUBLE, target, register])


def negate(target, register):
    return bytes([NEGATE, target, register])


def show(register):
    return bytes([SHOW, register])


# Fields, with curves and divisors over them


class Ground:
    """A field: the record of its base, the r of Pairs if there is one, and curves with valid divisors on them."""

    def __init__(self, rng, base, r=None, curves=6):
        self.base, self.r = base, r
        state = reference.Run()
        state.obey(base[0], base[1:])
        self.below = state.base
        if r is not None:
            state.obey(PAIRS, two(r))
        self.field = state.field
        self.roots = {}
        for a in range(self.field.q):
            self.roots.setdefault(self.field.mul(a, a), a)
        self.curves = [self.curve(rng) for _ in range(curves)]

    def curve(self, rng):
        """The coefficients of an accepted curve, with valid divisors."""
        while True:
            coefficients = tuple(rng.choice((0, 1, rng.randrange(self.field.q))) for _ in range(5))
            try:
                on = reference.Curve(self.field, coefficients)
            except reference.Refusal:
                continue
            return coefficients, self.divisors(rng, on)

    def divisors(self, rng, on):
        """Valid divisors, many of which share points with others."""
        points = [d for _ in range(12) if (d := self.point(rng, on))]
        found = [([1], [], n) for n in (0, 1, 2)] + points + [on.negative(d) for d in points]
        for _ in range(24):
            found.append(on.sum(rng.choice(found), rng.choice(found)))
        return [reference.divisor_numbers(reference.divisor_bytes(d)) for d in found]

    def point(self, rng, on):
        """A divisor of degree 1, of a point whose x is picked at random; none where the curve has no point there."""
        k, x = self.field, rng.randrange(self.field.q)
        value = 0
        for a in reversed(on.f):
            value = k.add(k.mul(value, x), a)
        if value not in self.roots:
            return None
        y = self.roots[value]
        return [k.neg(x), 1], [y] if y else [], rng.randrange(2)


def grounds(rng):
    """Small and large fields of all three kinds."""
    bases = [residues(m) for m in (3, 5, 7, 11, 251, 8191)] + [nine()]
    over = [(residues(3), 2), (residues(7), 3), (residues(251), 6), (nine(), 4)]
    return [Ground(rng, base) for base in bases] + [Ground(rng, base, r) for base, r in over]


# Random sheets


def structured(rng, ground):
    """A sheet with the field and a curve of the ground, refused records among its records."""
    coefficients, divisors = rng.choice(ground.curves)
    sheet = [stray(rng, ground), ground.base, stray(rng, ground)]
    if ground.r is not None:
        sheet += [refused_pairs(rng, ground), pairs(ground.r), stray(rng, ground)]
    sheet += [refused_curve(rng, ground), curve(*coefficients), stray(rng, ground)]
    registers = [rng.randrange(16) for _ in range(rng.randrange(1, 6))]
    for register in registers:
        sheet.append(enter(register, rng.choice(divisors)))
    for _ in range(rng.choice((2, 4, 8, 16))):
        sheet.append(call(rng, ground, registers, divisors))
    return b"".join(sheet) + b"".join(show(i) for i in sorted(set(registers)))


def stray(rng, ground):
    """Now and then a record that may be out of turn, or a field that may be refused."""
    if rng.random() < 0.9:
        return b""
    return rng.choice((
        residues(rng.choice((0, 1, 2, 9, 15, 255, 8189, 8190, 8192, 8193, 65535))),
        nine() if ground.base != nine() else residues(rng.choice((4, 21))),
        pairs(rng.randrange(12)),
        curve(*(rng.randrange(3) for _ in range(5))),
        enter(rng.randrange(20), NEUTRAL),
        add(*(rng.randrange(20) for _ in range(3))),
        double(rng.randrange(20), rng.randrange(20)),
        negate(rng.randrange(20), rng.randrange(20)),
        show(rng.randrange(20)),
    ))


def refused_pairs(rng, ground):
    """Now and then Pairs with an r that is a square or no code of the field below."""
    if rng.random() < 0.8:
        return b""
    a = rng.randrange(ground.below.q)
    return pairs(rng.choice((ground.below.mul(a, a), ground.below.q, 65535)))


def refused_curve(rng, ground):
    """Now and then a curve with a number that is no code, or with a square for f."""
    if rng.random() < 0.8:
        return b""
    q, k = ground.field.q, ground.field
    if rng.random() < 0.5:
        return curve(*(rng.choice((0, 1, q, 65535)) for _ in range(4)), q)
    # (x³ + a·x + b)² has the coefficients 2a, 2b, a², 2ab, b².
    a, b = rng.randrange(q), rng.randrange(q)
    ab = k.mul(a, b)
    return curve(k.add(a, a), k.add(b, b), k.mul(a, a), k.add(ab, ab), k.mul(b, b))


def call(rng, ground, registers, divisors):
    """A call, on registers that are in use for the most part."""

    def register():
        pick = rng.random()
        return rng.choice(registers) if pick < 0.9 else rng.randrange(16) if pick < 0.98 else rng.randrange(16, 256)

    kind = rng.choices((ENTER, ADD, DOUBLE, NEGATE, SHOW, 0), (2, 8, 4, 3, 2, 1))[0]
    if kind == ENTER:
        return enter(register(), rng.choice(divisors) if rng.random() < 0.6 else bent(rng, ground, divisors))
    if kind == ADD:
        return add(register(), register(), register())
    if kind == DOUBLE:
        return double(register(), register())
    if kind == NEGATE:
        return negate(register(), register())
    return show(register()) if kind == SHOW else stray(rng, ground)


def bent(rng, ground, divisors):
    """A valid divisor with one of its numbers altered."""
    divisor = list(rng.choice(divisors))
    place = rng.randrange(6)
    if place in (0, 5):
        divisor[place] = rng.choice((0, 1, 2, 3, 255))
    else:
        divisor[place] = rng.choice((0, 1, rng.randrange(ground.field.q), ground.field.q, 65535))
    return divisor


def mutated(rng, sheet):
    """A sheet with bytes altered, taken out or put in, or cut off."""
    sheet = bytearray(sheet)
    for _ in range(rng.randrange(1, 4)):
        at = rng.randrange(len(sheet) + 1)
        pick = rng.randrange(5)
        if pick == 0:
            sheet[at:at] = bytes([rng.randrange(256)])
        elif pick == 1:
            del sheet[at : at + rng.randrange(1, 4)]
        elif pick == 2 and at > len(sheet) // 2:
            del sheet[at:]
        elif at < len(sheet):
            sheet[at] = rng.randrange(256) if pick == 3 else rng.randrange(18)
    return bytes(sheet)


def noise(rng, most):
    """Bytes at random, of which many sheets begin with some that are kinds or small numbers."""
    length = rng.randrange(most)
    small = rng.randrange(length + 1) if rng.random() < 0.8 else 0
    return bytes(rng.randrange(11 if i < small else 256) for i in range(length))
