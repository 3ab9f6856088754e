#!/usr/bin/env python3
"""The run of a sheet, written a second time and independently of the proved code.

It follows the rules in docs/ alone and has its own arithmetic: elements of a field are codes, polynomials are lists of
codes of any length, lowest first and without leading zeros. `run(sheet)` answers the bytes that a run writes, and
`host(sheet, output)` what the call from C answers together with the output afterwards.

As a program it reads a sheet from standard input and writes the run's bytes to standard output.
"""

import sys
from functools import lru_cache

MOST_SHEET = 4096
OUTPUT = 24576
REGISTERS = 16

RESIDUES, NINE, PAIRS, CURVE, ENTER, ADD, DOUBLE, NEGATE, SHOW = range(1, 10)
SHOWN, REFUSED = 16, 17

# The bytes of each kind's body.
BODY = {RESIDUES: 2, NINE: 0, PAIRS: 2, CURVE: 10, ENTER: 11, ADD: 3, DOUBLE: 2, NEGATE: 2, SHOW: 1}


class Refusal(Exception):
    def __init__(self, number):
        super().__init__(number)
        self.number = number


# Fields


class Residues:
    def __init__(self, m):
        if m % 2 == 0 or not 3 <= m <= 8191:
            raise Refusal(2)
        if any(m % p == 0 for p in range(3, int(m**0.5) + 1, 2)):
            raise Refusal(6)
        self.q = m

    def add(self, a, b):
        return (a + b) % self.q

    def mul(self, a, b):
        return a * b % self.q

    def neg(self, a):
        return -a % self.q

    def inv(self, a):
        return pow(a, -1, self.q)


class Quadratic:
    """a + q·b stands for a + b·t, t² = r, over a field of q elements."""

    def __init__(self, below, r):
        self.below, self.p, self.r = below, below.q, r
        self.q = below.q * below.q

    def add(self, a, b):
        k, p = self.below, self.p
        return k.add(a % p, b % p) + p * k.add(a // p, b // p)

    def mul(self, a, b):
        k, p = self.below, self.p
        (a0, a1), (b0, b1) = (a % p, a // p), (b % p, b // p)
        low = k.add(k.mul(a0, b0), k.mul(self.r, k.mul(a1, b1)))
        return low + p * k.add(k.mul(a0, b1), k.mul(a1, b0))

    def neg(self, a):
        k, p = self.below, self.p
        return k.neg(a % p) + p * k.neg(a // p)

    def inv(self, a):
        # The units are a group of order q − 1.
        power, base, e = 1, a, self.q - 2
        while e:
            if e & 1:
                power = self.mul(power, base)
            base, e = self.mul(base, base), e >> 1
        return power


@lru_cache(maxsize=None)
def squares(m, r):
    """The squares of the residues modulo m, or of the nine elements over them where r is given."""
    k = Residues(m) if r is None else Quadratic(Residues(m), r)
    return frozenset(k.mul(x, x) for x in range(k.q))


def pairs(below, r):
    if below.q > 255:
        raise Refusal(2)
    if r >= below.q:
        raise Refusal(5)
    known = squares(below.q, None) if isinstance(below, Residues) else squares(below.p, below.r)
    if r in known:
        raise Refusal(7)
    return Quadratic(below, r)


# Polynomials


class Polynomials:
    def __init__(self, k):
        self.k = k

    @staticmethod
    def trim(p):
        p = list(p)
        while p and p[-1] == 0:
            p.pop()
        return p

    def add(self, p, q):
        n = max(len(p), len(q))
        p, q = p + [0] * (n - len(p)), q + [0] * (n - len(q))
        return self.trim(self.k.add(a, b) for a, b in zip(p, q))

    def neg(self, p):
        return [self.k.neg(a) for a in p]

    def sub(self, p, q):
        return self.add(p, self.neg(q))

    def mul(self, p, q):
        r = [0] * (len(p) + len(q))
        for i, a in enumerate(p):
            for j, b in enumerate(q):
                r[i + j] = self.k.add(r[i + j], self.k.mul(a, b))
        return self.trim(r)

    def scale(self, a, p):
        return self.mul([a] if a else [], p)

    def divmod(self, p, q):
        rest, over = list(p), self.k.inv(q[-1])
        quotient = [0] * max(len(p) - len(q) + 1, 0)
        for i in reversed(range(len(quotient))):
            quotient[i] = c = self.k.mul(rest[i + len(q) - 1], over)
            for j, b in enumerate(q):
                rest[i + j] = self.k.add(rest[i + j], self.k.neg(self.k.mul(c, b)))
        return self.trim(quotient), self.trim(rest)

    def div(self, p, q):
        quotient, rest = self.divmod(p, q)
        assert not rest
        return quotient

    def mod(self, p, q):
        return self.divmod(p, q)[1]

    def monic(self, p):
        return self.scale(self.k.inv(p[-1]), p)

    def bezout(self, p, q):
        """Monic d and e1, e2 with d = e1·p + e2·q."""
        (r, s), (x, y), (u, v) = (p, q), ([1], []), ([], [1])
        while s:
            t, rest = self.divmod(r, s)
            r, s, x, y = s, rest, y, self.sub(x, self.mul(t, y))
            u, v = v, self.sub(u, self.mul(t, v))
        if not r:
            return [], [], []
        over = self.k.inv(r[-1])
        return self.scale(over, r), self.scale(over, x), self.scale(over, u)

    def derivative(self, p):
        result, count = [], 0
        for a in p[1:]:
            count = self.k.add(count, 1)
            result.append(self.k.mul(count, a))
        return self.trim(result)


# Divisors, each a triple of u, v and n


class Curve:
    def __init__(self, k, coefficients):
        """The coefficients are f4 to f0."""
        self.k, self.p = k, Polynomials(k)
        if any(a >= k.q for a in coefficients):
            raise Refusal(5)
        self.f = [*reversed(coefficients), 0, 1]
        if len(self.p.bezout(self.f, self.p.derivative(self.f))[0]) != 1:
            raise Refusal(8)
        half = k.inv(k.add(1, 1))
        self.root = [k.mul(self.f[3], half), k.mul(self.f[4], half), 0, 1]

    def entered(self, fields):
        """The divisor of the ten bytes' numbers: degree, u1, u0, v1, v0, n."""
        degree, u1, u0, v1, v0, n = fields
        unused = {0: (u1, u0, v1, v0), 1: (u1, v1), 2: ()}
        if degree > 2 or n > 2 - degree or any(unused[degree]):
            raise Refusal(4)
        if any(a >= self.k.q for a in (u1, u0, v1, v0)):
            raise Refusal(5)
        u, v = [u0, u1][:degree] + [1], Polynomials.trim([v0, v1])
        if self.p.mod(self.p.sub(self.f, self.p.mul(v, v)), u):
            raise Refusal(9)
        return u, v, n

    def negative(self, d):
        u, v, n = d
        return u, self.p.neg(v), 2 - (len(u) - 1) - n

    def sum(self, first, second):
        u, v, n = self.composed(first, second)
        degree = len(u) - 1
        return (u, v, n) if degree <= 2 and 0 <= n <= 2 - degree else self.step(u, v, n)

    def composed(self, first, second):
        p = self.p
        (u1, v1, n1), (u2, v2, n2) = first, second
        both = p.add(v1, v2)
        g, a, b = p.bezout(u1, u2)
        d, c, e3 = p.bezout(g, both)
        e1, e2 = p.mul(c, a), p.mul(c, b)
        u = p.div(p.mul(u1, u2), p.mul(d, d))
        top = p.add(p.mul(p.mul(e1, u1), v2), p.mul(p.mul(e2, u2), v1))
        top = p.add(top, p.mul(e3, p.add(p.mul(v1, v2), self.f)))
        return u, p.mod(p.div(top, d), u), n1 + n2 + (len(d) - 1) - 1

    def step(self, u, v, n):
        p, root = self.p, self.root
        if len(u) - 1 == 4:
            w = v
        elif n < 0:
            w = p.sub(p.mod(p.add(v, root), u), root)
        else:
            w = p.add(root, p.mod(p.sub(v, root), u))
        u = p.monic(p.div(p.sub(self.f, p.mul(w, w)), u))
        cube = w[3] if len(w) > 3 else 0
        n = 2 - (len(u) - 1) if cube == self.k.neg(1) else 0
        return u, p.mod(p.neg(w), u), n


NEUTRAL = ([1], [], 1)


# Sheets


def number(low, high):
    return low + 256 * high


def divisor_numbers(body):
    return [body[0], *(number(body[i], body[i + 1]) for i in (1, 3, 5, 7)), body[9]]


def divisor_bytes(d):
    u, v, n = d
    degree = len(u) - 1
    u0, u1 = (u[:degree] + [0, 0])[:2]
    v0, v1 = (v + [0, 0])[:2]
    return bytes([degree, *(b for a in (u1, u0, v1, v0) for b in (a % 256, a // 256)), n])


class Run:
    """What the accepted records have brought about so far."""

    def __init__(self):
        self.base = self.field = self.curve = None
        self.registers = [NEUTRAL] * REGISTERS

    def in_turn(self, kind):
        if kind in (RESIDUES, NINE):
            return self.field is None
        if kind == PAIRS:
            return self.field is not None and self.field is self.base and self.curve is None
        if kind == CURVE:
            return self.field is not None and self.curve is None
        return self.curve is not None

    def obey(self, kind, body):
        """The bytes of an accepted record."""
        if not self.in_turn(kind):
            raise Refusal(12)
        if kind == RESIDUES:
            self.field = self.base = Residues(number(*body))
        elif kind == NINE:
            self.field = self.base = Quadratic(Residues(3), 2)
        elif kind == PAIRS:
            self.field = pairs(self.base, number(*body))
        elif kind == CURVE:
            self.curve = Curve(self.field, [number(*body[i : i + 2]) for i in range(0, 10, 2)])
        else:
            return self.call(kind, body)
        return b""

    def call(self, kind, body):
        registers = body[:1] if kind == ENTER else body
        if any(i >= REGISTERS for i in registers):
            raise Refusal(1)
        held = [self.registers[i] for i in registers]
        if kind == SHOW:
            return bytes([SHOWN, body[0]]) + divisor_bytes(held[0])
        if kind == ENTER:
            result = self.curve.entered(divisor_numbers(body[1:]))
        elif kind == ADD:
            result = self.curve.sum(held[1], held[2])
        elif kind == DOUBLE:
            result = self.curve.sum(held[1], held[1])
        else:
            result = self.curve.negative(held[1])
        self.registers[body[0]] = result
        return b""


def run(sheet):
    state, output, at = Run(), b"", 0
    while at < len(sheet):
        kind = sheet[at]
        if kind not in BODY:
            return output + bytes([REFUSED, kind, 11])
        body = sheet[at + 1 : at + 1 + BODY[kind]]
        if len(body) < BODY[kind]:
            return output + bytes([REFUSED, kind, 10])
        try:
            output += state.obey(kind, body)
        except Refusal as refusal:
            output += bytes([REFUSED, kind, refusal.number])
        at += 1 + BODY[kind]
    return output


def host(sheet, output):
    if len(output) != OUTPUT:
        return 65536 + 3, output
    if len(sheet) > MOST_SHEET:
        return 65536 + 13, output
    written = run(sheet)
    return len(written), written + output[len(written) :]


def program(sheet):
    return run(sheet) if len(sheet) <= MOST_SHEET else bytes([REFUSED, 0, 13])


if __name__ == "__main__":
    sys.stdout.buffer.write(program(sys.stdin.buffer.read()))
