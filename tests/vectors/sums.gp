\\ The rules of the sum of divisors, written once more over PARI's own polynomials and finite fields.

read("tests/vectors/codes.gp");

\\ A divisor is [u, v, n], and a curve [field, f, V].

curve(field, numbers) =
{
  my(c = apply(field[2], numbers), one = field[2](1), half = 1 / (one + one));
  [field, Pol([one, 0 * one, c[1], c[2], c[3], c[4], c[5]], 'x), Pol([one, 0 * one, half * c[1], half * c[2]], 'x)];
}

monic(p) = p / pollead(p);

\\ the remainder, as a polynomial in x
left(p, u) = if(poldegree(u) == 0, 0, p % u);

composed(C, D, E) =
{
  my([u1, v1, n1] = D, [u2, v2, n2] = E, [g1, g2, g] = gcdext(u1, u2), [h1, h2, d] = gcdext(g, v1 + v2), l = 1 / pollead(d), u, v);
  d = l * d;
  u = u1 * u2 / d^2;
  v = (l * h1 * g1 * u1 * v2 + l * h1 * g2 * u2 * v1 + l * h2 * (v1 * v2 + C[2])) \ d;
  [u, left(v, u), n1 + n2 + poldegree(d) - 1, poldegree(d)];
}

in_range(T) = poldegree(T[1]) <= 2 && T[3] >= 0 && T[3] <= 2 - poldegree(T[1]);

lifted(C, T) =
{
  my([u, v, n] = T[1 .. 3], V = C[3]);
  if(poldegree(u) == 4, return(v));
  if(n < 0, -V + left(v + V, u), V + left(v - V, u));
}

x3(w) = polcoef(Pol(w, 'x), 3);

stepped(C, T) =
{
  my(w = lifted(C, T), u = monic((C[2] - w^2) / T[1]));
  [u, left(-w, u), if(x3(w) == -C[1][2](1), 2 - poldegree(u), 0)];
}

plus(C, D, E) = my(T = composed(C, D, E)); if(in_range(T), T[1 .. 3], stepped(C, T));

minus(D) = [D[1], -D[2], 2 - poldegree(D[1]) - D[3]];

\\ which way through the rules a sum goes
way(C, D, E) =
{
  my(T = composed(C, D, E), d = poldegree(T[1]), start = Str("deg d = ", T[4], ", deg u = ", d, ", n = ", T[3]));
  if(in_range(T), return(Str(start, ": no step")));
  my(c = x3(lifted(C, T)), one = C[1][2](1), S = stepped(C, T));
  Str(start, ": x^3 coefficient ", if(c == one, "1", c == -one, "-1", "other"), ", deg u' = ", poldegree(S[1]));
}

\\ All valid divisors of a curve: with u = 1, of degree 1 and of degree 2.

valid_divisors(C) =
{
  my([field, f, V] = C, q = field[1], el = field[2], found = List(), u, v);
  for(n = 0, 2, listput(found, [Pol([el(1)], 'x), 0, n]));
  for(a = 0, q - 1, for(b = 0, q - 1,
    u = Pol([el(1), el(a)], 'x); v = el(b);
    if((f - v^2) % u == 0, for(n = 0, 1, listput(found, [u, v, n])))));
  for(a = 0, q - 1, for(b = 0, q - 1, for(c = 0, q - 1, for(e = 0, q - 1,
    u = Pol([el(1), el(a), el(b)], 'x); v = Pol([el(c), el(e)], 'x);
    if((f - v^2) % u == 0, listput(found, [u, v, 0]))))));
  Vec(found);
}

neutral(C) = [Pol([C[1][2](1)], 'x), 0, 1];

same(D, E) = D[1] == E[1] && D[2] == E[2] && D[3] == E[3];

times(C, k, D) =
{
  my(S = neutral(C));
  foreach(binary(k), bit, S = plus(C, S, S); if(bit, S = plus(C, S, D)));
  S;
}

\\ A divisor by its six numbers: degree, u1, u0, v1, v0 and n.

six(C, D) =
{
  my(code = C[1][3], at = (p, k) -> my(c = polcoef(Pol(p, 'x), k)); if(c == 0, 0, code(c)), d = poldegree(D[1]));
  [d, if(d > 1, at(D[1], 1), 0), if(d > 0, at(D[1], 0), 0), at(D[2], 1), at(D[2], 0), D[3]];
}

of_six(C, s) =
{
  my(el = C[1][2], u);
  u = if(s[1] == 0, [el(1)], s[1] == 1, [el(1), el(s[3])], [el(1), el(s[2]), el(s[3])]);
  [Pol(u, 'x), Pol([el(s[4]), el(s[5])], 'x), s[6]];
}
