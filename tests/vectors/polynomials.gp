\\ Cases for the program polynomial_sheet, with the answers that PARI/GP gives. From the root of the repository,
\\
\\     gp -q tests/vectors/polynomials.gp < /dev/null
\\
\\ writes the program's input and the output that is expected of it. Polynomials are vectors of codes, the lowest
\\ coefficient first. A number above q - 1 is read as 0.

default(recover, 0);
read("tests/vectors/codes.gp");

\\ Polynomials.

polynomial(field, numbers) = Polrev(apply(c -> field[2](if(c < field[1], c, 0)), numbers), 'x);

codes(field, f) =
{
  if(f == 0, return([]));
  f = Pol(f, 'x);
  vector(poldegree(f) + 1, k, field[3](polcoef(f, k - 1)));
}

lead(f) = if(f == 0, 0, pollead(Pol(f, 'x)));

\\ the ten lowest codes, without zeros at the end
lowest(numbers) =
{
  my(n = min(10, #numbers));
  while(n > 0 && numbers[n] == 0, n--);
  numbers[1 .. n];
}

\\ The monic greatest common divisor d = s*f + t*g, s of lower degree than g/d.
combination(f, g) =
{
  my([s, t, d] = gcdext(f, g), l = lead(d));
  if(l == 0, return([0, 0, 0]));
  if(g == 0, return([f / lead(f), 1 / lead(f), 0]));
  d = d / l;
  s = (s / l) % (g \ d);
  [d, s, (d - s * f) \ g];
}

\\ Texts.

asked = fileopen("crates/polynomial_sheet/stdin", "w");
expected = fileopen("crates/polynomial_sheet/stdout", "w");

shown(field, name, f) =
{
  my(c = lowest(codes(field, f)));
  filewrite(expected, Str(name, " ", if(#c == 0, "0", spaced(c))));
}

answers(field, f, g) =
{
  my([d, s, t] = combination(f, g));
  shown(field, "sum", f + g);
  shown(field, "difference", f - g);
  shown(field, "negative", -f);
  shown(field, "product", f * g);
  shown(field, "quotient", if(g == 0, 0, f \ g));
  shown(field, "remainder", if(g == 0, f, f % g));
  shown(field, "gcd", d);
  shown(field, "first", s);
  shown(field, "second", t);
  shown(field, "derivative", deriv(f, 'x));
  shown(field, "multiple", lead(g) * f);
  filewrite(expected, Str("degree ", if(f == 0, "none", poldegree(f))));
  filewrite(expected, Str("equal ", if(f == g, "true", "false")));
}

note(text) = filewrite(asked, Str("# ", text));

refused(line, why) =
{
  filewrite(asked, line);
  filewrite(expected, line);
  filewrite(expected, Str("refused: ", why));
}

case(name, field, a, b) =
{
  my(line = Str(name, " | ", spaced(a), " | ", spaced(b)));
  if(type(field) == "t_STR", refused(line, field); return);
  filewrite(asked, line);
  filewrite(expected, line);
  answers(field, polynomial(field, a), polynomial(field, b));
}

modulo(m, a, b) = case(Str("residues ", m), residues(m), a, b);
in_nine(a, b) = case("nine", nine(), a, b);
paired(m, r, a, b) = case(Str("pairs ", m, " ", r), pairs(m, r), a, b);

\\ The cases.

note("x^2 - 1 and x^3 - 1 modulo 7 share x - 1");
modulo(7, [6, 0, 1], [6, 0, 0, 1]);
note("x^4 + x + 1 by 2*x + 3 modulo 5");
modulo(5, [1, 1, 0, 0, 1], [3, 2]);
note("coprime polynomials of degrees 2 and 3");
modulo(11, [1, 2, 3], [4, 5, 6, 7]);
note("over nine elements, where 3 is a square root of 2");
in_nine([3, 1], [6, 1]);
in_nine([8, 7, 6, 5, 4, 3, 2, 1], [1, 0, 3]);
note("over 49 elements, where 7 is a square root of 3");
paired(7, 3, [3, 0, 48], [7, 1]);

note("0 with 0, with a constant and with a polynomial, on either side");
modulo(7, [], []);
modulo(7, [], [3]);
modulo(7, [3], []);
modulo(7, [], [2, 0, 5]);
modulo(7, [2, 0, 5], []);
note("constants");
modulo(7, [3], [5]);
modulo(7, [3], [3]);
modulo(7, [1, 2, 3], [4]);
modulo(7, [4], [1, 2, 3]);
in_nine([5], [7]);
note("proportional polynomials, and a divisor before and after its multiple");
modulo(13, [2, 4, 6], [3, 6, 9]);
modulo(13, [1, 1], [1, 2, 1]);
modulo(13, [1, 2, 1], [1, 1]);
note("degree 9 on both sides; the product keeps its ten lowest codes");
modulo(101, [1, 2, 3, 4, 5, 6, 7, 8, 9, 10], [10, 9, 8, 7, 6, 5, 4, 3, 2, 1]);
modulo(3, [0, 0, 0, 0, 0, 0, 0, 0, 0, 1], [0, 0, 0, 0, 0, 0, 0, 0, 0, 2]);
note("degrees 4 and 5 fill ten codes; degrees 5 and 5 lose the highest");
modulo(7, [1, 0, 0, 0, 1], [1, 0, 0, 0, 0, 1]);
modulo(7, [1, 0, 0, 0, 0, 1], [1, 0, 0, 0, 0, 1]);
note("a product whose ten lowest codes are 0");
modulo(7, [0, 0, 0, 0, 0, 1], [0, 0, 0, 0, 0, 1]);
note("zeros at the end");
modulo(7, [1, 2, 0, 0], [0, 0, 0]);
modulo(7, [1, 2, 0, 0, 0, 0, 0, 0, 0, 0], [1, 2]);
note("numbers above q - 1 are read as 0");
modulo(7, [1, 7, 2, 8], [1, 0, 2]);
modulo(7, [4294967295, 6, 7], [0, 6]);
in_nine([8, 9, 10], [8]);
paired(5, 2, [24, 25], [24, 0, 26]);
note("derivatives that are 0, and one that drops by two degrees");
modulo(3, [2, 0, 0, 1, 0, 0, 2, 0, 0, 1], [1, 1]);
modulo(3, [1, 1, 1, 1], [0, 1]);
in_nine([1, 0, 0, 4], [0, 5]);
modulo(5, [0, 0, 0, 0, 0, 1, 1], [1]);
note("the largest modulus");
modulo(8191, [8190, 8189, 8188], [8190, 1]);

note("fields that are refused");
modulo(8, [1], [1]);
modulo(1, [1], [1]);
modulo(8193, [1], [1]);
modulo(65535, [1], [1]);
modulo(9, [1], [1]);
modulo(35, [1], [1]);
paired(4, 1, [1], [1]);
paired(9, 2, [1], [1]);
paired(257, 3, [1], [1]);
paired(7, 7, [1], [1]);
paired(7, 2, [1], [1]);
note("lines that are refused");
refused("residues 7 | 1 2", "a line is FIELD | A | B");
refused("residues | 1 | 2", "a field is residues M, nine or pairs M R");
refused("residues 7 7 | 1 | 2", "a field is residues M, nine or pairs M R");
refused("eight | 1 | 2", "a field is residues M, nine or pairs M R");
refused("nine | 1 2 3 4 5 6 7 8 9 10 11 | 1", "a polynomial is at most ten numbers, the lowest coefficient first");
refused("nine | 1 x | 1", "a polynomial is at most ten numbers, the lowest coefficient first");
refused("nine | 1 | 4294967296", "a polynomial is at most ten numbers, the lowest coefficient first");

\\ Random cases: any two polynomials, two with a common factor, and numbers above q - 1 among the codes.

setrand(1);

drawn(q, n) = vector(random(n + 1), k, random(q));

strange(q, numbers) = apply(c -> if(random(6) == 0, q + random(2^16), c), numbers);

draws(name, field, count) =
{
  my(q = field[1], a, b, c);
  for(k = 1, count,
    if(k % 3 == 0,
      a = drawn(q, 10); b = drawn(q, 10),
      c = polynomial(field, drawn(q, 5));
      a = codes(field, c * polynomial(field, drawn(q, 6)));
      b = codes(field, c * polynomial(field, drawn(q, 6))));
    if(k % 10 == 0, a = strange(q, a); b = strange(q, b));
    case(name, field, a, b));
}

note("random cases");
foreach([3, 5, 7, 11, 101, 251, 257, 8191], m, draws(Str("residues ", m), residues(m), 20));
draws("nine", nine(), 40);
foreach([3, 5, 7, 31, 251], m, my(r = 2); while(issquare(Mod(r, m)), r++); draws(Str("pairs ", m, " ", r), pairs(m, r), 20));

fileclose(asked);
fileclose(expected);
quit;
