\\ Requests for the program judge, with the answers that PARI/GP gives. From the root of the repository,
\\
\\     gp -q tests/vectors/fields.gp < /dev/null
\\
\\ writes the program's input and the output that is expected of it.

default(recover, 0);

\\ The variables of a tower, the highest first.
[x, y, z];

\\ A field is [q, element of a code, code of an element]; a text says why there is none.

residues(m) =
{
  if(m % 2 == 0 || m < 3 || m > 8191, return("refused with 2: the modulus is even, below 3 or above 8191"));
  my(p = factor(m)[1, 1]);
  if(p < m, return(Str("refused with 6 naming ", p, ": ", p, " is the smallest code that has no inverse")));
  [m, c -> Mod(c, m), e -> lift(e)];
}

\\ a + b*v, with v^2 = r, has the code a + q*b
adjoined(field, v, r) =
{
  my([q, element, code] = field, modulus = v^2 - element(r));
  [q^2, c -> Mod(element(c % q) + element(c \ q) * v, modulus),
    e -> my(p = lift(e, v)); code(polcoef(p, 0, v)) + q * code(polcoef(p, 1, v))];
}

nine() = adjoined(residues(3), 'z, 2);

square(field, r) =
{
  for(c = 0, field[1] - 1, if(field[2](c)^2 == field[2](r), return(1)));
  0;
}

pairs(field, v, r) =
{
  if(type(field) == "t_STR", return(field));
  if(field[1] > 255, return(Str("r = ", r, " refused with 2: the field below has more than 255 elements")));
  if(r >= field[1], return(Str("r = ", r, " refused with 5: r is no code of the field below")));
  if(square(field, r), return(Str("r = ", r, " refused with 7: r is a square in the field below")));
  adjoined(field, v, r);
}

\\ The field that some words ask for.
field(words) =
{
  if(words[1] == "nine", return(nine()));
  my(base = if(words[2] == "nine", nine(), residues(eval(words[2]))));
  if(words[1] == "residues", return(base));
  base = pairs(base, 'y, eval(words[3]));
  if(#words == 3, base, pairs(base, 'x, eval(words[4])));
}

report(field) =
{
  my([q, element, code] = field, one = element(1), left = q \ 2, right = q - left);
  Str(q, " elements, ", sum(c = 1, q - 1, element(c) * element(c)^-1 == one), " units, -1 = ", code(-one), ", 1/2 = ",
    code((one + one)^-1), ", ", left, "*", right, " = ", code(element(left) * element(right)));
}

\\ Texts.

asked = fileopen("crates/judge/stdin", "w");
expected = fileopen("crates/judge/stdout", "w");

\\ lines that get no answer
note(text) = filewrite(asked, text);

\\ a request, and how it is written
request(text, written = text) =
{
  my(made = field([word | word <- strsplit(text, " "), #word > 0]));
  filewrite(asked, written);
  filewrite(expected, Str(text, ": ", if(type(made) == "t_STR", made, report(made))));
}

\\ a line that is no request
bad(text, fault) =
{
  filewrite(asked, text);
  filewrite(expected, Str(text, ": bad line: ", fault));
}

note("# Residues: the least and the greatest modulus, those that are no modulus, and those with a code that has no inverse.");
foreach([3, 7, 8191, 0, 1, 8, 8192, 8193, 65535, 9, 15, 49, 8051], m, request(Str("residues ", m)));

note("");
note("# The field of nine elements.");
request("nine");

note("");
note("# Pairs: r is a code that is no square, and the field below has at most 255 elements.");
foreach([[7, 3], [7, 0], [7, 2], [7, 7], [7, 4294967295], [251, 2], [257, 3], [257, 257]], c, request(Str("pairs ", c[1], " ", c[2])));
foreach([4, 3, 9], r, request(Str("pairs nine ", r)));

note("");
note("# The field below is refused before r is looked at.");
foreach([8, 49], m, request(Str("pairs ", m, " ", m)));

note("");
note("# Pairs over pairs.");
foreach(["3 2 5", "13 2 15", "nine 4 13", "3 1 5", "3 3 5", "3 2 6", "3 2 9", "17 3 17"], c, request(Str("pairs ", c)));

note("");
note("# Spaces before and behind a request are passed over.");
request("pairs 7   3", "  pairs 7   3  ");

note("");
note("# Lines that are no request.");
kind = "a field is `residues`, `nine` or `pairs`";
missing = "a number is missing";
modulus = "the modulus is no number from 0 to 65535";
root = "r is no number from 0 to 4294967295";
extra = "there are more words than the field takes";
foreach(["field 7", "Residues 7"], text, bad(text, kind));
foreach(["residues", "pairs", "pairs 7", "pairs nine"], text, bad(text, missing));
foreach(["residues seven", "residues -7", "residues 65536", "pairs eight 3"], text, bad(text, modulus));
foreach(["pairs 7 three", "pairs 7 4294967296", "pairs 3 2 five"], text, bad(text, root));
foreach(["residues 7 3", "nine 9", "pairs 3 2 5 7"], text, bad(text, extra));

\\ a line that is no UTF-8, and one behind it
filewrite(asked, Strchr([114, 233, 115, 105, 100, 117, 115, 32, 55]));
filewrite(expected, "bad line: no text");
request("residues 5");

fileclose(asked);
fileclose(expected);
