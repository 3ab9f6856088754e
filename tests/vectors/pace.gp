\\ What the program pace writes without an argument, by PARI/GP: the last divisors of its two sequences, each by either method. From
\\ the root of the repository,
\\
\\     gp -q tests/vectors/pace.gp < /dev/null

default(recover, 0);
read("tests/vectors/sums.gp");

expected = fileopen("crates/pace/stdout", "w");
sequence(name, field, numbers, first, second) =
{
  my(C = curve(field, numbers), a = of_six(C, first), b = of_six(C, second), s);
  for(k = 1, 1000, [a, b] = [b, plus(C, a, b)]);
  s = spaced(six(C, b));
  filewrite(expected, name);
  filewrite(expected, Str("closed formulas: ", s));
  filewrite(expected, Str("polynomials: ", s));
}
sequence("residues 8191", residues(8191), [423, 6114, 4985, 5802, 2724], [2, 4805, 3862, 8090, 5285, 0], [2, 5074, 5504, 945, 1758, 0]);
sequence("pairs 251 6", pairs(251, 6), [43373, 20865, 27900, 21633, 41421], [2, 9196, 61853, 29814, 35410, 0], [2, 59518, 54966, 28395, 2687, 0]);
fileclose(expected);
quit;
