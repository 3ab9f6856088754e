\\ Cases for the program divisor_sheet, with the answers that PARI/GP gives. From the root of the repository,
\\
\\     gp -q tests/vectors/divisors.gp < /dev/null
\\
\\ writes the program's input and the output that is expected of it. On each curve with all its divisors the order of the class
\\ group that PARI counts annihilates them all.

default(recover, 0);
read("tests/vectors/sums.gp");

asked = fileopen("crates/divisor_sheet/stdin", "w");
expected = fileopen("crates/divisor_sheet/stdout", "w");

note(text) = filewrite(asked, Str("# ", text));
said(text) = filewrite(expected, text);

line(name, numbers, a, b) =
{
  my(text = Str(name, " | ", spaced(numbers), " | ", spaced(a), " | ", spaced(b)));
  filewrite(asked, text);
  said(text);
}

\\ two valid divisors
case(name, C, numbers, D, E) =
{
  line(name, numbers, six(C, D), six(C, E));
  said("first valid");
  said("second valid");
  said(Str("sum ", spaced(six(C, plus(C, D, E)))));
  said(Str("double ", spaced(six(C, plus(C, D, D)))));
  said(Str("negative ", spaced(six(C, minus(D)))));
}

\\ divisors on x^6 + 1 over seven elements by their six numbers, of which one or both are refused
refused(name, numbers, a, b, first, second) =
{
  line(name, numbers, a, b);
  said(if(first, Str("first refused ", first), "first valid"));
  said(if(second, Str("second refused ", second), "second valid"));
  said(Str("sum refused ", if(first, first, second)));
  if(!first, my(D = of_six(C7, a)); said(Str("double ", spaced(six(C7, plus(C7, D, D))))); said(Str("negative ", spaced(six(C7, minus(D))))));
}

curve_refused(name, numbers, number) = line(name, numbers, [0, 0, 0, 0, 0, 1], [0, 0, 0, 0, 0, 1]); said(Str("curve refused ", number));

\\ The worked sums over seven elements, on x^6 + 1.

F7 = residues(7); ones = [0, 0, 0, 0, 1]; C7 = curve(F7, ones);
worked(a, b) = case("residues 7", C7, ones, of_six(C7, a), of_six(C7, b));
D = [2, 6, 0, 2, 1, 0]; E = [2, 2, 6, 1, 1, 0];
note("the worked sums over seven elements");
worked(D, E);
worked([2, 0, 1, 0, 0, 0], [2, 0, 1, 0, 0, 0]);
worked(D, [2, 5, 6, 0, 4, 0]);
worked([2, 6, 0, 5, 6, 0], [2, 5, 6, 0, 3, 0]);
worked(D, [1, 0, 6, 0, 3, 0]);
worked(E, [2, 2, 6, 6, 6, 0]);
worked([1, 0, 0, 0, 1, 1], [1, 0, 0, 0, 1, 1]);
worked([0, 0, 0, 0, 0, 2], [0, 0, 0, 0, 0, 2]);

\\ One case for every way through composition and step that some sum takes, over residues, Nine and Pairs.

ways = Map();
look(name, C, numbers, all) =
{
  foreach(all, A, foreach(all, B,
    my(w = way(C, A, B));
    if(!mapisdefined(ways, w), mapput(ways, w, 1); note(w); case(name, C, numbers, A, B))));
}
checked(C, all) =
{
  my([field, f] = C, q = field[1], order = subst(hyperellcharpoly(f), 'x, 1));
  if(#Set(apply(A -> six(C, A), all)) != order, error("the divisors are not as many as the class group has elements"));
  foreach(all, A, if(!same(times(C, order, A), neutral(C)), error("the order of the class group does not annihilate a divisor")));
}

{
sought = [["residues 7", residues(7), ones], ["residues 5", residues(5), [1, 0, 2, 1, 1]], ["residues 3", residues(3), [1, 1, 2, 0, 2]],
  ["residues 3", residues(3), [1, 0, 1, 2, 2]], ["residues 11", residues(11), [3, 1, 4, 1, 6]], ["nine", nine(), [1, 0, 3, 4, 5]],
  ["nine", nine(), [0, 4, 0, 1, 7]], ["pairs 3 2", pairs(3, 2), [5, 1, 0, 2, 3]]];
}
foreach(sought, s, my(C = curve(s[2], s[3])); if(poldisc(C[2]) == 0, error("a singular curve")); my(all = valid_divisors(C)); checked(C, all); look(s[1], C, s[3], all));

met(words) =
{
  my(found = 0);
  foreach(Vec(ways), w, my(good = 1); foreach(words, t, if(#strsplit(w, t) < 2, good = 0)); if(good, found = 1));
  if(!found, error("no sum goes the way ", words));
}
{
foreach([["deg u = 4", "coefficient 1", "deg u' = 0"], ["deg u = 4", "coefficient 1", "deg u' = 1"], ["deg u = 4", "coefficient -1", "deg u' = 0"],
  ["deg u = 4", "coefficient -1", "deg u' = 1"], ["deg u = 4", "other", "deg u' = 2"], ["deg u = 0", "n = -1", "x^3"], ["deg u = 1", "n = -1", "x^3"],
  ["deg u = 2", "n = -1", "x^3"], ["deg u = 3", "n = -1", "x^3"], ["deg u = 0", "n = 3", "x^3"], ["deg u = 1", "n = 2", "x^3"], ["deg u = 2", "n = 1", "x^3"],
  ["deg u = 3", "n = 0", "x^3"], ["deg d = 0", "no step"], ["deg d = 1", "no step"], ["deg d = 2", "no step"], ["deg u' = 0"], ["deg u' = 1"], ["deg u' = 2"]], w, met(w));
}

\\ Equal, opposite and shared points.

note("equal, opposite and shared points");
worked(D, D);
worked(D, [2, 6, 0, 5, 6, 0]);
worked([2, 6, 0, 2, 1, 0], [1, 0, 0, 0, 1, 0]);
worked([2, 6, 0, 2, 1, 0], [1, 0, 0, 0, 6, 1]);

\\ All sums on one small curve.

note("all sums on one curve over three elements");
small = [1, 1, 2, 0, 2]; C3 = curve(residues(3), small); all3 = valid_divisors(C3);
foreach(all3, A, foreach(all3, B, case("residues 3", C3, small, A, B)));

\\ Refusals.

note("divisors that are refused, the first operand first");
good = [2, 6, 0, 2, 1, 0];
refused("residues 7", ones, [3, 0, 0, 0, 0, 0], good, 4, 0);
refused("residues 7", ones, good, [3, 0, 0, 0, 0, 0], 0, 4);
refused("residues 7", ones, [1, 0, 0, 0, 1, 2], good, 4, 0);
refused("residues 7", ones, [1, 1, 0, 0, 1, 0], good, 4, 0);
refused("residues 7", ones, [1, 0, 0, 1, 1, 0], good, 4, 0);
refused("residues 7", ones, [0, 0, 1, 0, 0, 1], good, 4, 0);
refused("residues 7", ones, [0, 0, 0, 0, 1, 1], good, 4, 0);
refused("residues 7", ones, [2, 7, 0, 2, 1, 0], good, 5, 0);
refused("residues 7", ones, [2, 6, 0, 2, 4294967295, 0], good, 5, 0);
refused("residues 7", ones, [1, 0, 0, 0, 2, 0], good, 9, 0);
refused("residues 7", ones, [2, 6, 0, 2, 2, 0], [2, 7, 0, 2, 1, 0], 9, 5);
refused("residues 7", ones, [2, 7, 0, 2, 1, 0], [2, 6, 0, 2, 2, 0], 5, 9);
refused("residues 7", ones, [2, 7, 0, 9, 9, 1], [3, 0, 0, 0, 0, 0], 4, 4);
note("curves that are refused");
curve_refused("residues 7", [0, 0, 0, 0, 7], 5);
curve_refused("residues 7", [7, 0, 0, 0, 0], 5);
curve_refused("residues 7", [0, 0, 0, 0, 0], 8);
curve_refused("nine", [0, 0, 0, 0, 1], 8);
curve_refused("residues 5", [1, 4, 1, 0, 1], if(poldisc(curve(residues(5), [1, 4, 1, 0, 1])[2]) == 0, 8, error("not singular")));

\\ Random sums: two divisors of a random curve, each the sum of two points or a single one, over residues, Nine and Pairs.

root(field, y2) = if(y2 == 0, 0, issquare(y2), sqrt(y2), -1);
point(C) =
{
  my(field = C[1], q = field[1], a, y);
  while(1, a = field[2](random(q)); y = root(field, subst(C[2], 'x, a)); if(y != -1, return([Pol([field[2](1), -a], 'x), y * (-1)^random(2), random(2)])));
}
random_curve(field) =
{
  my(c);
  while(1, c = vector(5, k, random(field[1])); if(poldisc(curve(field, c)[2]) != 0, return(c)));
}
some(C) = if(random(4) == 0, point(C), plus(C, point(C), point(C)));
setrand(20261117);
chance(name, field) = my(c = random_curve(field), C = curve(field, c)); case(name, C, c, some(C), some(C));
note("random sums");
for(k = 1, 150, chance("residues 7", residues(7)));
for(k = 1, 100, chance("residues 31", residues(31)));
for(k = 1, 100, chance("residues 8191", residues(8191)));
for(k = 1, 100, chance("nine", nine()));
for(k = 1, 60, chance("pairs 7 3", pairs(7, 3)));
for(k = 1, 40, chance("pairs 251 6", pairs(251, 6)));
fileclose(asked); fileclose(expected);
quit;
