\\ Lists of calls for the program calculator_sheet, with the answers that PARI/GP gives. From the root of the repository,
\\
\\     gp -q tests/vectors/calls.gp < /dev/null
\\
\\ writes the program's input and the output that is expected of it.

default(recover, 0);
read("tests/vectors/sums.gp");

asked = fileopen("crates/calculator_sheet/stdin", "w");
expected = fileopen("crates/calculator_sheet/stdout", "w");
note(text) = filewrite(asked, Str("# ", text));

\\ The registers and their accounts: each divisor by its six numbers, with how often it stands there, 2^64 - 1 times at most.

begin(name, field, numbers) =
{
  C = curve(field, numbers); registers = vector(16, k, neutral(C)); accounts = vector(16, k, List()); said = List();
  filewrite(asked, Str("on ", name, " | ", spaced(numbers)));
  filewrite(expected, Str("on ", name, " | ", spaced(numbers)));
}

counted(account, six, count) =
{
  for(k = 1, #account, if(account[k][1] == six, account[k] = [six, min(account[k][2] + count, 2^64 - 1)]; return(account)));
  listput(account, [six, count]); account;
}
joined(a, b) = my(r = List()); foreach(a, e, r = counted(r, e[1], e[2])); foreach(b, e, r = counted(r, e[1], e[2])); r;

\\ what is asked, and what is answered to it
sent(text, answer) = filewrite(asked, text); listput(said, Str(text, ": ", answer));
none(k) = k > 15;

enter(t, s, refusal = 0) =
{
  if(none(t), refusal = 1);
  if(!refusal, registers[t + 1] = of_six(C, s); accounts[t + 1] = List([[s, 1]]));
  sent(Str("enter ", t, " ", spaced(s)), if(refusal, Str("refused ", refusal), "done"));
}
add(t, a, b) =
{
  my(bad = none(t) || none(a) || none(b));
  if(!bad, my(S = plus(C, registers[a + 1], registers[b + 1]), A = joined(accounts[a + 1], accounts[b + 1])); registers[t + 1] = S; accounts[t + 1] = A);
  sent(Str("add ", t, " ", a, " ", b), if(bad, "refused 1", "done"));
}
double(t, a) =
{
  my(bad = none(t) || none(a));
  if(!bad, my(S = plus(C, registers[a + 1], registers[a + 1]), A = joined(accounts[a + 1], accounts[a + 1])); registers[t + 1] = S; accounts[t + 1] = A);
  sent(Str("double ", t, " ", a), if(bad, "refused 1", "done"));
}
negate(t, a) =
{
  my(bad = none(t) || none(a), A = List());
  if(!bad,
    foreach(accounts[a + 1], e, listput(A, [six(C, minus(of_six(C, e[1]))), e[2]]));
    registers[t + 1] = minus(registers[a + 1]); accounts[t + 1] = A);
  sent(Str("negate ", t, " ", a), if(bad, "refused 1", "done"));
}
show(a) = sent(Str("show ", a), if(none(a), "refused 1", spaced(six(C, registers[a + 1]))));

finish() =
{
  foreach(said, line, filewrite(expected, line));
  for(k = 0, 15, if(#accounts[k + 1], filewrite(expected, Str("register ", k, ": ", spaced(six(C, registers[k + 1])), " settles ",
    strjoin(apply(e -> Str(e[2], " x [", spaced(e[1]), "]"), Vec(accounts[k + 1])), " ")))));
}

\\ Every call and every refusal, and targets that are operands, over seven elements on x^6 + 1.

note("every call and every refusal");
begin("residues 7", residues(7), [0, 0, 0, 0, 1]);
show(0); show(16); show(255);
enter(0, [2, 6, 0, 2, 1, 0]); enter(1, [2, 2, 6, 1, 1, 0]); enter(16, [2, 6, 0, 2, 1, 0]);
enter(2, [3, 0, 0, 0, 0, 0], 4); enter(2, [1, 0, 0, 0, 1, 2], 4); enter(2, [1, 1, 0, 0, 1, 0], 4); enter(2, [2, 7, 0, 2, 1, 0], 5); enter(2, [1, 0, 0, 0, 2, 0], 9);
show(2); add(2, 0, 1); show(2); add(16, 0, 1); add(2, 16, 1); add(2, 0, 16); show(2);
double(3, 2); show(3); double(16, 2); double(3, 16); negate(4, 0); show(4); negate(16, 0); negate(4, 16);
finish();
note("targets that are operands");
begin("residues 7", residues(7), [0, 0, 0, 0, 1]);
enter(5, [2, 6, 0, 2, 1, 0]); enter(6, [1, 0, 0, 0, 1, 1]);
add(5, 5, 6); show(5); add(6, 5, 6); show(6); double(5, 5); show(5); negate(5, 5); show(5); add(5, 5, 5); show(5); negate(6, 6); add(7, 6, 5); show(7); add(7, 7, 15);
finish();
note("a register and its negative");
begin("nine", nine(), [1, 0, 3, 4, 5]);
my(all = valid_divisors(C)); enter(0, six(C, all[20])); negate(1, 0); add(2, 0, 1); show(2); double(3, 0); add(3, 3, 0); show(3);
finish();
note("a long chain over 63,001 elements");
begin("pairs 251 6", pairs(251, 6), [43373, 20865, 27900, 21633, 41421]);
enter(0, [2, 9196, 61853, 29814, 35410, 0]); enter(1, [2, 59518, 54966, 28395, 2687, 0]);
for(k = 1, 20, add(k % 3, (k + 1) % 3, (k + 2) % 3); show(k % 3)); for(k = 1, 30, double(3, if(k == 1, 2, 3))); show(3);
finish();

\\ Random lists.

setrand(20261118);
chance(name, field, numbers, count) =
{
  begin(name, field, numbers);
  my(all = valid_divisors(C));
  for(k = 1, count, my(t = random(17), a = random(17), b = random(17), c = random(6));
    if(c == 0, enter(t, six(C, all[1 + random(#all)])), c == 1, add(t, a, b), c == 2, double(t, a), c == 3, negate(t, a), c == 4, show(a), add(t, a, b)));
  finish();
}
note("random lists");
for(k = 1, 4, chance("residues 7", residues(7), [0, 0, 0, 0, 1], 250); chance("residues 3", residues(3), [1, 1, 2, 0, 2], 250));
for(k = 1, 3, chance("nine", nine(), [0, 4, 0, 1, 7], 250); chance("pairs 3 2", pairs(3, 2), [5, 1, 0, 2, 3], 250));
note("fields and curves that are refused, and lines that are none");
filewrite(asked, "on residues 9 | 0 0 0 0 1"); filewrite(expected, "on residues 9 | 0 0 0 0 1"); filewrite(expected, "field refused: 3 is the smallest code that has no inverse");
filewrite(asked, "on residues 7 | 0 0 0 0 0"); filewrite(expected, "on residues 7 | 0 0 0 0 0"); filewrite(expected, "curve refused 8");
filewrite(asked, "on pairs 7 2 | 0 0 0 0 1"); filewrite(expected, "on pairs 7 2 | 0 0 0 0 1"); filewrite(expected, "field refused: r is a square in the field below");
filewrite(asked, "on residues 7"); filewrite(expected, "on residues 7"); filewrite(expected, "bad line: a list begins with on FIELD | f4 f3 f2 f1 f0");
filewrite(asked, "show 0"); filewrite(expected, "bad line: show 0");
fileclose(asked); fileclose(expected);
quit;
