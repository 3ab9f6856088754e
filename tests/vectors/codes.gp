\\ The fields as PARI/GP has them, by their codes: [q, element of a code, code of an element], or the reason why there is none.

residues(m) =
{
  if(m % 2 == 0 || m < 3 || m > 8191, return("the modulus is even, below 3 or above 8191"));
  if(!isprime(m), return(Str(factor(m)[1, 1], " is the smallest code that has no inverse")));
  [m, c -> Mod(c, m), e -> lift(e)];
}

\\ a + b*t, with t^2 = r, has the code a + m*b
quadratic(m, r) =
{
  my(t = ffgen(Mod(1, m) * ('t^2 - r), 't));
  [m^2, c -> (c % m) * t^0 + (c \ m) * t,
    e -> my(p = if(type(e) == "t_FFELT", e.pol, lift(e))); polcoef(p, 0, 't) + m * polcoef(p, 1, 't)];
}

pairs(m, r) =
{
  my(below = residues(m));
  if(type(below) == "t_STR", return(below));
  if(m > 255, return("the field below has more than 255 elements"));
  if(r >= m, return("r is no code of the field below"));
  if(issquare(Mod(r, m)), return("r is a square in the field below"));
  quadratic(m, r);
}

nine() = quadratic(3, 2);

\\ numbers with spaces between
spaced(numbers) = if(#numbers == 0, "", strjoin(apply(c -> Str(c), numbers), " "));
