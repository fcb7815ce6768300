\\ The linear resolvent as a reader of document 01 would ask PARI/GP for it: polsym for the power
\\ sums, rule 2 as products of power series (exponential generating functions, so that the binomials
\\ go away), equal collisions worked once, and exp for the way back from power sums.

series(s, e) = Ser(vector(#s, k, s[k] * e^(k - 1)), 't);

work(s, w, p) =
{
  my(first = series(s, Mod(w[1], p)), rest = w[2..-1], total, merged);
  if (#rest == 0, return (first));
  total = first * work(s, rest, p);
  foreach (Set(rest), d,
    merged = rest;
    merged[select(c -> c == d, rest, 1)[1]] += w[1];
    total -= #select(c -> c == d, rest) * work(s, merged, p));
  total;
}

resolvent(p, c, w) =
{
  my(n = #c, r = #w, repeats, N, s, T, factorial = Mod(1, p), logs);
  repeats = prod(i = 1, r, #select(e -> e == w[i], w[1..i]));
  N = n! / (n - r)! / repeats;
  s = polsym(Mod(1, p) * Pol(concat(1, c)), N);
  for (k = 1, N, factorial *= k; s[k + 1] /= factorial);
  T = work(s, w, p) / repeats;
  logs = vector(N + 1);
  factorial = Mod(1, p);
  for (k = 1, N, logs[k + 1] = -polcoef(T, k) * factorial; factorial *= k);
  T = exp(Ser(logs, 'x));
  vector(N, k, lift(polcoef(T, k)));
}

\\ Prints the least time of one call in seconds, over five batches of at least 0.2 seconds, then b1 to bN.
timed(p, c, w) =
{
  my(answer, calls = 1, start, spent, best);
  while (1,
    start = getwalltime(); for (i = 1, calls, answer = resolvent(p, c, w)); spent = getwalltime() - start;
    if (spent >= 200, break); calls *= 2);
  best = spent;
  for (batch = 2, 5,
    start = getwalltime(); for (i = 1, calls, resolvent(p, c, w)); best = min(best, getwalltime() - start));
  print(strprintf("%.9f", best / 1000. / calls), " ", strjoin(apply(b -> Str(b), answer), ","));
}
