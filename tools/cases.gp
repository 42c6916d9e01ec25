\\ Writes random cases in the format of docs/CASES.md. Polynomials modulo X^n + 1 by PARI/GP, nothing of this
\\ repository's code. Run: gp -q tools/cases.gp
setrand(20243);

\\ ---- numbers and lists as text
digits16 = Vec("0123456789abcdef");
hexn(v, bytes) = {
  my(r = v % (256^bytes), s = "");
  for (i = 1, 2*bytes, s = Str(digits16[r % 16 + 1], s); r \= 16);
  s
};
hexlist(l, bytes) = if (#l == 0, "-", my(s = ""); for (i = 1, #l, s = Str(s, hexn(l[i], bytes))); s);

\\ ---- elements: polynomials modulo X^n + 1, and their n coefficients, lowest power first
elt(l) = my(n = #l); Mod(sum(i = 1, n, l[i]*X^(i-1)), X^n + 1);
coeffs(a, n) = my(p = lift(a)); vector(n, i, polcoeff(p, i-1));
star(a, n) = Mod(subst(lift(a), X, -X^(n-1)), X^n + 1);
rnd(n, m) = vector(n, i, random(2*m + 1) - m);
squares(l) = sum(i = 1, #l, l[i]^2);

\\ ---- sums, products, adjoints, turned strips
ringcases(n, count, bytes, kind, m) = {
  my(a, b, k, c);
  my(red = (l -> if (kind == "bit", l % 2, l)));
  for (t = 1, count,
    a = if (kind == "bit", vector(n, i, random(2)), rnd(n, m));
    b = if (kind == "bit", vector(n, i, random(2)), rnd(n, m));
    print("product kind=", kind, " a=", hexlist(a, bytes), " b=", hexlist(b, bytes), " expect=ok:", hexlist(red(coeffs(elt(a)*elt(b), n)), bytes));
    print("sum kind=", kind, " a=", hexlist(a, bytes), " b=", hexlist(b, bytes), " expect=ok:", hexlist(red(a + b), bytes));
    print("adjoint kind=", kind, " a=", hexlist(a, bytes), " expect=ok:", hexlist(red(coeffs(star(elt(a), n), n)), bytes));
    k = random(n);
    c = coeffs(Mod(X, X^n + 1)^k * elt(a), n);
    print("turned kind=", kind, " a=", hexlist(a, bytes), " k=", k, " expect=ok:", hexlist(red(c), bytes)));
};

\\ ---- keys of class 1: from f = g = G = 1, F = 0 by steps that keep the determinant
small(l) = vecmax(abs(l)) <= 127;
newkey() = {
  my(n = 4, f, g, F, G, r, ok = 0);
  while (!ok,
    f = elt([1,0,0,0]); g = f; F = 0*f; G = f;
    for (t = 1, 3,
      r = elt(rnd(n, 1)); F += r*f; G += r*g;
      r = elt(rnd(n, 1)); f += r*F; g += r*G);
    ok = (lift(f*G - g*F) == 1) && (vecsum(coeffs(f, n)) % 2 == 1) && (vecsum(coeffs(g, n)) % 2 == 1)
      && small(coeffs(f, n)) && small(coeffs(g, n)) && small(coeffs(F, n)) && small(coeffs(G, n)));
  [f, g, F, G]
};
keyslip(key) = Str(concat(vector(4, i, hexlist(coeffs(key[i], 4), 1))), "4b01000400000018");
formof(key) = {
  my([f, g, F, G] = key, n = 4);
  [star(f, n)*f + star(g, n)*g, star(f, n)*F + star(g, n)*G, star(F, n)*F + star(G, n)*G]
};
formslip(q) = Str(concat(vector(3, i, hexlist(coeffs(q[i], 4), 4))), "4601000300000038");

\\ ---- hashes, targets, signatures
bits(hash) = vector(8, i, (hash >> (i-1)) % 2);
pairof(l) = [elt(l[1..4]), elt(l[5..8])];
flat(p) = concat(coeffs(p[1], 4), coeffs(p[2], 4));
basis(key, v) = [key[1]*v[1] + key[3]*v[2], key[2]*v[1] + key[4]*v[2]];
inverse(key, x) = [key[4]*x[1] - key[3]*x[2], key[1]*x[2] - key[2]*x[1]];
leader(l) = my(r = 0); for (i = 1, #l, if (l[i] != 0, r = l[i]; break)); r;

\\ what sign answers, and the signature
signed(key, hash, x) = {
  my(h = bits(hash), t = flat(basis(key, pairof(h))) % 2, v, w, ch);
  if (x % 2 != t, return(["fault:7:session:0", 0]));
  if (squares(x) > 16, return(["fault:8:session:0", 0]));
  v = flat(inverse(key, pairof(x)));
  w = leader(v[5..8]);
  if (w == 0, return(["fault:9:session:0", 0]));
  ch = (w < 0);
  if (ch, v = -v);
  my(s = (h - v)/2);
  [Str("ok:", squares(x), ":", if (ch, "changed", "kept"), ":", hexlist(s, 4)), s]
};
\\ what verify answers
verdict(q, hash, s) = {
  my(v = bits(hash) - 2*s, p, u, N);
  if (vecmax(abs(s)) > 524287, return("fault:3:check:0"));
  p = pairof(v);
  u = flat([q[1]*p[1] + q[2]*p[2], star(q[2], 4)*p[1] + q[3]*p[2]]);
  N = sum(i = 1, 8, v[i]*u[i]);
  if (vecmax(abs(u)) > 1048576 || N < 0 || N > 16, return("fault:8:check:0"));
  if (leader(v[5..8]) <= 0, return("fault:9:check:0"));
  Str("ok:", N)
};
\\ a sample of the hash's coset, or now and then of another
sample(key, hash) = {
  my(t = flat(basis(key, pairof(bits(hash)))) % 2, x = t);
  for (i = 1, 8, if (random(4) == 0, x[i] += 2*(random(3) - 1)); if (x[i] == 1 && random(2), x[i] = -1));
  if (random(8) == 0, x[random(8) + 1] += 1);
  x
};
verifycase(q, hash, s) = print("verify form=", formslip(q), " hash=", hexn(hash, 1), " sig=", hexlist(s, 4), " scratch=16 expect=", verdict(q, hash, s));

sessioncases(id) = {
  my(key = newkey(), q = formof(key), log = List(), number = 0, hash, x, r);
  print("load-key scratch=16 file=", keyslip(key), " expect=ok:1");
  print("make-form scratch=16 key=", keyslip(key), " expect=ok:", formslip(q));
  my(lines = List());
  listput(lines, Str("session id=gp-", id, " key=", keyslip(key), " log=0000000000"));
  for (t = 1, 4,
    hash = random(256);
    if (setsearch(Set(Vec(log)), hash), next);
    listput(lines, Str("  announce hash=", hexn(hash, 1), " expect=ok:", #log + 1));
    listput(lines, Str("  target order=", #log + 1, " area=8 scratch=16 expect=ok:", hexlist(flat(basis(key, pairof(bits(hash)))) % 2, 1)));
    my(done = 0);
    for (u = 1, 3,
      x = sample(key, hash);
      r = signed(key, hash, x);
      listput(lines, Str("  sign order=", #log + 1, " sample=", hexlist(x, 2), " area=8 scratch=16 expect=", r[1]));
      if (r[2] != 0,
        verifycase(q, hash, r[2]);
        verifycase(q, hash, bits(hash) - r[2]);
        my(s = r[2]); s[random(8) + 1] += 1; verifycase(q, hash, s);
        listput(log, hash); done = 1; break));
    if (!done, listput(lines, Str("  withdraw order=", #log + 1, " expect=ok"))));
  listput(lines, Str("  count expect=ok:", #log, ":5:no"));
  listput(lines, Str("  log expect=", hexlist(concat(Vec(log), vector(5 - #log)), 1)));
  for (i = 1, #lines, print(lines[i]));
  print("end");
};

ringcases(4, 6, 8, "word", 1000000);
ringcases(4, 6, 1, "bit", 1);
ringcases(256, 1, 8, "word", 1000000);
for (id = 1, 12, sessioncases(id));
quit
