#!/usr/bin/env python3
"""Prints published.tsv: the published examples of 003 (Urban, Pitts, Gabbay).

Each case is written out field by field. The expected lines come from the paper's
answer, worked out by hand in the order that document 01 fixes; the comment beside
a case says how. The name of a case ends in the paper's answer.

Atoms a, b, c are 0, 1, 2. Symbols: 1 fn, 2 app, 3 vr, 4 lv, 5 the number 1 (of a
unit), 6 a plain function symbol f, 7 cons, 8 nil (of a unit), 9 lam, 10 var.
"""

import problem

A, B, C = 0, 1, 2
FN, APP, VR, LV, ONE, F, CONS, NIL, LAM, VAR = range(1, 11)


class Case(problem.Case):
    """A case with the paper's words, as terms."""

    def vr(self, atom):
        return self.application(VR, self.atom(atom))

    def fn(self, atom, body):
        return self.application(FN, self.abstraction(atom, body))

    def app(self, left, right):
        return self.application(APP, self.pair(left, right))

    def one(self):
        return self.application(ONE, self.unit())


# ---------------------------------------------------------------- section 1

def rule(case):
    """let a = X in Y evaluates to V: the conclusion of the rule (1)."""
    x, y, v = case.suspension(0), case.suspension(1), case.suspension(2)
    return case.pair(case.application(LV, case.pair(x, case.abstraction(A, y))), v)


# Steps: pair, lv, pair, X, abstraction, Y, V.
c = Case("003 (1) and (2): [X := 1, Y := a, V := 1]", 2, 3)
left = rule(c)
one = c.one()
body = c.vr(A)
value = c.one()
right = c.pair(c.application(LV, c.pair(one, c.abstraction(A, body))), value)
c.equation(left, right)
c.expect("accepted 7", "bind 0 %d 0 1" % one, "bind 1 %d 0 1" % body,
         "bind 2 %d 0 1" % value, judge="does not hold")

# The same steps; Y is (a b) applied to b, that is a. a is fresh for vr b.
c = Case("003 (1) and (3): the same solution, Y := a", 2, 3)
left = rule(c)
one = c.one()
body = c.vr(B)
value = c.one()
right = c.pair(c.application(LV, c.pair(one, c.abstraction(B, body))), value)
c.equation(left, right)
c.expect("accepted 7", "bind 0 %d 0 1" % one, "bind 1 %d 1 0" % body,
         "bind 2 %d 0 1" % value, judge="does not hold")

# vr b against (a b) applied to vr b, that is vr a.
c = Case("003 (3) with the erroneous Y := b: not equal", 2, 0)
c.equation(c.application(LV, c.pair(c.one(), c.abstraction(A, c.vr(B)))),
           c.application(LV, c.pair(c.one(), c.abstraction(B, c.vr(B)))))
c.expect("refused 9 0", judge="does not hold")

# Steps: fn, abstraction, vr, atom. a is fresh for vr b.
c = Case("003 section 1, fn a.b and fn c.b: equal", 3, 0)
c.equation(c.fn(A, c.vr(B)), c.fn(C, c.vr(B)))
c.expect("accepted 4", judge="holds")

# a against (a c) applied to a, that is c.
c = Case("003 section 1, fn a.a and fn c.a after renaming b to a: not equal", 3, 0)
c.equation(c.fn(A, c.vr(A)), c.fn(C, c.vr(A)))
c.expect("refused 9 0", judge="does not hold")

c = Case("003 section 1, fn b.a and fn c.a after swapping a and b: still equal", 3, 0)
c.equation(c.fn(B, c.vr(A)), c.fn(C, c.vr(A)))
c.expect("accepted 4", judge="holds")


def swapped_body(name, *assumed):
    case = Case(name, 2, 1)
    for atom in assumed:
        case.assumption(atom, 0)
    case.equation(case.fn(A, case.suspension(0)), case.fn(B, case.suspension(0, (A, B))))
    return case


# Steps: fn, abstraction, suspension: X against (a b)(a b)X, no disagreement; a is
# demanded fresh for (a b)X, that is b for X.
c = swapped_body("003 section 1, fn a.X and fn b.(a b)X: equal provided b is fresh for X")
c.expect("accepted 3", "fresh 1 0", judge="does not hold")
c = swapped_body("003 section 1, fn a.X and fn b.(a b)X, b fresh for X: equal", B)
c.expect("accepted 3", "fresh 1 0", judge="holds")
c = swapped_body("003 section 1, fn a.X and fn b.(a b)X, only a fresh for X: not derived", A)
c.expect("accepted 3", "fresh 0 0", "fresh 1 0", judge="does not hold")

c = Case("003 section 1, (a b)X and X, a and b fresh for X: equal", 2, 1)
c.equation(c.suspension(0, (A, B)), c.suspension(0))
c.assumption(A, 0)
c.assumption(B, 0)
c.expect("accepted 1", "fresh 0 0", "fresh 1 0", judge="holds")

# Steps: fn, abstraction (a fresh for X), X against (a b)X.
c = Case("003 (7): {a # X, b # X} derives fn a.X = fn b.X", 2, 1)
c.assumption(A, 0)
c.assumption(B, 0)
c.equation(c.fn(A, c.suspension(0)), c.fn(B, c.suspension(0)))
c.expect("accepted 3", "fresh 0 0", "fresh 1 0", judge="holds")
c = Case("003 (7) with a # X alone: not derived", 2, 1)
c.assumption(A, 0)
c.equation(c.fn(A, c.suspension(0)), c.fn(B, c.suspension(0)))
c.expect("accepted 3", "fresh 0 0", "fresh 1 0", judge="does not hold")
c = Case("003 (7) after [X := a]: fn a.a and fn b.a not equal", 2, 0)
c.equation(c.fn(A, c.vr(A)), c.fn(B, c.vr(A)))
c.expect("refused 9 0", judge="does not hold")
c = Case("003 (7) after [X := b]: fn a.b and fn b.b not equal", 2, 0)
c.equation(c.fn(A, c.vr(B)), c.fn(B, c.vr(B)))
c.expect("refused 9 0", judge="does not hold")

c = Case("003 (8): {a # X} derives a # fn b.X", 2, 1)
c.freshness(A, c.fn(B, c.suspension(0)))
c.assumption(A, 0)
c.expect("accepted 0", "fresh 0 0", judge="holds")
c = Case("003 (8): nothing is needed for a # fn a.X", 2, 1)
c.freshness(A, c.fn(A, c.suspension(0)))
c.expect("accepted 0", judge="holds")

# ---------------------------------------------------------------- section 2

# (a c)(a b) sends a, b, c to b, c, a; (b c) sends them to a, c, b.
c = Case("003 definition 2.5, (a c)(a b)X = (b c)X from {a # X, c # X}: holds", 3, 1)
c.assumption(A, 0)
c.assumption(C, 0)
c.equation(c.suspension(0, (A, C), (A, B)), c.suspension(0, (B, C)))
c.expect("accepted 1", "fresh 0 0", "fresh 2 0", judge="holds")
c = Case("003 definition 2.5, (a c)(a b)X = (b c)X from {a # X, b # X}: does not hold", 3, 1)
c.assumption(A, 0)
c.assumption(B, 0)
c.equation(c.suspension(0, (A, C), (A, B)), c.suspension(0, (B, C)))
c.expect("accepted 1", "fresh 0 0", "fresh 1 0", "fresh 2 0", judge="does not hold")

# With P = (b c): P(a) is a, P(b) is c. Both lists send a, b, c to c, a, b.
c = Case("003 after lemma 2.8, P(a b)X = (Pa Pb)PX: no disagreement", 3, 1)
c.equation(c.suspension(0, (B, C), (A, B)), c.suspension(0, (A, C), (B, C)))
c.expect("accepted 1", judge="holds")

# (a b)(b c) sends a, b, c to b, c, a; (a c) sends them to c, b, a.
c = Case("003 theorem 2.11 (c): (a1 a2)(a2 a3) and (a1 a3) disagree on a1, a2", 3, 1)
c.equation(c.suspension(0, (A, B), (B, C)), c.suspension(0, (A, C)))
c.expect("accepted 1", "fresh 0 0", "fresh 1 0", judge="does not hold")

# Steps: X; abstraction, pair, a, Y against Y.
c = Case("003 definition 2.13, [X := <b, Y>] on a.(a b)X: a.<a, (a b)Y>", 2, 2)
value = c.pair(c.atom(B), c.suspension(1))
c.equation(c.suspension(0), value)
c.equation(c.abstraction(A, c.suspension(0, (A, B))),
           c.abstraction(A, c.pair(c.atom(A), c.suspension(1, (A, B)))))
c.expect("accepted 5", "bind 0 %d 0 1" % value, judge="does not hold")

c = Case("003 after proposition 2.16, a.X and b.X: not provable", 2, 1)
c.equation(c.abstraction(A, c.suspension(0)), c.abstraction(B, c.suspension(0)))
c.expect("accepted 2", "fresh 0 0", "fresh 1 0", judge="does not hold")
c = Case("003 after proposition 2.16, a.X and a.X: provable", 2, 1)
c.equation(c.abstraction(A, c.suspension(0)), c.abstraction(A, c.suspension(0)))
c.expect("accepted 2", judge="holds")

# ---------------------------------------------------------------- section 3

c = Case("003 theorem 3.7, a against a': fails", 2, 0)
c.equation(c.atom(A), c.atom(B))
c.expect("refused 9 0", judge="does not hold")
c = Case("003 theorem 3.7, P.X against f t with X in t: fails, occurs", 2, 1)
c.equation(c.suspension(0, (A, B)), c.application(F, c.pair(c.atom(A), c.suspension(0))))
c.expect("refused 10 0", judge="does not hold")
c = Case("003 theorem 3.7, f t against P.X with X in t: fails, occurs", 2, 1)
c.equation(c.application(F, c.pair(c.atom(A), c.suspension(0))), c.suspension(0, (A, B)))
c.expect("refused 10 0", judge="does not hold")
c = Case("003 theorem 3.7, a fresh for a: fails", 1, 0)
c.freshness(A, c.atom(A))
c.expect("refused 12 0", judge="does not hold")

# Example 3.8: X1 to X7 are the variables 0 to 6. P1 to P3 begin with fn,
# abstraction (a and b differ), fn, abstraction (b and b), app, pair: 6 steps, the
# right side now under (a b); the demand of a for fn a... holds.


def quiz(name):
    return Case("003 example 3.8, " + name, 2, 7)


# Then X1 := (a b)(vr a); vr b against vr a: application, clash.
c = quiz("P1: no solution")
c.equation(c.fn(A, c.fn(B, c.app(c.suspension(0), c.vr(B)))),
           c.fn(B, c.fn(A, c.app(c.vr(A), c.suspension(0)))))
c.expect("refused 9 0", judge="does not hold")

# Then X2 := (a b)(vr a), that is vr b, and X3 := (a b)(vr b), that is vr a.
c = quiz("P2: [X2 := vr b, X3 := vr a], no conditions")
vr_b = c.vr(B)
left = c.fn(A, c.fn(B, c.app(c.suspension(1), vr_b)))
vr_a = c.vr(A)
right = c.fn(B, c.fn(A, c.app(vr_a, c.suspension(2))))
c.equation(left, right)
c.expect("accepted 8", "bind 1 %d 1 0" % vr_a, "bind 2 %d 1 0" % vr_b,
         judge="does not hold")

# Then vr, the atom b, and X4 := (a b)X5.
c = quiz("P3: [X4 := (a b)X5], no conditions")
left = c.fn(A, c.fn(B, c.app(c.vr(B), c.suspension(3))))
x5 = c.suspension(4)
c.equation(left, c.fn(B, c.fn(A, c.app(c.vr(A), x5))))
c.expect("accepted 9", "bind 3 %d 1 0" % x5, judge="does not hold")

# fn, abstraction (a and a), fn, abstraction (b and a, b fresh for the body), app,
# pair, vr, atom, X6 := (b a)X7.
c = quiz("P4: [X6 := (b a)X7], b fresh for X7")
left = c.fn(A, c.fn(B, c.app(c.vr(B), c.suspension(5))))
x7 = c.suspension(6)
c.equation(left, c.fn(A, c.fn(A, c.app(c.vr(A), x7))))
c.expect("accepted 9", "bind 5 %d 1 0" % x7, "fresh 1 6", judge="does not hold")

# The answers put into the problems, for the judge. Steps of P2's answer: 6, then
# vr, atom, vr, atom.
c = quiz("quiz answer 2, M2 = b and M3 = a: equal")
c.equation(c.fn(A, c.fn(B, c.app(c.vr(B), c.vr(B)))),
           c.fn(B, c.fn(A, c.app(c.vr(A), c.vr(A)))))
c.expect("accepted 10", judge="holds")
c = quiz("quiz answer 2, M2 = a and M3 = a instead: not equal")
c.equation(c.fn(A, c.fn(B, c.app(c.vr(A), c.vr(B)))),
           c.fn(B, c.fn(A, c.app(c.vr(A), c.vr(A)))))
c.expect("refused 9 0", judge="does not hold")
c = quiz("quiz answer 3, M4 the swap of any M5: equal")
c.equation(c.fn(A, c.fn(B, c.app(c.vr(B), c.suspension(4, (A, B))))),
           c.fn(B, c.fn(A, c.app(c.vr(A), c.suspension(4)))))
c.expect("accepted 9", judge="holds")
c = quiz("quiz answer 4, M6 the swap of M7 without free b: equal")
c.assumption(B, 6)
c.equation(c.fn(A, c.fn(B, c.app(c.vr(B), c.suspension(6, (B, A))))),
           c.fn(A, c.fn(A, c.app(c.vr(A), c.suspension(6)))))
c.expect("accepted 9", "fresh 1 6", judge="holds")
c = quiz("quiz answer 4, M7 any term: not derived")
c.equation(c.fn(A, c.fn(B, c.app(c.vr(B), c.suspension(6, (B, A))))),
           c.fn(A, c.fn(A, c.app(c.vr(A), c.suspension(6)))))
c.expect("accepted 9", "fresh 1 6", judge="does not hold")
# fn, abstraction, fn, abstraction, app, pair, vr, atom, vr, atom.
c = quiz("quiz answer 4, M7 = a and M6 = b: equal")
c.equation(c.fn(A, c.fn(B, c.app(c.vr(B), c.vr(B)))),
           c.fn(A, c.fn(A, c.app(c.vr(A), c.vr(A)))))
c.expect("accepted 10", judge="holds")
# With M7 = b the equations pass, but b is not fresh for app<vr a, vr b>.
c = quiz("quiz answer 4, M7 = b and M6 = a: not equal, b is free")
c.equation(c.fn(A, c.fn(B, c.app(c.vr(B), c.vr(A)))),
           c.fn(A, c.fn(A, c.app(c.vr(A), c.vr(B)))))
c.expect("refused 12 0", judge="does not hold")

c = Case("003 remark 3.9 (13), a.b against b.a: fails, in the second phase", 2, 0)
c.equation(c.abstraction(A, c.atom(B)), c.abstraction(B, c.atom(A)))
c.expect("refused 12 0", judge="does not hold")
c = Case("003 remark 3.9 (14), a fresh for X and a against X: no solution", 1, 1)
x = c.suspension(0)
c.freshness(A, x)
c.equation(c.atom(A), x)
c.expect("refused 12 0", judge="does not hold")
c = Case("003 remark 3.9 (14), the freshness after the equation: no solution", 1, 1)
x = c.suspension(0)
c.equation(c.atom(A), x)
c.freshness(A, x)
c.expect("refused 12 0", judge="does not hold")

c = Case("003 remark 3.10, a.b and c.b: holds", 3, 0)
c.equation(c.abstraction(A, c.atom(B)), c.abstraction(C, c.atom(B)))
c.expect("accepted 2", judge="holds")
c = Case("003 remark 3.10, a.a and c.a: does not hold", 3, 0)
c.equation(c.abstraction(A, c.atom(A)), c.abstraction(C, c.atom(A)))
c.expect("refused 9 0", judge="does not hold")
c = Case("003 remark 3.10, (A B)C against C, A and B two atoms: A and B fresh for C", 2, 1)
c.equation(c.suspension(0, (A, B)), c.suspension(0))
c.expect("accepted 1", "fresh 0 0", "fresh 1 0", judge="does not hold")
c = Case("003 remark 3.10, (A B)C against C, A and B one atom: no conditions", 1, 1)
c.equation(c.suspension(0, (A, A)), c.suspension(0))
c.expect("accepted 1", judge="holds")

# ---------------------------------------------------------------- section 4

# Abstraction (a fresh for b), X := (a b)b.
c = Case("003 (15), a.X against b.b: [X := a]", 2, 1)
left = c.abstraction(A, c.suspension(0))
b = c.atom(B)
c.equation(left, c.abstraction(B, b))
c.expect("accepted 2", "bind 0 %d 1 0" % b, judge="does not hold")

# Abstraction, abstraction, pair, X, Y.
c = Case("003 (17), a.b.<X, Y> against a.b.<a, b>: [X := a, Y := b]", 2, 2)
left = c.abstraction(A, c.abstraction(B, c.pair(c.suspension(0), c.suspension(1))))
a, b = c.atom(A), c.atom(B)
c.equation(left, c.abstraction(A, c.abstraction(B, c.pair(a, b))))
c.expect("accepted 5", "bind 0 %d 0 1" % a, "bind 1 %d 0 1" % b, judge="does not hold")

# ---------------------------------------------------------------- section 5

# Figure 5, third clause: x is the atom a, y the atom b; M is 0, Gamma is 1.
# Gamma; lam, abstraction (x fresh for var y), M := (x y)(var y).
c = Case("003 figure 5, lam x.M against lam y.y, x fresh for Gamma = nil: M := x", 2, 2)
m, gamma = c.suspension(0), c.suspension(1)
nil = c.application(NIL, c.unit())
var_y = c.application(VAR, c.atom(B))
c.equation(gamma, nil)
c.equation(c.application(LAM, c.abstraction(A, m)),
           c.application(LAM, c.abstraction(B, var_y)))
c.freshness(A, gamma)
c.expect("accepted 4", "bind 1 %d 0 1" % nil, "bind 0 %d 1 0" % var_y,
         judge="does not hold")
c = Case("003 figure 5, x fresh for Gamma with x in Gamma: refused, not fresh", 2, 2)
m, gamma = c.suspension(0), c.suspension(1)
nil = c.application(NIL, c.unit())
var_y = c.application(VAR, c.atom(B))
c.equation(gamma, c.application(CONS, c.pair(c.pair(c.atom(A), c.unit()), nil)))
c.equation(c.application(LAM, c.abstraction(A, m)),
           c.application(LAM, c.abstraction(B, var_y)))
c.freshness(A, gamma)
c.expect("refused 12 0", judge="does not hold")


def doubling(name, count, limit, atoms=0, backwards=False):
    """f(X1, X1) against X2, f(X2, X2) against X3, .., one step for each."""
    case = Case("003 section 5.1, " + name, atoms, count, limit)
    case.x = [case.suspension(variable) for variable in range(count)]
    images = "".join(" %d" % atom for atom in range(atoms))
    case.binds = []
    order = range(count - 1)
    for i in reversed(order) if backwards else order:
        value = case.application(F, case.pair(case.x[i], case.x[i]))
        case.equation(value, case.x[i + 1])
        case.binds.append("bind %d %d%s" % (i + 1, value, images))
    return case


for count, limit in ((2, 100), (3, 100), (5, 100), (10, 9), (32, 100), (63, 62),
                     (64, 63), (64, 4294967295)):
    c = doubling("%d variables, limit %d: each X is f of the one before"
                 % (count, limit), count, limit)
    c.expect("accepted %d" % (count - 1), *c.binds, judge="does not hold")
# The limit is reached with the equation of that number on top. The judge's first
# step is X2 against a value: 11, so 14; with no step allowed it is 8.
for count, limit in ((10, 3), (64, 5), (64, 62)):
    c = doubling("%d variables, limit %d: one step for each equation" % (count, limit),
                 count, limit)
    c.expect("refused 8 %d" % limit, judge="does not hold")
c = doubling("64 variables, limit 0: no step", 64, 0)
c.expect("refused 8 0", judge="8 0")
c = doubling("64 variables, the last equation first: the same values", 64, 63,
             backwards=True)
c.expect("accepted 63", *c.binds, judge="does not hold")
c = doubling("64 variables, X1 against f X64: fails, occurs", 64, 64)
c.equation(c.x[0], c.application(F, c.x[63]))
c.expect("refused 10 63", judge="does not hold")
c = doubling("64 variables, a fresh for X64: a fresh for X1", 64, 63, atoms=1)
c.freshness(A, c.x[63])
c.expect("accepted 63", *c.binds, "fresh 0 0", judge="does not hold")
c = doubling("64 variables, X1 against a, a fresh for X64: fails, not fresh", 64, 64,
             atoms=1)
c.equation(c.x[0], c.atom(A))
c.freshness(A, c.x[63])
c.expect("refused 12 0", judge="does not hold")
