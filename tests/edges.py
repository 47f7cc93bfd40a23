#!/usr/bin/env python3
"""Prints edges.tsv: the last atom, the last variable, numbers that need a second, third or fourth byte, and counts of steps that do.

Each case is written out field by field, and its answer worked out from document 01; the comment beside it says how. None comes from running a program.
"""

from problem import Case

LAST_ATOM, LAST_VARIABLE = 31, 63
ATOMS, VARIABLES = 32, 64


def images(*cycle):
    """The images of 32 atoms when each atom of the cycle becomes the next one."""
    found = list(range(ATOMS))
    for place, atom in enumerate(cycle):
        found[atom] = cycle[(place + 1) % len(cycle)]
    return " ".join(str(atom) for atom in found)


# ---------------------------------------------------------------- steps and limits

def long_run(name, depth, others, limit):
    """Equation 0 takes the nested pairs' steps, and each of the others takes one: units."""
    case = Case(name, 0, 0, limit)
    node = case.nested(depth)
    case.equation(node, node)
    for _ in range(others):
        case.equation(0, 0)
    return case


# 2^16 - 1 steps for 15 pairs. "With L taken and an equation left, 8", with the number of that equation.
long_run("65,535 steps, limit 65,535", 15, 0, 65535).expect("accepted 65535", judge="holds")
long_run("65,535 steps, limit 65,534: stops inside equation 0", 15, 0, 65534).expect("refused 8 0", judge="8 0")
long_run("65,536 steps, limit 65,536", 15, 1, 65536).expect("accepted 65536", judge="holds")
long_run("65,536 steps, limit 65,535: stops before equation 1", 15, 1, 65535).expect("refused 8 1", judge="8 1")
long_run("65,540 steps, limit 65,538: stops before equation 4", 15, 5, 65538).expect("refused 8 4", judge="8 4")
for limit in (65537, 65792, 131072, 16777215, 16777216, 2 ** 31 - 1, 2 ** 31, 2 ** 31 + 1, 2 ** 32 - 1):
    long_run("65,537 steps, limit %d" % limit, 15, 2, limit).expect("accepted 65537", judge="holds")
long_run("131,071 steps", 16, 0, 2 ** 32 - 1).expect("accepted 131071", judge="holds")

# A clash in step 65,536, which is equation 1's first: 9 comes only if the limit lets that step be taken.
for limit, refusal in ((65536, "9 1"), (65535, "8 1"), (2 ** 31, "9 1")):
    c = Case("a clash in step 65,536, limit %d" % limit, 1, 0, limit)
    node = c.nested(15)
    c.equation(node, node)
    c.equation(0, c.atom(0))
    c.expect("refused " + refusal, judge="14 0" if refusal[0] == "9" else refusal)

# Limits whose low bytes are 0 or small, with three steps to take: two pairs' parts and the pair itself.
for limit in (256, 257, 65536, 65537, 16777216, 16777217, 2 ** 30, 2 ** 31, 2 ** 31 + 2, 3 * 2 ** 30, 2 ** 32 - 256, 2 ** 32 - 1):
    c = Case("three steps, limit %d" % limit, 0, 0, limit)
    node = c.nested(1)
    c.equation(node, node)
    c.expect("accepted 3", judge="holds")

# 64 equations of one step each: with the limit at n, equation n is on top when it is reached.
for limit in (1, 7, 8, 31, 32, 62, 63):
    c = Case("64 equations, limit %d" % limit, 0, 0, limit)
    c.unit()
    for _ in range(64):
        c.equation(0, 0)
    c.expect("refused 8 %d" % limit, judge="8 %d" % limit)
for number in (8, 31, 32, 63):
    c = Case("64 equations, number %d clashes" % number, 1, 0)
    unit, atom = c.unit(), c.atom(0)
    for n in range(64):
        c.equation(unit, atom if n == number else unit)
    c.expect("refused 9 %d" % number, judge="does not hold")

# ---------------------------------------------------------------- symbols: "2 bytes, any"

for symbol in (0, 0x5AA5, 0xFFFF):
    c = Case("symbol %d against itself" % symbol, 0, 0)
    unit = c.unit()
    c.equation(c.application(symbol, unit), c.application(symbol, unit))
    c.expect("accepted 2", judge="holds")
    for bit in range(16):
        c = Case("symbol %d against one that differs in bit %d" % (symbol, bit), 0, 0)
        unit = c.unit()
        c.equation(c.application(symbol, unit), c.application(symbol ^ 1 << bit, unit))
        c.expect("refused 9 0", judge="does not hold")
c = Case("symbols whose bytes are exchanged", 0, 0)
unit = c.unit()
c.equation(c.application(0x0102, unit), c.application(0x0201, unit))
c.expect("refused 9 0", judge="does not hold")

# ---------------------------------------------------------------- protected variables

for v in range(VARIABLES):
    # "Any other suspension: 11"; the judge has every variable protected: 11, so 14.
    c = Case("variable %d protected, against a unit" % v, 0, VARIABLES)
    c.protected(v)
    c.equation(c.suspension(v), c.unit())
    c.expect("refused 11 0", judge="does not hold")
    # All others protected: it is bound to node 1.
    c = Case("all but variable %d protected, a unit against it" % v, 0, VARIABLES)
    for other in range(VARIABLES):
        if other != v:
            c.protected(other)
    x = c.suspension(v)
    c.equation(c.unit(), x)
    c.expect("accepted 1", "bind %d 1" % v, judge="does not hold")
    # Left protected: "the same with the sides exchanged" binds the right one, to node 0, whichever side it is on.
    other = (v + 32) % VARIABLES
    c = Case("variable %d protected, against variable %d" % (v, other), 0, VARIABLES)
    c.protected(v)
    c.equation(c.suspension(v), c.suspension(other))
    c.expect("accepted 1", "bind %d 0" % other, judge="does not hold")

# ---------------------------------------------------------------- the last atoms

for a in range(ATOMS):
    c = Case("atom 31 against atom %d" % a, ATOMS, 0)
    c.equation(c.atom(LAST_ATOM), c.atom(a))
    if a == LAST_ATOM:
        c.expect("accepted 1", judge="holds")
        continue
    c.expect("refused 9 0", judge="does not hold")
    # The swap and no swap disagree on its two atoms.
    for assumed in ((), (a,), (LAST_ATOM,), (a, LAST_ATOM)):
        c = Case("(%d 31)X against X, assumed fresh: %s" % (a, " ".join(str(b) for b in assumed) or "none"), ATOMS, 1)
        for b in assumed:
            c.assumption(b, 0)
        c.equation(c.suspension(0, (a, LAST_ATOM)), c.suspension(0))
        c.expect("accepted 1", "fresh %d 0" % a, "fresh 31 0", judge="holds" if len(assumed) == 2 else "does not hold")

# X becomes the inverse of the swap, which is the swap, applied to node 1.
c = Case("(30 31)X against atom 31", ATOMS, 1)
c.equation(c.suspension(0, (30, 31)), c.atom(31))
c.expect("accepted 1", "bind 0 1 " + images(30, 31), judge="does not hold")
# (0 31)(31 30): the rightmost first, so 31 becomes 30, 30 becomes 31 and then 0, 0 becomes 31; the inverse turns that round.
c = Case("(0 31)(31 30)X against Y", ATOMS, 2)
c.equation(c.suspension(0, (0, 31), (31, 30)), c.suspension(1))
c.expect("accepted 1", "bind 0 1 " + images(30, 31, 0), judge="does not hold")
# C9 with the last atoms: X is Y under the swap, and 31 is demanded fresh for Y.
c = Case("[31]X against [30]Y", ATOMS, 2)
x, y = c.suspension(0), c.suspension(1)
c.equation(c.abstraction(31, x), c.abstraction(30, y))
c.expect("accepted 2", "bind 0 1 " + images(30, 31), "fresh 31 1", judge="does not hold")
# C7 and C8 with the last atoms, and two that are equal.
for left, right, lines, judged in ((30, 31, "refused 12 0", "does not hold"), (31, 31, "refused 9 0", "does not hold"), (31, 30, "accepted 2", "holds")):
    c = Case("[31]%d against [30]%d" % (left, right), ATOMS, 0)
    c.equation(c.abstraction(31, c.atom(left)), c.abstraction(30, c.atom(right)))
    c.expect(lines, judge=judged)

# Freshness of atom 31: for itself, for another, below its own binder and below another's.
for name, atom, binders, lines, judged in (
    ("31", 31, (), "refused 12 0", "does not hold"), ("30", 30, (), "accepted 0", "holds"), ("[31]31", 31, (31,), "accepted 0", "holds"),
    ("[30]31", 31, (30,), "refused 12 0", "does not hold"), ("[0][30]31", 31, (30, 0), "refused 12 0", "does not hold"),
):
    c = Case("atom 31 fresh for %s" % name, ATOMS, 0)
    node = c.atom(atom)
    for b in binders:
        node = c.abstraction(b, node)
    c.freshness(31, node)
    c.expect(lines, judge=judged)
# "for a suspension if the atom sent to a is fresh for its variable": the swap sends 30 to 31.
c = Case("atom 31 fresh for [0](30 31)X, which is assumed", ATOMS, 1)
c.assumption(30, 0)
c.freshness(31, c.abstraction(0, c.suspension(0, (30, 31))))
c.expect("accepted 0", "fresh 30 0", judge="holds")

# ---------------------------------------------------------------- swaps: "0 to 32"

# 31 times (0 1) is (0 1). With (0 2) on the right 0 becomes 2, 2 becomes 0 and then 1, and 1 becomes 0: all three disagree. So with (0 2) on the left.
for name, swaps in (("last", [(0, 1)] * 31 + [(0, 2)]), ("first", [(0, 2)] + [(0, 1)] * 31)):
    c = Case("32 swaps, the %s another" % name, 3, 1)
    c.equation(c.suspension(0, *swaps), c.suspension(0))
    c.expect("accepted 1", "fresh 0 0", "fresh 1 0", "fresh 2 0", judge="does not hold")

# ---------------------------------------------------------------- nodes from 256 up


def far(name, variables=0):
    """256 units, so that a node's low byte alone is a unit's; then atoms 0 and 1 as nodes 256 and 257."""
    case = Case(name, 2, variables)
    for _ in range(256):
        case.unit()
    return case, case.atom(0), case.atom(1)


c, a, b = far("an equation of nodes 256 and 257")
c.equation(a, b)
c.expect("refused 9 0", judge="does not hold")
c, a, b = far("an equation of nodes 0 and 256")
c.equation(0, a)
c.expect("refused 9 0", judge="does not hold")
c, a, b = far("an equation of nodes 256 and 0")
c.equation(a, 0)
c.expect("refused 9 0", judge="does not hold")
for name, make in (
    ("left parts", lambda case, node: case.pair(node, 0)), ("right parts", lambda case, node: case.pair(0, node)),
    ("bodies", lambda case, node: case.abstraction(0, node)), ("arguments", lambda case, node: case.application(0, node)),
):
    c, a, b = far("%s 256 and 257" % name)
    c.equation(make(c, a), make(c, b))
    c.expect("refused 9 0", judge="does not hold")
c, a, b = far("atom 0 fresh for node 256")
c.freshness(0, a)
c.expect("refused 12 0", judge="does not hold")
c, a, b = far("a variable against node 257", 1)
c.equation(c.suspension(0), b)
c.expect("accepted 1", "bind 0 257 0 1", judge="does not hold")
c, a, b = far("a variable against node 511", 1)
x = c.suspension(0)
while c.nodes < 512:
    c.unit()
c.equation(511, x)
c.expect("accepted 1", "bind 0 511 0 1", judge="does not hold")
# Twice the same: the second time the bound variable is replaced by atom 1.
c, a, b = far("a variable that is node 511 against node 257, twice", 1)
while c.nodes < 511:
    c.unit()
x = c.suspension(0)
c.equation(x, b)
c.equation(b, x)
c.expect("accepted 2", "bind 0 257 0 1", judge="does not hold")
