#!/usr/bin/env python3
"""Prints a stream of the problems that take the most stack, and of answers that are as long as they get.

Only freshness takes more stack for a larger problem: the lower part of a pair is a call, and it is at least two numbers below the pair. So the deepest
chain of calls goes down by two at each pair, from node 511 to node 1: 256 of them.
"""
import os
import sys

sys.path.insert(0, os.path.join(os.path.dirname(os.path.abspath(__file__)), ".."))
import problem  # noqa: E402
from problem import abstraction, application, assumption, atom, equation, freshness, pair, suspension, unit  # noqa: E402


def head(atoms, variables):
    return problem.head(atoms, variables, 1000000)


def paired(*atoms):
    """Swaps of each two atoms that stand beside one another."""
    return zip(atoms[::2], atoms[1::2])


def chain(first, last, turned=False):
    """Pairs from one node to another, each of the two nodes before it: the lower one on the right, or on the left if turned."""
    return b"".join(pair(n - 2, n - 1) if turned else pair(n - 1, n - 2) for n in range(first, last + 1))


def demanded():
    """Freshness asked of the deepest chain there is, and of one that goes down by one node."""
    for turned in (False, True):
        yield head(2, 0) + unit() + atom(1) + chain(2, 511, turned) + freshness(0, 511)
    yield head(32, 1) + unit() + suspension(0, *paired(*range(32), *range(32))) + chain(2, 511) + b"".join(freshness(a, 511) for a in range(32))
    yield head(2, 0) + unit() + atom(0) + chain(2, 511) + freshness(0, 511)
    yield head(2, 0) + unit() + pair(0, 0) + chain(2, 511) + freshness(0, 511)
    for left_first in (False, True):
        yield head(2, 0) + unit() + atom(1) + b"".join(pair(n - 1, 0) if left_first else pair(0, n - 1) for n in range(2, 512)) + freshness(0, 511)


def through_binders():
    """Abstractions and applications on the way: they are turns of a loop, so the chain is not as deep as it is long."""
    fields = head(32, 0) + unit() + atom(31)
    for n in range(2, 512):
        fields += [pair(n - 1, n - 2), abstraction(n % 31, n - 1), application(n, n - 1)][n % 3]
    yield fields + b"".join(freshness(a, 511) for a in range(31))


def raised():
    """Freshness that a run raises: [0]X against [1]chain, so atom 0 has to be fresh for the chain and X is bound to it."""
    fields = head(2, 1) + unit() + atom(1) + chain(2, 508)
    yield fields + suspension(0) + abstraction(0, 509) + abstraction(1, 508) + equation(510, 511)


def resolved():
    """Freshness that comes to the chain through bindings, one or many of them after one another."""
    fields = head(2, 1) + unit() + atom(1) + chain(2, 510)
    yield fields + suspension(0) + equation(511, 510) + freshness(0, 511)
    variables = 60
    fields = head(32, variables) + unit() + atom(31) + chain(2, 511 - variables)
    fields += b"".join(suspension(x, (x % 31, 31)) for x in range(variables))
    first = 512 - variables
    fields += equation(511, first - 1) + b"".join(equation(first + x, first + x + 1) for x in range(variables - 1))
    yield fields + b"".join(freshness(a, first) for a in range(32))


def long_answers():
    """Every fact that there can be; every variable but one bound, each to the next under images of 32 atoms."""
    yield head(32, 64) + b"".join(assumption(a, x) for x in range(64) for a in range(32))
    fields = head(32, 64) + b"".join(suspension(x, *paired(*range(32))) for x in range(64))
    yield fields + b"".join(equation(x, x + 1) for x in range(63)) + b"".join(assumption(a, x) for x in range(64) for a in range(32))


def pending():
    """As many equations waiting as there can be, with the longest lists of swaps."""
    fields = head(32, 1) + suspension(0, *paired(*range(32), *range(32))) + unit()
    fields += b"".join(pair(n - 1, 0) for n in range(2, 512))
    yield fields + b"".join(equation(511, 511) for _ in range(64))


def main():
    for family in (demanded, through_binders, raised, resolved, long_answers, pending):
        sys.stdout.buffer.write(problem.stream_of(family()))


if __name__ == "__main__":
    main()
