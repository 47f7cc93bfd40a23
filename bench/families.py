#!/usr/bin/env python3
"""Writes the problems that are timed: families.py FOLDER makes a stream (each problem after its length in four bytes, high byte first) for each
family, FOLDER/NAME.stream, and for growth FOLDER/grow-NAME-NODES.stream with the nodes doubling from 32 to 512."""
import os
import random
import sys

TESTS = os.path.join(os.path.dirname(os.path.abspath(__file__)), "..", "tests")
sys.path.insert(0, TESTS)
from problem import Problem, stream_of  # noqa: E402

NO_LIMIT = 0xFFFFFFFF


def whole_example():
    p = Problem(2, 1, 100)
    left = p.abstraction(0, p.suspension(0))
    p.equation(left, p.abstraction(1, p.atom(1)))
    return p


def rule_match(seed):
    """A rule's left side with variables against a query: lets over applications and pairs, other binder names on the query's side."""
    random_ = random.Random(seed)
    p = Problem(8, 6, NO_LIMIT)
    depth = random_.randint(2, 4)

    def rule(level):
        if level == 0:
            return p.pair(p.suspension(3), p.application(9, p.suspension(4)))
        return p.application(1, p.pair(p.suspension(level % 3), p.abstraction(level, rule(level - 1))))

    def expression():
        return p.application(random_.randint(2, 5), p.pair(p.atom(7), p.unit()))

    def query(level):
        if level == 0:
            return p.pair(expression(), p.application(9, p.suspension(5)))
        return p.application(1, p.pair(seen[level % 3], p.abstraction((level + 3) % 7, query(level - 1))))

    left = rule(depth)
    seen = [expression() for _ in range(3)]
    p.protected(5)
    p.equation(left, query(depth))
    p.freshness(1, left)
    return p


def two_chains(p, left, right, nodes):
    """An equation of two chains of applications over two nodes, so many nodes in all."""
    while p.nodes + 2 <= nodes:
        left, right = p.application(3, left), p.application(3, right)
    p.equation(left, right)
    return p


def chain(nodes):
    """Two chains that meet: an atom and a variable at their ends."""
    p = Problem(2, 1, NO_LIMIT)
    return two_chains(p, p.atom(0), p.suspension(0), nodes)


def shared_pairs(nodes):
    """Pairs of one node with itself, under freshness of every atom."""
    p = Problem(32, 1, NO_LIMIT)
    n = p.suspension(0)
    while p.nodes < nodes:
        n = p.pair(n, n)
    for a in range(32):
        p.freshness(a, n)
    return p


def bound_chain(variables):
    """X0 against f(X1, X1), X1 against f(X2, X2), ..: each variable bound to a node with the next."""
    p = Problem(2, variables, NO_LIMIT)
    names = [p.suspension(i) for i in range(variables)]
    for i in range(variables - 1):
        p.equation(names[i], p.application(5, p.pair(names[i + 1], names[i + 1])))
    p.freshness(0, names[0])
    return p


def many_swaps(count):
    """Suspensions under 32 swaps of 32 atoms against each other."""
    random_ = random.Random(7)
    p = Problem(32, count, NO_LIMIT)
    for i in range(count):
        swaps = [(random_.randrange(32), random_.randrange(32)) for _ in range(32)]
        others = [(random_.randrange(32), random_.randrange(32)) for _ in range(32)]
        p.equation(p.suspension(i, *swaps), p.suspension(i, *others))
    return p


def late_clash(nodes):
    """Two chains under a limit of 4,294,967,295 that clash at their ends."""
    p = Problem(2, 0, NO_LIMIT)
    return two_chains(p, p.atom(0), p.atom(1), nodes)


def nested_pairs():
    """200 nested pairs of one node with itself under one freshness field: 1,419 bytes, and 2^200 leaves to one who walks the tree."""
    p = Problem(1, 1, NO_LIMIT)
    n = p.suspension(0)
    for _ in range(200):
        n = p.pair(n, n)
    p.freshness(0, n)
    return p


def spoiled(seed):
    """A match with one byte of it changed, or its end cut off: nearly always refused by the reader, at any place."""
    random_ = random.Random(1000 + seed)
    data = bytearray(rule_match(seed).bytes)
    at = random_.randrange(9, len(data))
    if seed % 4 == 0:
        return Bytes(bytes(data[:at]))
    data[at] = (data[at] + random_.randrange(1, 256)) % 256
    return Bytes(bytes(data))


def full_input():
    """65,535 bytes, as long as an input may be: assumptions and protected variables."""
    p = Problem(32, 64, NO_LIMIT)
    for i in range(13102):
        p.assumption(i % 32, i * 7 % 64)
    for x in range(4):
        p.protected(x)
    return p


def million_steps():
    """Two series of 32 variables, each bound to a pair of the one before with itself, against each other: stopped after a million steps."""
    p = Problem(0, 64, 1000000)
    names = [p.suspension(x) for x in range(64)]
    for first in (0, 32):
        for i in range(first, first + 31):
            p.equation(p.application(0, p.pair(names[i], names[i])), names[i + 1])
    p.equation(names[31], names[63])
    return p


class Bytes:
    """A problem that is given by its bytes."""

    def __init__(self, data):
        self.bytes = data


def published(name):
    """A case of known answer, by its name in tests/vectors/base.tsv."""
    with open(os.path.join(TESTS, "vectors", "base.tsv"), encoding="utf-8") as file:
        columns = next(line.split("\t") for line in file if line.startswith(name + "\t"))
    return Bytes(bytes.fromhex(columns[1]))


FAMILIES = {
    "tiny": [whole_example()],
    "match": [rule_match(seed) for seed in range(64)],
    "chain-512": [chain(512)],
    "shared-500": [shared_pairs(500)],
    "bound-64": [bound_chain(64)],
    "swaps-32": [many_swaps(32)],
    "clash-4-billion": [late_clash(512)],
    "nested-200": [nested_pairs()],
    "section-5.1": [published("003 section 5.1, 64 variables, L 1048576")],
    "malformed": [spoiled(seed) for seed in range(200)],
    "full-65535": [full_input()],
    "million-steps": [million_steps()],
}
GROWTH = {"chain": chain, "shared": shared_pairs, "clash": late_clash}


def write(folder, name, problems):
    with open(os.path.join(folder, name + ".stream"), "wb") as out:
        out.write(stream_of(p.bytes for p in problems))


def main(folder):
    os.makedirs(folder, exist_ok=True)
    for name, problems in FAMILIES.items():
        write(folder, name, problems)
    for name, make in GROWTH.items():
        for nodes in (32, 64, 128, 256, 512):
            write(folder, "grow-%s-%d" % (name, nodes), [make(nodes)])


if __name__ == "__main__":
    if len(sys.argv) != 2:
        raise SystemExit(__doc__)
    main(sys.argv[1])
