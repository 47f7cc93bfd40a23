#!/usr/bin/env python3
"""Make wrong second programs, and see that the tests would notice each of them.

    mutate.py [--all] [SEED...]

Each mutation of tests/mutations.txt is applied to a copy of second/second.c. The program that it gives has to print another block than the second program for
some case of known answer, and for LEAST of PROBLEMS generated problems of every SEED (1, 2 and 3); it has to answer all of them, since one that stops, or
hangs, is noticed by anything. The last line is `N passed, M failed`. --all prints what was found for each mutation: cases, then generated problems by seed.
"""

import concurrent.futures
import glob
import os
import subprocess
import sys
import tempfile

import cases
from problem import stream_of

HERE = os.path.dirname(os.path.abspath(__file__))
TOP = os.path.dirname(HERE)
SECOND = os.path.join(TOP, "target", "second", "second")
GENERATE = os.path.join(TOP, "target", "second", "generate")
PROBLEMS, LEAST = 2000, 20
SECONDS = 60


class Mutation:
    def __init__(self, name):
        self.name = name
        self.arguments = ["stream"]
        self.changes = []

    def take(self, line):
        """One line of the file: part of a text to be found, or of the one in its place."""
        if line.startswith("room "):
            self.arguments.append(line[5:])
        elif line.startswith("-") and (not self.changes or self.changes[-1][1]):
            self.changes.append(([line[1:]], []))
        elif line[:1] in ("-", "+") and self.changes:
            self.changes[-1][line[0] == "+"].append(line[1:])
        else:
            raise cases.Fault("%s: no such line in a mutation: %s" % (self.name, line))

    def applied(self, source):
        for old, new in self.changes:
            old, new = "\n".join(old), "\n".join(new)
            if source.count(old) != 1:
                raise cases.Fault("%s: second.c has this %d times:\n%s" % (self.name, source.count(old), old))
            source = source.replace(old, new)
        return source


def read_mutations():
    found, count = [], None
    with open(os.path.join(HERE, "mutations.txt"), encoding="utf-8") as file:
        for line in file.read().splitlines():
            if line.startswith("count "):
                count = int(line[6:])
            elif line.startswith("== "):
                found.append(Mutation(line[3:]))
            elif line and not line.startswith("#"):
                found[-1].take(line)
    if len(found) != count:
        raise cases.Fault("mutations.txt has %d mutations, and says %s" % (len(found), count))
    return found


def generated(seed):
    return subprocess.run([GENERATE, seed, str(PROBLEMS)], stdout=subprocess.PIPE, check=True, timeout=SECONDS).stdout


def answered(program, arguments, stream):
    """The blocks that a program prints for a stream, or a Fault."""
    ran = cases.Ran([program] + arguments, stream, 1 << 28, SECONDS)
    blocks, rest = cases.blocks_of(ran.output)
    if ran.faults or ran.status != 0 or rest:
        raise cases.Fault("; ".join(ran.faults) or "it ended with %d after %d blocks" % (ran.status, len(blocks)))
    return blocks


class Trial:
    """The streams, and what the second program prints for them."""

    def __init__(self, seeds):
        vectors = sorted(glob.glob(os.path.join(HERE, "vectors", "*.tsv")))
        self.streams = [stream_of(case.input for case in cases.load(vectors))] + [generated(seed) for seed in seeds]
        self.right = {}

    def expected(self, arguments):
        key = " ".join(arguments)
        if key not in self.right:
            self.right[key] = [answered(SECOND, arguments, stream) for stream in self.streams]
            if any(len(blocks) != PROBLEMS for blocks in self.right[key][1:]):
                raise cases.Fault("the second program does not print %d blocks for %d generated problems" % (PROBLEMS, PROBLEMS))
        return self.right[key]

    def noticed(self, mutation, source, room):
        """In how many cases, and in how many generated problems of each seed, the mutation is noticed."""
        program = tempfile.mktemp(dir=room)
        with open(program + ".c", "w", encoding="utf-8") as file:
            file.write(mutation.applied(source))
        subprocess.run(["cc", "-O1", "-std=c99", "-w", "-o", program, program + ".c"], check=True, timeout=SECONDS)
        found = []
        for stream, right in zip(self.streams, self.expected(mutation.arguments)):
            blocks = answered(program, mutation.arguments, stream)
            if len(blocks) != len(right):
                raise cases.Fault("it printed %d blocks for %d problems" % (len(blocks), len(right)))
            found.append(sum(one != other for one, other in zip(blocks, right)))
        return found


def tried(trial, mutation, source, room):
    """What was found, and whether it is enough."""
    try:
        found = trial.noticed(mutation, source, room)
    except (cases.Fault, subprocess.SubprocessError) as fault:
        return str(fault), False
    return " ".join(str(number) for number in found), found[0] > 0 and min(found[1:]) >= LEAST


def main(arguments):
    show_all = arguments[:1] == ["--all"]
    seeds = arguments[show_all:] or ["1", "2", "3"]
    with open(os.path.join(TOP, "second", "second.c"), encoding="utf-8") as file:
        source = file.read()
    try:
        mutations = read_mutations()
        trial = Trial(seeds)
        for mutation in mutations:
            trial.expected(mutation.arguments)
    except (cases.Fault, subprocess.SubprocessError) as fault:
        print(fault)
        return cases.finish(0, 1)
    passed = 0
    with tempfile.TemporaryDirectory() as room, concurrent.futures.ThreadPoolExecutor(os.cpu_count()) as pool:
        for mutation, (found, enough) in zip(mutations, pool.map(lambda one: tried(trial, one, source, room), mutations)):
            passed += enough
            if show_all or not enough:
                print("%s: %s%s" % (mutation.name, found, "" if enough else ", TOO FEW"))
    return cases.finish(passed, len(mutations) - passed)


if __name__ == "__main__":
    sys.exit(main(sys.argv[1:]))
