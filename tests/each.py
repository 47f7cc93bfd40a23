#!/usr/bin/env python3
"""Run the programs solve and judge once for each of some cases of known answer, and compare what they print and how they end.

    each.py LEAST COMMAND... -- FILE.tsv... -- FILE.tsv...

Of the first files every case is run, of the others the first case for each pair of the solver's and the judge's number: at least LEAST cases in all.
`COMMAND solve` gets a case's input on standard input and has to print the solver's lines of its third column, `COMMAND judge` the line of its fourth, and
nothing else; each ends with 0 if it accepts or holds and with 1 if it refuses. The last line is `N passed, M failed`; it ends with 0 only if nothing failed.
"""

import sys

import cases

MOST_SHOWN = 5


def chosen(whole, sampled):
    kinds = {}
    for case in cases.load(sampled):
        kinds.setdefault((case.solved, case.judged), case)
    return cases.load(whole) + list(kinds.values())


def faults_of(command, given, lines, number):
    """What is wrong with one run of a program, in words."""
    expected = "".join(line + "\n" for line in lines).encode()
    ran = cases.Ran(command, given, len(expected) + 4096)
    faults = list(ran.faults)
    status = 0 if number == 0 else 1
    if ran.output != expected:
        faults.append("expected %r, found %r" % (expected, ran.output))
    if ran.status != status:
        faults.append("it ended with %d, not with %d" % (ran.status, status))
    return faults


def main(arguments):
    least, arguments = int(arguments[0]), arguments[1:]
    first = arguments.index("--")
    second = arguments.index("--", first + 1)
    command = arguments[:first]
    passed = failed = 0
    try:
        known = chosen(arguments[first + 1:second], arguments[second + 1:])
        if len(known) < least:
            raise cases.Fault("%d cases; there must be at least %d" % (len(known), least))
    except cases.Fault as fault:
        print(fault)
        return cases.finish(0, 1)
    for case in known:
        for program, lines, number in (("solve", case.lines, case.solved), ("judge", [case.judge_line], case.judged)):
            faults = faults_of(command + [program], case.input, lines, number)
            passed += not faults
            failed += bool(faults)
            if faults and failed <= MOST_SHOWN:
                print("DIFFERENT: %s, %s (%s)\n  input    %s\n  %s" % (program, case.name, case.place, case.input.hex(), "\n  ".join(faults)))
    return cases.finish(passed, failed)


if __name__ == "__main__":
    if sys.argv[1:].count("--") != 2 or not sys.argv[1].isdigit():
        raise SystemExit(__doc__)
    sys.exit(main(sys.argv[1:]))
