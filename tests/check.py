#!/usr/bin/env python3
"""Compare a program with cases of known answer.

    check.py [--room N] PROGRAM-COMMAND... -- FILE.tsv...

Each line of a FILE.tsv is one case of four columns: name, input in hexadecimal,
the solver's lines with | for each newline, the judge's number and place. The file
`counts` beside it says how many there are. All cases are packed into one stream
(each input after its length in four bytes, high byte first), which the command gets
on standard input. For each case it has to print the solver's lines, then the
judge's line (`holds` or `refused NUMBER PLACE`), then an empty line, and nothing
else; and it has to end within LIMIT seconds (240). With --room N the command is one
that lends N bytes for an answer: a longer one is 13, with the length as place.

Its last line is `N passed, M failed`; it ends with 0 only if nothing failed. The first differences are printed.
"""

import sys

import cases
from problem import stream_of

MOST_SHOWN = 5


def show(case, expected, found):
    print("DIFFERENT: %s (%s)" % (case.name, case.place))
    print("  input    %s" % case.input.hex())
    for name, block in (("expected", expected), ("found", found)):
        print("  %s" % name)
        for line in block.split(b"\n"):
            print("    %s" % line.decode("utf-8", "replace"))


def differences(known, expected, blocks):
    """How many blocks are not as expected; the first ones are shown."""
    found = 0
    for case, wanted, block in zip(known, expected, blocks):
        if wanted != block:
            found += 1
            if found <= MOST_SHOWN:
                show(case, wanted, block)
    return found


def compare(command, names, room):
    known = cases.load(names)
    expected = ["\n".join((case.lines if room is None else case.lines_in(room)) + [case.judge_line]).encode() for case in known]
    ran = cases.Ran(command, stream_of(case.input for case in known), 2 * len(b"\n\n".join(expected)) + 65536)
    blocks, rest = cases.blocks_of(ran.output)
    faults = list(ran.faults)
    if len(blocks) != len(known):
        faults.append("it printed %d blocks for %d cases" % (len(blocks), len(known)))
    if rest:
        faults.append("it printed after the last block: %r" % rest[:200])
    if ran.status != 0:
        faults.append("it ended with %d" % ran.status)
    for fault in faults:
        print("%s: %s" % (" ".join(command), fault))
    different = differences(known, expected, blocks)
    return cases.finish(min(len(known), len(blocks)) - different, different + len(faults))


def main(arguments):
    room = None
    if arguments[:1] == ["--room"]:
        room, arguments = int(arguments[1]), arguments[2:]
    if "--" not in arguments:
        raise SystemExit(__doc__)
    middle = arguments.index("--")
    command, names = arguments[:middle], arguments[middle + 1:]
    if not command or not names:
        raise SystemExit(__doc__)
    try:
        return compare(command, names, room)
    except cases.Fault as fault:
        print(fault)
        return cases.finish(0, 1)


if __name__ == "__main__":
    sys.exit(main(sys.argv[1:]))
