#!/usr/bin/env python3
"""Prints reader.tsv: bad input, all of it (document 01, "The problem in bytes" and "Numbers given back").

Each case is written with the number that document 01 gives it. The place is where the field at fault starts, which is the
length of what stands before it: nothing here reads a problem. A few cases at the borders are accepted, so that a reader which
refuses too much is seen too. A line has four columns: name, input in hexadecimal, the solver's lines with | for each newline,
the judge's number and place. The reader's refusals are the same for both.
"""

from problem import field, head, number

HEAD = head()
UNIT = field(0x10)
# A good field of each kind, behind a head with two atoms and two variables and one node.
GOOD = {
    "unit": field(0x10),
    "atom": field(0x11, b"\x01"),
    "abstraction": field(0x12, b"\x00" + number(0)),
    "pair": field(0x13, number(0) + number(0)),
    "application": field(0x14, b"\xff\xff" + number(0)),
    "suspension": field(0x15, b"\x01\x00\x01"),
    "equation": field(0x20, number(0) + number(0)),
    "freshness": field(0x21, b"\x00" + number(0)),
    "assumption": field(0x22, b"\x00\x01"),
    "protected": field(0x30, b"\x01"),
}
TAG = {name: good[0] for name, good in GOOD.items()}
LENGTHS = {
    "unit": {0}, "atom": {1}, "abstraction": {3}, "pair": {4}, "application": {4}, "suspension": set(range(1, 66, 2)),
    "equation": {4}, "freshness": {3}, "assumption": {2}, "protected": {1},
}
cases = []


def refused(name, no, place, data):
    cases.append((name, data, "refused %d %d|" % (no, place), "%d %d" % (no, place)))


def accepted(name, data, lines, judge="0 0"):
    cases.append((name, data, lines, judge))


def at_fault(name, no, before, bad, after=b""):
    """The field `bad` is at fault; before it stands nothing that is."""
    refused(name, no, len(before), before + bad + after)


# 1 before all, and the longest input that is read.
refused("65,536 bytes of nothing", 1, 0, bytes(65536))
refused("65,536 bytes that start with a good head", 1, 0, HEAD + field(0x30, b"\x00") * 16381 + field(0x10))
assert len(cases[-1][1]) == 65536
accepted("65,535 bytes", HEAD + field(0x30, b"\x00") * 16379 + field(0x22, b"\x00\x01") * 2, "accepted 0|fresh 0 1|")
assert len(cases[-1][1]) == 65535

# 2: empty, or the first field no good head.
refused("empty", 2, 0, b"")
for name, good in GOOD.items():
    refused("first field %s" % name, 2, 0, good)
refused("first field of an unknown tag", 2, 0, field(0x00))
for n in (0, 1, 5, 7, 255, 256):
    refused("head of length %d" % n, 2, 0, field(0x01, bytes(n)))
refused("33 atoms", 2, 0, head(atoms=33))
refused("255 atoms", 2, 0, head(atoms=255))
refused("65 variables", 2, 0, head(variables=65))
refused("255 variables", 2, 0, head(variables=255))
accepted("32 atoms, 64 variables and the largest limit", head(32, 64, 0xFFFFFFFF), "accepted 0|")
accepted("no atoms, no variables, limit 0", head(0, 0, 0), "accepted 0|")

# 3: a field cut short, at each of its bytes; the head too, where 3 comes before 2.
for n in range(1, len(HEAD)):
    refused("head cut after %d" % n, 3, 0, HEAD[:n])
for n in range(1, 3):
    refused("a lone unit cut after %d" % n, 3, 0, UNIT[:n])
for name, good in GOOD.items():
    for n in range(1, len(good)):
        at_fault("%s cut after %d" % (name, n), 3, HEAD + UNIT, good[:n])
longest = field(0x15, b"\x00" + b"\x00\x01" * 32)
for n in (1, 2, 3, 4, 66, 67):
    at_fault("longest suspension cut after %d" % n, 3, HEAD, longest[:n])

# 4: unknown tags and a second head.
for tag in sorted(set(range(256)) - set(TAG.values())):
    at_fault("tag %02x" % tag, 4, HEAD + UNIT, field(tag, b"\x00\x00\x00\x00" if tag % 2 else b""))
at_fault("second head", 4, HEAD, HEAD)
at_fault("second head of a wrong length", 4, HEAD + UNIT, field(0x01))

# 5: each wrong length.
for name, good in GOOD.items():
    for n in sorted(set(range(70)) | {256}):
        if n not in LENGTHS[name]:
            at_fault("%s of length %d" % (name, n), 5, HEAD + UNIT, field(TAG[name], bytes(n)))
accepted("32 swaps", HEAD + longest, "accepted 0|")
at_fault("33 swaps", 5, HEAD, field(0x15, b"\x00" + b"\x00\x01" * 33))

# 6: the 513th node, the 65th equation, the 65th freshness field.
accepted("512 nodes", HEAD + UNIT * 512, "accepted 0|")
for name in ("unit", "atom", "abstraction", "pair", "application", "suspension"):
    at_fault("513th node, %s" % name, 6, HEAD + UNIT * 512, GOOD[name])
accepted("64 equations", HEAD + UNIT + GOOD["equation"] * 64, "accepted 64|")
at_fault("65th equation", 6, HEAD + UNIT + GOOD["equation"] * 64, GOOD["equation"])
accepted("64 freshness fields", HEAD + UNIT + GOOD["freshness"] * 64, "accepted 0|")
at_fault("65th freshness field", 6, HEAD + UNIT + GOOD["freshness"] * 64, GOOD["freshness"])
accepted("65 assumptions and 65 protected variables", HEAD + (GOOD["assumption"] + GOOD["protected"]) * 65, "accepted 0|fresh 0 1|")

# 7: each kind of name out of range; before the bad field stands one node, number 0, with two atoms and two variables.
BAD = {
    "atom: atom 2": field(0x11, b"\x02"),
    "atom: atom 255": field(0x11, b"\xff"),
    "abstraction: atom 2": field(0x12, b"\x02" + number(0)),
    "abstraction: itself": field(0x12, b"\x00" + number(1)),
    "abstraction: a later node": field(0x12, b"\x00" + number(2)),
    "abstraction: node 256": field(0x12, b"\x00" + number(256)),
    "pair: left itself": field(0x13, number(1) + number(0)),
    "pair: right itself": field(0x13, number(0) + number(1)),
    "pair: left a later node": field(0x13, number(2) + number(0)),
    "pair: right a later node": field(0x13, number(0) + number(2)),
    "pair: right node 65535": field(0x13, number(0) + number(65535)),
    "application: itself": field(0x14, number(0) + number(1)),
    "application: a later node": field(0x14, number(0) + number(2)),
    "suspension: variable 2": field(0x15, b"\x02"),
    "suspension: variable 255": field(0x15, b"\xff"),
    "suspension: left atom 2": field(0x15, b"\x00\x02\x00"),
    "suspension: right atom 2": field(0x15, b"\x00\x00\x02"),
    "suspension: the last of 32 swaps": field(0x15, b"\x00" + b"\x00\x01" * 31 + b"\x00\x02"),
    "equation: left node 1": field(0x20, number(1) + number(0)),
    "equation: right node 1": field(0x20, number(0) + number(1)),
    "freshness: atom 2": field(0x21, b"\x02" + number(0)),
    "freshness: node 1": field(0x21, b"\x00" + number(1)),
    "assumption: atom 2": field(0x22, b"\x02\x00"),
    "assumption: variable 2": field(0x22, b"\x00\x02"),
    "protected: variable 2": field(0x30, b"\x02"),
}
for name, bad in BAD.items():
    at_fault(name, 7, HEAD + UNIT, bad)
    at_fault(name + ", and the node comes after it", 7, HEAD + UNIT, bad, UNIT * 3)
at_fault("no atoms: atom 0", 7, head(0, 2), field(0x11, b"\x00"))
at_fault("no variables: variable 0", 7, head(2, 0), field(0x15, b"\x00"))
at_fault("no nodes: node 0", 7, HEAD, field(0x14, number(0) + number(0)))
at_fault("the first node names itself", 7, HEAD, field(0x12, b"\x00" + number(0)))
accepted("the last atom, variable and node", head(32, 64) + UNIT * 511 + field(0x15, b"\x3f\x1f\x00") + field(0x21, b"\x1f" + number(510)), "accepted 0|")

# Two faults in one field: the first of 3, 2, 4, 5, 6, 7.
refused("cut, and no head", 3, 0, field(0x10, b"\x00\x00")[:-1])
refused("cut, and 33 atoms", 3, 0, head(atoms=33)[:-1])
refused("too long, and no head", 1, 0, field(0x10) + bytes(65533))
refused("too long, and a field at fault before", 1, 0, HEAD + field(0x12, b"\x00" + number(0)) + field(0x30, b"\x00") * 16384)
at_fault("cut, of an unknown tag", 3, HEAD, b"\x99\x00\x05\x00")
at_fault("cut, a second head", 3, HEAD, HEAD[:-1])
at_fault("cut, of a wrong length", 3, HEAD + UNIT, b"\x11\x00\x02\x00")
at_fault("cut, a 513th node", 3, HEAD + UNIT * 512, b"\x11\x00\x01")
at_fault("cut, naming what is not there", 3, HEAD + UNIT, b"\x13\x00\x04\xff\xff\x00")
at_fault("unknown tag, of a length that fits none", 4, HEAD, field(0x23, bytes(99)))
at_fault("unknown tag behind 512 nodes", 4, HEAD + UNIT * 512, field(0x16))
at_fault("wrong length, a 513th node", 5, HEAD + UNIT * 512, field(0x10, b"\x00"))
at_fault("wrong length, a 65th equation", 5, HEAD + UNIT + GOOD["equation"] * 64, field(0x20, bytes(3)))
at_fault("wrong length, a 65th freshness field", 5, HEAD + UNIT + GOOD["freshness"] * 64, field(0x21, bytes(4)))
at_fault("wrong length, naming what is not there", 5, HEAD, field(0x13, b"\xff" * 5))
at_fault("513th node, naming what is not there", 6, HEAD + UNIT * 512, field(0x13, b"\xff" * 4))
at_fault("65th equation, naming what is not there", 6, HEAD + UNIT + GOOD["equation"] * 64, field(0x20, b"\xff" * 4))
at_fault("65th freshness field, naming what is not there", 6, HEAD + UNIT + GOOD["freshness"] * 64, field(0x21, b"\xff" * 3))

# Two faults in two fields: the first field decides.
FAULTS = {
    4: field(0x23),
    5: field(0x10, b"\x00"),
    7: field(0x11, b"\xff"),
}
for first, one in FAULTS.items():
    for second, other in FAULTS.items():
        if first != second:
            at_fault("%d and then %d" % (first, second), first, HEAD + UNIT, one, other)
    at_fault("%d and then 3" % first, first, HEAD + UNIT, one, b"\x10\x00")
at_fault("6 and then 4", 6, HEAD + UNIT * 512, UNIT, FAULTS[4])
at_fault("7 and then 6", 7, HEAD + UNIT * 512, field(0x30, b"\xff"), UNIT)
refused("2 and then 4", 2, 0, head(atoms=33) + FAULTS[4])

for name, data, lines, judge in cases:
    print("%s\t%s\t%s\t%s" % (name, data.hex(), lines, judge))
