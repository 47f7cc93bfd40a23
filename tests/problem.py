"""A problem in bytes, field by field (document 01, "The problem in bytes"): the one place where tests and bench write one."""


def number(n):
    return n.to_bytes(2, "big")


def field(tag, *parts):
    body = b"".join(parts)
    return bytes([tag]) + number(len(body)) + body


def head(atoms=2, variables=2, limit=100):
    return field(0x01, bytes([atoms, variables]), limit.to_bytes(4, "big"))


def unit():
    return field(0x10)


def atom(a):
    return field(0x11, bytes([a]))


def abstraction(a, node):
    return field(0x12, bytes([a]), number(node))


def pair(left, right):
    return field(0x13, number(left), number(right))


def application(symbol, node):
    return field(0x14, number(symbol), number(node))


def suspension(variable, *swaps):
    return field(0x15, bytes([variable]), *(bytes(swap) for swap in swaps))


def equation(left, right):
    return field(0x20, number(left), number(right))


def freshness(a, node):
    return field(0x21, bytes([a]), number(node))


def assumption(a, variable):
    return field(0x22, bytes([a, variable]))


def protected(variable):
    return field(0x30, bytes([variable]))


def stream_of(problems):
    """Each problem after its length."""
    return b"".join(len(one).to_bytes(4, "big") + one for one in problems)


class Problem:
    """A problem that grows; its nodes are numbered as they are made."""

    def __init__(self, atoms, variables, limit=100):
        self.nodes = 0
        self.bytes = head(atoms, variables, limit)

    def node(self, written):
        self.bytes += written
        self.nodes += 1
        return self.nodes - 1

    def unit(self):
        return self.node(unit())

    def atom(self, a):
        return self.node(atom(a))

    def abstraction(self, a, node):
        return self.node(abstraction(a, node))

    def pair(self, left, right):
        return self.node(pair(left, right))

    def application(self, symbol, node):
        return self.node(application(symbol, node))

    def suspension(self, variable, *swaps):
        return self.node(suspension(variable, *swaps))

    def nested(self, depth):
        """Pairs of a node with itself: against itself it takes a step and then twice what its part takes, a unit one: 2^(depth+1) - 1 steps."""
        node = self.unit()
        for _ in range(depth):
            node = self.pair(node, node)
        return node

    def equation(self, left, right):
        self.bytes += equation(left, right)

    def freshness(self, a, node):
        self.bytes += freshness(a, node)

    def assumption(self, a, variable):
        self.bytes += assumption(a, variable)

    def protected(self, variable):
        self.bytes += protected(variable)


class Case(Problem):
    """A problem of known answer, as published.py, edges.py and long.py print them."""

    def __init__(self, name, atoms, variables, limit=100):
        super().__init__(atoms, variables, limit)
        self.name = name

    def expect(self, *lines, judge):
        numbers = {"holds": "0 0", "does not hold": "14 0"}.get(judge, judge)
        expected = "".join(line + "|" for line in lines)
        print("\t".join([self.name, self.bytes.hex(), expected, numbers]))
