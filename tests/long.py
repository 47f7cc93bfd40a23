#!/usr/bin/env python3
"""Prints long/long.tsv: a run whose count of steps needs four bytes. No other run is nearly as long, so it is apart from the cases that are run often."""

from problem import Case

# 2^24 - 1 steps for equation 0, and one for equation 1.
c = Case("16,777,216 steps, limit 16,777,216", 0, 0, 2 ** 24)
node = c.nested(23)
c.equation(node, node)
c.equation(0, 0)
c.expect("accepted 16777216", judge="holds")
