#!/usr/bin/env python3
"""Values of the standard normal distribution function, for the program crates/normal_values.

Run it at the repository's root; it needs mpmath (https://mpmath.org, written with 1.3.0) and nothing of this repository:

    python3 tools/normal_values.py > crates/normal_values/stdin

Each line has four whole numbers: a standard uncertainty s and an offset x in steps, then the probability that a
normal error is at most x, in units of 10^-12, rounded down and rounded up. With z = x / s the probability is
1 - erfc(z / sqrt 2) / 2 for x above 0, the rest of one for x below 0, and one half at 0. It is computed from the tail
erfc(z / sqrt 2) / 2 with 60 digits, which keep its relative precision, and the script makes sure that no whole number
of units is so near that rounding on the way could matter. Only at 0 is the value such a number itself.
"""
from mpmath import mp, mpf, erfc, sqrt, floor

mp.dps = 60
UNITS = 10**12
FARTHEST = 2_000_000
SPREADS = [1, 2, 3, 7, 10, 97, 200, 900, 999, 12_345, 99_999, 100_000]


def offsets(s):
    """Offsets above 0: at both sides of each joint of the table, between the joints, past its end, and the farthest."""
    found = set()
    for k in range(41):
        joint = k * s // 10
        found |= {joint, joint + 1}
        if k % 2 == 0:
            found |= {joint - 1, (2 * k + 1) * s // 20}
    found |= {4 * s - 1, 4 * s, 4 * s + 1, 5 * s, 7 * s + 3, 20 * s, FARTHEST - 1, FARTHEST}
    return sorted(x for x in found if 0 < x <= FARTHEST)


def tail(s, x):
    """The probability of an error above x, for x above 0, in units, rounded down; it is never a whole number of them."""
    exact = erfc(mpf(x) / s / sqrt(mpf(2))) / 2 * UNITS
    down = int(floor(exact))
    doubt = exact * mpf(10) ** -40
    assert down + doubt < exact < down + 1 - doubt
    return down


for s in SPREADS:
    print(s, 0, UNITS // 2, UNITS // 2)
    for x in offsets(s):
        down = tail(s, x)
        print(s, x, UNITS - down - 1, UNITS - down)
        print(s, -x, down, down + 1)
