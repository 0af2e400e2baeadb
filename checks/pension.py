#!/usr/bin/env python3
"""The reserves of a disability pension, computed apart from the engine.

Prints what the program `pension` has to write, and on standard error how far the reserves are from
exact fractions, and the least premiums in whole Rappen at which the reserve at issue is not above
nought.
"""
import sys
from fractions import Fraction

from rules import MILLION, disability, francs, reserves

YEARS = 10
FACTORS = [966_184] * YEARS
PENSION = 240_000_000
DEATH = 500_000_000
SURVIVAL = 100_000_000
STATES = ("active", "disabled", "dead")


def year(t):
    """Rates that change evenly from year to year."""
    disabled, dead, recovered = 3_400 + 450 * t, 1_500 + 290 * t, 50_000 - 2_500 * t
    return disability(disabled, dead, recovered, dead + 8_000)


SHARES = [year(t) for t in range(YEARS)]


def annuity():
    return (
        lambda i, t: PENSION if i == 1 and t < YEARS else 0,
        lambda i, t: i == 0 and t < YEARS,
        lambda i, j, t: 0,
    )


def with_capital():
    """The pension, a capital at death, and another for whoever is alive at the end."""
    benefit, due, _ = annuity()
    return (
        lambda i, t: SURVIVAL if i < 2 and t == YEARS else benefit(i, t),
        due,
        lambda i, j, t: DEATH if i < 2 and j == 2 else 0,
    )


def exact_mean(i, t, on_move, later):
    """The mean of what follows a state, in fractions."""
    row = enumerate(SHARES[t][i])
    return sum(Fraction(share, MILLION) * (on_move(i, j, t) + later[j]) for j, share in row)


def exact(plan, premium):
    """The same recursion in fractions, without rounding."""
    benefit, due, on_move = plan
    rows = [[Fraction(benefit(i, YEARS)) for i in range(3)]]
    for t in reversed(range(YEARS)):
        v, later = Fraction(FACTORS[t], MILLION), rows[0]
        row = [
            benefit(i, t) - (premium if due(i, t) else 0) + v * exact_mean(i, t, on_move, later)
            for i in range(3)
        ]
        rows.insert(0, row)
    return rows


def least_rappen(plan):
    low, high = 0, 10**8
    while low < high:
        mid = (low + high) // 2
        if reserves(FACTORS, SHARES, *plan, 100 * mid)[0][0] <= 0:
            high = mid
        else:
            low = mid + 1
    return low


def show(title, plan, premium):
    rows = reserves(FACTORS, SHARES, *plan, premium)
    print(title)
    print(f"yearly premium of {francs(premium)} francs while active")
    print()
    print("year" + "".join(f"{name:>12}" for name in STATES))
    for t, row in enumerate(rows):
        print(f"{t:>4}" + "".join(f"{francs(v):>12}" for v in row))
    worst = max(abs(a - b) for r, s in zip(rows, exact(plan, premium)) for a, b in zip(r, s))
    least = francs(100 * least_rappen(plan))
    found = f"furthest from the exact value {float(worst):.2f} ticks"
    print(f"least premium {least}, {found}", file=sys.stderr)


def main():
    show("Disability pension of 24000 francs over 10 years", annuity(), 4_152_700)
    print()
    show("The pension with 50000 francs at death and 10000 at the end", with_capital(), 13_768_900)


main()
