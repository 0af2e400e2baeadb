#!/usr/bin/env python3
"""The page of reserves, computed apart from the engine: by the rules in whole numbers, and from
commutation figures.

Prints the page by the rules, and on standard error how far the commutation figures are from it.
"""
import csv
import sys
from fractions import Fraction
from pathlib import Path

from rules import endowment, francs, lives, reserves

DATA = Path(__file__).parent / "data"
FACTOR = 975_610
AGES = range(20, 66, 5)
TERMS = range(5, 31, 5)


def reserve(deaths, age, total, term, paying, premium, year):
    """The reserve of a living man; the dead are paid nothing more."""
    rows = reserves(
        [FACTOR] * (len(deaths) - age),
        lives(deaths[age:]),
        *endowment(total, term, paying),
        premium,
    )
    return rows[year][0]


def column(name, key, kind):
    with open(DATA / name, newline="") as f:
        return [kind(row[key]) for row in csv.DictReader(f)]


def main():
    deaths = column("swiss-insured-men-1995.csv", "death_share_per_million", int)
    figures = "swiss-insured-men-1995-commutation-2.5-percent.csv"
    d, c, m = (column(figures, key, Fraction) for key in "DCM")

    print("Net single premium of an endowment of 1000 francs")
    print("Swiss insured men 1995, 2.5 per cent")
    print()
    print("age" + "".join(f"{f'{k} years':>10}" for k in TERMS))
    worst = {"C": 0, "M": 0}
    for x in AGES:
        row = [reserve(deaths, x, 10_000_000, k, 0, 0, 0) for k in TERMS]
        print(f"{x:>3}" + "".join(f"{francs(v):>10}" for v in row))
        for k, v in zip(TERMS, row):
            deaths_paid = {"C": sum(c[x : x + k]), "M": m[x] - m[x + k]}
            for key, paid in deaths_paid.items():
                outside = 1000 * (paid + d[x + k]) / d[x]
                worst[key] = max(worst[key], abs(outside - Fraction(v, 10_000)))
    print()
    print("Reserve of a man of 50, endowment of 50000 francs over 5 years")
    print("yearly premium of 9375.22 francs")
    print()
    print("year" + f"{'reserve':>12}")
    for t in range(6):
        print(f"{t:>4}{francs(reserve(deaths, 50, 500_000_000, 5, 5, 93_752_200, t)):>12}")

    yearly = 50_000 * (sum(c[50:55]) + d[55]) / sum(d[50:55])
    for key, most in worst.items():
        found = f"with payments at death from {key}: {float(most):.4f} francs"
        print(f"largest difference, {found}", file=sys.stderr)
    found = f"{float(yearly):.4f} francs"
    print(f"net yearly premium by the commutation figures: {found}", file=sys.stderr)


main()
