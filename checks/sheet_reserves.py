#!/usr/bin/env python3
"""The reserves of an endowment on a sheet, computed apart from the engine.

Prints what the program `sheet_reserves` has to write for the sheet that is stored with it; with
`--sheet`, that sheet.
"""
import csv
import sys
from pathlib import Path

from rules import endowment, francs, least_premium, lives, reserves
from sheets import Text, TextRefusal, read_sheet, write_sheet

TABLE = Path(__file__).parent / "data" / "swiss-insured-men-1995.csv"
AGES = range(55, 65)
# Two and a half per cent for five years, and three after that.
FACTORS = [975_610] * 5 + [970_874] * 5
SUM = 10_000_000


def stored_sheet():
    with open(TABLE, newline="") as f:
        deaths = {int(row["age"]): int(row["death_share_per_million"]) for row in csv.DictReader(f)}
    return write_sheet(FACTORS, lives([deaths[age] for age in AGES])).encode()


def page(factors, shares):
    years = len(factors)
    plan = endowment(SUM, years, years)

    def at(premium):
        return reserves(factors, shares, *plan, premium)

    premium = least_premium(lambda p: at(p)[0][0], 0)
    text = francs(premium)
    yield f"Endowment of 1000 francs over {years} years, yearly premium of {text} francs"
    yield ""
    yield "year" + "".join(f"{'state ':>11}{i}" for i in range(len(shares[0])))
    for t, row in enumerate(at(premium)):
        yield f"{t:>4}" + "".join(f"{francs(v):>12}" for v in row)


def answer(data):
    """What is printed for an input, what is told as an error, and the exit status."""
    text = Text(data)
    try:
        text.check_size()
        sheet = read_sheet(text)
    except TextRefusal as refusal:
        return b"", f"Error: {refusal}\n".encode(), 1
    lines = page(sheet.factors, sheet.shares)
    return "".join(f"{line}\n" for line in lines).encode(), b"", 0


if __name__ == "__main__":
    printed = stored_sheet() if sys.argv[1:] == ["--sheet"] else answer(stored_sheet())[0]
    sys.stdout.buffer.write(printed)
