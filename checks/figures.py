#!/usr/bin/env python3
"""Figures for comparison, computed apart from the engine: premiums, reserves, spans, courses and a
closing, all in ticks, and sheets at their bounds.

Prints what the program `figures` has to write. Each span is computed a second time, from every
single path, and what differs, or is not what was worked by hand, ends the program with an error.
"""
from rules import LIMIT, MILLION, Refusal, endowment, least_premium, lives, nearest, refused
from rules import Contract as Kept
from rules import reserves, spans
from sheets import Text, TextRefusal, read_sheet, write_sheet


def annuity(amount, state, first, end, paying):
    return (
        lambda i, t: amount if i == state and first <= t < end else 0,
        lambda i, t: i == 0 and t < paying,
        lambda i, j, t: 0,
    )


def path_values(factors, shares, plan, premium, i, t):
    """What every path from a state and a year comes to, discounted year by year."""
    benefit, due, on_move = plan
    if t == len(factors):
        return [benefit(i, t)]
    flow = benefit(i, t) - (premium if due(i, t) else 0)
    return [
        flow + nearest(factors[t] * (on_move(i, j, t) + later))
        for j, share in enumerate(shares[t][i])
        if share > 0
        for later in path_values(factors, shares, plan, premium, j, t + 1)
    ]


class Contract:
    def __init__(self, factors, shares, plan):
        self.factors, self.shares, self.plan = factors, shares, plan

    def reserves(self, premium):
        return reserves(self.factors, self.shares, *self.plan, premium)

    def at_issue(self, premium):
        return self.reserves(premium)[0][0]

    def spans_at_issue(self, premium):
        ends = spans(self.factors, self.shares, *self.plan, premium)[0]
        for i, end in enumerate(ends):
            values = path_values(self.factors, self.shares, self.plan, premium, i, 0)
            assert end == (min(values), max(values)), (i, end)
            assert end[0] <= self.reserves(premium)[0][i] <= end[1], (i, end)
        return ends

    def least_premium(self):
        premium = least_premium(self.at_issue, 0)
        if premium is None:
            assert self.at_issue(LIMIT) > 0
        else:
            assert self.at_issue(premium) <= 0 and (premium == 0 or self.at_issue(premium - 1) > 0)
        return premium


def show_premium(contract):
    premium = contract.least_premium()
    if premium is None:
        print(refused(20, 0, 0))
        return None
    print(f"least premium with V(0,0) not above 0: {premium}")
    for near in (premium - 1, premium):
        print(f"V(0,0) at a premium of {near}: {contract.at_issue(near)}")
    return premium


def show_spans(contract, premium):
    print("state     reserve       least    greatest")
    for i, (least, greatest) in enumerate(contract.spans_at_issue(premium)):
        print(f"{i:>5}{contract.reserves(premium)[0][i]:>12}{least:>12}{greatest:>12}")


def show_course(contract, premium, year):
    rows = contract.reserves(premium)
    print("year" + "".join(f"{f'state {i}':>12}" for i in range(len(rows[0]))))
    for t in range(year, len(rows)):
        print(f"{t:>4}" + "".join(f"{value:>12}" for value in rows[t]))


def show_endowment():
    factors, shares = [900_000] * 2, lives([100_000, 200_000])
    print("Endowment of 1000000 ticks over 2 years, premium due in both")
    contract = Contract(factors, shares, endowment(1_000_000, 2, 2))
    premium = show_premium(contract)
    reserves_near = (contract.at_issue(452_486), contract.at_issue(452_487))
    worked = (premium, reserves_near, contract.spans_at_issue(452_487)[0])
    assert worked == (452_487, (1, -1), (-49_725, 447_513)), worked
    print()
    print("Its reserves and spans in year 0")
    show_spans(contract, premium)
    print()
    print("Its course from year 0")
    show_course(contract, premium, 0)
    print()
    print("The same endowment, premium never due")
    show_premium(Contract(factors, shares, endowment(1_000_000, 2, 0)))


def show_lives():
    deaths = [1_000 + 5_000 * t for t in range(120)]
    print("Life table over 120 years, in year t of which 1000 + 5000 t of a million die")
    print("year       dying      factor")
    for t in (119, 120):
        dying, factor = (deaths[t], 980_392) if t < len(deaths) else (0, MILLION)
        print(f"{t:>4}{dying:>12}{factor:>12}")


def show_pension():
    year = [[900_000, 70_000, 30_000], [200_000, 750_000, 50_000], [0, 0, MILLION]]
    contract = Contract([970_000] * 3, [year] * 3, annuity(120_000_000, 1, 0, 3, 3))
    print("Disability pension of 120000000 ticks over 3 years, premium due while active")
    premium = show_premium(contract)
    print()
    print("Its reserves and spans in year 0")
    show_spans(contract, premium)
    print()
    print("Its course from year 1")
    show_course(contract, premium, 1)
    print()
    print("The same course into a column one entry short")
    held = list(range(1, 3 * len(contract.reserves(premium)[1:])))
    print(refused(22, 1, 0))
    print("the column still holds " + " ".join(map(str, held)))


def answer(call):
    """What a call answers, or what it is refused with."""
    try:
        return call()
    except (Refusal, TextRefusal) as refusal:
        return str(refusal)


def show_sheets():
    print("The sheet of 8 states and 120 years in which everybody stays")
    staying = [[MILLION if i == j else 0 for j in range(8)] for i in range(8)]
    sheet = read_sheet(Text(write_sheet([MILLION] * 120, [staying] * 120).encode()))
    print(f"read, with m = {sheet.states} and n = {sheet.years}")
    print()
    print("A sheet that begins B;9;1")
    print(answer(lambda: read_sheet(Text(b"B;9;1\n"))))


def close_first(rate):
    contract = Kept([900_000] * 2, lives([100_000, 200_000]), endowment(1_000_000, 2, 2), 0, 0)
    interest, risk = contract.close(0, rate)
    contract.balance(contract.reserve())
    return f"closed with number {contract.number}, result on interest {interest}, on risk {risk}"


def show_closings():
    print("The endowment over 2 years, issued at its least premium, and year 0 closed in state 0")
    for rate in (500_000, 500_001):
        print(f"at a rate of {rate}: {answer(lambda: close_first(rate))}")


def main():
    show_endowment()
    print()
    show_lives()
    print()
    show_pension()
    print()
    show_sheets()
    print()
    show_closings()


main()
