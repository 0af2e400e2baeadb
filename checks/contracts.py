#!/usr/bin/env python3
"""Contracts from their proposal to their end, computed apart from the engine.

Prints what the program `contracts` has to write. The books have to balance after every call.
"""
from rules import LIMIT, Contract, Refusal, disability, endowment, francs

YEARS = 5
FACTORS = [970_874] * YEARS
DEPOSIT = 5_000_000


def year(t):
    """Rates that change evenly from year to year."""
    disabled, dead, recovered = 9_000 + 1_000 * t, 4_000 + 500 * t, 30_000 - 4_000 * t
    return disability(disabled, dead, recovered, dead + 10_000)


SHARES = [year(t) for t in range(YEARS)]


def pension(amount, paying):
    return (
        lambda i, t: amount if i == 1 and t < YEARS else 0,
        lambda i, t: i == 0 and t < paying,
        lambda i, j, t: 0,
    )


def capital(amount):
    """An endowment, whose move from state 0 to 1 is that of the active to the disabled."""
    return endowment(amount, YEARS, YEARS)


PENSION = pension(240_000_000, YEARS)
NEVER_PAID_FOR = pension(240_000_000, 0)


def issued(plan, start, deposit, premium=None):
    return Contract(FACTORS, SHARES, plan, start, deposit, premium)


def answered(call):
    """What a call answers, or what it is refused with."""
    try:
        return call()
    except Refusal as refusal:
        return str(refusal)


def close(contract, end, rate):
    interest, risk = contract.close(end, rate)
    contract.balance(contract.reserve())
    results = f"result on interest {francs(interest)}, on risk {francs(risk)}"
    return f"closed with number {contract.number}, {results}"


def alter(contract, plan):
    result = contract.alter(plan)
    contract.balance(contract.reserve())
    terms = f"premium {francs(contract.premium)}, result {francs(result)}"
    return f"altered with number {contract.number}, {terms}"


def leave(contract):
    paid, result = contract.leave()
    contract.balance(0)
    return f"left, paid {francs(paid)}, result {francs(result)}"


def reserve(contract):
    return f"reserve {francs(contract.reserve())}"


def span(contract):
    least, greatest = contract.span()
    assert least <= contract.reserve() <= greatest
    return f"span from {francs(least)} to {francs(greatest)}"


def course(contract, length):
    return " ".join(["course", *map(francs, contract.course(length))])


def show_priced():
    print("A pension of 24000 francs, premium due while active")
    start = 0
    for state in (3, 1, 3, 0):
        if state < len(SHARES[0]):
            print(f"place in state {state}: done")
            start = state
        else:
            print(f"place in state {state}: {Refusal(14, 0, start)}")
    for deposit in (-100, LIMIT + 100, LIMIT, DEPOSIT):
        outcome = "done" if 0 <= deposit <= LIMIT else Refusal(15, 0, start)
        print(f"deposit {francs(deposit)}: {outcome}")
    contract = issued(PENSION, start, DEPOSIT)
    print(f"price: premium {francs(contract.premium)}")
    print(f"issue: reserve {francs(contract.reserve())}, result {francs(contract.opening)}")


def show_unpriced():
    print("The same to a disabled, premium never due")
    print(f"price: {answered(lambda: issued(NEVER_PAID_FOR, 1, 0))}")
    contract = issued(NEVER_PAID_FOR, 1, 0, premium=0)
    print(f"issue: reserve {francs(contract.reserve())}, result {francs(contract.opening)}")


def show_issued(contract):
    print(f"issued at a premium of {francs(contract.premium)}, result {francs(contract.opening)}")


def show_refused_cases():
    print("Cases that are not issued")
    for start, deposit in ((3, -100), (1, -100), (1, 0)):
        print(answered(lambda: issued(NEVER_PAID_FOR, start, deposit)))


def show_left_cases():
    print("Cases that are left")
    for closings in range(2):
        contract = issued(PENSION, 0, 0)
        show_issued(contract)
        for number in range(closings):
            print(f"{number + 1}. {close(contract, 1, 0)}")
        print(leave(contract))


def closing(end, rate):
    return f"close in state {end} at a rate of {rate}", lambda contract: close(contract, end, rate)


def alteration(amount, paying):
    return "alter the plan", lambda contract: alter(contract, pension(amount, paying))


def course_into(length):
    return f"course into a column of {length}", lambda contract: course(contract, length)


REQUESTS = [
    ("reserve", reserve),
    ("span", span),
    ("figure in the mean", lambda contract: f"figure {francs(contract.reserve())}"),
    course_into(18),
    course_into(17),
    closing(0, 25_000),
    closing(3, 500_001),
    closing(1, 500_001),
    closing(1, 40_000),
    alteration(480_000_000, 0),
    alteration(120_000_000, YEARS),
    ("reserve", reserve),
    closing(0, -15_000),
    alteration(360_000_000, YEARS),
    ("reserve", reserve),
    course_into(9),
]


def show_case():
    print(f"A case of {len(REQUESTS)} requests")
    for number, (words, _) in enumerate(REQUESTS, 1):
        print(f"{number}. {words}")
    print()
    print("Its answers, and the contract that stands then")
    contract = issued(PENSION, 0, DEPOSIT)
    show_issued(contract)
    for number, (_, call) in enumerate(REQUESTS, 1):
        outcome = answered(lambda: call(contract))
        if outcome == str(Refusal(22, contract.year, contract.state)):
            outcome += ", and the column still holds" + 17 * " 7.00"
        print(f"{number}. {outcome}")
    show_standing(contract)


def show_standing(contract):
    print(reserve(contract))
    print(span(contract))
    print(f"figure in the span: {span(contract)}")
    for length in (8, 9):
        print(answered(lambda: course(contract, length)))
    for amount, paying in ((480_000_000, 0), (300_000_000, YEARS)):
        print(f"alter: {answered(lambda: alter(contract, pension(amount, paying)))}")
    refused = [(8, 500_001), (2, 500_001), (2, -500_001)]
    show_closings(contract, refused)
    show_closings(contract, [(2, 500_000), (0, -500_000), (2, -500_000), (8, 500_001)])
    print(leave(contract))


def show_closings(contract, moves):
    for end, rate in moves:
        outcome = answered(lambda: close(contract, end, rate))
        print(f"close in state {end} at a rate of {rate}: {outcome}")


def show_last_number():
    print("A contract that is altered 9998 times, always to its own plan")
    contract = issued(PENSION, 0, 0)
    for _ in range(9_998):
        contract.alter(PENSION)
    show_closings(contract, [(0, 0), (8, 0), (0, 500_001), (0, 0)])
    for plan in (PENSION, pension(480_000_000, 0)):
        print(f"alter: {answered(lambda: alter(contract, plan))}")
    print(leave(contract))


def show_balance(contract, carried):
    left, right = contract.balance(carried)
    print(
        f"books in ticks: deposit {contract.deposit} + premiums {contract.premiums}"
        f" + interest earned {contract.interest} - benefits {contract.benefits} = {left},"
        f" results {contract.results} + reserve carried {carried} = {right}"
    )


def show_year(contract, end, rate):
    words = f"year {contract.year}, from state {contract.state} to {end} at a rate of {rate}"
    print(f"{words}: {close(contract, end, rate)}")


def show_other_capital(contract, amount):
    print(f"another capital of {francs(amount)}")
    print(alter(contract, capital(amount)))


def show_kept():
    who = "those who become disabled or are active at the end"
    print(f"A capital of 50000 francs to {who}, with its books")
    contract = issued(capital(500_000_000), 0, 10_000_000)
    print(f"issued at a premium of {francs(contract.premium)}")
    show_year(contract, 0, 25_000)
    show_other_capital(contract, 800_000_000)
    show_year(contract, 0, -10_000)
    show_balance(contract, contract.reserve())
    show_year(contract, 1, 30_000)
    show_other_capital(contract, 200_000_000)
    show_year(contract, 0, 500_000)
    show_year(contract, 0, -500_000)
    print(leave(contract))
    show_balance(contract, 0)


def main():
    print("Contracts on a disability basis over 5 years: state 0 is active, 1 disabled, 2 dead")
    cases = [show_refused_cases, show_left_cases, show_case]
    for show in [show_priced, show_unpriced, *cases, show_last_number, show_kept]:
        print()
        show()


main()
