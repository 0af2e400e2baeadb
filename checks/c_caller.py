#!/usr/bin/env python3
"""The case on which `c_caller.c` calls every export, computed apart from the engine.

Prints what `c_case.h` holds: the columns that are handed in, and the figures that are to come. The
basis has three states and two years, one plan is a year longer than it and one a year shorter, and
all numbers differ, so that two that change places show.
"""
from rules import LIMIT, MILLION, least_premium, reserves, spans

FACTORS = [970_000, 940_000]
SHARES = [
    [[811_000, 123_000, 66_000], [207_000, 702_000, 91_000], [31_000, 45_000, 924_000]],
    [[753_000, 158_000, 89_000], [264_000, 617_000, 119_000], [52_000, 77_000, 871_000]],
]
PREMIUMS = [1_009, 31_415, 271_828]
BOUNDS = [100_000, 20_001, 10_000_000, -4 * LIMIT]
PLACES = 8
LONG, SHORT = 3, 1
SHEET_FACTORS = [991_000, 982_000, 973_000]
SHEET_SHARES = [
    [[640_000, 360_000], [150_000, 850_000]],
    [[1_000_000, 0], [270_000, 730_000]],
    [[550_000, 450_000], [0, 1_000_000]],
]
SHEET_REST = "Q;1;2;3;4\n"


def benefit(i, t):
    return 20_000 + 3_100 * i + 710 * t


def due(i, t):
    return (i + 2 * t) % 3 < 2


def on_move(i, j, t):
    return 100_000 + 17_000 * i + 5_300 * j + 1_900 * t


def ends_after(years):
    """The plan that pays nothing after so many years."""
    return (
        lambda i, t: benefit(i, t) if t <= years else 0,
        lambda i, t: due(i, t) and t <= years,
        lambda i, j, t: on_move(i, j, t) if t < years else 0,
    )


def flat(rows):
    """The numbers of rows of rows, one after another."""
    return [number for row in rows for number in (flat(row) if isinstance(row, list) else [row])]


def column(name, numbers):
    """A column as C writes it, in lines of at most a hundred characters."""
    lines, line = [], "   "
    for number in numbers:
        word = f" {number},"
        if len(line) + len(word) > 100:
            lines.append(line)
            line = "   "
        line += word
    lines.append(line)
    return "\n".join([f"static const int64_t {name}[{len(numbers)}] = {{", *lines, "};"])


def plan_columns(name, years):
    """The columns of the plan, with places for eight states."""
    states, moves = range(PLACES), range(years)
    return [
        f"enum {{ {name.upper()}_YEARS = {years} }};",
        column(f"{name}_benefits", [benefit(i, t) for t in range(years + 1) for i in states]),
        column(f"{name}_marks", [int(due(i, t)) for t in range(years + 1) for i in states]),
        column(f"{name}_moves", [on_move(i, j, t) for t in moves for i in states for j in states]),
    ]


def valued(name, plan, i, t):
    """What is to come in a state and a year; of the least premiums -1 where none will do."""

    def reserve(premium):
        return reserves(FACTORS, SHARES, *plan, premium)[t][i]

    ends = [spans(FACTORS, SHARES, *plan, premium)[t][i] for premium in PREMIUMS]
    least = [least_premium(reserve, bound) for bound in BOUNDS]
    return [
        column(f"{name}_reserves", [reserve(premium) for premium in PREMIUMS]),
        column(f"{name}_least", [low for low, _ in ends]),
        column(f"{name}_greatest", [high for _, high in ends]),
        column(f"{name}_premiums", [-1 if premium is None else premium for premium in least]),
    ]


def course(name, plan, premium, t):
    rows = reserves(FACTORS, SHARES, *plan, premium)[t:]
    return column(f"{name}_course", flat(rows))


def sheet():
    """The text of the basis of the sheet."""
    lines = [f"B;{len(SHEET_SHARES[0])};{len(SHEET_FACTORS)}"]
    for t, factor in enumerate(SHEET_FACTORS):
        lines.append(f"D;{t};{factor}")
        for i, row in enumerate(SHEET_SHARES[t]):
            lines += [f"T;{t};{i};{j};{share}" for j, share in enumerate(row) if share > 0]
    return "\n".join([*lines, "E", ""])


def sheet_case():
    text = sheet()
    written = [f'    "{line}\\n"' for line in (text + SHEET_REST).splitlines()]
    return [
        "static const char sheet[] =",
        "\n".join(written) + ";",
        f"enum {{ SHEET_STATES = {len(SHEET_SHARES[0])}, SHEET_YEARS = {len(SHEET_FACTORS)} }};",
        f"enum {{ SHEET_LINES = {text.count(chr(10))}, SHEET_BYTES = {len(text)} }};",
        column("sheet_factors", SHEET_FACTORS),
        column("sheet_shares", flat(SHEET_SHARES)),
    ]


def main():
    assert all(sum(row) == MILLION for year in SHARES + SHEET_SHARES for row in year)
    print("\n".join([
        "// The case on which the C caller calls every export: `c_caller.py` prints it.",
        "#include <stdint.h>",
        "",
        f"enum {{ STATES = {len(SHARES[0])}, YEARS = {len(FACTORS)} }};",
        column("factors", FACTORS),
        column("shares", flat(SHARES)),
        column("premiums", PREMIUMS),
        column("bounds", BOUNDS),
        *plan_columns("long", LONG),
        *plan_columns("short", SHORT),
        *valued("long", ends_after(LONG), 2, 1),
        course("long", ends_after(LONG), PREMIUMS[2], 1),
        *valued("short", ends_after(SHORT), 1, 0),
        course("short", ends_after(SHORT), PREMIUMS[1], 0),
        *sheet_case(),
    ]))


if __name__ == "__main__":
    main()
