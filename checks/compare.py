#!/usr/bin/env python3
"""Whether the programs print what is computed apart from them.

Compares what is stored beside each program, and what those programs print that are named as
arguments, which are built.
"""
import argparse
import random
import re
import subprocess
import sys
from collections import Counter
from pathlib import Path

import engine
import inputs
import sheet_reserves

CHECKS = Path(__file__).resolve().parent
CRATES = CHECKS.parent / "crates"
PROGRAMS = ["page", "pension", "figures", "contracts", "sheet_reserves", "engine"]
RANDOM_INPUTS = 800
RANDOM_SHEETS = 60
# Out of reach of a sheet and commands: 6, 14, 15 and 21.
NUMBERS = [1, 2, 3, 4, 5, 7, 8, 13, 16, 17, 18, 19, 20]


def stored_input(name):
    path = CRATES / name / "stdin"
    return path.read_bytes() if path.exists() else b""


def computed(name):
    script = [sys.executable, CHECKS / f"{name}.py"]
    run = subprocess.run(script, input=stored_input(name), capture_output=True)
    if run.returncode:
        sys.stderr.buffer.write(run.stderr)
    return run.stdout if run.returncode == 0 else None


def printed(name, data):
    """What the program prints, what it tells as an error, and its exit status."""
    run = subprocess.run([CRATES / name / "out" / name], input=data, capture_output=True)
    return run.stdout, run.stderr, run.returncode


def first_difference(expected, got):
    """The first line in which two texts differ."""
    pairs = enumerate(zip(expected.split(b"\n") + [None], got.split(b"\n") + [None]), 1)
    number, (left, right) = next(pair for pair in pairs if pair[1][0] != pair[1][1])
    return f"line {number} is {right!r}, computed {left!r}"


def stored_difference(name, built):
    """Where what is stored, or printed by the built program, differs from what is computed."""
    expected = computed(name)
    if expected is None:
        return "nothing is computed"
    texts = {"stored": (CRATES / name / "stdout").read_bytes()}
    if name in built:
        texts["printed"] = printed(name, stored_input(name))[0]
    if name == "sheet_reserves" and sheet_reserves.stored_sheet() != stored_input(name):
        return "the stored sheet is not that of the published shares"
    for kind, text in texts.items():
        if text != expected:
            return f"{kind}, {first_difference(expected, text)}"
    return None


def tell(name, difference, same="the same"):
    print(f"{name}: {same if difference is None else difference}", flush=True)
    return difference is None


def input_difference(name, answer, data):
    expected, got = answer(data), printed(name, data)
    return None if got == expected else f"the input\n{data!r}\ncomputed\n{expected!r}\ngot\n{got!r}"


def compare_inputs(name, answer, data, tally):
    """Compares answers to inputs up to the first difference, and tells it, or else the tally."""
    differences = (input_difference(name, answer, each) for each in data)
    difference = next((each for each in differences if each is not None), None)
    return tell(f"{name}, {len(data)} inputs", difference, f"the same; {tally}")


def engine_answer(data):
    return engine.answer(data), b"", 0


def refusals(answers, pattern):
    """How often each number refused, and whether all came up that a program can tell."""
    counts = Counter(int(number) for text in answers for number in re.findall(pattern, text))
    return ", ".join(f"{number}: {counts[number]}" for number in sorted(counts)), counts


def compare_engine(seed):
    source = random.Random(seed)
    data = inputs.edge_inputs() + [inputs.random_input(source) for _ in range(RANDOM_INPUTS)]
    told, counts = refusals((engine.answer(each) for each in data), rb"refused;(\d+)")
    same = compare_inputs("engine", engine_answer, data, f"refused by {told}")
    missing = [number for number in NUMBERS if not counts[number]]
    if missing:
        print(f"engine: no input is refused by {missing}")
    return same and not missing


def compare_sheets(seed):
    source = random.Random(seed)
    data = inputs.edge_sheets() + list(inputs.random_sheets(source, RANDOM_SHEETS))
    data += inputs.long_sheets()
    errors = (sheet_reserves.answer(each)[1] for each in data)
    told, _ = refusals(errors, rb"refused with (\d+)")
    return compare_inputs("sheet_reserves", sheet_reserves.answer, data, f"refused by {told}")


def main():
    arguments = argparse.ArgumentParser(description=__doc__)
    arguments.add_argument("--seed", type=int, default=1, help="the seed of the random inputs")
    arguments.add_argument("built", nargs="*", help="the programs that are built")
    given = arguments.parse_args()
    fits = [tell(name, stored_difference(name, given.built)) for name in PROGRAMS]
    on_inputs = {"sheet_reserves": compare_sheets, "engine": compare_engine}
    fits += [compare(given.seed) for name, compare in on_inputs.items() if name in given.built]
    return 0 if all(fits) else 1


if __name__ == "__main__":
    sys.exit(main())
