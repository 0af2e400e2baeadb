#!/usr/bin/env python3
"""What the program `engine` has to print for an input, computed apart from it.

Reads an input from standard input and prints the lines that answer it.
"""
import sys

from rules import LIMIT, Contract, Refusal, endowment
from sheets import NUMBER, SIGNED, Text, TextRefusal, read_sheet


def told(number, line, offset):
    return f"refused;{number};{line};{offset}"


class Desk:
    """The contract that stands on a basis, if one does, and the commands that it is given."""

    def __init__(self, factors, shares):
        self.factors, self.shares, self.contract = factors, shares, None

    def terms(self, line, numbers):
        """The endowment of a line that is read, whose sum, term and paying years come first."""
        total, term, paying, *deposit = numbers
        amount = (0, LIMIT)
        ranges = [amount, (1, len(self.factors)), (0, term)] + [amount] * len(deposit)
        line.check_ranges(numbers, ranges)
        return endowment(total, term, paying)

    def standing(self, line):
        if self.contract is None:
            raise line.refusal(13)
        return self.contract

    def issue(self, line):
        numbers = line.numbers([NUMBER] * 4)
        plan = self.terms(line, numbers)
        if self.contract is not None:
            raise line.refusal(13)
        contract = self.contract = Contract(self.factors, self.shares, plan, 0, numbers[3])
        return f"issue;{contract.premium};{contract.reserve()};{contract.opening}"

    def close(self, line):
        end, rate = numbers = line.numbers([NUMBER, SIGNED])
        line.check_ranges(numbers, [(0, 7)])
        contract = self.standing(line)
        year = contract.year
        interest, risk = contract.close(end, rate)
        return f"close;{contract.number};{year};{interest};{risk};{contract.reserve()}"

    def alter(self, line):
        plan = self.terms(line, line.numbers([NUMBER] * 3))
        contract = self.standing(line)
        result = contract.alter(plan)
        return f"alter;{contract.number};{contract.premium};{contract.reserve()};{result}"

    def leave(self, line):
        line.numbers([])
        contract = self.standing(line)
        paid, result = contract.leave()
        contract.balance(0)
        self.contract = None
        return f"leave;{paid};{result}"

    def carry_out(self, line):
        calls = {b"Q": self.issue, b"C": self.close, b"A": self.alter, b"L": self.leave}
        if line.letter not in calls:
            raise line.refusal(3)
        return calls[line.letter](line)

    def answer(self, line):
        try:
            answer = self.carry_out(line)
        except TextRefusal as refusal:
            answer = told(refusal.number, refusal.line, refusal.offset)
        except Refusal as refusal:
            answer = told(refusal.number, line.number, line.offset)
        if self.contract is not None:
            self.contract.balance(self.contract.reserve())
        return answer


def answers(data):
    """The lines that answer an input, up to the refusal that ends it, if one does."""
    text = Text(data)
    try:
        text.check_size()
        sheet = read_sheet(text)
        desk = Desk(sheet.factors, sheet.shares)
        while not text.at_end():
            yield desk.answer(text.next_line())
    except TextRefusal as refusal:
        yield told(refusal.number, refusal.line, refusal.offset)


def answer(data):
    return "".join(f"{line}\n" for line in answers(data)).encode()


if __name__ == "__main__":
    sys.stdout.buffer.write(answer(sys.stdin.buffer.read()))
