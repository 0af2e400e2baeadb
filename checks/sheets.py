"""Sheets, read line by line, apart from the engine. Commands have lines and fields like theirs."""
import re

from rules import MILLION

MOST_LINE_BYTES = 40
MOST_INPUT_BYTES = 60_000
NUMBER = rb"0|[1-9][0-9]{0,10}"
SIGNED = NUMBER + rb"|-[1-9][0-9]{0,10}"
WORDS = {
    1: ("sheet", "the input has more than 60000 bytes"),
    2: ("sheet", "a line has no line feed within 40 bytes"),
    3: ("sheet", "a letter may not stand here or the number of fields differs"),
    4: ("field", "a field is not 1 to 11 digits without leading nought"),
    5: ("field", "a number is outside its range"),
    7: ("sheet", "a year or a pair of states is out of order"),
    8: ("sheet", "a row misses the million"),
    13: ("sheet", "a command needs a contract and none stands or a contract stands already"),
}


class TextRefusal(Exception):
    """What a text is refused with, and where: its words are what is printed."""

    def __init__(self, number, line, offset):
        layer, words = WORDS[number]
        super().__init__(
            f"refused with {number} by the {layer} at line {line}, offset {offset}: {words}"
        )
        self.number, self.line, self.offset = number, line, offset


class Line:
    """The parts of a line, counted from 1, that begins at an offset."""

    def __init__(self, number, offset, text):
        self.number, self.offset = number, offset
        self.letter, *self.fields = text.split(b";")

    def refusal(self, number):
        return TextRefusal(number, self.number, self.offset)

    def field_refusal(self, number, k):
        before = [self.letter, *self.fields[:k]]
        return TextRefusal(number, self.number, self.offset + sum(len(part) + 1 for part in before))

    def numbers(self, forms):
        """The numbers of as many fields as there are forms."""
        if len(self.fields) != len(forms):
            raise self.refusal(3)
        for k, (field, form) in enumerate(zip(self.fields, forms)):
            if not re.fullmatch(form, field):
                raise self.field_refusal(4, k)
        return [int(field) for field in self.fields]

    def check_ranges(self, numbers, ranges):
        for k, (number, (least, most)) in enumerate(zip(numbers, ranges)):
            if not least <= number <= most:
                raise self.field_refusal(5, k)

    def within(self, *ranges):
        """The numbers of as many fields as there are ranges, each in its own."""
        numbers = self.numbers([NUMBER] * len(ranges))
        self.check_ranges(numbers, ranges)
        return numbers


class Text:
    """An input and how far it has been read."""

    def __init__(self, data):
        self.data, self.number, self.offset = data, 1, 0

    def at_end(self):
        return self.offset == len(self.data)

    def check_size(self):
        if len(self.data) > MOST_INPUT_BYTES:
            raise TextRefusal(1, 1, 0)

    def next_line(self):
        end = self.data.find(b"\n", self.offset, self.offset + MOST_LINE_BYTES)
        if end < 0:
            raise TextRefusal(2, self.number, self.offset)
        line = Line(self.number, self.offset, self.data[self.offset : end])
        self.number, self.offset = self.number + 1, end + 1
        return line


class Sheet:
    """What has been read of a sheet. There is room for any basis, so rule 6 cannot be broken."""

    def __init__(self, line):
        if line.letter != b"B":
            raise line.refusal(3)
        self.states, self.years = line.within((2, 8), (1, 120))
        self.factors, self.shares, self.last = [], [], None

    def letters(self):
        """The letters that may stand next."""
        come = len(self.factors)
        return [b"T"] * (come > 0) + [b"D" if come < self.years else b"E"]

    def check_rows(self, line):
        if self.shares and any(sum(row) != MILLION for row in self.shares[-1]):
            raise line.refusal(8)

    def begin_year(self, line):
        year, factor = line.within((0, self.years - 1), (1, MILLION))
        if year != len(self.factors):
            raise line.refusal(7)
        self.check_rows(line)
        self.factors.append(factor)
        self.shares.append([[0] * self.states for _ in range(self.states)])
        self.last = None

    def take_share(self, line):
        states = (0, self.states - 1)
        year, i, j, share = line.within((0, self.years - 1), states, states, (1, MILLION))
        if year != len(self.factors) - 1 or (self.last is not None and (i, j) <= self.last):
            raise line.refusal(7)
        self.shares[year][i][j], self.last = share, (i, j)

    def take(self, line):
        """Takes a line, and says whether more may follow."""
        if line.letter not in self.letters():
            raise line.refusal(3)
        if line.letter == b"D":
            self.begin_year(line)
        elif line.letter == b"T":
            self.take_share(line)
        else:
            line.within()
            self.check_rows(line)
        return line.letter != b"E"


def read_sheet(text):
    """The sheet with which a text begins, or the first rule that it breaks."""
    sheet = Sheet(text.next_line())
    while sheet.take(text.next_line()):
        pass
    return sheet


def write_sheet(factors, shares):
    """The one text of a basis."""
    lines = [f"B;{len(shares[0])};{len(factors)}"]
    for t, (factor, rows) in enumerate(zip(factors, shares)):
        assert all(sum(row) == MILLION for row in rows)
        lines.append(f"D;{t};{factor}")
        for i, row in enumerate(rows):
            lines.extend(f"T;{t};{i};{j};{share}" for j, share in enumerate(row) if share)
    return "\n".join(lines + ["E", ""])
