"""Inputs at which a rule might be missed, and random ones, whole and spoilt."""
from rules import LIMIT, MILLION
from sheets import MOST_INPUT_BYTES, write_sheet

# Nobody returns from state 1.
LIVES = [[[900_000, 100_000], [0, MILLION]], [[800_000, 200_000], [0, MILLION]]]
SHEET = write_sheet([900_000] * 2, LIVES)
ISSUE = "Q;1000000;2;2;0\n"

# Everybody dies and returns: the sum is paid twice, and no premium but the limit may do.
RETURNS = write_sheet([MILLION] * 2, [[[0, MILLION], [MILLION, 0]]] * 2)
DEAREST = "Q;10000000000;2;2;9999999999\nQ;10000000000;2;2;10000000000\nC;1;0\nC;0;0\nL\n"

# A basis of two states and two years, as far as its first year begins, and that of one year.
BEGUN = "B;2;2\nD;0;1\n"
YEAR = "B;2;1\nD;0;1\n"
STAYS = "T;0;0;0;1000000\n"

SPOILT_SHEETS = [
    # Lines without an end, or without one in time.
    "", "B", "B;2;2", BEGUN[:-1], "B;2;1\n" + "1" * 39 + "\n", "B;2;1\n" + "1" * 40 + "\n",
    # Letters that may not stand there, and numbers of fields that differ.
    "\n", "B\n", "b;2;2\n", "B;2\n", "B;2;2;\n", "E\n", "D;0;1\n", "Q;1;1;1;1\n", "\0\n",
    "\x80;2;2\n", "B;2;2\nB;2;2\n", "B;2;2\nT;0;0;0;1\n", "B;2;2\nE\n", "B;2;2\n\n", YEAR + "E;\n",
    YEAR + "D;1;1\n", YEAR + "C;0;0\n", BEGUN + "E\n", BEGUN + "T;0;0;0\n",
    # Fields that are no numbers, before and after numbers out of range.
    "B;;2\n", "B;2;02\n", "B;+2;2\n", "B;2;2\r\n", "B; 2;2\n", "B;9;x\n", "B;100000000000;1\n",
    BEGUN + "T;0;0;0;-1\n", BEGUN + "T;2;9;x;0\n",
    # Numbers out of range.
    "B;9;121\n", "B;1;1\n", "B;2;121\n", "B;2;0\n", "B;99999999999;1\n", "B;2;2\nD;2;1\n",
    "B;2;2\nD;0;0\n", "B;2;2\nD;0;1000001\n", BEGUN + "T;2;0;0;1\n", BEGUN + "T;0;2;0;1\n",
    BEGUN + "T;0;0;2;1\n", BEGUN + "T;0;0;0;0\n", BEGUN + "T;0;0;0;1000001\n",
    # Years and pairs of states out of order.
    "B;2;2\nD;1;1\n", "B;2;2\nD;0;1000000\nD;0;1\n", BEGUN + "T;1;0;0;1\n",
    BEGUN + STAYS + "D;0;1\n", BEGUN + "T;0;0;1;5\nT;0;0;1;5\n", BEGUN + "T;0;1;0;5\nT;0;0;1;5\n",
    # Rows that miss the million.
    YEAR + "E\n", BEGUN + STAYS + "D;1;1\n", YEAR + STAYS + "T;0;1;1;999999\nE\n",
    BEGUN + STAYS + "T;0;0;1;1\nT;0;1;1;1000000\nD;1;1\n",
]

COMMANDS = [
    # Lines without an end, or without one in time.
    "", "L", ISSUE + "1" * 39 + "\nL\n", ISSUE + "1" * 40 + "\nL\n",
    # Letters that are none of a command, and numbers of fields that differ.
    "L;\n", "\n", "X\n", "q;1;1;0;0\n", ";\n", "L\r\n", "\0\n", "\x80\n", "L;\0\n", "B;2;2\n",
    "D;0;1\n", "T;0;0;0;1\n", "E\n", "Q\n", "Q;1;1;0\n", "Q;1;1;0;0;0\n", "C;1\n", "C;1;0;0\n",
    "A;1;1\n", "A;1;1;0;0\n", ISSUE + "C;0\n",
    # Fields that are no numbers, before and after numbers out of range.
    "Q;;1;0;0\n", "Q;01;1;0;0\n", "Q;-1;1;0;0\n", "Q;99999999999;4;5;100000000000\n", "Q;1;0;9;x\n",
    "C;-0;0\n", "C;-1;0\n", "C;8;-0\n", "C;8;-\n", "C;8;-01\n", "C;8;+1\n", "C;8;100000000000\n",
    "C;8;-100000000000\n", "C;00;0\n", "A;1;-0;0\n", "A;1;1; 0\n", ISSUE + "C;0;-0\n",
    # Numbers out of range.
    "Q;10000000001;0;9;10000000001\n", "Q;1;0;0;0\n", "Q;1;3;0;0\n", "Q;1;3;4;0\n", "Q;1;2;3;0\n",
    "Q;1;1;0;10000000001\n", "C;8;-99999999999\n", "A;10000000001;1;0\n", "A;1;3;0\n", "A;1;0;0\n",
    "A;1;2;3\n", ISSUE + "C;8;0\n",
    # A contract that stands, or none.
    "L\n", "C;0;0\nA;1;1;0\nL\n", ISSUE + ISSUE + "L\nL\n" + ISSUE + "C;1;0\n",
    # Closings up to the last year, their states and rates, and moves without a share.
    ISSUE + "C;0;120000\nC;1;-10000\nC;1;0\nL\n", ISSUE + "C;7;500001\nC;2;0\nC;7;0\n",
    ISSUE + "C;1;99999999999\n", "Q;0;1;0;0\nC;0;0\nL\n",
    ISSUE + "C;1;0\nC;0;0\nC;0;500001\nC;1;0\n",
    ISSUE + "C;0;500001\nC;0;-500001\nC;0;500000\nC;0;-500000\nC;7;500001\nL\n",
    "Q;10000000000;2;2;10000000000\nC;0;1\nL\n",
    # Premiums that will do, and none that does.
    "Q;1000000;2;0;0\nL\n", ISSUE + "C;0;120000\nA;1000000;2;1\nL\n",
    ISSUE + "C;0;120000\nA;500000;2;2\nA;100000;2;2\nL\n", ISSUE + "C;1;0\nC;1;0\nA;5;2;2\nL\n",
    ISSUE + "C;0;0\nC;0;0\nA;9;2;0\nA;0;1;0\nL\n", "Q;1000000;2;2;500000\nA;900000;1;1\nL\n",
    ISSUE + "C;1;0\nA;7;2;2\nC;1;3\nL\nQ;3;1;1;1\nC;0;0\n",
]


def filled(text, size):
    """A text, followed by a line without an end up to so many bytes."""
    return text + "1" * (size - len(text))


# Inputs of the most bytes, and of more.
SIZES = [MOST_INPUT_BYTES, MOST_INPUT_BYTES + 1, 200_000]


def edge_sheets():
    """Sheets that break a rule."""
    return [text.encode("latin-1") for text in SPOILT_SHEETS]


def long_sheets():
    """A sheet in inputs of the most bytes and of more."""
    return [filled(SHEET, size).encode() for size in SIZES]


def edge_inputs():
    """Inputs of the engine at which a rule might be missed."""
    commands = [SHEET + text for text in COMMANDS] + [filled(SHEET + ISSUE, size) for size in SIZES]
    return edge_sheets() + [text.encode("latin-1") for text in [*commands, RETURNS + DEAREST]]


def random_factor(random):
    rare = [1, MILLION, random.randint(1, MILLION)]
    return random.choice(rare + [random.randint(900_000, MILLION)] * 5)


def random_row(random, states):
    """Shares that add up to a million, some of them nought."""
    row, left = [0] * states, MILLION
    while left > 0:
        share = left if random.random() < 0.3 else random.randint(0, left)
        row[random.randrange(states)] += share
        left -= share
    return row


def random_basis(random, most_states, most_years):
    states, years = random.randint(2, most_states), random.randint(1, most_years)
    factors = [random_factor(random) for _ in range(years)]
    shares = [[random_row(random, states) for _ in range(states)] for _ in range(years)]
    return factors, shares


def random_amount(random):
    return random.choice([0, LIMIT, random.randint(0, 1_000)] + [random.randint(0, LIMIT)] * 5)


def random_terms(random, years):
    """The sum, the term and the paying years, which are now and then too few for any premium."""
    term = random.randint(1, years)
    paying = random.randint(0, term) if random.random() < 0.4 else term
    return f"{random_amount(random)};{term};{paying}"


def random_command(random, states, years):
    kind = random.choices("QCALX", [2, 12, 6, 1, 1])[0]
    if kind == "Q":
        return f"Q;{random_terms(random, years)};{random.choice([0, random_amount(random)])}"
    if kind == "C":
        end = random.randint(0, 7) if random.random() < 0.1 else random.randrange(states)
        most = 600_000 if random.random() < 0.2 else 100_000
        return f"C;{end};{random.randint(-most, most)}"
    if kind == "A":
        return f"A;{random_terms(random, years)}"
    return kind if kind == "L" else random.choice(["", "X", "E", "L;", "Q;1", "C;0", "A;1;1;2;1"])


def random_commands(random, states, years):
    """Commands that begin with an issue more often than not."""
    first = [f"Q;{random_terms(random, years)};{random_amount(random)}"] * (random.random() < 0.8)
    others = [random_command(random, states, years) for _ in range(random.randint(0, 25))]
    return "".join(f"{line}\n" for line in first + others).encode()


ODD_FIELDS = b"|0|1|2|7|8|9|120|121|1000000|1000001|00|01|-1|-0|+1".split(b"|")
ODD_FIELDS += [b"10000000000", b"10000000001", b"99999999999", b"100000000000"]
LIKELY_BYTES = b"0123456789;;\n\nBDTEQCAL-+ \r\0"


def random_byte(random):
    return bytes([random.randrange(256) if random.random() < 0.2 else random.choice(LIKELY_BYTES)])


def with_spoilt_line(random, data):
    """Two lines change places, or one is left out, or written twice."""
    lines = data.splitlines(keepends=True)
    k = random.randrange(len(lines))
    two = lines[k : k + 2]
    lines[k : k + 2] = random.choice([two[::-1], two[1:], two[:1] + two])
    return b"".join(lines)


def with_odd_field(random, data):
    lines = data.split(b"\n")
    k = random.randrange(len(lines))
    parts = lines[k].split(b";")
    parts[random.randrange(len(parts))] = random.choice(ODD_FIELDS)
    lines[k] = b";".join(parts)
    return b"\n".join(lines)


def with_spoilt_byte(random, data):
    """A byte changed, dropped or added, or a run of bytes that makes a line too long."""
    k, byte = random.randrange(len(data)), random_byte(random)
    changed = [(byte, 1), (b"", 1), (byte, 0), (byte * random.randint(10, 40), 0)]
    new, taken = random.choice(changed)
    return data[:k] + new + data[k + taken :]


def cut_off(random, data):
    return data[: random.randrange(len(data))]


def spoilt(random, data):
    """Spoilt in one place, or now and then in several."""
    kinds = [with_spoilt_byte, with_odd_field] * 2 + [with_spoilt_line, cut_off]
    while data:
        data = random.choice(kinds)(random, data)
        if random.random() < 0.7:
            break
    return data


def random_sheet(random, most_states, most_years):
    factors, shares = random_basis(random, most_states, most_years)
    return write_sheet(factors, shares).encode(), len(shares[0]), len(factors)


def random_sheets(random, count):
    """Sheets of up to 8 states and 40 years, each with a rest, and each spoilt."""
    for _ in range(count):
        sheet, states, years = random_sheet(random, 8, 40)
        yield sheet + random_commands(random, states, years)
        yield spoilt(random, sheet)


def random_input(random):
    """A sheet, now and then a large one, with commands: one in four is whole, the rest spoilt."""
    sizes = (8, 30) if random.random() < 0.03 else (4, 6)
    sheet, states, years = random_sheet(random, *sizes)
    commands = random_commands(random, states, years)
    spoiling = random.random()
    if spoiling < 0.4:
        return spoilt(random, sheet) + commands
    return sheet + (spoilt(random, commands) if spoiling < 0.75 else commands)
