"""The rules in whole numbers of any size, apart from the engine.

Rounding, the recursion, spans, premiums, contracts, refusals, and amounts for a reader.
"""

MILLION = 1_000_000
LIMIT = 10_000_000_000
MOST_RATE = 500_000
LAST_NUMBER = 9_999
WORDS = {
    14: "the start state is not in the basis",
    15: "the deposit is outside 0 to the limit",
    16: "no year is left to close",
    17: "the end state is not in the basis",
    18: "the rate is outside -500000 to 500000",
    19: "the share of the move is nought",
    20: "no premium from 0 to the limit will do",
    21: "number 9999 has been given",
    22: "the column for the course is too short",
}


def nearest(a):
    return (a + 500_000) // MILLION


def lives(deaths):
    """The shares of a life table: whoever is alive dies or not, and the dead stay dead."""
    return [[[MILLION - q, q], [0, MILLION]] for q in deaths]


def disability(disabled, dead, recovered, died):
    """The shares of the active, who become disabled or die, of the disabled, who recover or die,
    and of the dead."""
    return [
        [MILLION - disabled - dead, disabled, dead],
        [recovered, MILLION - recovered - died, died],
        [0, 0, MILLION],
    ]


def endowment(total, term, paying):
    """What is paid at death and to whoever lives at the term, and when the premium is due."""
    return (
        lambda i, t: total if i == 0 and t == term else 0,
        lambda i, t: i == 0 and t < paying,
        lambda i, j, t: total if (i, j) == (0, 1) and t < term else 0,
    )


def backwards(factors, shares, benefit, due, on_move, premium, join):
    """The figures of every state, a row for each year from 0 to n.

    shares[t][i][j] is the share of the move from i to j in year t; benefit, due and on_move are
    functions. join makes one figure of a row of shares and of what follows each move.
    """
    n, states = len(factors), range(len(shares[0]))

    def flow(i, t):
        return benefit(i, t) - (premium if t < n and due(i, t) else 0)

    rows = [[flow(i, n) for i in states]]
    for t in reversed(range(n)):
        after = rows[0]
        joined = [join(shares[t][i], [on_move(i, j, t) + after[j] for j in states]) for i in states]
        rows.insert(0, [flow(i, t) + nearest(factors[t] * joined[i]) for i in states])
    return rows


def reserves(factors, shares, benefit, due, on_move, premium):
    """Each figure is the mean of what follows."""

    def mean(row, following):
        return nearest(sum(q * f for q, f in zip(row, following)))

    return backwards(factors, shares, benefit, due, on_move, premium, mean)


def spans(factors, shares, benefit, due, on_move, premium):
    """Each figure is a pair: the least and the most of what follows the moves with a share."""

    def smallest(row, following):
        return min((f for q, f in zip(row, following) if q > 0), default=0)

    def largest(row, following):
        return max((f for q, f in zip(row, following) if q > 0), default=0)

    least, greatest = (
        backwards(factors, shares, benefit, due, on_move, premium, pick)
        for pick in (smallest, largest)
    )
    return [list(zip(*rows)) for rows in zip(least, greatest)]


def least_premium(value, bound):
    """The least premium from 0 to the limit at which a value that no premium raises is not above a
    bound, if one is."""
    low, high = 0, LIMIT + 1
    while low < high:
        mid = (low + high) // 2
        if value(mid) <= bound:
            high = mid
        else:
            low = mid + 1
    return low if low <= LIMIT else None


class Refusal(Exception):
    """What a call is refused with: its words are what is printed."""

    def __init__(self, number, year, state):
        super().__init__(refused(number, year, state))
        self.number = number


class Contract:
    """A contract from its issue to its leaving, with its books. A refused call raises a refusal and
    changes nothing."""

    def __init__(self, factors, shares, plan, start, deposit, premium=None):
        """Issued at a premium, or at the least that will do."""
        if start >= len(shares[0]):
            raise Refusal(14, 0, 0)
        if not 0 <= deposit <= LIMIT:
            raise Refusal(15, 0, start)
        self.factors, self.shares, self.valued = factors, shares, {}
        self.state, self.year, self.number = start, 0, 0
        self.plan, self.premium = plan, self.price(plan, deposit) if premium is None else premium
        self.deposit, self.premiums, self.interest, self.benefits = deposit, 0, 0, 0
        self.opening = self.results = deposit - self.reserve()

    def reserves(self, plan, premium):
        """The reserves of all states and years."""
        if (plan, premium) not in self.valued:
            self.valued[plan, premium] = reserves(self.factors, self.shares, *plan, premium)
        return self.valued[plan, premium]

    def price(self, plan, bound):
        premium = least_premium(lambda p: self.reserves(plan, p)[self.year][self.state], bound)
        if premium is None:
            raise Refusal(20, self.year, self.state)
        return premium

    def reserve(self):
        return self.reserves(self.plan, self.premium)[self.year][self.state]

    def span(self):
        return spans(self.factors, self.shares, *self.plan, self.premium)[self.year][self.state]

    def course(self, length):
        """The reserves from the contract's year on, in a column of some length."""
        rows = self.reserves(self.plan, self.premium)[self.year :]
        if length < sum(map(len, rows)):
            raise Refusal(22, self.year, self.state)
        return [value for row in rows for value in row]

    def check_closing(self, end, rate):
        """The refusals of a closing, in the order of their numbers."""
        i, t = self.state, self.year
        if t >= len(self.factors):
            raise Refusal(16, t, i)
        if end >= len(self.shares[t]):
            raise Refusal(17, t, i)
        if not -MOST_RATE <= rate <= MOST_RATE:
            raise Refusal(18, t, i)
        if self.shares[t][i][end] == 0:
            raise Refusal(19, t, i)
        if self.number >= LAST_NUMBER:
            raise Refusal(21, t, i)

    def close(self, end, rate):
        """The results on interest and on risk."""
        self.check_closing(end, rate)
        benefit, due, on_move = self.plan
        i, t = self.state, self.year
        after = self.reserves(self.plan, self.premium)[t + 1]
        row = enumerate(self.shares[t][i])
        joined = nearest(sum(q * (on_move(i, j, t) + after[j]) for j, q in row))
        discounted = nearest(self.factors[t] * joined)
        earned = nearest(discounted * rate)
        interest = earned - (joined - discounted)
        risk = joined - on_move(i, end, t) - after[end]
        self.premiums += self.premium if due(i, t) else 0
        self.interest += earned
        self.benefits += benefit(i, t) + on_move(i, end, t)
        self.results += interest + risk
        self.state, self.year, self.number = end, t + 1, self.number + 1
        return interest, risk

    def alter(self, plan):
        """The result of going on under another plan."""
        before = self.reserve()
        premium = self.price(plan, before)
        if self.number >= LAST_NUMBER:
            raise Refusal(21, self.year, self.state)
        self.plan, self.premium, self.number = plan, premium, self.number + 1
        result = before - self.reserve()
        self.results += result
        return result

    def leave(self):
        """What is paid, and the result."""
        reserve = self.reserve()
        paid = max(reserve, 0)
        self.benefits += paid
        self.results += reserve - paid
        return paid, reserve - paid

    def balance(self, carried):
        """Both sides of the books, which agree."""
        left = self.deposit + self.premiums + self.interest - self.benefits
        right = self.results + carried
        assert left == right, (left, right)
        return left, right


def refused(number, year, state):
    return f"refused with {number} by the contract at year {year}, state {state}: {WORDS[number]}"


def francs(ticks):
    rappen = (ticks + 50) // 100
    sign = "-" if rappen < 0 else ""
    return f"{sign}{abs(rappen) // 100}.{abs(rappen) % 100:02}"
