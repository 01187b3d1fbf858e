"""The book beside a plain program of its rules: what it prints after each command is summed up anew, from all that came."""
import itertools
import random

from book import paid_in, pair
from program import BOOK, Runs

MEMBERS = ("ALFA", "BETA")
CURRENCIES = ("EUR", "USD", "JPY")
# of each currency, in the setup of the worked scripts
RATES = {"EUR": 110, "USD": 100, "JPY": 1}
HAIRCUTS = {"EUR": 500, "USD": 0, "JPY": 1000}
SHORT = {"EUR": 1000, "USD": 1000, "JPY": 100_000}
AGGREGATE = 150_000


def passes(balance):
    """The three tests of a member with these balances: its value, its shortages, and each shortage by itself."""
    value = sum(it * RATES[ccy] * (10_000 + (HAIRCUTS[ccy] if it < 0 else -HAIRCUTS[ccy])) for ccy, it in balance.items())
    short = sum(-it * RATES[ccy] for ccy, it in balance.items() if it < 0)
    return value >= 0 and short <= AGGREGATE and all(it >= -SHORT[ccy] for ccy, it in balance.items())


class Plain:
    """All that came, in order, and which pairs are settled. Nothing that can be summed up is kept."""

    def __init__(self):
        self.funds = []  # node's currency, number, member, amount
        self.pairs = {}  # by reference: (first, sells, amount, second, buys, amount), in the order of matching
        self.opened, self.settled, self.back = {}, [], set()
        self.orders = {ccy: [] for ccy in CURRENCIES}  # by currency: member, amount
        self.ended = {"paid": set(), "returned": set()}

    def balance(self, member):
        sums = dict.fromkeys(CURRENCIES, 0)
        for ccy, _, of, amount in self.funds:
            sums[ccy] += amount * (of == member)
        for reference in self.settled:
            first, sell, sold, second, buy, bought = self.pairs[reference]
            sign = (first == member) - (second == member)
            sums[sell] -= sign * sold
            sums[buy] += sign * bought
        for ccy, orders in self.orders.items():
            for out, (of, amount) in enumerate(orders, 1):
                sums[ccy] -= amount * (of == member and (ccy, out) not in self.ended["returned"])
        return sums

    def figure(self, ccy):
        return sum(self.balance(member)[ccy] for member in MEMBERS)

    def is_back(self, reference):
        """Whether all sides that a pair has took it back."""
        first, _, _, second, _, _ = self.opened[reference]
        sides = {first, second} if reference in self.pairs else {first}
        return all((side, reference) in self.back for side in sides)

    def waits(self, reference):
        return reference not in self.settled and not self.is_back(reference)

    def fund(self, ccy, number, member, amount):
        if number == 0:
            return "no B7"
        if any((ccy, number) == it[:2] for it in self.funds):
            return "no B5"
        self.funds.append((ccy, number, member, amount))
        return "done"

    def instruct(self, who, reference, other, sell, sold, buy, bought):
        if reference == 0:
            return "no B7"
        if reference not in self.opened:
            self.opened[reference] = (who, sell, sold, other, buy, bought)
            return "done"
        if self.opened[reference][0] == who or reference in self.pairs or self.is_back(reference):
            return "no B5"
        if self.opened[reference] != (other, buy, bought, who, sell, sold):
            return "no B6"
        self.pairs[reference] = self.opened[reference]
        return "matched"

    def rescind(self, who, reference):
        if reference not in self.opened:
            return "no B7"
        first, _, _, second, _, _ = self.opened[reference]
        if who != first and not (reference in self.pairs and who == second):
            return "no B1"
        if not self.waits(reference):
            return "no B8"
        self.back.add((who, reference))
        return "done"

    def settle(self, most):
        count = 0
        for reference in self.pairs:
            if count < most and self.waits(reference):
                self.settled.append(reference)
                if all(passes(self.balance(member)) for member in MEMBERS):
                    count += 1
                else:
                    self.settled.pop()
        return f"settled {count}"

    def payout(self, who, ccy, amount):
        balance = self.balance(who)
        if balance[ccy] < amount:
            return "no B9"
        balance[ccy] -= amount
        if not passes(balance):
            return "no B10"
        if self.figure(ccy) < amount:
            return "no B11"
        self.orders[ccy].append((who, amount))
        return f"order {len(self.orders[ccy])}"

    def end(self, how, ccy, out):
        """An order is paid, or returned."""
        if not 1 <= out <= len(self.orders[ccy]):
            return "no B7"
        if (ccy, out) in self.ended["paid"] | self.ended["returned"]:
            return "no B5"
        self.ended[how].add((ccy, out))
        return "done"

    def does(self, line):
        """What a command is answered."""
        _, who, command, *words = line.split()
        words = [int(it) if it.isdigit() else it for it in words]
        if command in ("paid", "returned"):
            return self.end(command, *words)
        if command in ("instruct", "rescind", "payout"):
            words = [who, *words]
        return getattr(self, command)(*words)

    def block(self):
        """What `print` prints."""
        back = [it for it in self.opened if self.is_back(it)]
        matched = [it for it in self.pairs if self.waits(it)]
        unmatched = len(self.opened) - len(self.settled) - len(back) - len(matched)
        is_open = sum(map(len, self.orders.values())) - sum(map(len, self.ended.values()))
        lines = [f"{it} " + " ".join(map(str, self.balance(it).values())) for it in MEMBERS]
        lines.append(f"pairs {unmatched} {len(matched)} {len(self.settled)} {len(back)}")
        lines.append("figure " + " ".join(str(self.figure(it)) for it in CURRENCIES))
        return "\n".join([*lines, f"open {is_open}", ""])


def row(dice):
    """A command: what is drawn is often refused."""
    member, other = dice.choice([MEMBERS, MEMBERS[::-1]])
    number, ccy, amount = dice.randrange(9), dice.choice(CURRENCIES), dice.randint(1, 1500)
    sides = "EUR 400 USD 440" if member == "ALFA" else "USD 440 EUR 400"
    return dice.choice([
        *[f"do {ccy} fund {ccy} {number} {member} {amount}"] * 2,
        f"do {member} payout {ccy} {amount}",
        f"do {ccy} paid {ccy} {number}",
        f"do {ccy} returned {ccy} {number}",
        f"do {member} rescind {number}",
        f"do OP settle {number}",
        *[f"do {member} instruct {number} {other} {sides}"] * 3,
    ])


class Sums(Runs):
    def agrees(self, lines):
        """The book prints after each of these commands what the plain program does; what that kept in the end."""
        plain, text = Plain(), ""
        for number, line in enumerate(lines, 1):
            text += f"{number} {plain.does(line)}\n{plain.block()}"
        self.prints(BOOK, text, script="".join(f"{line}\nprint\n" for line in lines))
        return plain

    def test_histories_drawn_at_random(self):
        """Commands of which many are refused; some pairs settle, and some orders are paid, and some returned."""
        ended = [0, 0, 0]
        for seed in range(1, 21):
            dice = random.Random(seed)
            plain = self.agrees([row(dice) for _ in range(200)])
            ended = [a + len(b) for a, b in zip(ended, (plain.settled, *plain.ended.values()))]
        self.assertTrue(all(ended), ended)

    def test_walks_over_three_offers(self):
        """A walk posts a pair where both members then pass the tests, with what the pairs before it left them."""
        for first, second, most in itertools.product([400, 900, 1400], [300, 1400, 1500], range(4)):
            offers = [*pair(1, "USD 1100", f"EUR {first}"), *pair(2, f"EUR {second}", "USD 1000"), *pair(3, "USD 400", "JPY 40000")]
            self.agrees([*(line for line, _ in [*paid_in(1500, 500), *offers]), f"do OP settle {most}"])
