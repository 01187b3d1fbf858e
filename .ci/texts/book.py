"""Scripts on one book: the worked scripts, faults, and which file is judged first."""
from program import BOOK, FOUR_SITES, SETUP, TWO_DOLLARS, Runs


def block(alfa, beta, pairs, figure):
    """The lines that `print` prints where no order is open."""
    return [f"ALFA {alfa}", f"BETA {beta}", f"pairs {pairs}", f"figure {figure}", "open 0"]


def pair(reference, sells, buys):
    """ALFA and BETA enter the two sides of a pair."""
    return [(f"do ALFA instruct {reference} BETA {sells} {buys}", "done"), (f"do BETA instruct {reference} ALFA {buys} {sells}", "matched")]


def paid_in(dollars, euros):
    """ALFA pays in dollars, and BETA euros."""
    return [(f"do USD fund USD 1 ALFA {dollars}", "done"), (f"do EUR fund EUR 1 BETA {euros}", "done")]


# the script that settles one pair
SETTLED = [*paid_in(1200, 48), *pair(1, "USD 1100", "EUR 1000"), ("do OP settle 10", "settled 1")]
PAIR = "".join(f"{line}\n" for line, _ in [*SETTLED, ("print", "")])

# worked scripts on the setup that they share: each line with its answer
WORKED = {
    "an empty script": [],
    "a member would have too little value": [*paid_in(1200, 47), *pair(1, "USD 1100", "EUR 1000"), ("do OP settle 10", "settled 0")],
    "with one unit more it settles": [*SETTLED, ("print", block("1000 100 0", "-952 1100 0", "0 0 1 0", "48 1200 0"))],
    "a short limit is reached": [
        ("do USD fund USD 1 ALFA 1200", "done"),
        *pair(2, "USD 1200", "JPY 100000"),
        ("do OP settle 1", "settled 1"),
        ("print", block("0 0 100000", "0 1200 -100000", "0 0 1 0", "0 1200 0")),
    ],
    "it is passed by one": [("do USD fund USD 1 ALFA 1200", "done"), *pair(2, "USD 1200", "JPY 100001"), ("do OP settle 1", "settled 0")],
    "one side alone takes a matched pair back": [
        *paid_in(10, 9),
        *pair(3, "USD 10", "EUR 9"),
        ("do ALFA rescind 3", "done"),
        ("do OP settle 9", "settled 1"),
        ("do BETA rescind 3", "no B8"),
    ],
    "both sides take it back": [
        *paid_in(10, 9),
        *pair(3, "USD 10", "EUR 9"),
        ("do ALFA rescind 3", "done"),
        ("do BETA rescind 3", "done"),
        ("do OP settle 9", "settled 0"),
        ("do ALFA rescind 3", "no B8"),
    ],
    "pay-outs of more than the bank has, and of all it has": [
        *SETTLED,
        ("do ALFA payout EUR 1000", "no B11"),
        ("do ALFA payout EUR 48", "order 1"),
        ("do EUR paid EUR 1", "done"),
        ("do EUR paid EUR 1", "no B5"),
        ("print", block("952 100 0", "-952 1100 0", "0 0 1 0", "0 1200 0")),
    ],
    "a pay-out that is paid": [
        ("do USD fund USD 1 ALFA 1200", "done"),
        ("do ALFA payout USD 200", "order 1"),
        ("do USD paid USD 1", "done"),
        ("print", block("0 1000 0", "0 0 0", "0 0 0 0", "0 1000 0")),
    ],
    "refusals in their order": [
        ("do BETA fund USD 1 ALFA 5", "no B1"),
        ("do USD fund USD 1 @3 5", "no B2"),
        ("do ALFA payout @3 1", "no B3"),
        ("do USD fund USD 1 ALFA 1000000000001", "no B4"),
        ("do USD fund USD 0 ALFA 5", "no B7"),
        ("do USD fund USD 1 ALFA 1000000000000", "done"),
        ("do USD fund USD 1 ALFA 5", "no B5"),
        ("do BETA payout USD 1", "no B9"),
        ("do USD paid USD 1", "no B7"),
    ],
    # at 40000 JPY the aggregate limit is reached, and at one more it is passed
    **{
        f"{settled} settle at JPY {amount}": [
            ("do USD fund USD 1 ALFA 2000", "done"),
            ("do USD fund USD 2 BETA 1000", "done"),
            *pair(1, "USD 1000", "EUR 1000"),
            *pair(2, "USD 1000", f"JPY {amount}"),
            ("do OP settle 9", f"settled {settled}"),
        ]
        for amount, settled in ((40000, 2), (40001, 1))
    },
    "a pair that a later one of the same walk would let pass": [
        *paid_in(1200, 47),
        *pair(1, "USD 1100", "EUR 1000"),
        *pair(2, "USD 100", "JPY 1"),
        ("do OP settle 10", "settled 1"),
        ("do OP settle 10", "settled 1"),
    ],
}

# each reason to refuse a command, also where two apply: a script's lines, each with its answer
REFUSED = {
    "instruct": [
        ("do USD instruct 0 @9 USD 0 USD 0", "no B1"),
        ("do OP instruct 1 BETA USD 1 EUR 1", "no B1"),
        ("do @3 instruct 1 BETA USD 1 EUR 1", "no B2"),
        ("do ALFA instruct 0 @3 USD 0 USD 0", "no B2"),
        ("do ALFA instruct 1 ALFA USD 1 EUR 1", "no B2"),
        ("do ALFA instruct 1 OP USD 1 EUR 1", "no B2"),
        ("do ALFA instruct 0 BETA @3 0 EUR 1", "no B3"),
        ("do ALFA instruct 0 BETA EUR 0 EUR 1", "no B3"),
        ("do ALFA instruct 0 BETA USD 0 EUR 1", "no B4"),
        ("do ALFA instruct 0 BETA USD 1 EUR 1000000000001", "no B4"),
        ("do ALFA instruct 0 BETA USD 1 EUR 1", "no B7"),
        ("do ALFA instruct 1 BETA USD 1 EUR 1000000000000", "done"),
        ("do ALFA instruct 1 BETA USD 2 EUR 1", "no B5"),
        ("do BETA instruct 1 ALFA EUR 1 USD 1", "no B6"),
    ],
    "a mirror": [
        ("do ALFA instruct 3 BETA USD 10 EUR 9", "done"),
        ("do BETA instruct 3 ALFA EUR 9 USD 11", "no B6"),
        ("do BETA instruct 3 ALFA EUR 8 USD 10", "no B6"),
        ("do BETA instruct 3 ALFA JPY 9 USD 10", "no B6"),
        ("do BETA instruct 3 ALFA EUR 9 JPY 10", "no B6"),
        ("do BETA instruct 3 ALFA EUR 9 USD 10", "matched"),
        ("do ALFA instruct 3 BETA USD 10 EUR 9", "no B5"),
        ("do BETA instruct 3 ALFA EUR 9 USD 10", "no B5"),
    ],
    "rescind": [
        ("do OP rescind 1", "no B1"),
        ("do @3 rescind 1", "no B2"),
        ("do ALFA rescind 1", "no B7"),
        ("do ALFA rescind 0", "no B7"),
        ("do ALFA instruct 1 BETA USD 1 EUR 1", "done"),
        ("do BETA rescind 1", "no B1"),
        ("do ALFA rescind 1", "done"),
        ("do BETA rescind 1", "no B1"),
        ("do ALFA rescind 1", "no B8"),
        ("do BETA instruct 1 ALFA EUR 1 USD 1", "no B5"),
    ],
    "fund and paid": [
        ("do BETA fund USD 0 @9 0", "no B1"),
        ("do @104 fund @3 1 ALFA 5", "no B2"),
        ("do USD fund USD 0 @3 0", "no B2"),
        ("do USD fund USD 0 ALFA 0", "no B4"),
        ("do USD fund USD 0 ALFA 1000000000001", "no B4"),
        ("do USD fund USD 0 ALFA 5", "no B7"),
        ("do USD fund USD 1 ALFA 1000000000000", "done"),
        ("do USD fund USD 1 BETA 5", "no B5"),
        ("do EUR fund EUR 1 BETA 5", "done"),
        ("do EUR paid USD 1", "no B1"),
        ("do @104 paid @3 1", "no B2"),
        ("do USD paid USD 1", "no B7"),
    ],
    "an order ends once": [
        ("do USD fund USD 1 ALFA 1200", "done"),
        ("do ALFA payout USD 200", "order 1"),
        ("do EUR returned USD 1", "no B1"),
        ("do USD returned USD 2", "no B7"),
        ("do USD returned USD 1", "done"),
        ("do USD returned USD 1", "no B5"),
        ("do USD paid USD 1", "no B5"),
        ("do ALFA payout USD 1200", "order 2"),
        ("do USD paid USD 2", "done"),
        ("do USD returned USD 2", "no B5"),
    ],
    "payout": [
        ("do USD payout @9 0", "no B1"),
        ("do @3 payout @9 0", "no B2"),
        ("do ALFA payout @3 0", "no B3"),
        ("do ALFA payout USD 0", "no B4"),
        ("do ALFA payout USD 1", "no B9"),
        ("do USD fund USD 1 ALFA 5", "done"),
        ("do ALFA payout USD 6", "no B9"),
        ("do ALFA payout USD 5", "order 1"),
    ],
    # BETA is short of EUR 952, for which it needs USD 1100
    "a payout meets the tests before the bank": [
        *SETTLED,
        ("do USD fund USD 2 BETA 1", "done"),
        ("do BETA payout EUR 1", "no B9"),
        ("do BETA payout USD 2", "no B10"),
        ("do BETA payout USD 1", "order 1"),
        ("do BETA payout USD 1", "no B10"),
        ("do ALFA payout USD 100", "order 2"),
        ("do ALFA payout EUR 49", "no B11"),
    ],
    "settle": [
        ("do ALFA settle 1", "no B1"),
        ("do USD settle 1", "no B1"),
        ("do OP settle 0", "settled 0"),
        ("do OP settle 1", "settled 0"),
    ],
}


class Book(Runs):
    def answers(self, rows):
        """The book has this answer to each line of a script, and commands are numbered."""
        text, number = "", 0
        for line, answer in rows:
            number += line != "print"
            text += "".join(f"{it}\n" for it in answer) if line == "print" else f"{number} {answer}\n"
        self.prints(BOOK, text, script="".join(f"{line}\n" for line, _ in rows))

    def test_the_worked_scripts(self):
        for rows in WORKED.values():
            self.answers(rows)

    def test_each_reason_to_refuse(self):
        for rows in REFUSED.values():
            self.answers(rows)

    def test_pairs_in_each_state(self):
        self.answers([
            ("do ALFA instruct 3 BETA USD 10 EUR 9", "done"),
            ("do BETA instruct 3 ALFA EUR 9 USD 11", "no B6"),
            *pair(4, "USD 10", "EUR 9"),
            ("do ALFA instruct 5 BETA USD 10 EUR 9", "done"),
            ("do ALFA rescind 5", "done"),
            ("do OP settle 0", "settled 0"),
            ("print", block("0 0 0", "0 0 0", "1 1 0 1", "0 0 0")),
        ])

    def test_any_client_is_read_as_a_side(self):
        """A side and a member may be told by any client's name; the book refuses what is no member."""
        lines = "ALFA instruct 1 OP USD 1 EUR 1", "ALFA instruct 1 USD USD 1 EUR 1", "USD fund USD 1 OP 5", "USD fund USD 1 JPY 5"
        self.answers([(f"do {line}", "no B2") for line in lines])

    def test_a_fault_is_told_and_nothing_printed(self):
        for setup, script, fault in [
            (SETUP, "do ALFA payout USD 01", "fault line 1 L4\n"),
            (SETUP, "print x", "fault line 1 L3\n"),
            (SETUP, "do CARL payout USD 1", "fault line 1 L5\n"),
            (SETUP, "do ALFA\tpayout USD 1", "fault line 1 L1\n"),
            (SETUP, "print\n\n# no such word\nsettle\n", "fault line 4 L2\n"),
            (FOUR_SITES, "print", "fault setup K1\n"),
            (TWO_DOLLARS, "print", "fault setup K3\n"),
            ('{"sites":3', "print", "fault json J1\n"),
            ('{"sites":3}', "print", "fault json J2\n"),
        ]:
            self.tells(BOOK, fault, setup, script)

    def test_a_check(self):
        self.prints(["check", "setup.json"], "setup ok\n")
        self.tells(["check", "no such"], "fault file\n")

    def test_the_setup_is_judged_before_the_script(self):
        """A faulty setup is told, though the script can not be read."""
        words = ["book", "setup.json", "no such"]
        self.tells(words, "fault setup K1\n", setup=FOUR_SITES)
        self.tells(words, "fault file\n")


class Cuts(Runs):
    """Files that end anywhere: each front of a setup and of a script."""

    def test_a_setup_is_cut_at_each_byte(self):
        """An object that is cut anywhere is no JSON."""
        for at in range(len(SETUP)):
            self.tells(["check", "setup.json"], "fault json J1\n", setup=SETUP[:at])

    def test_a_script_is_cut_at_each_byte(self):
        """The last line may be cut to one that is read: before its first byte, and at each digit of its last number. Else it alone is
        faulty: its word is unknown, or it has too few."""
        read = 0
        for at in range(len(PAIR)):
            front = PAIR[:at]
            with self.subTest(front=front):
                status, text, told = self.run_on(BOOK, script=front)
                line = len(front.splitlines())
                if status == 0:
                    self.assertEqual(told, "")
                    read += 1
                else:
                    self.assertEqual((status, text), (1, ""))
                    self.assertIn(told, [f"fault line {line} L2\n", f"fault line {line} L3\n"])
        # six empty last lines, 4, 2, 4, 4 and 2 digits, and the whole of the last one
        self.assertEqual(read, 6 + 16 + 1)
