"""Lines of scripts of each kind: what each is read as, and which are refused, by which code."""
from program import BOOK, LIVE, PLAY, TRACE, Runs

# commands, which a script of any kind has, and what a book answers to them
COMMANDS = """do ALFA instruct 7 BETA USD 1100 @0 1000
do @2 rescind 4294967295
do OP settle 0
do @102 fund USD 1 ALFA 1200
do BETA payout JPY 18446744073709551615
do @102 paid USD 1
do @103 returned @2 9
"""
ANSWERS = ["done", "no B7", "settled 0", "done", "no B4", "no B7", "no B7"]

# how a trace tells them: a node sends nothing by a command, and a client waits
COMMANDS_TOLD = [
    "1  do ALFA instruct 7 BETA USD 1100 EUR 1000",
    "   3  ALFA -> s2  REQUEST 1 instruct 7 BETA USD 1100 EUR 1000",
    "2  do BETA rescind 4294967295",
    "3  do OP settle 0",
    "4  do USD fund USD 1 ALFA 1200: G2, there is no such actor",
    "5  do BETA payout JPY 18446744073709551615: G3, the client still waits for an answer",
    "6  do USD paid USD 1: G2, there is no such actor",
    "7  do JPY returned JPY 9: G2, there is no such actor",
]

# what actors do, with each way to tell one, and how a trace tells it; a number above 199 is told as a site's
ACTORS = [
    ("payin ALFA USD 500", "1  payin ALFA USD 500"),
    ("payin @65535 @255 18446744073709551615", "2  payin s65335 @255 18446744073709551615: G2, there is no such actor"),
    ("close BETA JPY", "3  close BETA JPY"),
    ("close OP @3", "4  close OP @3: G2, there is no such actor"),
    ("beat OP", "5  beat OP"),
    ("beat BETA", "6  beat BETA"),
    ("beat USD", "7  beat USD"),
    ("beat @65535", "8  beat s65335: G2, there is no such actor"),
    ("beat s0", "9  beat s0"),
    ("beat s255", "10  beat s255: G2, there is no such actor"),
    ("timer s0", "11  timer s0"),
    ("timer s255", "12  timer s255: G2, there is no such actor"),
    ("crash s1", "13  crash s1"),
    ("restart s2", "14  restart s2: S4, the site is not down"),
    # the lines of a play alone
    ("deliver 0", "15  deliver 0: G1, no envelope has this number"),
    ("deliver 4294967295", "16  deliver 4294967295: G1, no envelope has this number"),
    ("cut s2", "cut s2"),
    ("cut ALFA", "cut ALFA"),
    ("heal EUR", "heal EUR"),
    ("heal @7", "refused 20 G2"),
    ("skip 4294967295", "skip 1 to 10"),
    ("drain 4294967295", None),
    ("chaos 18446744073709551615 0", None),
    ("chaos 0 0", None),
]

# lines that a play and a live run have, and some that a play has alone
OF_ACTORS = ["payin ALFA USD 5", "close ALFA USD", "beat s1", "timer s1", "crash s1", "restart s1"]
OF_A_PLAY = ["deliver 1", "drain 1", "skip 1", "cut s1", "heal s1", "chaos 1 1"]

# A line that is refused by each of these commands, all on one setup. It has a word too few or too many, though a number or a name in it
# is no good either; a number that is malformed or too large, behind a name that nothing has or before it; or such a name.
REFUSED = [
    (BOOK, "L2", [*OF_ACTORS, *OF_A_PLAY, "rest 1", "do ALFA transfer 1 BETA USD 1"]),
    (PLAY, "L2", ["rest 1", "Beat s1", "s1"]),
    (LIVE, "L2", [*OF_A_PLAY, "print", "payins"]),
    (BOOK, "L3", ["do ALFA instruct 1 BETA USD 1 EUR"]),
    (PLAY, "L3", ["deliver", "deliver 01 2", "drain", "drain 1 2", "skip", "skip 1 2", "cut", "cut CARL s1", "heal", "heal s1 s2", "chaos 01", "chaos 1 2 3", "print 1"]),
    (LIVE, "L3", ["rest", "rest 1 2"]),
    (BOOK, "L4", ["do ALFA instruct 1 CARL USD 1 EUR 01", "do OP settle -1", "do @65536 payout USD 1", "do CARL payout USD 01"]),
    (PLAY, "L4", [
        "deliver 01", "deliver s1", "deliver 4294967296", "drain x", "skip -1", "cut s1000", "heal @x", "chaos 1 1000001", "chaos 1 4294967296",
        "chaos 18446744073709551616 1", "chaos 01 1",
    ]),
    (LIVE, "L4", ["rest 4294967296", "rest ALFA"]),
    (BOOK, "L5", ["do ALFA instruct 1 BETA USD 1 GBP 1"]),
    (PLAY, "L5", ["cut CARL", "heal 200"]),
]

# the same of a play and of a live run
REFUSED_BOTH = [
    ("L3", [
        "payin ALFA 05", "payin CARL USD 5 5", "close ALFA", "close ALFA USD 1", "beat", "beat s256 s1", "timer", "timer s1 s2", "crash",
        "crash ALFA BETA", "restart", "restart s0 s1", "do ALFA", "do USD",
    ]),
    ("L4", [
        "payin CARL USD 05", "payin CARL GBP 18446744073709551616", "payin CARL @256 5", "payin @65536 GBP 5", "close @65536 GBP", "close CARL @",
        "beat s", "beat s256", "beat s01", "beat @65536", "beat @", "timer s", "timer s256", "timer @200", "timer @", "crash @1", "crash s-1",
        "restart site", "restart @0",
    ]),
    ("L5", [
        "do USD payout USD 1", "do CARL payout USD 1", "do s1 payout USD 1", "payin CARL USD 5", "payin ALFA GBP 5", "payin s1 USD 5",
        "close CARL USD", "close ALFA OP", "beat CARL", "beat S1", "timer ALFA", "timer 1", "crash ALFA", "restart OP",
        # of a script of one book alone a node's code tells who sends
        "do USD paid USD 1",
    ]),
]


class Scripts(Runs):
    def test_commands_are_read_in_each_kind(self):
        self.prints(BOOK, "".join(f"{at} {answer}\n" for at, answer in enumerate(ANSWERS, 1)), script=COMMANDS)
        self.shows(TRACE, COMMANDS, COMMANDS_TOLD)
        status, text, told = self.run_on(LIVE, script=COMMANDS)
        self.assertEqual((status, text.splitlines()[-1]), (0, "audit yes"))
        # BETA waits for an answer, where that is not there yet
        self.assertRegex(told, "^[34] lines were refused: the first, line 4, G2\n$")

    def test_a_rest_is_read(self):
        self.assertIn("\nline 1: rests 25 ms\n", self.run_on([*LIVE, "--verbose"], script="rest 25")[2])

    def test_a_node_sends_to_a_book_by_its_code(self):
        self.prints(BOOK, "1 done\n2 order 1\n3 done\n", script="do USD fund USD 1 ALFA 200\ndo ALFA payout USD 200\ndo USD paid USD 1\n")

    def test_what_actors_do(self):
        self.shows(TRACE, "".join(f"{line}\n" for line, _ in ACTORS), [told for _, told in ACTORS if told])

    def test_lines_that_are_refused(self):
        for words, code, lines in [*REFUSED, *((words, *row) for words in (PLAY, LIVE) for row in REFUSED_BOTH)]:
            for line in lines:
                self.tells(words, f"fault line 1 {code}\n", script=line)

    def test_the_first_faulty_line_is_told(self):
        """And of one line a byte before all else that its words may be told of."""
        for words, line, code, script in [
            (BOOK, 5, "L3", "print\n# a comment\n\nprint\ndo ALFA\nprint x"),
            (PLAY, 3, "L1", "print\n# deliver 01\ndeliver\t1\nrest 1"),
            (LIVE, 4, "L2", "beat s1\n\nrest 1\nprint\nrest"),
            (BOOK, 1, "L6", "x" * 257),
            (BOOK, 65_536, "L7", "\n" * 65_536),
        ]:
            self.tells(words, f"fault line {line} {code}\n", script=script)
