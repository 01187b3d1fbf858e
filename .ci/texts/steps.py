"""What each step of a bank does, and how a trace tells it: every kind of message and of command, and every reason for which a step
is not taken."""
import re

from program import NEW_BOOK, PLAY, TRACE, Runs, books, delivers, node, of_sites, sent

# a pay-in that reaches every book
PAID_IN = f"payin ALFA USD 1200\n{delivers(*range(1, 9))}beat s0\n{delivers(9, 10)}"

# ALFA asks for 200 of it, and the primary's beat orders the payment: envelope 21
ORDERED = f"{PAID_IN}do ALFA payout USD 200\n{delivers(*range(11, 19))}beat s0\n"

OF_ALFA = "ALFA 1 instruct 5 BETA EUR 100 USD 200"

# a trade, a view change in which both new logs are compared, a recovery, and a site that asks for what it lacks
CHANGE = f"""1  do ALFA instruct 5 BETA EUR 100 USD 200
{sent(1, "ALFA", "s0 s1 s2", "REQUEST 1 instruct 5 BETA EUR 100 USD 200")}
2  deliver 1 to s0, REQUEST
{sent(4, "s0", "s1 s2", f"PREPARE view 0 place 1 done 0 row {OF_ALFA}")}
3  deliver 4 to s1, PREPARE
   6  s1 -> s0  PREPAREOK view 0 place 1
4  deliver 6 to s0, PREPAREOK
   s0 executes row 1
   7  s0 -> ALFA  REPLY view 0 to 1 done
5  timer s1
   s1 is in change to view 1
{sent(8, "s1", "s0 s2", "STARTVIEWCHANGE view 1 boots 0 0 0")}
6  deliver 9 to s2, STARTVIEWCHANGE
   s2 is in change to view 1
{sent(10, "s2", "s0 s1", "STARTVIEWCHANGE view 1 boots 0 0 0")}
   12  s2 -> s1  DOVIEWCHANGE view 1 normal 0 done 0 rows 0 boots 0 0 0
7  deliver 11 to s1, STARTVIEWCHANGE
8  deliver 12 to s1, DOVIEWCHANGE
   s1 is normal in view 1
{sent(13, "s1", "s0 s2", f"STARTVIEW view 1 done 0 rows 1 last {OF_ALFA}")}
9  deliver 14 to s2, STARTVIEW
   s2 is normal in view 1
   15  s2 -> s1  PREPAREOK view 1 place 1
10  deliver 15 to s1, PREPAREOK
   s1 executes row 1
   16  s1 -> ALFA  REPLY view 1 to 1 done
11  crash s0
   s0 is down
12  restart s0
   s0 is recovering
{sent(17, "s0", "s1 s2", "RECOVERY nonce 1")}
13  deliver 17 to s1, RECOVERY
   19  s1 -> s0  RECOVERYRESPONSE view 1 nonce 1 done 1 rows 1 last {OF_ALFA} boots 1 0 0
14  deliver 18 to s2, RECOVERY
   20  s2 -> s0  RECOVERYRESPONSE view 1 nonce 1 boots 1 0 0
15  do OP settle 8
{sent(21, "OP", "s0 s1 s2", "REQUEST 1 settle 8")}
16  deliver 22 to s1, REQUEST
{sent(24, "s1", "s0 s2", "PREPARE view 1 place 2 done 1 row OP 1 settle 8")}
17  do BETA rescind 5
{sent(26, "BETA", "s0 s1 s2", "REQUEST 1 rescind 5")}
18  deliver 27 to s1, REQUEST
{sent(29, "s1", "s0 s2", "PREPARE view 1 place 3 done 1 row BETA 1 rescind 5")}
19  deliver 30 to s2, PREPARE
   s2 executes row 1
   31  s2 -> s1  GETSTATE view 1 base 1
20  deliver 31 to s1, GETSTATE
   32  s1 -> s2  NEWSTATE view 1 base 1 done 1 rows 2 last BETA 1 rescind 5
"""


class Steps(Runs):
    def is_told(self, trace, words=()):
        """The script of the steps that a trace tells is traced so."""
        steps = re.findall(r"(?m)^\d+  (deliver \d+|[^:\n]*)", trace)
        self.prints([*TRACE, *words], trace, script="".join(f"{it}\n" for it in steps))

    def test_a_pay_in_is_told(self):
        self.is_told(f"""1  payin ALFA USD 1200
{sent(1, "USD", "s0 s1 s2", "REQUEST 1 fund USD 1 ALFA 1200")}
2  deliver 1 to s0, REQUEST
{sent(4, "s0", "s1 s2", "PREPARE view 0 place 1 done 0 row USD 1 fund USD 1 ALFA 1200")}
3  deliver 2 to s1, REQUEST: dropped, another site is the primary
4  deliver 4 to s1, PREPARE
   6  s1 -> s0  PREPAREOK view 0 place 1
5  deliver 5 to s2, PREPARE
   7  s2 -> s0  PREPAREOK view 0 place 1
6  deliver 6 to s0, PREPAREOK
   s0 executes row 1
   8  s0 -> USD  REPLY view 0 to 1 done
7  deliver 7 to s0, PREPAREOK
8  deliver 8 to USD, REPLY
9  beat s0
{sent(9, "s0", "s1 s2", "COMMIT view 0 done 1")}
""")

    def test_a_view_change_and_what_follows_are_told(self):
        self.is_told(CHANGE)

    def test_a_vote_with_rows_is_told(self):
        """Site 2 leads view 2, for which its timer runs out twice."""
        script = "do ALFA payout USD 300\ndeliver 1\ndeliver 4\ntimer s2\ntimer s2\ndeliver 10\n"
        self.shows(TRACE, script, [
            "   9  s2 -> s0  STARTVIEWCHANGE view 2 boots 0 0 0",
            "6  deliver 10 to s1, STARTVIEWCHANGE",
            "   s1 is in change to view 2",
            "   12  s1 -> s2  STARTVIEWCHANGE view 2 boots 0 0 0",
            "   13  s1 -> s2  DOVIEWCHANGE view 2 normal 0 done 0 rows 1 last ALFA 1 payout USD 300 boots 0 0 0",
        ])

    def test_a_currency_that_is_not_there_is_told_by_its_number(self):
        script = "do ALFA instruct 5 BETA EUR 100 @7 200\n"
        self.shows(TRACE, script, ["   3  ALFA -> s2  REQUEST 1 instruct 5 BETA EUR 100 @7 200"])

    def test_refusals_and_falls_are_told(self):
        self.is_told("""1  deliver 1: G1, no envelope has this number
2  close @3 USD: N2, there is no such member
3  do @9 settle 1: G2, there is no such actor
4  crash s2
   s2 is down
5  timer s2: S3, the site is down
6  beat USD
7  restart s2: S2, the boot cell did not save, and the site is down, its cell holds 1
""", ["--fail", "2:1:new"])

    def test_each_reason_to_take_no_step(self):
        """The steps change nothing: three envelopes were sent, and no account has moved."""
        refused = [
            ("deliver 0", "G1"), ("deliver 4", "G1"), ("timer s3", "G2"), ("beat @203", "G2"), ("beat @104", "G2"), ("beat @3", "G2"),
            ("close @3 @3", "G2"), ("do ALFA payout USD 5", "G3"), ("beat s2", "S3"), ("restart s0", "S4"), ("close @3 USD", "N2"),
            ("payin ALFA USD 0", "N3"), ("payin ALFA USD 10001", "N1"), ("deliver 4", "G1"),
        ]
        script = "do ALFA payout USD 5\ncrash s2\n" + "".join(f"{step}\n" for step, _ in refused) + "print\n"
        told = [f"refused {line} {code}" for line, (_, code) in enumerate(refused, 3)]
        self.shows(PLAY, script, [*told, "site 2 down cell 0", "node USD account 0 payins 0 payouts 0", "client ALFA 1 waits"])

    def test_requests_that_come_again_do_nothing(self):
        """The primary says its REPLY again each time, and the others drop."""
        self.shows(PLAY, f"{PAID_IN}{5 * delivers(1, 2, 3)}print\n{delivers(15, 16)}", [
            "site 0 normal view 0 log 1 done 1 cell 0",
            "  ALFA 0 1200 0",
            *node("USD account 1200 payins 1 payouts 0", 1200),
            "refused 30 G1",
        ])

    def test_a_pay_in_reaches_each_book_in_ten_envelopes(self):
        """Three REQUESTs, two PREPAREs, two PREPAREOKs, a REPLY and two COMMITs; the REQUESTs once more change nothing."""
        script = "payin ALFA USD 1200\ndrain 100\nbeat s0\ndrain 100\n"
        paid = "normal view 0 log 1 done 1 cell 0\n" + NEW_BOOK.replace("ALFA 0 0", "ALFA 0 1200").replace("figure 0 0", "figure 0 1200")
        for again in 0, 5:
            text = books({site: paid for site in range(3)}, 1200, 1200)
            self.prints(PLAY, text, script=f"{script}{again * delivers(1, 2, 3)}print\n")
        self.shows(PLAY, f"{script}{delivers(10, 11)}", ["refused 6 G1"])

    def test_a_beat_tells_how_far_it_has_come_before_it_orders(self):
        """Two rows are executed, and order 1 is open."""
        commits = ["   19  s0 -> s1  COMMIT view 0 done 2", "   20  s0 -> s2  COMMIT view 0 done 2"]
        self.shows(TRACE, ORDERED, ["22  beat s0", *commits, "   21  s0 -> USD  PAYORDER USD 1 ALFA 200"])

    def test_a_payment_is_ordered_and_done_once(self):
        """The order is in the primary's book alone at first; its envelope comes a second time."""
        self.shows(PLAY, f"{ORDERED}print\n{delivers(*range(19, 30), 21)}print\n", [
            *node("USD account 1200 payins 1 payouts 0", 1000, 1200),
            "client ALFA 1 order 1",
            *(f"site {site} normal view 0 log 3 done {done} cell 0" for site, done in enumerate((3, 2, 2))),
            *node("USD account 1000 payins 1 payouts 1", 1000, 1000, 1000),
        ])

    def test_an_order_and_its_payment_are_told(self):
        ordered = ["22  beat s0", "   21  s0 -> USD  PAYORDER USD 1 ALFA 200"]
        self.shows(TRACE, f"{ORDERED}deliver 21\n", [*ordered, "23  deliver 21 to USD, PAYORDER", "   22  USD -> s0  REQUEST 2 paid USD 1"])

    def test_an_order_that_is_returned_is_told(self):
        told = ["24  deliver 21 to USD, PAYORDER", "   22  USD -> s0  REQUEST 2 returned USD 1"]
        self.shows(TRACE, f"{ORDERED}close ALFA USD\ndeliver 21\n", told)

    def test_answers_are_told(self):
        """A settlement run over no pair, and a rescission of a pair that there is not."""
        script = "do OP settle 8\ndeliver 1\ndeliver 4\ndeliver 6\ndo ALFA rescind 5\ndeliver 8\ndeliver 11\ndeliver 13\n"
        self.shows(TRACE, script, ["   7  s0 -> OP  REPLY view 0 to 1 settled 0", "   14  s0 -> ALFA  REPLY view 0 to 1 no B7"])

    def test_five_sites_want_two_acknowledgements_of_others(self):
        """One that comes twice is one."""
        script = "payin ALFA USD 1200\ndeliver 1\ndeliver 6\ndeliver 10\ndeliver 10\nprint\ndeliver 7\ndeliver 11\nprint\n"
        want = [f"site 0 normal view 0 log 1 done {done} cell 0" for done in (0, 1)]
        self.shows(PLAY, script, want, of_sites(5))

    def test_a_timer_tells_six_other_sites(self):
        told = sent(1, "s1", "s0 s2 s3 s4 s5 s6", "STARTVIEWCHANGE view 1 boots 0 0 0 0 0 0 0")
        self.prints(TRACE, f"1  timer s1\n   s1 is in change to view 1\n{told}\n", of_sites(7), "timer s1\n")
