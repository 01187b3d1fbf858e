"""Plays: what is printed of worked scripts, line by line, and that chaos keeps every account. Traces: each step with what came of
it and what it sent."""
import re

from program import PLAY, TRACE, Runs, adds_up, books, delivers, node, of_sites, sent

# a pay-out is ordered of an account that is closed
CLOSED = "payin ALFA USD 1200\ndrain 100\nbeat s0\ndrain 100\nclose ALFA USD\ndo ALFA payout USD 200\ndrain 100\nbeat s0\n"


class Plays(Runs):
    def test_a_new_world(self):
        self.prints(PLAY, books(), script="print\n")

    def test_an_empty_play(self):
        self.prints(PLAY, "")

    def test_refused_steps(self):
        steps = [
            ("do ALFA payout USD 5", None), ("do ALFA payout USD 6", "G3"), ("timer s9", "G2"), ("deliver 99", "G1"), ("cut @9", "G2"),
            ("heal s3", "G2"), ("payin ALFA USD 10001", "N1"), ("close ALFA USD", None), ("close ALFA USD", "N7"), ("crash s1", None),
            ("beat s1", "S3"), ("restart s0", "S4"),
        ]
        refused = "".join(f"refused {line} {code}\n" for line, (_, code) in enumerate(steps, 1) if code)
        self.prints(PLAY, refused, script="".join(f"{step}\n" for step, _ in steps))

    def test_faults(self):
        self.tells(PLAY, "fault line 1 L5\n", script="do USD payout USD 1")
        self.tells(PLAY, "fault line 1 L2\n", script="rest 5")
        self.tells(PLAY, "fault line 2 L4\n", script="print\ntimer @200")

    def test_a_vote_binds_though_it_was_forgotten(self):
        script = f"timer s2\ntimer s2\ncrash s2\nrestart s2\n{delivers(5, 6, 7, 8, 4)}print\npayin ALFA USD 1\n{delivers(9, 12, 14)}print\n"
        new = "normal view 0 log 0 done 0 cell"
        self.shows(PLAY, script, [
            f"site 0 {new} 0", f"site 1 {new} 0", f"site 2 {new} 1",
            "site 0 normal view 0 log 1 done 1 cell 0", "site 1 normal view 0 log 1 done 0 cell 0", f"site 2 {new} 1",
        ])

    def test_votes_of_an_earlier_boot_are_given_up(self):
        script = f"timer s1\n{delivers(1, 5)}crash s0\nrestart s0\n{delivers(7, 2, 10)}print\n{delivers(11)}print\n"
        self.shows(PLAY, script, [
            "site 0 recovering cell 1", "site 1 change view 1 log 0 done 0 cell 0", "site 2 change view 1 log 0 done 0 cell 0",
            "site 0 recovering cell 1", "site 1 normal view 1 log 0 done 0 cell 0", "site 2 change view 1 log 0 done 0 cell 0",
        ])

    def test_a_request_survives_the_primary(self):
        script = (
            f"payin ALFA USD 500\n{delivers(1)}crash s0\ntimer s1\n{delivers(7, 9, 10, 12)}beat USD\n"
            f"{delivers(14, 17, 18, 19)}beat s1\n{delivers(21)}restart s0\n{delivers(22, 23, 24, 25, 4)}print\n"
        )
        self.shows(PLAY, script, [
            "site 0 normal view 1 log 1 done 1 cell 1",
            "  ALFA 0 500 0",
            "site 1 normal view 1 log 1 done 1 cell 0",
            "site 2 normal view 1 log 1 done 1 cell 0",
            *node("USD account 500 payins 1 payouts 0", 500, 500, 500),
        ])

    def test_an_order_comes_back_from_a_closed_account(self):
        script = f"{CLOSED}print\ndrain 100\n{delivers(21)}beat s0\ndrain 100\nprint\npayin ALFA USD 1\n"
        sites = [line for site in range(3) for line in (f"site {site} normal view 0 log 3 done 3 cell 0", "  ALFA 0 1200 0", "  open 0")]
        self.shows(PLAY, script, [
            *node("USD account 1200 payins 1 payouts 0", 1000, 1200, 1200),
            *sites,
            *node("USD account 1200 payins 1 payouts 0 returned 1", 1200, 1200, 1200),
            "client ALFA 1 order 1",
            "refused 15 N7",
        ])

    def test_a_return_survives_the_primary(self):
        """The primary crashes between the order's return and the bank's word of it; the next primary credits the member once."""
        turns = "".join(f"drain 100\n{it}\n" for it in ("timer s1", "beat USD", "beat s1"))
        script = f"{CLOSED}deliver 21\ncrash s0\n{turns}drain 100\nprint\n"
        sites = [line for site in (1, 2) for line in (f"site {site} normal view 1 log 3 done 3 cell 0", "  ALFA 0 1200 0", "  open 0")]
        told = node("USD account 1200 payins 1 payouts 0 returned 1", None, 1200, 1200)
        self.shows(PLAY, script, ["site 0 down cell 0", *sites, *told, "client ALFA 1 order 1"])

    def test_chaos_keeps_every_account(self):
        script = "chaos 7 1000\nprint\nchaos 8 1000\nprint\n"
        text = self.printed(PLAY, script=script)
        self.assertEqual(self.printed(PLAY, script=script), text)
        self.assertTrue(adds_up(text))

    def test_chaos_keeps_every_account_of_more_sites(self):
        script = "chaos 7 20000\nprint\n"
        for sites in (3, 5, 7):
            text = self.printed(PLAY, of_sites(sites), script)
            self.assertEqual(self.printed(PLAY, of_sites(sites), script), text, sites)
            self.assertTrue(adds_up(text), sites)

    def test_accounts_come_to_the_figures_after_chaos(self):
        """Where every site is up and all is said again until it has come, nothing is on the way: each account is each site's figure."""
        for sites in (3, 5, 7):
            numbers = range(sites)
            beats = "".join(f"beat {who}\n" for who in (*(f"s{it}" for it in numbers), "EUR", "USD", "JPY", "OP", "ALFA", "BETA"))
            script = "chaos 7 20000\n" + "".join(f"restart s{it}\n" for it in numbers) + (beats + "drain 100000\n") * 60 + "print\n"
            text = self.printed(PLAY, of_sites(sites), script)
            ways = re.findall(r"^  site \d figure -?\d+ way (-?\d+)$", text, re.M)
            self.assertEqual(ways, ["0"] * (3 * sites), sites)
            self.assertTrue(adds_up(text), sites)

    def test_five_sites_recover_and_commit(self):
        recovers = "crash s4\nrestart s4\ndeliver 1\ndeliver 2\ndeliver 5\ndeliver 6\nprint\ndeliver 3\ndeliver 7\nprint\n"
        want = ["site 4 recovering cell 1", "site 4 normal view 0 log 0 done 0 cell 1"]
        self.shows(PLAY, recovers, want, of_sites(5))
        # a pay-in that reaches every book takes 18 envelopes
        pays_in = "payin ALFA USD 1200\ndrain 100\nbeat s0\ndrain 100\ndeliver 18\ndeliver 19\n"
        self.shows(PLAY, pays_in, ["refused 6 G1"], of_sites(5))


# What is refused by the play, by the world, by a client, a site and a node; what is dropped; and a site that falls as its first save
# fails, though its cell takes the new count.
STEPS = """cut @999
deliver 1
do ALFA payout USD 5
do ALFA payout USD 6
deliver 2
deliver 1
crash s1
deliver 4
print
restart s1
restart s0
timer s9
payin ALFA USD 10001
restart s1
drain 2
skip 1
cut s2
drain 2
heal s7
"""

# Site 1 asks by its second count, as the first was saved though it fell; the turns of a drain are steps; envelope 3 is skipped, and
# the one to the site that is cut off is held back.
TRACED = f"""refused 1 G2
1  deliver 1: G1, no envelope has this number
2  do ALFA payout USD 5
{sent(1, "ALFA", "s0 s1 s2", "REQUEST 1 payout USD 5")}
3  do ALFA payout USD 6: G3, the client still waits for an answer
4  deliver 2 to s1, REQUEST: dropped, another site is the primary
5  deliver 1 to s0, REQUEST
{sent(4, "s0", "s1 s2", "PREPARE view 0 place 1 done 0 row ALFA 1 payout USD 5")}
6  crash s1
   s1 is down
7  deliver 4 to s1, PREPARE: S3, the site is down
8  restart s1: S2, the boot cell did not save, and the site is down, its cell holds 1
9  restart s0: S4, the site is not down
10  timer s9: G2, there is no such actor
11  payin ALFA USD 10001: N1, the account that pays is short
12  restart s1
   s1 is recovering
{sent(6, "s1", "s0 s2", "RECOVERY nonce 2")}
13  deliver 1 to s0, REQUEST: dropped, the site has it already
14  deliver 2 to s1, REQUEST: dropped, the site's status takes no part in it
skip 3
cut s2
15  deliver 4 to s1, PREPARE: dropped, the site's status takes no part in it
16  deliver 6 to s0, RECOVERY
   8  s0 -> s1  RECOVERYRESPONSE view 0 nonce 2 done 0 rows 1 last ALFA 1 payout USD 5 boots 0 2 0
held back by a cut: 5
refused 19 G2
"""


class Traces(Runs):
    def test_each_step_is_told(self):
        self.prints([*TRACE, "--fail", "1:1:new"], TRACED, script=STEPS)

    def test_a_script_that_tries_nothing(self):
        self.prints(TRACE, "")
        self.prints(TRACE, "cut s1\nheal s1\n", script="print\ncut s1\nskip 3\ndrain 9\nheal s1\n")

    def test_what_a_cut_and_a_skip_keep_back_is_told(self):
        """Site 1 is cut off as its REQUEST is next; a drain to the end finds it and the PREPARE to it. Of the three REQUESTs of BETA
        two are skipped, and more than there is are passed over to the end."""
        script = "do ALFA payout USD 5\ncut s1\ncut s1\ndrain 9\nheal s1\nheal s1\ndo BETA payout USD 5\nskip 2\nskip 9\nskip 9\ndrain 9\n"
        self.prints(TRACE, f"""1  do ALFA payout USD 5
{sent(1, "ALFA", "s0 s1 s2", "REQUEST 1 payout USD 5")}
cut s1
cut s1
2  deliver 1 to s0, REQUEST
{sent(4, "s0", "s1 s2", "PREPARE view 0 place 1 done 0 row ALFA 1 payout USD 5")}
3  deliver 3 to s2, REQUEST: dropped, another site is the primary
4  deliver 5 to s2, PREPARE
   6  s2 -> s0  PREPAREOK view 0 place 1
5  deliver 6 to s0, PREPAREOK
   s0 executes row 1
   7  s0 -> ALFA  REPLY view 0 to 1 no B9
6  deliver 7 to ALFA, REPLY
held back by a cut: 2, 4
heal s1
heal s1
7  do BETA payout USD 5
{sent(8, "BETA", "s0 s1 s2", "REQUEST 1 payout USD 5")}
skip 8 to 9
skip 10
""", script=script)

    def test_a_turn_of_a_drain_passes_over_what_a_cut_holds_back(self):
        """The first drain ends at the one that it delivers; the second finds only held ones."""
        script = "do ALFA payout USD 5\ncut s0\ndrain 1\ncut s2\ndrain 1\ndrain 1\n"
        dropped = "2  deliver 2 to s1, REQUEST: dropped, another site is the primary"
        self.shows(TRACE, script, ["cut s0", dropped, "held back by a cut: 1", "cut s2", "held back by a cut: 3"])

    def test_faults(self):
        self.tells(TRACE, "fault line 2 L5\n", script="beat s0\ndo USD payout USD 1")
        self.tells(TRACE, "fault line 1 L2\n", script="rest 5")
