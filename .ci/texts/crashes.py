"""Crashes in worked plays of pay-ins, of which the n-th is of USD 100 n: a site falls after each event in turn, and every site that
runs then has each pay-in that it executed once, and the account is its figure and the payments on the way."""
import re

from program import PLAY, Runs, adds_up

# a view change with a site cut off, which is behind when it is healed
FIRST = "payin ALFA USD 100\npayin ALFA USD 200\npayin ALFA USD 300\n"
CHANGE = f"cut s2\n{FIRST}drain 40\ntimer s1\ndrain 40\nheal s2\npayin ALFA USD 400\n"

# a second view change, and beats that say again what was lost
LONG = f"{CHANGE}drain 40\nbeat USD\ntimer s2\ndrain 40\nbeat s2\nbeat s1\nbeat s0\ndrain 40\n"

# the site crashes behind the rows that it lacks, and recovers
BEHIND = f"{CHANGE}drain 7\ncrash s2\nrestart s2\ndrain 40\n"


def in_steps(script):
    """The lines of a script, of which a drain is so many of one turn."""
    for line in script.splitlines():
        word, _, count = line.partition(" ")
        yield from ["drain 1"] * int(count) if word == "drain" else [line]


def counts_each_once(text):
    """Whether by each printed book the pay-ins that its site executed come to 100, 300, 600 and so on."""
    books = re.findall(r"^site \d \w+ view \d+ log \d+ done (\d+) .*\n  ALFA 0 (\d+) 0$", text, re.M)
    running = re.findall(r"^site \d (?:normal|change) ", text, re.M)
    return len(books) == len(running) > 0 and all(int(sum_) == 50 * int(done) * (int(done) + 1) for done, sum_ in books)


class Crashes(Runs):
    def keeps_the_books(self, script, words=()):
        text = self.printed([*PLAY, *words], script=script)
        self.assertTrue(counts_each_once(text) and adds_up(text), script)
        return text

    def test_a_pay_in_is_executed_by_all(self):
        """It takes ten envelopes."""
        books = [line for site in range(3) for line in (f"site {site} normal view 0 log 1 done 1 cell 0", "  ALFA 0 100 0")]
        script = "payin ALFA USD 100\ndrain 40\nbeat s0\ndrain 40\nprint\ndeliver 10\ndeliver 11\n"
        self.shows(PLAY, script, [*books, "refused 7 G1"])

    def test_a_site_that_was_cut_off_recovers(self):
        """It takes the primary's log and commit number; the other backup has not heard yet that the last row is committed."""
        self.shows(PLAY, f"{CHANGE}drain 7\nprint\ncrash s2\ndeliver 38\nrestart s2\ndrain 40\nprint\n", [
            "site 2 normal view 0 log 0 done 0 cell 0",
            "refused 13 S3",
            "site 0 normal view 1 log 4 done 3 cell 0",
            "  ALFA 0 600 0",
            "site 1 normal view 1 log 4 done 4 cell 0",
            "site 2 normal view 1 log 4 done 4 cell 1",
            "  ALFA 0 1000 0",
        ])

    def test_an_answer_to_an_earlier_restart_does_not_count(self):
        script = "crash s2\nrestart s2\ndeliver 1\ncrash s2\nrestart s2\ndeliver 5\ndeliver 6\ndeliver 3\nprint\ndeliver 4\ndeliver 7\nprint\n"
        self.shows(PLAY, script, ["site 2 recovering cell 2", "site 2 normal view 0 log 0 done 0 cell 2"])

    def test_a_site_crashes_after_each_step(self):
        for script in (LONG, BEHIND):
            steps = [*in_steps(script)]
            for site in range(3):
                for at in range(1, len(steps) + 1):
                    lines = [*steps[:at], f"crash s{site}", f"restart s{site}", *steps[at:], "print", ""]
                    self.keeps_the_books("\n".join(lines))

    def test_a_site_crashes_often_and_a_save_fails(self):
        """The site restarts again where its save failed, which keeps the new count or the one before."""
        again = "restart s{0}\ndrain 40\nprint\ncrash s{0}\nrestart s{0}\n"
        for site in range(3):
            script = (LONG.replace("heal", "crash s{0}\nrestart s{0}\nheal") + 2 * again + "restart s{0}\ndrain 40\nprint\n").format(site)
            for save in range(1, 4):
                for kept in ("new", "old"):
                    text = self.keeps_the_books(script, ["--fail", f"{site}:{save}:{kept}"])
                    self.assertEqual(len(re.findall(r"^refused \d+ S2$", text, re.M)), 1, (site, save, kept))
