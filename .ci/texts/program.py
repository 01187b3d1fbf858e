"""The built program, and the setup of the worked scripts."""
import os
import resource
import subprocess
import sys
import tempfile
import unittest

sys.path.append(os.path.dirname(os.path.dirname(os.path.abspath(__file__))))

from books import blocks_of  # noqa: E402
from shared import BUILT  # noqa: E402

# three currencies, and two members with equal limits
SETUP = """{"sites":3,
 "currencies":[{"code":"EUR","rate":110,"haircut":500},
  {"code":"USD","rate":100,"haircut":0},{"code":"JPY","rate":1,"haircut":1000}],
 "members":[{"name":"ALFA","aggregate":150000,"short":[1000,1000,100000],
   "deposit":[10000,10000,1000000]},
  {"name":"BETA","aggregate":150000,"short":[1000,1000,100000],
   "deposit":[10000,10000,1000000]}]}"""

# four sites in place of three, and no members
FOUR_SITES = '{"sites":4,"currencies":[],"members":[]}'

# two currencies of one code
TWO_DOLLARS = (
    '{"sites":3,"currencies":[{"code":"USD","rate":1,"haircut":0},{"code":"USD","rate":1,"haircut":0}],"members":[]}'
)

NO_SITE_3 = "error: the setup has no site 3, of which a save is to fail\n"


def of_sites(count):
    """The setup with 5 or 7 sites in place of three."""
    return SETUP.replace('"sites":3', f'"sites":{count}')


NEW_BOOK = "  ALFA 0 0 0\n  BETA 0 0 0\n  pairs 0 0 0 0\n  figure 0 0 0\n  open 0\n"
NEW_SITE = f"normal view 0 log 0 done 0 cell 0\n{NEW_BOOK}"


def node(told, *figures):
    """The lines of a node of which this is told, with the figure of each site that runs; what it lacks of the account is on the way."""
    account = int(told.split()[2])
    ways = (f"  site {site} figure {it} way {account - it}" for site, it in enumerate(figures) if it is not None)
    return [f"node {told}", *ways]


def books(sites=None, paid=0, figure=0):
    """What `print` prints of a bank that is new but for these sites, by their numbers, with what is told of each, and for so much that was
    paid in at the node of USD, of which each site that runs has this figure."""
    told = [(sites or {}).get(site, NEW_SITE) for site in range(3)]
    nodes = []
    for code, account, known in ("EUR", 0, 0), ("USD", paid, figure), ("JPY", 0, 0):
        figures = [known if it.startswith("normal") else None for it in told]
        nodes += node(f"{code} account {account} payins {int(account > 0)} payouts 0", *figures)
    return "".join(f"site {site} {it}" for site, it in enumerate(told)) + "".join(f"{line}\n" for line in nodes)


def delivers(*numbers):
    """The lines of a script that deliver these envelopes."""
    return "".join(f"deliver {it}\n" for it in numbers)


def sent(first, sender, receivers, message):
    """The lines of a trace that tell of one message to each of these, numbered from the first."""
    return "\n".join(f"   {number}  {sender} -> {it}  {message}" for number, it in enumerate(receivers.split(), first))


def adds_up(text):
    """Whether there are printed books, of which nothing is wrong: each account is a site's figure and the payments on the way."""
    blocks, wrong = blocks_of(text)
    return blocks and not wrong


class Runs(unittest.TestCase):
    """Cases over a folder that has a setup.json and a script.txt."""

    maxDiff = None
    most_files = None  # that the program may have open at once, where it is fewer than the machine allows

    def limit(self):
        """What the program is held to, before it starts."""
        if self.most_files:
            resource.setrlimit(resource.RLIMIT_NOFILE, (self.most_files, self.most_files))

    def run_on(self, words, setup=SETUP, script="", files=None, out=subprocess.PIPE):
        """The status of a run, what it printed, where that goes nowhere else, and what it told; in the folder stand these files too."""
        texts = {"setup.json": setup.encode(), "script.txt": script.encode(), **(files or {})}
        with tempfile.TemporaryDirectory() as folder:
            for name, text in texts.items():
                with open(os.path.join(folder, name), "wb") as file:
                    file.write(text)
            how = {"stdin": subprocess.DEVNULL, "stdout": out, "stderr": subprocess.PIPE, "timeout": 120, "preexec_fn": self.limit}
            ran = subprocess.run([BUILT, *words], cwd=folder, **how)
        return ran.returncode, (ran.stdout or b"").decode(), ran.stderr.decode()

    def ends(self, words, want, setup=SETUP, script=""):
        """Runs the program, and compares its status, what it printed and what it told."""
        with self.subTest(words=words, script=script):
            self.assertEqual(self.run_on(words, setup, script), want)

    def prints(self, words, text, setup=SETUP, script=""):
        """Runs the program, which ends well and prints this."""
        self.ends(words, (0, text, ""), setup, script)

    def tells(self, words, fault, setup=SETUP, script=""):
        """Runs the program, which prints nothing and tells a fault."""
        self.ends(words, (1, "", fault), setup, script)

    def printed(self, words, setup=SETUP, script=""):
        """What a run prints that ends well."""
        status, text, told = self.run_on(words, setup, script)
        self.assertEqual((status, told), (0, ""), script)
        return text

    def shows(self, words, script, want, setup=SETUP):
        """Runs a script, and looks for these lines in this order among those that it prints."""
        lines = iter(self.printed(words, setup, script).splitlines())
        for line in want:
            self.assertIn(line, lines, script)

    def has_no_form(self, words, told, setup=SETUP, script=""):
        """Runs the program on words that ask for nothing it does: told on standard error, with status 2."""
        with self.subTest(words=words):
            status, text, said = self.run_on(words, setup, script)
            self.assertEqual((status, text), (2, ""))
            self.assertIn(told, said)


BOOK = ["book", "setup.json", "script.txt"]
PLAY = ["play", "setup.json", "script.txt"]
TRACE = ["trace", "setup.json", "script.txt"]
LIVE = ["live", "setup.json", "script.txt"]
