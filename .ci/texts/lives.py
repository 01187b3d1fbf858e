"""What `--verbose` tells of a live run, line by line."""
import re

from program import LIVE, Runs

# Up to line 5 no actor sends anything, so that all that is told of these lines is known. Lines 2, 6 and 7 are refused: site 2 is down,
# there is no site 9, and 0 is no amount. The restart sends 2 RECOVERYs, and from then on it is for the threads what comes when.
SCRIPT = """crash s2
beat s2
rest 1
beat s1
restart s2
crash s9
payin ALFA USD 0
do ALFA payout USD 5
beat s0
rest 30
timer s1
rest 30
crash s0
"""

STOOD = "s0 normal in view 0, s1 normal in view 0, s2 down, 0 frames sent, 0 came"
S2 = "(s2 recovering|s2 normal in view #)"
LATER = f"(s1 normal in view 1|s1 in change to view 1), ({S2}|s2 in change to view 1)"

# what is told, where # is a number
TOLD = f"""42 connections between 9 actors
line 1: s2 at clock 1: sends 0
line 1: {STOOD}
line 2: s2 at clock 2: S3, the site is down
line 2: {STOOD}
line 3: rests 1 ms
line 3: {STOOD}
line 4: s1 at clock 1: sends 0
line 4: {STOOD}
line 5: s2 at clock 3: sends 2
line 5: s0 normal in view 0, s1 normal in view 0, s2 recovering, 0 frames sent, 0 came
line 6: s9: G2, there is no such actor
line 7: USD at clock 1: N3, the amount is not 1 to 1000000000000
line 8: ALFA at clock 1: sends 3
line 9: s0 at clock #: sends 2
line 9: s0 normal in view 0, s1 normal in view 0, {S2}, # frames sent, # came
line 10: rests 30 ms
line 10: s0 normal in view 0, s1 normal in view 0, {S2}, # frames sent, # came
line 11: s1 at clock #: sends 2
line 11: s0 normal in view 0, s1 in change to view 1, {S2}, # frames sent, # came
line 12: rests 30 ms
line 12: (s0 normal in view #|s0 in change to view 1), {LATER}, # frames sent, # came
line 13: s0 at clock #: sends 0
line 13: s0 down, {LATER}, # frames sent, # came
# frames came, and 0 connections broke
# envelopes were sent, and # of them did not come
at the end s0 down, (s1 normal in view #|s1 in change to view 1), (s2 normal in view #|s2 in change to view 1|s2 recovering)
3 lines were refused: the first, line 2, S3"""


class Lives(Runs):
    def test_what_goes_on_is_told(self):
        status, text, told = self.run_on([*LIVE, "--verbose"], script=SCRIPT)
        self.assertEqual((status, text.splitlines()[-1]), (0, "audit yes"))
        lines, wanted = told.splitlines(), TOLD.splitlines()
        for line, want in zip(lines, wanted):
            self.assertRegex(line, f"^{want.replace('#', '[0-9]+')}$")
        self.assertEqual(len(lines), len(wanted), told)

    def test_without_a_file_or_a_net(self):
        """Words, setup and script are judged before."""
        self.tells(["live", "setup.json", "no such"], "fault file\n")
        self.tells(LIVE, "fault line 1 L2\n", script="drain 1")
