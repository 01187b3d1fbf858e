"""Pictures: which words ask for one, how one ends, and some of what it tells. What pictures of the example plays show is held
against their traces by `.ci/pictures`."""
import re

from program import FOUR_SITES, NO_SITE_3, SETUP, TRACE, Runs

PICTURE = [*TRACE, "--svg"]

# one step sends a request to each site; the primary takes it, a backup drops it, and the third is down
SCRIPT = """do ALFA payout USD 5
deliver 1
deliver 2
crash s2
deliver 3
"""


class Pictures(Runs):
    def test_each_way_of_an_envelope_is_told(self):
        picture = self.printed(PICTURE, script=SCRIPT)
        for text in [
            ">A run of the bank: steps 1 to 5 of 5</text>",
            "<title>step 1: do ALFA payout USD 5</title>",
            "<title>1  ALFA -&gt; s0  REQUEST 1 payout USD 5; sent in step 1, delivered in step 2</title>",
            "<title>2  ALFA -&gt; s1  REQUEST 1 payout USD 5; sent in step 1, delivered in step 3; dropped: another site is the primary</title>",
            "<title>3  ALFA -&gt; s2  REQUEST 1 payout USD 5; sent in step 1, delivered in step 5; refused S3: the site is down</title>",
            "<title>4  s0 -&gt; s1  PREPARE view 0 place 1 done 0 row ALFA 1 payout USD 5; sent in step 2, never delivered</title>",
            ">ALFA</text>",
        ]:
            self.assertIn(text, picture)
        self.assertNotIn(">OP</text>", picture)

    def test_red_is_what_went_wrong(self):
        """A drop at a backup is grey, a refusal and a crash are red, and so is an envelope that a line skipped. The legend has one of
        each sign."""
        for script, signs in [
            (SCRIPT, {"dropped": 1, "faint": 1, "lost": 1, "cross": 1, "crash": 1, "dot": 1, "gone": 0, "wrong": 0, "stub": 2, "ring": 2}),
            ("do ALFA payout USD 5\nskip 3\n", {"dropped": 0, "faint": 0, "lost": 0, "cross": 0, "dot": 1, "gone": 3, "wrong": 3, "ring": 0}),
        ]:
            picture = self.printed(PICTURE, script=script)
            self.assertEqual({sign: picture.count(f'class="{sign}"') - 1 for sign in signs}, signs)

    def test_kinds_stand_where_arrows_begin(self):
        """A kind stands once where a step sends many of it, and an order whole."""
        picture = self.printed(PICTURE, script=SCRIPT)
        for kind in ["REQUEST", "PREPARE"]:
            self.assertEqual(len(re.findall(rf'class="kind"[^>]*>{kind}</text>', picture)), 1)
        script = "payin ALFA USD 500\ndrain 99\ndo ALFA payout USD 5\ndrain 99\nbeat s0\n"
        self.assertRegex(self.printed(PICTURE, script=script), r'class="kind"[^>]*>PAYORDER USD 1 ALFA 5</text>')

    def test_rows_are_told_with_what_they_came_to(self):
        """At the first site that executes them, and at the others by their places."""
        script = "payin ALFA USD 500\ndrain 99\ndo OP settle 10\ndrain 99\nbeat s0\ndrain 99\n"
        picture = self.printed(PICTURE, script=script)
        self.assertEqual(re.findall(r'class="money"[^>]*>(.*)</text>', picture), ["row 1 fund USD 1 ALFA 500: done", "row 2 settle 10: settled 0"])
        self.assertEqual(sorted(re.findall(r'class="row"[^>]*>(.*)</text>', picture)), ["row 1", "row 1", "row 2", "row 2"])

    def test_some_steps_are_drawn(self):
        """The first step that is drawn, and the last; what stands before and after is counted."""
        for words, told in [
            (["--from", "2", "--to", "4"], "steps 2 to 4 of 5, 1 more before them, 1 more after them"),
            (["--from=4"], "steps 4 to 5 of 5, 3 more before them"),
            (["--to=1"], "steps 1 to 1 of 5, 4 more after them"),
            (["--from", "5", "--to", "5"], "steps 5 to 5 of 5, 4 more before them"),
            (["--from", "6"], "no step of 5, 5 more before them"),
            (["--from", "4294967295", "--to", "4294967295"], "no step of 5, 5 more before them"),
            (["--to", "4294967295"], "steps 1 to 5 of 5"),
        ]:
            picture = self.printed([*PICTURE, *words], script=SCRIPT)
            self.assertIn(f">A run of the bank: {told}</text>", picture)

    def test_sixty_steps_are_drawn(self):
        """Of a longer run 60 steps are drawn, and it says how many more there are."""
        script = "beat s1\n" * 62
        for words, told in [
            ([], "steps 1 to 60 of 62, 2 more after them"),
            (["--from", "3"], "steps 3 to 62 of 62, 2 more before them"),
            (["--from", "1", "--to", "62"], "steps 1 to 62 of 62<"),
        ]:
            self.assertIn(told, self.printed([*PICTURE, *words], script=script))

    def test_a_title_stands_above(self):
        """In place of the usual one, spelled out; signs that no XML may have are left out."""
        picture = self.printed([*PICTURE, "--title", 'A <lost> "order" & more\x01\ufffe'], script=SCRIPT)
        self.assertIn(">A &lt;lost&gt; &quot;order&quot; &amp; more: steps 1 to 5 of 5</text>", picture)
        self.assertNotIn("A run of the bank", picture)

    def test_some_actors_are_drawn(self):
        """Those alone that are named, or all but those; an envelope where both of its actors are. Every step keeps its place."""
        for words, names, sent, kinds in [
            ([], ["ALFA", "s0", "s1", "s2"], ["1", "2", "3", "4", "5"], ["REQUEST", "PREPARE"]),
            (["--only", "s0,ALFA"], ["ALFA", "s0"], ["1"], ["REQUEST"]),
            (["--only", "s0", "--only", "ALFA"], ["ALFA", "s0"], ["1"], ["REQUEST"]),
            (["--hide", "s1"], ["ALFA", "s0", "s2"], ["1", "3", "5"], ["REQUEST", "PREPARE"]),
            (["--only=ALFA,s0,s1,JPY", "--hide=s0"], ["ALFA", "s1"], ["2"], ["REQUEST"]),
            (["--hide", "ALFA"], ["s0", "s1", "s2"], ["4", "5"], ["PREPARE"]),
            (["--hide", "ALFA,s0,s1,s2,OP,BETA,EUR"], [], [], []),
        ]:
            picture = self.printed([*PICTURE, *words], script=SCRIPT)
            self.assertEqual(re.findall(r'class="actor"[^>]*>(.*)</text>', picture), names)
            self.assertEqual(sorted(re.findall(r"<g><title>(\d+) ", picture)), sent)
            self.assertEqual(sorted(re.findall(r'class="number"[^>]*>(\d+)<', picture)), sent)
            self.assertEqual(re.findall(r'class="kind"[^>]*>(.*)</text>', picture), kinds)
            self.assertEqual(len(re.findall(r"<title>step \d", picture)), 5)

    def test_actors_that_are_not_there(self):
        """They are told with status 2, once the setup is read and before the script is; first those to be drawn."""
        for words, told in [
            (["--only", "GAMMA"], "name 1 of `--only`"),
            (["--only", "ALFA,s3"], "name 2 of `--only`"),
            (["--hide", "USD,alfa"], "name 2 of `--hide`"),
            (["--hide", "0"], "name 1 of `--hide`"),
            (["--hide", ""], "name 1 of `--hide`"),
            (["--only", "s0,,s1"], "name 2 of `--only`"),
            (["--hide", "CHF", "--only", "s0,s1,CHF"], "name 3 of `--only`"),
        ]:
            self.ends([*PICTURE, *words], (2, "", f"error: {told} is no actor of the setup\n"), SETUP, "bad")
        self.tells([*PICTURE, "--only", "GAMMA"], "fault setup K1\n", FOUR_SITES, "bad")

    def test_a_script_that_tries_nothing(self):
        picture = self.printed(PICTURE, script="print\nskip 3\n")
        self.assertTrue(picture.startswith("<svg ") and picture.endswith("</svg>\n"))
        self.assertIn("A run of the bank: no step of 0</text>", picture)

    def test_words_that_ask_for_no_steps(self):
        """They are told on standard error, with status 2, before any file is read."""
        for words in (
            "--from 1", "--to 1", "--from 1 --to 1", "--svg --from 0", "--svg --to 0", "--svg --from 3 --to 2", "--svg --from 01",
            "--svg --to 02", "--svg --from=", "--svg --from x", "--svg --to +2", "--svg --from 4294967296", "--svg --to 4294967296",
            "--svg --from", "--svg --from 1 --from 2", "--svg --svg", "--svg 7", "--title T", "--only s0", "--hide s0", "--svg --title",
            "--svg --only", "--svg --title T --title U",
        ):
            self.has_no_form([*TRACE, *words.split()], "error: ", FOUR_SITES, "bad")
        self.has_no_form([*PICTURE, "--from", ""], "error: ", FOUR_SITES, "bad")

    def test_faults(self):
        """They are told as of a trace, and nothing is written."""
        words = [*PICTURE, "--fail"]
        self.tells([*words, "1:1:new"], "fault line 2 L5\n", SETUP, "beat s0\ncrash OP")
        self.ends([*words, "3:1:new"], (2, "", NO_SITE_3), SETUP, "beat s0")
        self.tells(["trace", "setup.json", "no such", "--svg", "--fail", "1:1:new"], "fault file\n")
        self.tells([*words, "9:1:new"], "fault setup K1\n", FOUR_SITES, "bad")

    def test_saves_that_fail_are_drawn(self):
        """A save that fails is drawn where it fails: the cell has the new count, and the site stays down."""
        told = "<title>step 2: restart s1; refused S2: the boot cell did not save, and the site is down</title>"
        for fail, saved in [("1:1:new", True), ("1:1:old", False)]:
            picture = self.printed([*PICTURE, "--fail", fail], script="crash s1\nrestart s1\n")
            self.assertIn(told, picture)
            self.assertEqual(">cell 1</text>" in picture, saved)
