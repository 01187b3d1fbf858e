"""Saves that are to fail: what a play prints where they do, and which words of `--fail` are refused."""
from program import BOOK, FOUR_SITES, NO_SITE_3, PLAY, SETUP, Runs, books


class Saves(Runs):
    def test_a_restart_whose_save_fails(self):
        """The restart of site 2 fails, and its cell then has the new count, or the one before. A second restart goes well."""
        script = "crash s2\nrestart s2\nprint\nrestart s2\nprint\ndeliver 3\n"
        for fail, down, up in [
            ("2:1:new", "down cell 1\n", "recovering cell 2\n"),
            ("2:1:old", "down cell 0\n", "recovering cell 1\n"),
        ]:
            text = f"refused 2 S2\n{books({2: down})}{books({2: up})}refused 6 G1\n"
            self.prints([*PLAY, "--fail", fail], text, script=script)

    def test_two_restarts_one_of_which_fails(self):
        script = "crash s1\nrestart s1\nrestart s1\nprint\n"
        for fail, up in [("1:1:new", "recovering cell 2\n"), ("1:1:old", "recovering cell 1\n")]:
            self.prints([*PLAY, "--fail", fail], f"refused 2 S2\n{books({1: up})}", script=script)

    def test_a_second_save_fails(self):
        """The second save alone fails: the restart before it goes well."""
        script = "crash s1\nrestart s1\ncrash s1\nrestart s1\nprint\n"
        for fail, down in [("1:2:new", "down cell 2\n"), ("1:2:old", "down cell 1\n")]:
            self.prints([*PLAY, "--fail", fail], f"refused 4 S2\n{books({1: down})}", script=script)

    def test_saves_of_several_sites_fail(self):
        """A save of each of two sites fails. Nothing fails where a save is counted that is never made."""
        script = "crash s1\ncrash s2\nrestart s1\nrestart s2\nrestart s0\n"
        words = ["play", "--fail", "1:1:old", "setup.json", "--fail=2:1:new", "script.txt", "--fail", "0:65535:old"]
        self.prints(words, "refused 3 S2\nrefused 4 S2\nrefused 5 S4\n", script=script)
        self.prints([*PLAY, "--fail", "1:2:old"], "refused 5 S4\n", script=script)

    def asks_for_nothing(self, words, setup=SETUP, script="print"):
        """Such words are told on standard error, with status 2, whatever the files are."""
        self.has_no_form(words, "--fail", setup, script)
        self.has_no_form(words, "error: ", setup, script)

    def test_words_that_are_no_save(self):
        for word in [
            "", ":", "::", "1", "1:1", "1:1:", "1::new", ":1:new", "1:0:new", "1:1:both", "1:1:New", "1:1:new ", "1:1:new:",
            "1:1:1:new", "1:1: new", " 1:1:new", "01:1:new", "00:1:new", "1:01:new", "+1:1:new", "s1:1:new", "x:1:new", "1:x:new",
            "1:65536:new", "65536:1:new", "1:18446744073709551617:new", "1,1,new",
        ]:
            self.asks_for_nothing([*PLAY, "--fail", word], FOUR_SITES, "bad")
        self.asks_for_nothing([*BOOK, "--fail", "1:1:new"], FOUR_SITES, "bad")
        self.asks_for_nothing([*PLAY, "--fail"], FOUR_SITES, "bad")

    def test_a_site_stands_once(self):
        """However it is told, and however many stand between."""
        for first, second, third in [
            ("1:1:new", "1:1:new", "0:1:new"),
            ("1:1:new", "0:1:new", "1:2:old"),
            ("9:1:new", "0:1:new", "9:1:new"),
            ("0:1:new", "2:1:old", "2:65535:old"),
        ]:
            self.asks_for_nothing(["play", "--fail", first, "setup.json", "--fail", second, "script.txt", "--fail", third])

    def test_a_site_that_is_not_there(self):
        """It is told after the setup's own faults, and before what the script and its file have."""
        lacks = (2, "", NO_SITE_3)
        for setup, fail, script, want in [
            (SETUP, "3:1:new", "script.txt", lacks),
            (SETUP, "3:1:new", "no such", lacks),
            (SETUP, "65535:1:old", "script.txt", (2, "", NO_SITE_3.replace("3", "65535"))),
            (FOUR_SITES, "4:1:new", "script.txt", (1, "", "fault setup K1\n")),
            ("{", "3:1:new", "script.txt", (1, "", "fault json J1\n")),
            (SETUP, "2:1:new", "script.txt", (1, "", "fault line 1 L2\n")),
            (SETUP, "2:1:new", "no such", (1, "", "fault file\n")),
        ]:
            self.ends(["play", "setup.json", script, "--fail=0:1:new", "--fail", fail], want, setup, "bad")
