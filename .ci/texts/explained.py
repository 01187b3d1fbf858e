"""Faults that are explained: the second line on standard error that `--explain` asks for."""
from program import BOOK, FOUR_SITES, LIVE, NO_SITE_3, PLAY, SETUP, TRACE, TWO_DOLLARS, Runs


class Explained(Runs):
    def explains(self, words, setup, script, fault, more):
        """The second line is there where it is asked for, before or behind the files' names; all else is the same."""
        self.tells(words, fault, setup, script)
        self.tells([words[0], "--explain", *words[1:]], fault + more, setup, script)
        self.tells([*words, "--explain"], fault + more, setup, script)

    def tells_lines(self, words, cases):
        """Each script has one fault: on this line, of this code, of which this is told."""
        for script, line, code, told in cases:
            self.explains(words, SETUP, script, f"fault line {line} {code}\n", f"line {line}: {told}\n")


class Lines(Explained):
    def test_a_number(self):
        """Of several malformed numbers the first is told, also where a name before it is unknown."""
        self.tells_lines(BOOK, [
            ("do ALFA payout USD 01", 1, "L4", '"01" is no number: a leading zero'),
            ("print\ndo CARL payout DEM 1,000", 2, "L4", '"1,000" is no number: a byte that is no digit'),
            ("do @ rescind x", 1, "L4", '"@" is no number: no digits'),
            ("do @65536 settle 1", 1, "L4", '"@65536" is too large a number: above 65535'),
            ("do ALFA instruct 4294967296 BETA USD 1 @256 -1", 1, "L4", '"4294967296" is too large a number: above 4294967295'),
            ("do ALFA instruct 4294967295 BETA USD 1 @256 -1", 1, "L4", '"@256" is too large a number: above 255'),
            (f"do OP fund USD 0 ALFA {2**64}", 1, "L4", f'"{2**64}" is too large a number: above {2**64 - 1}'),
            ("do USD paid USD +1", 1, "L4", '"+1" is no number: a byte that is no digit'),
        ])

    def test_a_number_of_a_play(self):
        for words in (PLAY, TRACE):
            self.tells_lines(words, [
                ("# a site\ncrash s256\n", 2, "L4", '"s256" is too large a number: above 255'),
                ("beat s\n", 1, "L4", '"s" is no number: no digits'),
                ("cut s01\n", 1, "L4", '"s01" is no number: a leading zero'),
                ("heal @00\n", 1, "L4", '"@00" is no number: a leading zero'),
                ("timer @200\n", 1, "L4", '"@200" is no site: s and its number'),
                ("deliver e7\n", 1, "L4", '"e7" is no number: a byte that is no digit'),
                ("chaos 7 1000001\n", 1, "L4", '"1000001" is too large a number: above 1000000'),
                ("payin ALFA USD 1.5\n", 1, "L4", '"1.5" is no number: a byte that is no digit'),
            ])

    def test_a_name(self):
        """Of several unknown names the first is told."""
        self.tells_lines(BOOK, [
            ("print\n\n  do CARL  payout DEM 1", 3, "L5", '"CARL" is no name of a client that may send a command'),
            ("do ALFA payout DEM 1", 1, "L5", '"DEM" is no currency\'s code'),
            ("do ALFA payout BETA 1", 1, "L5", '"BETA" is no currency\'s code'),
            ("do @9 fund @9 1 GAMA 5", 1, "L5", '"GAMA" is no client\'s name'),
        ])

    def test_a_name_of_a_play(self):
        """A currency's code is no sender in a play, though it is in a book."""
        self.tells_lines(PLAY, [
            ("do USD paid USD 1\n", 1, "L5", '"USD" is a node: in a play nodes send their own commands, use payin'),
            ("do CARL settle 1\n", 1, "L5", '"CARL" is no name of a client that may send a command'),
            ("beat GAMA\n", 1, "L5", '"GAMA" is no actor\'s name'),
            ("crash ALFA\n", 1, "L5", '"ALFA" is no site: s and its number'),
            ("close GAMA USD\n", 1, "L5", '"GAMA" is no client\'s name'),
        ])

    def test_a_word(self):
        self.tells_lines(BOOK, [
            ("print\n\n# no such word\nsettle\nprint\n", 4, "L2", '"settle" begins no line of such a script'),
            ("do ALFA pay USD 1", 1, "L2", '"pay" is no command'),
            ("do ALFA payot USD 1", 1, "L2", '"payot" is no command: did you mean payout?'),
            ("do ALFA instrukt 1", 1, "L2", '"instrukt" is no command: did you mean instruct?'),
            ("pirnt", 1, "L2", '"pirnt" begins no line of such a script: did you mean print?'),
            ("prints", 1, "L2", '"prints" begins no line of such a script: did you mean print?'),
            ("o", 1, "L2", '"o" begins no line of such a script: did you mean do?'),
        ])
        self.tells_lines(PLAY, [("drained 5\n", 1, "L2", '"drained" begins no line of such a script')])

    def test_a_word_of_another_kind_of_script(self):
        """A line of another kind of script is told as one, whatever follows its first word."""
        moves, turns = ["payin", "close", "beat", "timer", "crash", "restart"], ["deliver", "drain", "skip", "cut", "heal", "chaos"]
        self.tells_lines(BOOK, [
            ("print\nbeat s0\n", 2, "L2", '"beat" is a line of a play or a live run, not of a book'),
            *((f"{word}\n", 1, "L2", f'"{word}" is a line of a play or a live run, not of a book') for word in moves),
            *((f"{word} x y\n", 1, "L2", f'"{word}" is a line of a play, not of a book') for word in turns),
            ("rest 5\n", 1, "L2", '"rest" is a line of a live run, not of a book'),
        ])
        self.tells_lines(PLAY, [("rest 5\n", 1, "L2", '"rest" is a line of a live run, not of a play')])
        self.tells_lines(LIVE, [
            ("print\n", 1, "L2", '"print" is a line of a book or a play, not of a live run'),
            *((f"{word}\n", 1, "L2", f'"{word}" is a line of a play, not of a live run') for word in turns),
        ])

    def test_a_count_of_words(self):
        long = "do ALFA instruct 1 BETA USD 1 EUR 1 please"
        self.tells_lines(BOOK, [
            ("print x\n", 1, "L3", "too many words, the form has 1: print x"),
            ("do ALFA  payout USD\n", 1, "L3", "too few words, the form has 5: do ALFA  payout USD"),
            (long, 1, "L3", f"too many words, the form has 9: {long}"),
            ("do ALFA\n", 1, "L3", "too few words: do ALFA"),
            ("do\n", 1, "L3", "too few words: do"),
        ])

    def test_a_line_that_is_not_shown(self):
        """A byte that is no printed character is told by its number, and is not printed; nor is a line that is too long, or
        one of too many. The first such byte of a line is told, by its column, which is counted from 1 in bytes."""
        self.tells_lines(BOOK, [
            ("print\ndo ALFA\tpayout USD 1", 2, "L1", "byte 9 at column 8: a tab"),
            ("print\r\n", 1, "L1", "byte 13 at column 6: a Windows line end"),
            ("do ALFA payout USD 1\r", 1, "L1", "byte 13 at column 21: a Windows line end"),
            ("# text\r\n\nprint \r\r\n", 3, "L1", "byte 13 at column 7: outside 32 to 126"),
            ("pr\rint\n", 1, "L1", "byte 13 at column 3: outside 32 to 126"),
            ("print \u001b[2J\n", 1, "L1", "byte 27 at column 7: outside 32 to 126"),
            ("print \u007f\n", 1, "L1", "byte 127 at column 7: outside 32 to 126"),
            ("do \u00c9VA settle 1\n", 1, "L1", "byte 195 at column 4: outside 32 to 126"),
            ("x" * 257, 1, "L6", "a line of more than 256 bytes: 257"),
            ("print\n" + "\t" * 1000 + "\n", 2, "L6", "a line of more than 256 bytes: 1000"),
            ("#\n" * 65536, 65536, "L7", "more than 65535 lines"),
        ])

    def test_a_line_as_long_as_may_be(self):
        """A line of 256 printed characters is shown whole, and so is a word."""
        word = "~" * 256
        line = "print " + " ~" * 125
        self.tells_lines(BOOK, [
            (word, 1, "L2", f'"{word}" begins no line of such a script'),
            (line, 1, "L3", f"too many words, the form has 1: {line}"),
        ])


def currency(code, rate=1, haircut=0):
    return f'{{"code":"{code}","rate":{rate},"haircut":{haircut}}}'


def member(name, aggregate=0, short="0", deposit="0"):
    return f'{{"name":"{name}","aggregate":{aggregate},"short":[{short}],"deposit":[{deposit}]}}'


def setup_of(currencies, members):
    return f'{{"sites":3,"currencies":[{currencies}],"members":[{members}]}}'


# what is told of a part that is to be a number
NO_NUMBER = "no number in digits alone, below 2^64"

# the member of the greatest limits
ALFA = member("ALFA", 10**18, 10**18, 10**15)


class Setups(Explained):
    def tells_setup(self, setup, code, told):
        """The same is told by each command that reads a setup."""
        fault = f"fault {'json' if code[0] == 'J' else 'setup'} {code}\n"
        for words in (BOOK, PLAY, TRACE):
            self.explains(words, setup, "print", fault, f"{told}\n")
        self.tells(["check", "--explain", "setup.json"], f"{fault}{told}\n", setup)

    def test_a_text_that_is_no_setup(self):
        self.tells_setup('{"sites":3', "J1", "setup: the text is no JSON")
        self.tells_setup('{"sites":3}', "J2", "setup: currencies: missing")
        self.tells_setup(FOUR_SITES, "K1", "setup: the sites are not 3, 5 or 7: 4")
        self.tells_setup(TWO_DOLLARS, "K3", 'currency 1 "USD": the code stands twice')

    def test_a_part_that_is_missing_or_of_another_type(self):
        """Parts are read in this order, and places in lists are counted from 0; other members are ignored."""
        for setup, told in [
            ("[]", "the text is no object"),
            ('"setup"', "the text is no object"),
            ("{}", "sites: missing"),
            ('{"members":5,"currencies":5,"sites":null}', f"sites: {NO_NUMBER}"),
            ('{"sites":"3"}', f"sites: {NO_NUMBER}"),
            ('{"sites":-3}', f"sites: {NO_NUMBER}"),
            ('{"sites":3.0}', f"sites: {NO_NUMBER}"),
            ('{"sites":18446744073709551616}', f"sites: {NO_NUMBER}"),
            ('{"members":5,"currencies":{},"sites":3,"site":null}', "currencies: no list"),
            ('{"sites":3,"currencies":[]}', "members: missing"),
            ('{"sites":3,"currencies":[],"members":"ALFA"}', "members: no list"),
        ]:
            self.tells_setup(setup, "J2", f"setup: {told}")

    def test_a_part_of_a_currency(self):
        for currencies, told in [
            ("null", "currencies[0]: no object"),
            (f"{currency('USD')},{currency('EUR')},[]", "currencies[2]: no object"),
            ('{"rate":1,"haircut":0}', "currencies[0].code: missing"),
            (f"{currency('USD')},{{\"code\":7,\"rate\":null}}", "currencies[1].code: no text"),
            ('{"code":"USD","haircut":-1}', "currencies[0].rate: missing"),
            (currency("USD", rate="1.5"), f"currencies[0].rate: {NO_NUMBER}"),
            (currency("USD", haircut='"0"'), f"currencies[0].haircut: {NO_NUMBER}"),
        ]:
            self.tells_setup(setup_of(currencies, ALFA), "J2", f"setup: {told}")

    def test_a_part_of_a_member(self):
        for members, told in [
            ('"ALFA"', "members[0]: no object"),
            ("{}", "members[0].name: missing"),
            (f'{ALFA},{{"name":["BETA"]}}', "members[1].name: no text"),
            (",".join([ALFA] * 12) + ',{"name":"BETA","short":0}', "members[12].aggregate: missing"),
            (member("ALFA", aggregate="true"), f"members[0].aggregate: {NO_NUMBER}"),
            ('{"name":"ALFA","aggregate":0,"short":0,"deposit":0}', "members[0].short: no list"),
            (member("ALFA", short="0,1e2", deposit="null"), f"members[0].short[1]: {NO_NUMBER}"),
            (f"{ALFA},{member('BETA', deposit='1,2,-0')}", f"members[1].deposit[2]: {NO_NUMBER}"),
            ('{"name":"ALFA","aggregate":0,"short":[]}', "members[0].deposit: missing"),
        ]:
            self.tells_setup(setup_of(currency("USD"), members), "J2", f"setup: {told}")

    def test_a_currency_that_breaks_a_rule(self):
        """Currencies are numbered from 0, and a code that is no printed text is not shown."""
        no_code = "the code is not three letters A to Z"
        rates = f"{currency('USD', rate=1000000)},{currency('EUR', rate=1000001)},{currency('JPY', rate=0)}"
        haircuts = f"{currency('USD', haircut=9999)},{currency('EUR', haircut=10000)}"
        for currencies, members, code, told in [
            ("", "", "K2", "setup: the currencies are not 1 to 8: 0"),
            (f"{currency('USD')},{currency('usd', rate=0)}", ALFA, "K3", f'currency 1 "usd": {no_code}'),
            (currency("U\\u0007D"), ALFA, "K3", f"currency 0: {no_code}"),
            (currency(""), ALFA, "K3", f"currency 0: {no_code}"),
            (rates, ALFA, "K4", 'currency 1 "EUR": the rate is not 1 to 1000000: 1000001'),
            (haircuts, ALFA, "K5", 'currency 1 "EUR": the haircut is not 0 to 9999: 10000'),
        ]:
            self.tells_setup(setup_of(currencies, members), code, told)

    def test_a_member_that_breaks_a_rule(self):
        """Members are numbered from 1."""
        no_name = "the name is not 1 to 8 of A to Z and digits, a letter first"
        for members, code, told in [
            ("", "K6", "setup: the members are not 1 to 64: 0"),
            (member("alfa"), "K7", f'member 1 "alfa": {no_name}'),
            (member("ALFABRAVO"), "K7", f'member 1 "ALFABRAVO": {no_name}'),
            (f"{ALFA},{member('1ALFA')}", "K7", f'member 2 "1ALFA": {no_name}'),
            (f"{ALFA},{ALFA}", "K7", 'member 2 "ALFA": the name stands twice'),
            (member("OP"), "K7", 'member 1 "OP": the name is OP'),
            (member("USD"), "K7", 'member 1 "USD": the name is a currency\'s code'),
        ]:
            self.tells_setup(setup_of(currency("USD"), members), code, told)

    def test_a_limit_that_breaks_a_rule(self):
        for second, code, told in [
            (member("BETA", short="0,0"), "K8", "the short limits are not one for each currency: 2"),
            (member("BETA", deposit=""), "K8", "the deposits are not one for each currency: 0"),
            (member("BETA", 10**18 + 1), "K9", "the aggregate limit is not 0 to 1000000000000000000: 1000000000000000001"),
            (member("BETA", 0, 10**18 + 1, 10**15 + 1), "K9", "a short limit is not 0 to 1000000000000000000: 1000000000000000001"),
            (member("BETA", deposit=10**15 + 1), "K9", "a deposit is not 0 to 1000000000000000: 1000000000000001"),
        ]:
            self.tells_setup(setup_of(currency("USD"), f"{ALFA},{second}"), code, f'member 2 "BETA": {told}')


class Unread(Explained):
    def test_a_file_that_is_not_read(self):
        """The second line names it, and why; the first says which command it was that had it alone."""
        long = "n" * 300
        for name, why in (
            ("no such", "there is no such file"),
            ("", "there is no such file"),
            (".", "it is a folder"),
            ("setup.json/more", "a part of its path is no folder"),
            (long, "no file can have this name"),
            ("/dev/zero", "it is larger than 64 MiB, or has no end"),
            ("/proc/sys/vm/drop_caches", "the system does not allow to read it"),  # also to the superuser
            ("/proc/self/mem", "the system could not read it"),
        ):
            self.explains(["check", name], SETUP, "", "fault file\n", f'setup "{name}": {why}\n')
            for command in ("book", "play", "trace", "live"):
                self.explains([command, name, "script.txt"], SETUP, "", "fault file\n", f'setup "{name}": {why}\n')
                self.explains([command, "setup.json", name], SETUP, "", "fault file\n", f'script "{name}": {why}\n')

    def test_of_two_the_setup_is_told(self):
        self.explains(["book", "no setup", "no script"], SETUP, "", "fault file\n", 'setup "no setup": there is no such file\n')


class NoNet(Explained):
    """A live run of nine actors that may not open as many files as their connections take."""

    most_files = 20

    def test_no_net(self):
        """What it takes of the machine is told."""
        self.explains(LIVE, SETUP, "", "fault net\n", (
            "net: a listener could not be opened, or a connection not be made, over the loopback of this machine; "
            "each actor has a listener, each site two connections with each other actor, "
            "and each connection two of the files that `ulimit -n` allows\n"
        ))


class Others(Runs):
    def test_other_faults_are_not_explained(self):
        """What is no fault on a setup, a script or a file has its one line alone, and a run that ends well none."""
        self.prints(["check", "setup.json", "--explain"], "setup ok\n")
        words = ["play", "--fail", "3:1:new", "setup.json", "script.txt", "--explain"]
        self.ends(words, (2, "", NO_SITE_3))

    def test_no_explanation(self):
        """`--no-explain` stands above `--explain`, wherever the two are."""
        for words in (["--no-explain"], ["--no-explain", "--explain"], ["--explain", "--no-explain"]):
            self.tells(["check", "no such", *words], "fault file\n")
            self.tells(["check", *words, "setup.json"], "fault json J1\n", "")
