"""Setups: texts that are no JSON, members that are missing or of a wrong type, each rule at its bounds, and the first of several faults."""
import json

from program import SETUP, Runs

CHECK = ["check", "setup.json"]

# fields of the setup that the worked scripts share, as it has them
FIELDS = {
    "sites": "3", "code": '"USD"', "rate": "100", "haircut": "0", "name": '"BETA"', "aggregate": "150000", "short": "[1000,1000,100000]",
    "deposit": "[10000,10000,1000000]",
}

# parts of it that are written otherwise, and what its text is told as then: no JSON, also in a member that is ignored
NO_JSON = [
    ('"sites":3,', '"sites":3,,'),
    ('"sites":3', '"sites":03'),
    ('"sites":3', '"sites":1e999'),
    ('"sites":3,', '"sites":3,"note":1e999,'),
]

# a list with another type, or in its place
WRONG_LISTS = [
    ('"currencies":[', '"currencies":[5,'),
    ('"members":[', '"members":[null,'),
    ('"currencies":[{"code":"EUR","rate":110,"haircut":500},', '"currencies":{"code":"EUR"},"others":['),
]

# values of another type, and numbers that are not digits alone or too large
WRONG = {
    "sites": ['"3"', "null", "true", "[3]", "-3"],
    "code": ["7"],
    "rate": ["-0", "100.0", "1e2", "18446744073709551616"],
    "haircut": ["0.0", "false"],
    "name": ['["BETA"]'],
    "aggregate": ['"150000"'],
    "short": ["1000", '[1000,"1000",100000]', "[1000,1000,1e5]"],
    "deposit": ["{}", "[10000,10000,null]"],
}

# of each field the last values that its rule allows, and the first that it refuses, by this code
BOUNDS = {
    "sites": (["5"], "K1", ["4", "18446744073709551615"]),
    "code": (['"AZA"'], "K3", ['"US"', '"USDX"', '"USd"', '"US1"', '"EUR"']),
    "rate": (["1", "1000000"], "K4", ["0", "1000001", "18446744073709551615"]),
    "haircut": (["9999"], "K5", ["10000"]),
    "name": (['"B"', '"BETA5678"', '"OPS"'], "K7", ['""', '"BETA56789"', '"BeTA"', '"0BETA"', '"ALFA"', '"OP"', '"JPY"']),
    "aggregate": (["1000000000000000000"], "K9", ["1000000000000000001"]),
    "short": (["[1000,1000,1000000000000000000]"], "K9", ["[1000,1000,1000000000000000001]"]),
    "deposit": (["[1000000000000000,10000,1000000]"], "K9", ["[1000000000000001,10000,1000000]"]),
}
WRONG_LENGTHS = {"short": ["[1000,1000]", "[1000,1000,100000,0]"], "deposit": ["[]", "[10000,10000,1000000,0]"]}

# other members are ignored, and of a name that stands twice the last value counts
OTHERS = [
    ('"sites":3', '"note":{"sites":[4]},"sites":3', None),
    ('"rate":100', '"rat":1.5,"rate":100,"rates":null', None),
    ('"sites":3', '"sites":"x","sites":3', None),
    ('"sites":3', '"sites":3,"sites":"x"', "J2"),
    ('"sites":3', '"sites":3,"sites":4', "K1"),
    ('"rate":100', '"rate":0,"rate":100', None),
]


def bank_of(currencies, members):
    """A bank with that many currencies and members."""
    none = [0] * currencies
    return json.dumps({
        "sites": 3,
        "currencies": [{"code": f"AA{chr(65 + at)}", "rate": 1, "haircut": 0} for at in range(currencies)],
        "members": [{"name": f"M{at}", "aggregate": 0, "short": none, "deposit": none} for at in range(members)],
    })


class Setups(Runs):
    def is_told(self, setup, code):
        """A setup is well, or has the fault of this code."""
        if code is None:
            self.prints(CHECK, "setup ok\n", setup)
        else:
            self.tells(CHECK, f"fault {'json' if code[0] == 'J' else 'setup'} {code}\n", setup)

    def are_told(self, rows):
        """The setup of the worked scripts is told so, with the first of one part written otherwise."""
        for part, other, code in rows:
            self.assertIn(part, SETUP)
            with self.subTest(other=other):
                self.is_told(SETUP.replace(part, other, 1), code)

    def have(self, values, code):
        """The setup is told so with each of these values of its fields."""
        self.are_told((f'"{field}":{FIELDS[field]}', f'"{field}":{value}', code) for field, found in values.items() for value in found)

    def test_texts_that_are_no_json(self):
        for setup in ("", '{"sites":3', "{}{}", "[" * 128 + "]" * 128):
            self.is_told(setup, "J1")
        # what is nested less deep is JSON, though no setup
        self.is_told("[" * 127 + "]" * 127, "J2")
        self.are_told((*row, "J1") for row in NO_JSON)

    def test_a_text_that_is_no_utf_8(self):
        self.assertEqual(self.run_on(["check", "note.json"], files={"note.json": b'{"note":"\xff"}'}), (1, "", "fault json J1\n"))

    def test_missing_members_and_wrong_types(self):
        self.are_told((*row, "J2") for row in WRONG_LISTS)
        self.have(WRONG, "J2")
        # under another name each is missing
        for field, value in {**FIELDS, "currencies": "[", "members": "["}.items():
            self.are_told((f'"{field}":{value}', f'"{other}":{value}', "J2") for other in (field[:-1], f"{field}s"))

    def test_each_rule_at_its_bounds(self):
        for field, (allowed, code, refused) in BOUNDS.items():
            self.have({field: allowed}, None)
            self.have({field: refused}, code)
        self.have(WRONG_LENGTHS, "K8")
        for currencies, members, code in ((0, 1, "K2"), (1, 1, None), (8, 64, None), (9, 64, "K2"), (1, 0, "K6"), (8, 65, "K6")):
            self.is_told(bank_of(currencies, members), code)

    def test_other_members_and_names_that_stand_twice(self):
        self.are_told(OTHERS)

    def test_the_first_of_several_faults(self):
        """Every fault at once, of which one after the other is mended."""
        currency = {"code": "eur", "rate": 0, "haircut": 10_000}
        member = {"name": "", "aggregate": 10**18 + 1, "short": [], "deposit": 0}
        bank = {"sites": 4, "currencies": [currency], "members": [member]}
        for part, name, value, code in (
            (member, "deposit", 0, "J2"), (member, "deposit", [0], "K1"), (bank, "sites", 3, "K3"), (currency, "code", "EUR", "K4"),
            (currency, "rate", 1, "K5"), (currency, "haircut", 0, "K7"), (member, "name", "A", "K8"), (member, "short", [0], "K9"),
            (member, "aggregate", 0, None),
        ):
            part[name] = value
            self.is_told(json.dumps(bank), code)

    def test_deposits_and_short_limits_stand_at_their_places(self):
        """Each is another amount: so much can be paid in, or owed, and one more is refused. What rates and haircuts do: `sums.py`."""
        setup = json.dumps({
            "sites": 5,
            "currencies": [{"code": "AAA", "rate": 2, "haircut": 1000}, {"code": "BBB", "rate": 3, "haircut": 2000}],
            "members": [
                {"name": "ONE", "aggregate": 60, "short": [11, 13], "deposit": [101, 102]},
                {"name": "TWO", "aggregate": 70, "short": [17, 19], "deposit": [103, 104]},
            ],
        })
        amounts = [("ONE", "AAA", 101), ("ONE", "BBB", 102), ("TWO", "AAA", 103), ("TWO", "BBB", 104)]
        script = "".join(f"payin {who} {ccy} {most + 1}\npayin {who} {ccy} {most}\n" for who, ccy, most in amounts)
        told = [f"refused {line} N1" for line in (1, 3, 5, 7)]
        self.shows(["play", "setup.json", "script.txt"], f"{script}print\n", [
            *told, "site 4 normal view 0 log 0 done 0 cell 0", "node AAA account 204 payins 2 payouts 0",
            "node BBB account 206 payins 2 payouts 0",
        ], setup)
        # the aggregate limits would let each owe more of BBB
        for who, other, short in (("ONE", "TWO", 13), ("TWO", "ONE", 19)):
            for owed, count in ((short, 1), (short + 1, 0)):
                script = (
                    f"do AAA fund AAA 1 {who} 900\ndo AAA fund AAA 2 {other} 900\n"
                    f"do {who} instruct 1 {other} BBB {owed} AAA 1\ndo {other} instruct 1 {who} AAA 1 BBB {owed}\ndo OP settle 9\n"
                )
                self.shows(["book", "setup.json", "script.txt"], script, [f"5 settled {count}"], setup)
