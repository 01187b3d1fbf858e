"""Audits of journals that are spelled here byte by byte, from the page that describes them."""
import hashlib
import itertools
import struct
from typing import NamedTuple

from program import FOUR_SITES, NEW_SITE, SETUP, Runs, books  # it says where the next modules are
import journal_bytes
from journal_bytes import frame

LIFE = bytes(range(16))
CLIENTS, NODES, SITES = [0, 1, 2], [101, 102, 103], [200, 201, 202]
ALL = CLIENTS + NODES + SITES

# events of a site, and of a node
TIMER, BEAT, CRASH, RESTART = b"\2", b"\3", b"\4", b"\5"
NODE_BEAT = b"\7"

SAYS_NOTHING = "a record says nothing that its actor may do"


class Sent(NamedTuple):
    """That an actor took its step: the frames that it sent, and the number of why it dropped the event."""

    frames: tuple = ()
    dropped: int = 0

    def text(self, actor, version):
        """As version 1 has it all frames; as version 2 has it how many they are."""
        if version == 2:
            return bytes([9, min(len(self.frames), 255), self.dropped])
        tag = 1 if actor >= 200 else 4 if actor > 100 else 6
        return bytes([tag]) + struct.pack(">I", len(self.frames)) + b"".join(self.frames) + bytes([self.dropped] * (tag == 1))


SENT_NOTHING = Sent()
CRASHED = (5, CRASH, SENT_NOTHING)


def payin(member, amount):
    return b"\x08" + struct.pack(">HQ", member, amount)


def node_refused(number):
    return bytes([5, number])


def fell(number, boots):
    return bytes([3, number]) + struct.pack(">I", boots)


def funds(amount):
    """The REQUESTs by which the node of USD asks each site to credit ALFA with its first pay-in, at clock 1."""
    row = struct.pack(">IBBIHQ", 1, 3, 1, 1, 1, amount)
    return tuple(frame(1, 102, 1, site, row, at) for at, site in enumerate(SITES))


def prepares(amount):
    """The PREPAREs by which site 0 sends this on as its first row, at clock 2."""
    row = struct.pack(">IHHHIBBIHQ", 0, 1, 0, 102, 1, 3, 1, 1, 1, amount)
    return tuple(frame(2, 200, 2, site, row, at) for at, site in enumerate(SITES[1:]))


def head(actor, setup=SETUP, life=LIFE, opening=None, version=2):
    if opening is None:
        opening = b"\1" + bytes(4) if actor >= 200 else b"\0"
    return b"PVPJ" + struct.pack(">BH", version, actor) + opening + hashlib.sha256(setup.encode()).digest()[:16] + life


def name(actor):
    return f"{actor}.journal"


class Audits(Runs):
    """Audits of the journals of one bank, of which each is of this version where it is not said otherwise."""

    version = 2

    def journal(self, actor, *events, **of):
        """The journal of an actor that took these events, each with its clock and how it came out."""
        spelled = lambda outcome: outcome.text(actor, self.version) if isinstance(outcome, Sent) else outcome
        bodies = [struct.pack(">Q", clock) + event + spelled(outcome) for clock, event, outcome in events]
        return journal_bytes.journal(head(actor, **{"version": self.version, **of}), bodies)

    def bank(self, changed=None):
        """The journals of a bank that did nothing, but for those of some actors that are others, or are not there."""
        texts = {**{actor: self.journal(actor) for actor in ALL}, **(changed or {})}
        return {name(actor): text for actor, text in texts.items() if text is not None}

    def paid_in(self, paid=100, sent=100, came=100, node=None, site=None):
        """The journals of a bank at whose node of USD ALFA pays in. It sends that to all sites, and site 0 takes what came and sends it on.
        How these two came out may be another."""
        return self.bank({
            102: self.journal(102, (1, payin(1, paid), node or Sent(funds(sent)))),
            200: self.journal(200, (2, b"\1" + funds(came)[0], site or Sent(prepares(came)))),
        })

    def audits(self, files, want, *words, order=None):
        """Audits the journals of these files, in this order, and compares the status, what was printed and what was told."""
        words = ["audit", "setup.json", *words, *(order or files)]
        with self.subTest(words=words):
            self.assertEqual(self.run_on(words, files=files), want)

    def says_yes(self, files, script, told="", *words):
        """The audit says yes, and prints the run as the script of a play."""
        self.audits(files, (0, f"{script}print\n# audit yes\n", told), "--script", *words)

    def says_no(self, files, line, *words):
        self.audits(files, (3, line, ""), *words)

    def faults(self, files, fault, why, order=None):
        """Such journals are told as a fault, and with --explain why."""
        self.audits(files, (1, "", fault), order=order)
        self.audits(files, (1, "", fault + why), "--explain", order=order)


class Journals(Audits):
    """Of version 2, which has of what an event sent how much it was."""

    def test_a_bank_that_did_nothing(self):
        """In whatever order its journals stand, and as a script."""
        for order in None, [name(actor) for actor in reversed(ALL)]:
            self.audits(self.bank(), (0, f"{books()}audit yes\n", ""), order=order)
        self.says_yes(self.bank(), "")

    def test_what_actors_did(self):
        """Site 1 crashes, and the node of USD refuses a pay-in for a member that is not there, which is no step that was taken."""
        refused = (1, payin(9, 100), node_refused(2))
        self.says_yes(self.bank({201: self.journal(201, CRASHED), 102: self.journal(102, refused)}), "crash s1\n")

    def test_what_actors_sent(self):
        """A pay-in comes to a site, which has a row more then; how much each of the two sent is as it has to be."""
        self.says_yes(self.paid_in(), "payin ALFA USD 100\ndeliver 1\n")
        shown = books({0: NEW_SITE.replace("log 0", "log 1")}, 100)
        self.audits(self.paid_in(), (0, f"{shown}audit yes\n", ""))

    def test_sites_that_fell(self):
        """Site 1 crashes, and as it restarts its cell does not save: it holds the new count, or the old one. It cannot hold another, nor
        is this how it falls while it is down already."""
        for boots in 1, 0:
            files = self.bank({201: self.journal(201, CRASHED, (6, RESTART, fell(2, boots)), (7, BEAT, b"\2\3"))})
            self.audits(files, (0, books({1: f"down cell {boots}\n"}) + "audit yes\n", ""))
        for event, outcome in (RESTART, fell(2, 2)), (RESTART, fell(3, 1)), (BEAT, fell(1, 0)):
            self.says_no(self.bank({201: self.journal(201, CRASHED, (6, event, outcome))}), "audit no 201 2 A3\n")

    def test_each_test_fails(self):
        """A delivery that nobody sent, a clock that stands still, and an outcome that is another."""
        commit = frame(4, 200, 3, 201, struct.pack(">IH", 0, 0))
        self.says_no(self.bank({201: self.journal(201, (5, b"\1" + commit, SENT_NOTHING))}), "audit no 201 1 A1\n")
        self.says_no(self.bank({201: self.journal(201, CRASHED, (5, CRASH, b"\2\3"))}), "audit no 201 2 A2\n")
        self.says_no(self.bank({102: self.journal(102, (1, payin(9, 100), node_refused(1)))}), "audit no 102 1 A3\n")

    def test_an_outcome_that_is_another(self):
        """A node and a site sent more or less than comes of what they took, or it was dropped, or they refused it, or it was of another
        kind of actor."""
        funded, prepared = funds(100), prepares(100)
        more = frame(1, 102, 1, 200, funded[0][22:], 3)
        for outcome in Sent(funded[:2]), Sent((*funded, more)), SENT_NOTHING, node_refused(1), b"\x08":
            self.says_no(self.paid_in(node=outcome), "audit no 102 1 A3\n")
        for outcome in Sent(prepared[:1]), Sent(prepared, 4), Sent((), 3), b"\2\3", b"\x08", fell(1, 1):
            self.says_no(self.paid_in(site=outcome), "audit no 200 1 A3\n")

    def test_an_event_of_another_kind(self):
        """The beat of a node comes to a site, which does nothing, and that is no step; it did not send nothing at it."""
        self.says_yes(self.bank({200: self.journal(200, (5, NODE_BEAT, b"\x08"))}), "")
        self.says_no(self.bank({200: self.journal(200, (5, NODE_BEAT, SENT_NOTHING))}), "audit no 200 1 A3\n")

    def test_a_delivery_that_is_another(self):
        """Another amount came to site 0 than the node sent."""
        self.says_no(self.paid_in(came=101), "audit no 200 1 A1\n")

    def test_a_send_that_is_another(self):
        """The node sent, and site 0 took, another amount than was paid in. What the node sent is not in its own journal: it should not
        have sent what came to the site."""
        self.says_no(self.paid_in(paid=101), "audit no 200 1 A1\n")

    def test_a_journal_without_its_end(self):
        """Site 0's journal lacks the event at which it sent what site 1 took: without the cut that is no run, with it it is."""
        commit = frame(4, 200, 3, 201, struct.pack(">IH", 0, 0))
        lost = self.bank({201: self.journal(201, (2, CRASH, SENT_NOTHING), (5, b"\1" + commit, b"\2\3"), (6, CRASH, b"\2\3"))})
        self.says_no(lost, "audit no 201 2 A1\n")
        self.says_yes(lost, "crash s1\n", "s1: 2 of 3 events are cut off\n", "--cut")
        # what a sender's journal comes to is not cut, and what it does not have then stays wrong
        forged = dict(lost, **{name(200): self.journal(200, (4, CRASH, SENT_NOTHING))})
        self.says_no(forged, "audit no 201 2 A1\n", "--cut")
        # nor is a sender cut that has what came
        self.says_yes(self.paid_in(), "payin ALFA USD 100\ndeliver 1\n", "", "--cut")
        self.says_yes({**self.paid_in(), name(102): self.journal(102)}, "", "s0: 1 of 1 events are cut off\n", "--cut")

    def test_a_torn_record_is_told(self):
        """Its bytes are a front of a record, which is left out."""
        whole = self.journal(201, CRASHED)
        for left in len(whole) - 1, len(head(201)) + 1:
            self.says_yes(self.bank({201: whole[:left]}), "", f"journal 8 is torn at byte {len(head(201))}\n")

    def test_damaged_journals(self):
        whole = self.journal(201, CRASHED, (6, TIMER, SENT_NOTHING))
        first, second = len(head(201)), len(self.journal(201, CRASHED))
        flipped = lambda at: whole[:at] + bytes([whole[at] ^ 1]) + whole[at + 1:]
        rows = [
            (b"", "M1", 0, "the bytes do not begin with PVPJ"),
            (b"PVPK" + whole[4:], "M1", 0, "the bytes do not begin with PVPJ"),
            (b"PVPJ\0" + whole[5:], "M2", 0, "the version is neither 1 nor 2"),
            (b"PVPJ\3" + whole[5:], "M2", 0, "the version is neither 1 nor 2"),
            (b"PVPJ", "M2", 0, "the version is neither 1 nor 2"),
            (whole[:first - 1], "M3", 0, "the head is cut off, or its opening has another flag"),
            (flipped(first + 5), "M4", first, "a record's length does not have its complement behind it"),
            (flipped(second - 9), "M5", first, "a record has another checksum"),
            (flipped(second + 20), "M5", second, "a record has another checksum"),
            (self.journal(201, (5, b"\x0d", SENT_NOTHING)), "M6", first, SAYS_NOTHING),
        ]
        for outcome in b"\x0a\0\0", b"\x09\0", b"\x09\0\7", b"\x09\0\0\0", b"\1" + bytes(4) + b"\7":
            rows.append((self.journal(201, (5, CRASH, outcome)), "M6", first, SAYS_NOTHING))
        for text, code, at, why in rows:
            self.faults(self.bank({201: text}), f"fault journal 8 {code} {at}\n", f'journal "201.journal": {why}\n')

    def test_journals_of_no_one_bank(self):
        for text, fault, why in [
            (self.journal(200, setup=FOUR_SITES), "journal 7 V1", "the journal is of a bank whose setup has another text"),
            (self.journal(200, life=bytes(16)), "journal 7 V2", "the journal is of another life of the bank than one before it"),
            (self.journal(203), "journal 7 V3", "the bank has no such actor, or it opened over what such an actor does not"),
            (self.journal(200, opening=b"\0"), "journal 7 V3", "the bank has no such actor, or it opened over what such an actor does not"),
            (self.journal(202), "journal 9 V4", "a journal before it is the same actor's"),
        ]:
            files = self.bank({200: text})
            place = int(fault.split()[1])
            self.faults(files, f"fault {fault}\n", f'journal "{[*files][place - 1]}": {why}\n')
        for actor in (103, 201):
            self.faults(self.bank({actor: None}), f"fault actor {actor} V5\n", f"actor {actor}: no journal is the actor's\n")

    def test_journals_of_some_clients(self):
        """Who has none is taken to have asked for nothing, and named, behind the faults of the others; what another sent is missing."""
        for actors in {0: "OP"}, {2: "BETA"}, {0: "OP", 1: "ALFA", 2: "BETA"}:
            self.says_yes(self.bank(dict.fromkeys(actors)), "", "".join(f"not seen: {it}\n" for it in actors.values()))
            self.audits(self.bank(dict.fromkeys([*actors, 200])), (1, "", "fault actor 200 V5\n"))
        asked = frame(1, 1, 2, 200, funds(100)[0][22:])
        files = self.bank({1: None, 200: self.journal(200, (3, b"\1" + asked, SENT_NOTHING))})
        self.audits(files, (3, "audit no 200 1 A1\n", "not seen: ALFA\n"))


class FirstJournals(Journals):
    """Of version 1, which has all that an event sent."""

    version = 1

    def test_a_send_that_is_another(self):
        """What the node says that it sent is not what it should have sent, whatever came to the site; nor is what the site sent."""
        self.says_no(self.paid_in(paid=101), "audit no 102 1 A3\n")
        self.says_no(self.paid_in(sent=101, came=101), "audit no 102 1 A3\n")
        self.says_no(self.paid_in(sent=101), "audit no 102 1 A3\n")
        self.says_no(self.paid_in(site=Sent(prepares(101))), "audit no 200 1 A3\n")

    def test_what_was_sent_by_another(self):
        """Each envelope that was sent has the stamp of its record."""
        row = funds(100)[0][22:]
        for sent in funds(100)[1:], (frame(1, 102, 2, 200, row),), (frame(1, 101, 1, 200, row),):
            text = self.journal(102, (1, payin(1, 100), Sent(sent)))
            why = f'journal "102.journal": {SAYS_NOTHING}\n'
            self.faults(self.bank({102: text}), f"fault journal 5 M6 {len(head(102))}\n", why)


class MixedJournals(Audits):
    """Behind either head stand records of either version, as an actor of version 1 goes on in version 2."""

    def test_an_actor_that_goes_on(self):
        """The node of USD sends its pay-in again at its beat."""
        first = Sent(funds(100))
        again = Sent(tuple(frame(1, 102, 2, site, funds(100)[0][22:], at) for at, site in enumerate(SITES)))
        for opened, one, two in itertools.product((1, 2), repeat=3):
            paid = (1, payin(1, 100), first.text(102, one))
            node = self.journal(102, paid, (2, NODE_BEAT, again.text(102, two)), version=opened)
            self.says_yes(self.bank({102: node}), "payin ALFA USD 100\nbeat USD\n")
            wrong = self.journal(102, paid, (2, NODE_BEAT, Sent(again.frames[:2]).text(102, two)), version=opened)
            self.says_no(self.bank({102: wrong}), "audit no 102 2 A3\n")

    def test_a_bank_of_both(self):
        """The journal of one of its actors is of the one version, and those of all others of the other."""
        of = {}
        for self.version in 1, 2:
            of[self.version] = self.paid_in()
        for actor, (one, other) in itertools.product(ALL, ((1, 2), (2, 1))):
            files = {**of[one], name(actor): of[other][name(actor)]}
            self.says_yes(files, "payin ALFA USD 100\ndeliver 1\n")


class Files(Audits):
    """Journals that are not there, or cannot be put anywhere."""

    def test_files_that_are_not_there(self):
        files = [name(actor) for actor in ALL]
        self.faults(self.bank({103: None}), "fault file\n", 'journal "103.journal": there is no such file\n', files)
        self.has_no_form(["audit", "setup.json"], "<journal>")
        self.ends(["audit", "setup.json", "x"], (1, "", "fault setup K1\n"), FOUR_SITES)

    def test_journals_that_cannot_be_kept(self):
        """A folder that cannot be made is told before the run, and one that has a journal already stays as it is."""
        words = ["live", "setup.json", "script.txt", "--journal"]
        self.ends([*words, "setup.json/x"], (1, "", "fault journals V7\n"))
        why = "folder: a file or its folder could not be made or written"
        self.ends([*words, "/proc/none", "--explain"], (1, "", f"fault journals V7\n{why}\n"))
        self.ends([*words, "."], (1, "", "fault journals V8\n"))
