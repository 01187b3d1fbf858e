"""Words of the command line: those of no form, help, the version, and what each fault code means."""
import os

from program import BOOK, Runs

# all codes, in the order of `docs/formats.md`, with what each means
CODES = """J1  the text is no JSON
J2  a field of an object is missing or of another type; a number is digits alone, below 2^64
K1  the sites are not 3, 5 or 7
K2  the currencies are not 1 to 8
K3  a currency's code is not three letters A to Z, or stands twice
K4  a rate is not 1 to 1000000
K5  a haircut is not 0 to 9999
K6  the members are not 1 to 64
K7  a member's name is not 1 to 8 of A to Z and digits, a letter first, or it stands twice, is OP or is a currency's code
K8  a member's short limits or deposits are not one for each currency
K9  a limit is not 0 to 1000000000000000000, or a deposit is not 0 to 1000000000000000
L1  a byte outside 32 to 126
L2  the first word, or a command's, is unknown, or the first word is not of the script's kind
L3  too many or too few words
L4  a number that is malformed or too large for its field
L5  a name that nothing has, or that may not stand there
L6  a line of more than 256 bytes
L7  more than 65535 lines
L8  memory was refused
B1  the sender is of the wrong kind, or no side of the pair that it takes back
B2  the sender or a member that is named is not in the setup, or the other side is the sender itself
B3  a currency is not in the setup, or is sold for itself
B4  an amount is not 1 to 1000000000000
B5  this was done already
B6  the instruction is not the exact mirror of the one that waits
B7  there is no such pair or order, or the number is 0
B8  the pair is settled or taken back
B9  the sender's balance is below the amount
B10  the sender would fail its tests once the amount is paid out
B11  the bank's figure is below the amount
G1  no envelope has this number
G2  there is no such actor
G3  the client still waits for an answer
G5  memory was refused
S1  memory was refused, and the site is down
S2  the boot cell did not save, and the site is down
S3  the site is down
S4  the site is not down
S5  there is no greater view
S6  there is no greater boot number
S7  not for this site, or of a sender who may not send it
N1  the account that pays is short
N2  there is no such member
N3  the amount is not 1 to 1000000000000
N4  memory was refused
N5  the node has 65535 such payments
N6  not for this node
N7  the member's account is closed
C1  the client has no greater request number
A1  what is delivered is not what its stamp names, or may not come to this actor
A2  a clock is not above the one before it and above its stamp's
A3  the event cannot come out as it is recorded
A4  the end state does not read like the replay's
A5  an event is no seat's next receipt, or a receipt is left over
A6  memory was refused
F1  the bytes end within a frame
F2  the frame's length is above 4194304
F3  the version is not 2
F4  no message has this kind
F5  a field has a value that it may not have
F6  the fields end before the frame does, or after it
F7  memory was refused
E1  a live run lost a seat, or a site of it had not begun with a new cell, so its actors could not be audited
M1  the bytes do not begin with PVPJ
M2  the version is neither 1 nor 2
M3  the head is cut off, or its opening has another flag
M4  a record's length does not have its complement behind it
M5  a record has another checksum
M6  a record says nothing that its actor may do
M7  memory was refused
M8  an event has no text
M9  memory was refused
U1  no boot cell is there
U2  what is there has not the length of a boot cell
U3  a boot cell's count and its complement do not fit each other
U4  a boot cell that is to be made is there already
U5  the store of a boot cell failed
U6  memory was refused
V1  the journal is of a bank whose setup has another text
V2  the journal is of another life of the bank than one before it
V3  the bank has no such actor, or it opened over what such an actor does not
V4  a journal before it is the same actor's
V5  no journal is the actor's
V6  there is no room left for a file
V7  a file or its folder could not be made or written
V8  there are files already where new ones are to be put
Q1  a line is not two words with spaces between them
Q2  the bank has no actor of this name that may stand here
Q3  an address is not HOST:PORT with a port from 1 to 65535
Q4  a key is not 64 digits of 0 to 9, and a to f or A to F
Q5  a name stands a second time
Q6  the actor has no line, and needs one
X1  the bank has no such actor
X2  the folder could not be made, or a file there not be read or written
X3  another process serves the folder
X4  the end of the journal may be lost, and a node or a client cannot recover it from others
X5  the boot cell and the journal are not of one site
X6  no actor can have taken what the journal tells
X7  without keys a site listens on this machine alone, unless the network is trusted
X8  the folder has no actor: `pvpsim begin` makes one, once; one that was lost may not be made anew
X9  an actor was begun in the folder before, and may not be begun again
X10  the client has used up its share of the log's rows: what is left of them is for letting money out
X11  the rows that the log has left are for letting money out
X12  a window opens at an address of this machine alone
"""


class Words(Runs):
    def test_words_of_no_form(self):
        for words in "", "play setup.json", "book setup.json", "check setup.json script.txt", "--fail setup.json":
            self.has_no_form(words.split(), "pvpsim")

    def test_help_and_version(self):
        """They are printed, with status 2."""
        for words, text in [
            ("--version", "pvpsim 0.1.0\n"),
            ("--help", "Checks whether a setup meets the rules: prints `setup ok`, or the first rule that is broken"),
            ("--help", "docs/formats.md"),
            ("check --help", "A setup: a JSON file with the sites, the currencies and the members of the bank"),
            ("book --help", "A script: a text file with one statement a line"),
            ("play --help", "--fail <SITE:AT:KEEP>"),
            ("play --help", "Makes a save of a site's boot cell fail; may be given once for each site."),
            ("help", "`pvpsim help codes`"),
            ("help check", "A setup: a JSON file"),
        ]:
            with self.subTest(words=words):
                status, printed, told = self.run_on(words.split())
                self.assertEqual((status, told), (2, ""))
                self.assertIn(text, printed)

    def test_a_reader_who_leaves(self):
        """Where the reader of what is printed is gone, nothing is told; a writer that fails otherwise is told."""
        script = "print\n" * 5000
        reader, writer = os.pipe()
        os.close(reader)
        for out, fault in (os.fdopen(writer, "wb", buffering=0), ""), (open("/dev/full", "wb", buffering=0), "fault output\n"):
            with self.subTest(fault=fault), out:
                status, _, told = self.run_on(BOOK, script=script, out=out)
                self.assertEqual((status, told), (1, fault))

    def test_each_code_is_told_with_its_meaning(self):
        self.prints(["help", "codes"], CODES)

    def test_help_on_what_is_no_command(self):
        """Other words after `help` are their reader's, which tells that there is no such command."""
        self.has_no_form(["help", "code"], "code")
        self.has_no_form(["help", "codes", "codes"], "codes")
