"""Reads printed books, line by line as docs/formats.md has them, and says what in them does not come to what it has to; and what a live
run tells at its end of lines that were refused."""
import re

REFUSED = re.compile(r"(?:1 line was refused: line \d+|(\d+) lines were refused: the first, line \d+), [A-Z]\d\n\Z")

SITE = re.compile(r"site (\d+) (?:(?:normal|change) view \d+ log (\d+) done (\d+) cell \d+|(?:recovering|down) cell \d+)")
NODE = re.compile(r"node (\w+) account (\d+) payins (\d+) payouts (\d+)(?: returned \d+)?")
SIDE = re.compile(r"  site (\d+) figure (\d+) way (-?\d+)")
CLIENT = re.compile(r"client (\w+) (\d+) (.+)")
BOOK = re.compile(r"  (?!site )\w+(?: -?\d+)+")


class Site:
    """A site as it is printed: its first line, how many rows its log has and how many are done (None where it is not running), and
    the block of its book."""

    def __init__(self, found):
        self.line, self.book = found[0], []
        self.is_running = found[2] is not None
        self.log, self.done = (int(found[2]), int(found[3])) if self.is_running else (None, None)


class Node:
    """A node as it is printed: its line, what its account holds, and each running site's figure and way."""

    def __init__(self, found):
        self.line, self.account, self.sides = found[0], int(found[2]), {}


class Block:
    """What one `print` of a play writes: sites by number, nodes by currency, and what clients were answered by name."""

    def __init__(self):
        self.sites, self.nodes, self.clients = {}, {}, {}

    def take(self, line):
        """Takes a line that comes next; answers whether such a line may stand there."""
        if found := SITE.fullmatch(line):
            self.sites[int(found[1])] = Site(found)
            return not self.nodes and int(found[1]) == len(self.sites) - 1
        if found := NODE.fullmatch(line):
            self.nodes[found[1]] = Node(found)
            return not self.clients
        if found := CLIENT.fullmatch(line):
            self.clients[found[1]] = f"{found[2]} {found[3]}"
            return bool(self.nodes)
        if found := SIDE.fullmatch(line):
            if not self.nodes or self.clients:
                return False
            [*self.nodes.values()][-1].sides[int(found[1])] = int(found[2]), int(found[3])
            return True
        if not BOOK.fullmatch(line) or not self.sites or self.nodes:
            return False
        last = self.sites[len(self.sites) - 1]
        last.book.append(line)
        return last.is_running

    def faults(self):
        """What is wrong with it."""
        running = {number for number, site in self.sites.items() if site.is_running}
        if not self.sites or not self.nodes:
            yield "it has no site or no node"
        for number in running:
            words = [line.split()[0] for line in self.sites[number].book]
            if words[-3:] != ["pairs", "figure", "open"]:
                yield f"the book of site {number} is not whole"
        for code, node in self.nodes.items():
            if node.sides.keys() != running:
                yield f"not each running site stands at the node {code}"
            if any(figure + way != node.account for figure, way in node.sides.values()):
                yield f"the account at {code} is not figure and way"
        books = {}
        for number in running:
            site = self.sites[number]
            if books.setdefault(site.done, site.book) != site.book:
                yield f"two sites have {site.done} rows done and other books"


def blocks_of(text):
    """The blocks of a text in order, and what is wrong with it. A play prints blocks, and lines 'refused LINE CODE' between them."""
    blocks, wrong = [], []
    for line in text.splitlines():
        if line.startswith("site 0 "):
            blocks.append(Block())
        elif re.fullmatch(r"refused \d+ [A-Z]\d", line):
            continue
        if not blocks or not blocks[-1].take(line):
            wrong.append(f"no line of books is {line!r} there")
    if text and not text.endswith("\n"):
        wrong.append("the last line has no end")
    return blocks, wrong + [it for block in blocks for it in block.faults()]


def judged(text):
    """The block of books in what a run printed that was judged yes, and what is wrong with it."""
    blocks, wrong = blocks_of(text.removesuffix("audit yes\n"))
    if not text.endswith("audit yes\n") or len(blocks) != 1:
        wrong.insert(0, f"it printed {len(blocks)} blocks of books, and at its end {text[-80:]!r}")
    return blocks[0] if blocks else Block(), wrong


def parted(told):
    """What a live run told, without its last line where that is of refused lines, and of how many."""
    found = REFUSED.search(told)
    return (told[: found.start()], int(found[1] or 1)) if found else (told, 0)
