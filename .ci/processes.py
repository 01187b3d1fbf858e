"""Banks whose actors are processes of the program, over the loopback of this machine, and frames that strangers send them."""
import calendar
import json
import os
import pathlib
import re
import socket
import struct
import subprocess
import threading
import time

from books import judged
from journal_bytes import frame
from networks import drained
from power import Machine
from shared import PROGRAM, ROOT, ran, read, shim

PATIENCE = 20  # seconds for what should come within one
ROWS = 65_535  # that a log has at most
RESERVE = 8_192  # of them, for what lets money out and for what nodes say


class Wrong(Exception):
    """Why a case fails."""


def demand(holds, why):
    if not holds:
        raise Wrong(why)


def free_ports(count):
    """Ports of the loopback that nobody listens at."""
    taken = [socket.create_server(("127.0.0.1", 0)) for _ in range(count)]
    ports = [it.getsockname()[1] for it in taken]
    for it in taken:
        it.close()
    return ports


class Process:
    """An actor of a bank, and the process that serves it now."""

    def __init__(self, bank, name, words):
        self.bank, self.name, self.words = bank, name, words
        self.folder = pathlib.Path(bank.room, name)
        self.journal = self.folder / "journal"
        self.lines, self.told = [], []
        self.process = None
        self.readers = []
        self.said = threading.Condition()
        # which words stand before its own, which peers file and which machine it has, where these are not the bank's
        self.place, self.peers, self.machine = [], None, None

    def where(self):
        """The words that say which actor it is, and where everything is."""
        return [self.bank.setup, *self.words, "--peers", self.peers or self.bank.peers, "--data", self.folder]

    def command(self, *more):
        """The words that serve it."""
        keys = ["--keys", os.path.join(self.bank.keys, f"{self.name}.keys")] if self.bank.keys else []
        return [*self.place, PROGRAM, "serve", *self.where(), *self.bank.words, *more, *keys]

    def world(self):
        return {**os.environ, **self.machine.world()} if self.machine else None

    def begin(self):
        """Begins the actor: the status, and what was told of a fault."""
        status, _, told = ran("begin", *self.where(), world=self.world())
        return status, told.rstrip("\n")

    def start(self, *more, before=None, begins=True):
        """Starts its process. Where it has no folder yet the actor is begun."""
        if begins and not self.folder.exists():
            self.begin()
        pipes = {it: subprocess.PIPE for it in ("stdin", "stdout", "stderr")}
        self.process = subprocess.Popen(self.command(*more), text=True, bufsize=1, preexec_fn=before, env=self.world(), **pipes)
        reads = (self.process.stdout, self.lines), (self.process.stderr, self.told)
        self.readers = [threading.Thread(target=self.read, args=it, daemon=True) for it in reads]
        for it in self.readers:
            it.start()
        return self

    def read(self, stream, lines):
        for line in stream:
            with self.said:
                lines.append(self.bare(line.rstrip("\n")) if lines is self.told else line.rstrip("\n"))
                self.said.notify_all()

    def bare(self, line):
        """What stands behind the heading of a line that was told now, where that is right: its time, its actor and its level."""
        found = re.match(rf"(\S+Z) {self.name} (info (?=\w+ view |reads )|warn (?!\w+ view |reads ))", line)
        is_now = found and abs(time.time() - calendar.timegm(time.strptime(found[1], "%Y-%m-%dT%H:%M:%SZ"))) < PATIENCE
        return line[found.end() :] if is_now else line

    def say(self, *lines):
        self.process.stdin.write("".join(f"{it}\n" for it in lines))
        self.process.stdin.flush()

    def waits_for(self, holds, what, seconds=PATIENCE):
        """Waits until this holds of the lines that the process printed and told."""
        end = time.monotonic() + seconds
        with self.said:
            while not holds(self):
                left = end - time.monotonic()
                demand(left > 0, f"{self.name}: no {what} within {seconds} seconds; it printed {self.lines[-3:]} and told {self.told[-3:]}")
                self.said.wait(left)

    def answers(self, count, seconds=PATIENCE):
        self.waits_for(lambda it: len(it.lines) >= count, f"answer {count}", seconds)
        return self.lines[count - 1]

    def asks(self, *lines, seconds=PATIENCE):
        """Says these lines, and waits for an answer to each; the last of them."""
        before = len(self.lines)
        self.say(*lines)
        return self.answers(before + len(lines), seconds)

    def kill(self):
        """Kills it; what it had said until then is among its lines."""
        self.process.kill()
        self.process.wait()
        for it in self.readers:
            it.join()

    def restart(self, *more):
        """Starts it anew, so that it has told nothing yet."""
        self.kill()
        self.told.clear()
        return self.start(*more)

    def loses_power(self, draw=None):
        """Kills it, and has its machine forget what was not synced, or what is drawn of it; answers how many bytes that were."""
        self.kill()
        return self.machine.loses_power(draw)

    def status(self, what):
        """The status with which it ends, where it should do this."""
        try:
            return self.process.wait(PATIENCE)
        except subprocess.TimeoutExpired:
            raise Wrong(f"{self.name} goes on after {PATIENCE} seconds, where it should {what}") from None

    def ends(self):
        """Ends its terminal, and answers the status."""
        self.process.stdin.close()
        return self.status("end behind its terminal")

    def fails(self, fault):
        """Demands that it ends with status 1, and tells this fault last."""
        status = self.status(f"tell {fault!r}")
        time.sleep(0.1)
        is_so = status == 1 and self.told[-1:] == [fault]
        demand(is_so, f"{self.name} ended with status {status}, and told {self.told[-1:]} for {fault!r}")


class Bank:
    """A bank of processes in a folder."""

    def __init__(self, room, sites=3, members=None, words=(), life=None, keyed=False, net=None, machines=False, sync_ms=3):
        self.room, self.words, self.net, self.keys = room, list(words), None, None
        rules = json.loads(read(ROOT, "examples", "first", "setup.json"))
        rules["sites"], rules["members"] = sites, members or rules["members"]
        self.setup = self.write("setup.json", json.dumps(rules))
        self.ports, self.life = free_ports(sites), life
        self.peers = self.write_peers("peers", [f"127.0.0.1:{it}" for it in self.ports])
        self.sites = [Process(self, f"s{at}", ["--site", str(at)]) for at in range(sites)]
        self.nodes = {it["code"]: Process(self, it["code"], ["--node", it["code"]]) for it in rules["currencies"]}
        self.clients = {it: Process(self, it, ["--client", it]) for it in ["OP", *(it["name"] for it in rules["members"])]}
        self.operator, self.alfa, self.beta = [*self.clients.values()][:3]
        self.all = [*self.sites, *self.nodes.values(), *self.clients.values()]
        self.guard = threading.Lock()
        if net:
            net(self)
        if machines:
            forget = shim("forget", room)
            for it in self.all:
                it.machine = Machine(forget, it.folder, sync_ms)
        if keyed:
            self.keys = os.path.join(room, "keys")
            status, _, told = ran("keys", self.setup, self.write("secret", "a secret of this bank\n"), "--into", self.keys)
            demand(status == 0, f"keys were not made: {told}")

    def write(self, name, text):
        path = pathlib.Path(self.room, name)
        path.write_text(text, encoding="utf-8")
        return path

    def write_peers(self, name, places):
        lines = [f"s{at} {place}" for at, place in enumerate(places)] + ([f"bank {self.life}"] if self.life else [])
        return self.write(name, "# where the sites listen\n" + "".join(f"{it}\n" for it in lines))

    def start(self):
        for it in self.all:
            it.start()
        return self

    def stop(self, rest=0.0):
        """Ends all terminals after this rest, those of clients first, so that what they wait for still comes."""
        time.sleep(rest)
        for it in [*self.clients.values(), *self.nodes.values(), *self.sites]:
            if it.process and it.process.poll() is None:
                demand(it.ends() == 0, f"{it.name} ended with another status than 0, and told {it.told[-1:]}")

    def clear(self):
        for it in self.all:
            if it.process and it.process.poll() is None:
                it.kill()
        if self.net:
            self.net.close()

    def audit(self, *words):
        return ran("audit", self.setup, *(it.journal for it in self.all), *words, seconds=900)

    def is_judged(self, *words):
        """Demands that the journals are judged yes, with books that add up and do not differ."""
        status, text, told = self.audit(*words)
        block, wrong = judged(text)
        demand(status == 0 and not wrong, f"the audit ended with {status}: {wrong[:1]}, and told {told[-200:]!r}")
        return block

    def is_judged_no(self, line):
        """Demands that the journals are judged so."""
        status, text, told = self.audit()
        demand(status == 3 and re.fullmatch(f"{line}\n", text), f"the audit ended with {status}: {text[-100:]!r} {told[-100:]!r}")

    def ends(self, rest=0.5):
        """Ends once after this rest nothing is on the way, and demands that it is judged yes."""
        self.stop(rest)
        return self.is_judged()

    def is_level(self):
        """Whether all sites are normal, in one view, and have executed the same rows and all that they have."""
        shown = {it.asks("status").partition(" hears")[0] for it in self.sites}
        return len(shown) == 1 and re.fullmatch(r"normal view \d+ log (\d+) done \1", *shown)

    def ends_level(self, rest=0.5):
        """Ends so once the sites stand at the same row, and demands that they still do then."""
        end = time.monotonic() + PATIENCE
        while not self.is_level():
            demand(time.monotonic() < end, f"the sites do not come to stand at one row; they told {[it.told[-1:] for it in self.sites]}")
            time.sleep(0.1)
        block = self.ends(rest)
        demand(len({tuple(it.book) for it in block.sites.values()}) == 1, "the books of the sites differ")


def stands_of(site):
    """How a site stood, as it told."""
    return [line.split()[0] for line in site.told if " view " in line]


def latest_view(*sites):
    """The latest view that these sites have told of; 0 where they have told of none."""
    return max((int(line.split()[2]) for it in sites for line in it.told if " view " in line), default=0)


def size_of(actor):
    """How many bytes an actor's journal has."""
    return actor.journal.stat().st_size


def passes_over(bank, client, seconds, *words):
    """Kills the primary, and starts it again once the client has its next answer. Answers after how many seconds that came, and by how
    many bytes each site's journal has grown when the one that was killed is normal again."""
    primary = bank.sites[latest_view(*bank.sites) % len(bank.sites)]
    before, began = [size_of(it) for it in bank.sites], time.monotonic()
    primary.kill()
    client.asks("rescind 1", seconds=seconds)
    took = time.monotonic() - began
    primary.restart(*words)
    primary.waits_for(lambda it: stands_of(it)[-1:] == ["normal"] and latest_view(it), "normal view", 120)
    return took, [size_of(it) - was for it, was in zip(bank.sites, before)]


# --- What strangers send ----------------------------------------------------------------------------------------------


def request_of(actor, clock, to, number):
    """A REQUEST with a rescission, stamped so."""
    return frame(1, actor, clock, to, struct.pack(">IBI", number, 2, 1))


def hello_of(journal, actor):
    """A hello of an actor, in the bank of this journal."""
    return struct.pack(">IH", 50, actor) + journal.read_bytes()[12:44] + bytes(16)


def opening_of(journal, actor):
    """What an actor without a key says over a stream before its frames: who calls, and who answers the site's hello."""
    return hello_of(journal, actor) * 2


class Flooding:
    """A member who sends the sites at these ports what it likes."""

    def __init__(self, ports, journal, actor):
        self.actor, self.clock, self.number = actor, 1_000, 1_000
        self.streams = [socket.create_connection(("127.0.0.1", port), 5) for port in ports]
        for it in self.streams:
            it.sendall(opening_of(journal, actor))
            threading.Thread(target=drained, args=(it,), daemon=True).start()

    def sends(self, step, count=200):
        """So many requests to each site, whose numbers rise by this."""
        for at, stream in enumerate(self.streams):
            frames = []
            for it in range(count):
                self.clock += 1
                frames.append(request_of(self.actor, self.clock, 200 + at, self.number + step * (it + 1)))
            stream.sendall(b"".join(frames))
        self.number += step * count

    def ends(self):
        for it in self.streams:
            it.close()
