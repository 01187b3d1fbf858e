"""Networks for processes of one machine that can be cut: rooms of the kernel (network namespaces) that a bridge joins, and streams that
pass through this script, which may delay what they carry.
"""
import contextlib
import random
import socket
import subprocess
import threading
import time


class Unable(Exception):
    """Why this machine does not let a script have such a network."""


class Rooms:
    """Network namespaces: one for each site, and one where the bridge stands that joins them, for everybody else. They end with
    this script, however that ends, and nothing is changed outside of them."""

    PORT = 7000

    def __init__(self, sites):
        self.holders = []
        try:
            self.hall = self.room()
            self.sites = [self.room() for _ in range(sites)]
            self.join()
        except (OSError, subprocess.SubprocessError) as why:
            self.close()
            told = getattr(why, "stderr", None)
            raise Unable(told.strip().splitlines()[-1] if told else str(why)) from why

    def room(self):
        """A namespace, as the process that holds it; that one ends once nobody can write to it."""
        it = subprocess.Popen(["unshare", "--net", "cat"], stdin=subprocess.PIPE, stdout=subprocess.PIPE, stderr=subprocess.PIPE, text=True)
        self.holders.append(it)
        with contextlib.suppress(BrokenPipeError):
            it.stdin.write("here\n")
            it.stdin.flush()
        if it.stdout.readline() != "here\n":
            raise subprocess.CalledProcessError(1, "unshare", stderr=it.stderr.read() or "no namespace")
        return it

    @staticmethod
    def words(room):
        """The words that start a command in a room, put before it."""
        return ["nsenter", f"--net=/proc/{room.pid}/ns/net"]

    def ip(self, room, *lines):
        words = [*self.words(room), "ip", "-batch", "-"]
        subprocess.run(words, input="".join(f"{it}\n" for it in lines), check=True, capture_output=True, text=True, timeout=10)

    def join(self):
        self.ip(self.hall, "link set lo up", "link add bridge type bridge", "addr add 10.77.0.254/24 dev bridge", "link set bridge up")
        for at, room in enumerate(self.sites):
            self.ip(self.hall, f"link add to{at} type veth peer name wire netns {room.pid}", f"link set to{at} master bridge up")
            self.ip(room, "link set lo up", f"addr add {self.host(at)}/24 dev wire", "link set wire up")

    @staticmethod
    def host(site):
        return f"10.77.0.{site + 1}"

    def cut(self, site):
        """From now on nothing comes to this site, and nothing from it."""
        self.ip(self.hall, f"link set to{site} down")

    def heal(self, site):
        self.ip(self.hall, f"link set to{site} up")

    def close(self):
        for it in self.holders:
            it.kill()
            it.wait()
            for stream in it.stdin, it.stdout, it.stderr:
                with contextlib.suppress(BrokenPipeError):
                    stream.close()


def drained(stream):
    """Takes all that comes, to its end."""
    with contextlib.suppress(OSError):
        while stream.recv(65_536):
            pass


class Wire:
    """The streams that one process opens to another, which listens at this port: they come to a port of their own, and all that they
    carry passes through this script."""

    def __init__(self, port, draw):
        self.port, self.draw = port, draw
        self.is_open = threading.Event()
        self.is_open.set()
        # what each piece takes, how much more one that has to be sent again, how often that is, and how many bytes a piece has
        self.delay, self.again, self.lost, self.most = 0.0, 0.0, 0.0, 65_536
        # what the last stream carried there and back, and whether that is played to whoever comes, in the place of the process
        self.there, self.back, self.plays = bytearray(), bytearray(), False
        self.server = socket.create_server(("127.0.0.1", 0))
        threading.Thread(target=self.listen, daemon=True).start()

    def listen(self):
        with contextlib.suppress(OSError):
            while True:
                threading.Thread(target=self.join, args=self.server.accept()[:1], daemon=True).start()

    def join(self, ours):
        """Joins a stream that came with one to the process that it goes to."""
        self.is_open.wait()
        if self.plays:
            with ours, contextlib.suppress(OSError):
                ours.sendall(bytes(self.back))
                drained(ours)
            return
        with ours, contextlib.suppress(OSError), socket.create_connection(("127.0.0.1", self.port)) as theirs:
            self.there, self.back = bytearray(), bytearray()
            back = threading.Thread(target=self.carry, args=(theirs, ours, self.back), daemon=True)
            back.start()
            self.carry(ours, theirs, self.there)
            back.join()

    def carry(self, source, sink, kept):
        """Hands on what comes from one side, piece by piece, to its end, which is that of both."""
        with contextlib.suppress(OSError):
            while piece := source.recv(self.most):
                if self.delay:
                    time.sleep(self.delay + (self.again if self.draw.random() < self.lost else 0))
                self.is_open.wait()
                kept += piece
                sink.sendall(piece)
        for it in source, sink:
            with contextlib.suppress(OSError):
                it.shutdown(socket.SHUT_RDWR)


class Wires:
    """Wires between processes. What is on its way while a wire is cut comes once it is healed."""

    def __init__(self, seed=0):
        self.draw, self.wires = random.Random(seed), {}

    def wire(self, dialer, site, port):
        """The port of a new wire from one process to a site, by their names, which listens at this port."""
        it = self.wires[dialer, site] = Wire(port, self.draw)
        return it.server.getsockname()[1]

    def between(self, *sites):
        """The wires at whose ends these stand."""
        return [it for ends, it in self.wires.items() if all(f"s{site}" in ends for site in sites)]

    def cut(self, *sites):
        """From now on nothing passes between these two sites, or between the one and all others."""
        for it in self.between(*sites):
            it.is_open.clear()

    def heal(self, *sites):
        for it in self.between(*sites):
            it.is_open.set()

    def slow(self, delay, again, lost, most):
        """Each piece of so many bytes at the most takes so long from now on, and some, by chance, so much longer."""
        for it in self.wires.values():
            it.delay, it.again, it.lost, it.most = delay, again, lost, most

    def close(self):
        for it in self.wires.values():
            it.server.shutdown(socket.SHUT_RDWR)
            it.server.close()
            it.is_open.set()


def in_rooms(bank):
    """Each site stands in a room of its own, and all others in the one between them."""
    bank.net = Rooms(len(bank.sites))
    bank.peers = bank.write_peers("peers", [f"{Rooms.host(at)}:{Rooms.PORT}" for at in range(len(bank.sites))])
    for it in bank.all:
        room = bank.net.sites[bank.sites.index(it)] if it in bank.sites else bank.net.hall
        it.place = Rooms.words(room)


def over_wires(bank):
    """Whoever dials a site does it over a wire of its own."""
    bank.net = Wires()
    for it in bank.all:
        # a site dials those before it
        dialed = bank.sites[: bank.sites.index(it)] if it in bank.sites else bank.sites
        ports = [bank.net.wire(it.name, f"s{at}", port) if bank.sites[at] in dialed else port for at, port in enumerate(bank.ports)]
        it.peers = bank.write_peers(f"{it.name}.peers", [f"127.0.0.1:{port}" for port in ports])
