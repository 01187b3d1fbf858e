"""An etcd of three members on the loopback, to be measured beside a bank of three sites, and the puts that are asked of it."""
import json
import os
import shutil
import signal
import subprocess
import tempfile
import time
import urllib.error
import urllib.request

HERE = os.path.dirname(os.path.abspath(__file__))
MEMBERS = 3

# a file system that keeps nothing: there a sync costs nothing
MEMORY = "/dev/shm"


def lacking():
    """Why no etcd can be measured here; nothing where it can."""
    for it in "etcd", "cc":
        if not shutil.which(it):
            return f"there is no command {it}"
    return None


def built(folder):
    """The program that asks for puts, built with the C compiler."""
    puts = os.path.join(folder, "puts")
    subprocess.run(["cc", "-O2", "-pthread", "-o", puts, os.path.join(HERE, "puts.c")], check=True)
    return puts


class Cluster:
    """Three members, started anew. Its files are synced where they stand on a disk; words are further ones of each member."""

    def __init__(self, puts, ports, synced=True, words=()):
        self.puts = puts
        self.clients, peers = ports[:MEMBERS], ports[MEMBERS:]
        self.room = tempfile.mkdtemp(dir=None if synced else MEMORY)
        url = "http://127.0.0.1:{}".format
        all_ = ",".join(f"e{at}={url(port)}" for at, port in enumerate(peers))
        world = {**os.environ, "ETCD_ENABLE_V2": "false"}
        self.members = []
        for at in range(MEMBERS):
            named = {
                "name": f"e{at}",
                "data-dir": os.path.join(self.room, f"e{at}"),
                "listen-client-urls": url(self.clients[at]),
                "advertise-client-urls": url(self.clients[at]),
                "listen-peer-urls": url(peers[at]),
                "initial-advertise-peer-urls": url(peers[at]),
                "initial-cluster": all_,
                "log-level": "error",
                "logger": "zap",
            }
            told = [it for name, value in named.items() for it in (f"--{name}", value)]
            self.members.append(subprocess.Popen(["etcd", *told, *words], env=world, stdout=subprocess.DEVNULL, stderr=subprocess.DEVNULL))
        try:
            self.leader = self.led()
        except BaseException:
            self.close()
            raise

    def status(self, at):
        """What a member says of itself."""
        asked = urllib.request.Request(f"http://127.0.0.1:{self.clients[at]}/v3/maintenance/status", data=b"{}")
        with urllib.request.urlopen(asked, timeout=2) as answer:
            return json.load(answer)

    def led(self):
        """Which member leads, once all know it."""
        end = time.monotonic() + 30
        while time.monotonic() < end:
            try:
                said = [self.status(at) for at in range(MEMBERS)]
            except (OSError, urllib.error.URLError):
                said = []
            leaders = {it.get("leader", "0") for it in said}
            if len(leaders) == 1 and leaders != {"0"}:
                return next(at for at, it in enumerate(said) if it["header"]["member_id"] == it["leader"])
            time.sleep(0.05)
        raise SystemExit("etcd has no leader after 30 seconds")

    def asks(self, connections, count, ports=None):
        """Seconds until each connection had so many puts answered by the leader, one at a time, or by who answers at these ports."""
        ports = ports or [self.clients[self.leader]]
        words = [self.puts, ",".join(map(str, ports)), str(connections), str(count)]
        return float(subprocess.run(words, check=True, capture_output=True, text=True, timeout=300).stdout)

    def loses_leader(self):
        """Seconds from the kill of its leader to the next answer of another member."""
        self.asks(1, 20)
        began = time.monotonic()
        self.members[self.leader].send_signal(signal.SIGKILL)
        self.asks(1, 1, [port for at, port in enumerate(self.clients) if at != self.leader])
        return time.monotonic() - began

    def close(self):
        for it in self.members:
            it.kill()
            it.wait()
        shutil.rmtree(self.room, ignore_errors=True)
