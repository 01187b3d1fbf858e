"""What several of these scripts share: where the program is, how it is run, and how much came out as it should."""
import os
import subprocess

ROOT = os.path.dirname(os.path.dirname(os.path.abspath(__file__)))
BUILT = os.path.join(ROOT, "crates", "pvpsim", "out", "pvpsim")
PROGRAM = os.environ.get("PVPSIM_PROGRAM") or BUILT


def read(*path):
    with open(os.path.join(*path), encoding="utf-8") as file:
        return file.read()


def write(path, text):
    os.makedirs(os.path.dirname(path), exist_ok=True)
    with open(path, "w", encoding="utf-8") as file:
        file.write(text)


def ran(*words, program=PROGRAM, world=None, seconds=60):
    """One run of the program: its status, what it printed and what it told."""
    how = {"env": world, "stdin": subprocess.DEVNULL, "capture_output": True, "text": True, "timeout": seconds}
    try:
        done = subprocess.run([program, *words], **how)
    except subprocess.TimeoutExpired:
        return None, "", f"it had not ended after {seconds} seconds\n"
    return done.returncode, done.stdout, done.stderr


def shim(name, folder):
    """The library that stands before a program's own calls, built with the C compiler from the file of this name."""
    built = os.path.join(folder, f"{name}.so")
    source = os.path.join(ROOT, ".ci", f"{name}.c")
    subprocess.run(["cc", "-O1", "-fPIC", "-shared", "-o", built, source], check=True, capture_output=True)
    return built


class Count:
    """How much came out as it should, and how much did not."""

    def __init__(self):
        self.passed = self.failed = 0

    def take(self, name, wrong):
        """Counts one thing, and tells what is wrong with it."""
        if wrong:
            print(f"{name}: {wrong}")
        self.passed, self.failed = self.passed + (not wrong), self.failed + bool(wrong)

    def ends(self):
        """Tells the sums in a last line, and answers the status."""
        print(f"{self.passed} passed, {self.failed} failed")
        return 1 if self.failed or not self.passed else 0
