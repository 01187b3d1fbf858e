"""What a power cut leaves of the files of a process: `.ci/forget.c` notes what was synced, and the rest is forgotten."""
import os
import uuid


class Machine:
    """A machine with a folder of one process: a run of it goes on until its power is cut."""

    def __init__(self, shim, folder, sync_ms=3):
        self.shim, self.folder, self.sync_ms = shim, folder, sync_ms
        self.notes, self.run = f"{folder}.notes", f"{folder}.run"
        self.starts()

    def starts(self):
        with open(self.run, "w", encoding="utf-8") as file:
            file.write(f"{uuid.uuid4()}\n")

    def world(self):
        """What the environment of its process has."""
        return {"LD_PRELOAD": self.shim, "FORGET": self.notes, "FORGET_RUN": self.run, "FORGET_MS": str(self.sync_ms)}

    def noted(self):
        """How long each file has to be, by its inode, and which names need not be kept, with what had them before."""
        kept, moved = {}, []
        with open(self.notes, encoding="utf-8") as file:
            for what, *words in map(str.split, file):
                if what == "begun":
                    kept[int(words[0])] = 0
                elif what == "kept":
                    kept[int(words[0])] = int(words[1])
                elif what == "moved":
                    moved.append(words)
                else:
                    moved.clear()
        return kept, moved

    def loses_power(self, draw):
        """Forgets what its killed process did not sync: all of it, or as much as is drawn. It then starts a new run. Answers how
        many bytes were forgotten."""
        kept, moved = self.noted()
        for path, before in reversed(moved[draw.randint(0, len(moved)) if draw else 0 :]):
            os.remove(path) if before == "-" else os.replace(before, path)
        forgotten = 0
        with open(self.notes, "w", encoding="utf-8") as notes:
            for it in os.scandir(self.folder):
                size = it.stat().st_size
                least = min(kept.get(it.inode(), 0), size)
                left = draw.randint(least, size) if draw and draw.random() < 0.5 else least
                os.truncate(it.path, left)
                forgotten += size - left
                # what is there after a cut was kept
                notes.write(f"kept {it.inode()} {left}\n")
        self.starts()
        return forgotten
