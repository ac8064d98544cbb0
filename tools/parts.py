"""Parts of a gate that have ended, with which one that is interrupted goes on: rt ci, the edits of each crate, and each tool.
Each is a file with what it said, whose last line is 'N passed, 0 failed'. They count as long as the files of the repository,
the kit, the programs that the gate takes and the machine are the same."""
import contextlib
import fcntl
import hashlib
import os
import shutil
import subprocess
import tempfile

from common import TOP, processors

# What no check reads, or is built.
LEFT_OUT = (".git", "out", "target", "__pycache__", "Cargo.lock")
VERSIONS = (["rt", "version"], ["cc", "--version"], ["cargo", "--version"])


def sum_of_files():
    """A sum of all files of the repository, but of what is built: another after any edit."""
    found = hashlib.sha256()
    for folder, folders, names in os.walk(TOP):
        folders[:] = sorted(it for it in folders if it not in LEFT_OUT)
        for name in sorted(it for it in names if it not in LEFT_OUT):
            path = os.path.join(folder, name)
            # An editor may have taken one away meanwhile.
            with contextlib.suppress(OSError), open(path, "rb") as it:
                found.update(repr((os.path.relpath(path, TOP), os.access(path, os.X_OK), it.read())).encode())
    return found.hexdigest()


def sum_of_machine():
    """A sum of the machine, the kit, and the programs that the gate takes."""
    said = [subprocess.run(it, capture_output=True, text=True, check=False).stdout for it in VERSIONS]
    with contextlib.suppress(OSError), open("/etc/machine-id", encoding="ascii") as it:
        said.append(it.read())
    return hashlib.sha256(repr((said, os.uname(), processors())).encode()).hexdigest()


class Parts:
    """A folder with the parts that have ended, and the sums that they are of."""

    def __init__(self, folder):
        self.folder = folder

    def read(self, name):
        """A text of the folder, or nothing."""
        with contextlib.suppress(OSError), open(f"{self.folder}/{name}", encoding="utf-8") as it:
            return it.read()
        return ""

    def put(self, name, text):
        """Puts a text there, as a whole."""
        with open(f"{self.folder}/{name}.new", "w", encoding="utf-8") as it:
            it.write(text)
        os.replace(f"{self.folder}/{name}.new", f"{self.folder}/{name}")

    def names(self):
        """The parts that have ended."""
        return sorted(it.removesuffix(".part") for it in os.listdir(self.folder) if it.endswith(".part"))

    def lines(self, name):
        """What a part said, or None where it hasn't ended."""
        return self.read(f"{name}.part").splitlines() or None

    def keep(self, name, lines):
        """Keeps a part that ended by itself and well, unless a file was edited since the gate began."""
        if self.read("files") == sum_of_files():
            self.put(f"{name}.part", "".join(f"{line}\n" for line in lines))


class Gate(Parts):
    """The parts of a gate, and its room, in which rt ci works."""

    def __init__(self, folder, is_anew):
        super().__init__(folder)
        self.is_interrupted = False
        os.makedirs(folder, exist_ok=True)
        # As long as this program runs.
        self.lock = open(f"{folder}/lock", "w", encoding="ascii")
        try:
            fcntl.flock(self.lock, fcntl.LOCK_EX | fcntl.LOCK_NB)
        except OSError:
            raise SystemExit("make test runs in this repository already") from None
        sums = {"files": sum_of_files(), "machine": sum_of_machine()}
        if is_anew or any(self.read(name) != it for name, it in sums.items()):
            for name in self.names():
                os.remove(f"{folder}/{name}.part")
        self.number = int(self.read("number") or 0) + 1 if self.names() else 1
        self.room = self.read("room")
        # What rt ci has built is there with it, or it is done again.
        self.has_room = self.lines("ci") is not None and os.path.isdir(self.room)
        if not self.has_room:
            with contextlib.suppress(FileNotFoundError):
                os.remove(f"{folder}/ci.part")
            shutil.rmtree(self.room, ignore_errors=True)
            self.room = os.path.realpath(tempfile.mkdtemp(prefix="gate-"))
            os.chmod(self.room, 0o755)
        for name, it in {**sums, "number": str(self.number), "room": self.room}.items():
            self.put(name, it)

    def interrupt(self):
        """What rt ci has built is left, where it has ended."""
        if not self.lines("ci"):
            shutil.rmtree(self.room, ignore_errors=True)

    def end(self):
        """The next gate begins anew."""
        shutil.rmtree(self.room, ignore_errors=True)
        shutil.rmtree(self.folder, ignore_errors=True)
