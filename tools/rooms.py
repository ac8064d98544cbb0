"""Rooms: copies of one crate, each with texts of its own, that are checked by the command line of rt over libraries that
were built elsewhere."""
import os
import re
import shutil
import signal
import subprocess
import tempfile
import threading

from common import listed, with_libraries

# The parts of a crate that a check reads.
PARTS = ["src", "specs", "proofs"]
# Where rt check keeps its work, below a crate's folder.
KEPT = "out/incremental"
# What a check of many functions holds: 2.3 GB were seen at batcher_round.
MEMORY = 2_500_000_000


def rlib_of(top, crate):
    """The library that rt has built of this crate below this folder."""
    for folder, folders, _ in os.walk(f"{top}/crates/{crate}/out"):
        if f"{crate}.rlib" in folders:
            return f"{folder}/{crate}.rlib"
    return None


def flags_over(top, crate):
    """The flags by which rt takes the libraries of this folder in the place of those that crates.txt names."""
    below = with_libraries([crate])[:-1]
    flags = []
    for it in below:
        if it in listed()[crate][1]:
            flags += ["--extern", f"{it}={rlib_of(top, it)}"]
    for it in below:
        flags += ["-L", f"dependency={os.path.dirname(rlib_of(top, it))}"]
    return flags


def furnish(folder, top, crate, texts):
    """Makes the folder a repository of this crate of 'top' alone, with these texts in the place of its own, and gives the
    crate's folder there. Libraries of this repository are left out of its crates.txt: they come by flags."""
    words, libraries = listed()[crate]
    of_kit = [it for it in libraries if it not in listed()]
    with open(f"{folder}/crates.txt", "w", encoding="utf-8") as it:
        it.write(f"{' '.join([crate, *words])}: {' '.join(of_kit)}\n")
    there = f"{folder}/crates/{crate}"
    for part in PARTS:
        if os.path.isdir(f"{top}/crates/{crate}/{part}"):
            shutil.copytree(f"{top}/crates/{crate}/{part}", f"{there}/{part}")
    for path, text in texts.items():
        with open(f"{there}/{path}", "w", encoding="utf-8", newline="") as it:
            it.write(text)
    return there


def link_new(source, target):
    """Links the files of one folder that the other lacks. A check never writes into a file that is there: it puts another
    in its place."""
    for folder, _, names in os.walk(source):
        at = os.path.normpath(f"{target}/{os.path.relpath(folder, source)}")
        os.makedirs(at, exist_ok=True)
        for name in names:
            try:
                os.link(f"{folder}/{name}", f"{at}/{name}")
            except FileExistsError:
                pass


class Work:
    """What the checks of a crate have proved in this run, for later ones to begin with."""

    def __init__(self, kept=None):
        self.lock, self.folder = threading.Lock(), tempfile.mkdtemp(prefix="work-")
        if kept and os.path.isdir(kept):
            link_new(kept, self.folder)

    def lend(self, there):
        """Lends it to the crate of a room."""
        os.makedirs(f"{there}/{KEPT}")
        with self.lock:
            link_new(self.folder, f"{there}/{KEPT}")

    def take(self, there):
        """Adds what was proved in a room."""
        with self.lock:
            link_new(f"{there}/{KEPT}", self.folder)


class Ran:
    """A command of rt in a room: its status, the lines that rattle said, and the processor seconds that it took, in all and
    of each function that it checked. The lines of rt itself, and of the progress, are left out."""

    def __init__(self, folder, *words):
        self.lines, self.spent, before = [], {}, 0.0
        how = {"cwd": folder, "stdin": subprocess.DEVNULL, "stdout": subprocess.PIPE, "stderr": subprocess.STDOUT}
        # In this session, since a kernel that groups processes by session would give each as much time as all others.
        ran = subprocess.Popen(["rt", *words], text=True, errors="replace", **how)
        RUNNING.add(ran.pid)
        with ran.stdout:
            for line in ran.stdout:
                progress = re.match(r"checked (\S+), \d+ of \d+$", line)
                if progress:
                    used = seconds_of(ran.pid)
                    self.spent[progress[1].partition("::")[2]] = used - before
                    before = used
                elif not line.startswith("rt: "):
                    self.lines.append(line.rstrip("\n"))
        _, status, used = os.wait4(ran.pid, 0)
        RUNNING.discard(ran.pid)
        self.status = ran.returncode = os.waitstatus_to_exitcode(status)
        self.seconds = used.ru_utime + used.ru_stime

    def last(self):
        return self.lines[-1] if self.lines else ""


# Each rt that runs in a room.
RUNNING = set()


def end_all():
    """Ends each rt that runs in a room, and with it all that it started."""
    for pid in [*RUNNING]:
        try:
            os.kill(pid, signal.SIGKILL)
        except ProcessLookupError:
            pass


def children_of(pid):
    """The processes that a process has started, from any thread of it, and that run."""
    found = []
    try:
        for thread in os.listdir(f"/proc/{pid}/task"):
            with open(f"/proc/{pid}/task/{thread}/children", encoding="ascii") as it:
                found += it.read().split()
    except OSError:
        pass
    return found


def descendants_of(pid):
    """These, and all that they have started, and so on."""
    return [it for child in children_of(pid) for it in [child, *descendants_of(child)]]


def seconds_of(pid):
    """The processor seconds of a process, and of all that it started."""
    try:
        with open(f"/proc/{pid}/stat", encoding="ascii", errors="replace") as it:
            ticks = sum(map(int, it.read().rpartition(")")[2].split()[11:15]))
    except OSError:
        return 0.0
    return ticks / os.sysconf("SC_CLK_TCK") + sum(map(seconds_of, children_of(pid)))


def free_memory():
    """The bytes of memory that are free."""
    with open("/proc/meminfo", encoding="ascii") as it:
        found = [1024 * int(re.search(r"MemAvailable:\s+(\d+)", it.read())[1])]
    for limit, used in (("memory.max", "memory.current"), ("memory/memory.limit_in_bytes", "memory/memory.usage_in_bytes")):
        try:
            with open(f"/sys/fs/cgroup/{limit}", encoding="ascii") as most, open(f"/sys/fs/cgroup/{used}", encoding="ascii") as now:
                found.append(int(most.read()) - int(now.read()))
        except (OSError, ValueError):
            pass
    return min(found)


def check(top, crate, texts, flags, work=None):
    """Checks the crate of a folder with these texts in the place of its own, by the libraries that are built there, over what
    was proved of it in this run where that is given."""
    with tempfile.TemporaryDirectory(prefix="room-") as folder:
        there = furnish(folder, top, crate, texts)
        if work:
            work.lend(there)
        ran = Ran(there, "check", *flags, *flags_over(top, crate))
        if work:
            work.take(there)
    return ran


TOKEN = re.compile(r"""
    //[^\n]* | /\* | b?r(?P<hashes>\#*)" | b?"(?:\\.|[^"\\])*" |
    b?'(?:\\(?:x[0-9a-fA-F]{2}|u\{[0-9a-fA-F_]+\}|.)|[^\\'\n\x80-\xff]|[\xc0-\xff][\x80-\xbf]+)'
""", re.S | re.X)


def blanked(text):
    """The text of a source with blanks in the place of its comments and literals. Each character is a byte."""
    made, at = [], 0
    while mark := TOKEN.search(text, at):
        end = mark.end()
        if mark[0] == "/*":
            depth = 1
            while depth and (edge := re.compile(r"/\*|\*/").search(text, end)):
                depth, end = depth + (1 if edge[0] == "/*" else -1), edge.end()
            end = len(text) if depth else end
        elif mark["hashes"] is not None:
            close = text.find(f'"{mark["hashes"]}', end)
            end = len(text) if close < 0 else close + 1 + len(mark["hashes"])
        made += [text[at : mark.start()], re.sub(r"[^\n]", " ", text[mark.start() : end])]
        at = end
    return "".join([*made, text[at:]])


def sources_of(folder):
    """The sources of a crate without their comments and literals, by their path. Each character is a byte."""
    found = {}
    for at, _, names in os.walk(f"{folder}/src"):
        for name in names:
            if name.endswith(".rt"):
                with open(f"{at}/{name}", encoding="latin-1", newline="") as it:
                    found[os.path.relpath(f"{at}/{name}", folder)] = blanked(it.read())
    return found
