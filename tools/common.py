"""What the tools share: the crates, whether one was proved as it is now, and how checks are counted."""
import collections
import contextlib
import hashlib
import html
import os
import re
import shutil
import subprocess
import sys
import tempfile

TOP = os.path.dirname(os.path.dirname(os.path.realpath(__file__)))
# What the programs end with where their output can't be written.
CANNOT_WRITE = 4


def say(text):
    """Says a line to whoever called: standard output is the program's."""
    if sys.stderr is not None:
        try:
            print(text, file=sys.stderr, flush=True)
        except OSError:
            pass


# Of each command who needs it, and what brings it.
NEEDED = {
    "rt": "it comes with the kit that README.md names; 'rt version' shows that it is there",
    "cc": "tools/refuse, tools/memory and tools/rust need a C compiler of that name (README.md)",
    "cargo": "tools/rust, tools/simulate and tools/instructions build the crate with it; Debian has it as the package cargo, and it has to be 1.85 or later",
    "valgrind": "tools/instructions counts by it; Debian has it as the package valgrind",
}


def logic_in(text):
    """The logic that a text names, as a kit's line of its version does."""
    found = re.search(r"\blogic `?([0-9a-f]{16})\b", text)
    return found[1] if found else None


def say_other_logic():
    """Says so where the kit is of another logic than README.md names: what is proved by the one may not be by the other."""
    with open(f"{TOP}/README.md", encoding="utf-8") as it:
        wanted = logic_in(it.read())
    here = subprocess.run(["rt", "version"], capture_output=True, text=True, check=False).stdout.strip()
    if logic_in(here) != wanted:
        say(f"this kit is {here or 'without a version'}, and README.md names logic {wanted}: a proof may fail here")


def has(*commands):
    """Whether these commands are on the path. It says of each that isn't who needs it."""
    missing = [it for it in commands if not shutil.which(it)]
    for it in missing:
        say(f"{it} is not on the path: {NEEDED[it]}")
    if "rt" in commands and "rt" not in missing:
        say_other_logic()
    return not missing


class Count:
    """What passed and what failed. The last line of a tool says so."""

    def __init__(self, tool):
        self.tool, self.passed, self.failed, self.unmet = tool, 0, 0, ""

    def add(self, holds, what):
        """Counts a check, and says what it was where it failed."""
        self.passed += bool(holds)
        self.failed += not holds
        if not holds:
            print(f"{self.tool}: {what}", flush=True)

    def take(self, *command, heard=None):
        """Runs a tool whose last line is 'N passed, M failed', and adds up what it counts. Each line is handed to 'heard'."""
        last = collections.deque(maxlen=20)
        with subprocess.Popen(command, stdout=subprocess.PIPE, text=True, errors="replace") as ran:
            for line in ran.stdout:
                print(line, end="", flush=True)
                last.append(line.rstrip("\n"))
                if heard:
                    heard(line)
        self.take_lines(os.path.basename(command[0]), last)

    def take_lines(self, tool, lines):
        """Adds up what a tool counted, by its last line. Of one that failed the last lines are kept."""
        last = [it[:300] for it in [*lines][-20:]]
        counted = re.fullmatch(r"(\d+) passed, (\d+) failed", last[-1] if last else "")
        if not counted:
            print(f"{tool} did not end in a count")
        passed, failed = map(int, counted.groups()) if counted else (0, 1)
        self.passed += passed
        self.failed += failed
        if failed:
            self.unmet += "\n".join([f"== {tool} failed; its last lines:", *last, ""])

    def end(self, more=""):
        """Says the last line, and gives the status of the tool."""
        print(f"{self.passed} passed, {self.failed} failed{more}", flush=True)
        return 1 if self.failed else 0


def drawn_text(x, y, said, more=""):
    """A text of a drawing, with more of its attributes."""
    return f'<text x="{x:g}" y="{y:g}" xml:space="preserve"{more}>{html.escape(said)}</text>'


def drawing(wide, high, size, body):
    """The lines of a drawing in SVG, on white, with letters of this size."""
    yield f'<svg xmlns="http://www.w3.org/2000/svg" width="{wide}" height="{high}" font-family="sans-serif" font-size="{size}">'
    yield f'<rect width="{wide}" height="{high}" fill="#ffffff"/>'
    yield from body
    yield "</svg>"


def folder_of(crate):
    return f"{TOP}/crates/{crate}"


def listed():
    """Each crate of crates.txt with the words behind its name, and the libraries that it lists."""
    found = {}
    with open(f"{TOP}/crates.txt", encoding="utf-8") as file:
        for line in file:
            names, colon, libraries = line.partition("#")[0].partition(":")
            if colon:
                name, *words = names.split()
                found[name] = words, libraries.split()
    return found


def dependencies():
    """Each crate with those of the repository that it lists in crates.txt."""
    lines = listed()
    return {name: [it for it in libraries if it in lines] for name, (_, libraries) in lines.items()}


def with_libraries(crates):
    """These crates and all that they use, each after what it uses."""
    listed, ordered = dependencies(), []

    def add(crate):
        if crate not in ordered:
            for it in sorted(listed[crate]):
                add(it)
            ordered.append(crate)

    for crate in crates:
        add(crate)
    return ordered


def crates_of_tests():
    """The crates that have tests and nothing else."""
    return [it for it in dependencies() if it.endswith("_tests")]


def is_program(crate):
    return os.path.isfile(f"{folder_of(crate)}/src/main.rt")


def program_of(crate):
    return f"{folder_of(crate)}/out/{crate}"


def sum_of_sources(crate):
    """A sum of all that the crate is proved and built from: another after an edit of its sources, or of a library's
    below it."""
    found = hashlib.sha256()
    for name in with_libraries([crate]):
        found.update(sum_of_own_sources(name).encode())
    return found.hexdigest()


def sum_of_own_sources(crate):
    """A sum of the crate's own sources, and of what it lists in crates.txt."""
    found = hashlib.sha256(repr((crate, sorted(dependencies()[crate]))).encode())
    for part in ("src", "specs", "proofs"):
        for folder, folders, names in os.walk(f"{folder_of(crate)}/{part}"):
            folders.sort()
            for file in sorted(names):
                if file.endswith((".rt", ".antt")):
                    path = os.path.join(folder, file)
                    with open(path, "rb") as it:
                        found.update(repr((os.path.relpath(path, TOP), it.read())).encode())
    return found.hexdigest()


def sum_of_program(crate):
    """A sum of the program, or none of a library."""
    if not is_program(crate):
        return "library"
    try:
        with open(program_of(crate), "rb") as it:
            return hashlib.sha256(it.read()).hexdigest()
    except OSError:
        return None


def note_of(crate):
    """The file that notes which sources the crate was proved from, and which program was built."""
    return f"{folder_of(crate)}/out/proved"


def is_proved(crate):
    """Whether the crate was proved and built from its sources as they are now."""
    try:
        with open(note_of(crate), encoding="utf-8") as it:
            noted = it.read()
    except OSError:
        return False
    return noted == f"{sum_of_sources(crate)} {sum_of_program(crate)}\n"


def note_proved(crate, sources):
    """Notes that the crate was proved from sources of this sum, if they are still the same."""
    if sources == sum_of_sources(crate):
        with open(note_of(crate), "w", encoding="utf-8") as it:
            it.write(f"{sources} {sum_of_program(crate)}\n")


def processors():
    return len(os.sched_getaffinity(0))


def brought_up_to_date(*crates):
    """The programs of these crates, proved as they are now. Where one isn't proved, this ends."""
    if subprocess.run([f"{TOP}/tools/prove", *crates]).returncode:
        sys.exit(1)
    return [program_of(it) for it in crates]


def takes_streams():
    """Gives whether standard output is open. A standard stream that is closed is opened to nothing, so that no file that
    is opened later comes to be one."""
    is_open = True
    for number in (0, 1, 2):
        try:
            os.fstat(number)
        except OSError:
            # It gets the lowest number that is free.
            os.open(os.devnull, os.O_RDWR)
            is_open = is_open and number != 1
    return is_open


def hand_on(printed, can_print):
    """Writes what was printed to standard output, and gives whether that went well."""
    try:
        while block := printed.read(1 << 16):
            if not can_print:
                return False
            while block:
                block = block[os.write(1, block):]
        return True
    except OSError:
        return False


def made_shared(source, folder):
    """What a source in C of this folder is compiled to there, to be loaded into a program before the C library."""
    made = f"{folder}/{source}.so"
    subprocess.run(["cc", "-O2", "-shared", "-fPIC", "-o", made, f"{TOP}/tools/{source}", "-ldl"], check=True)
    return made


@contextlib.contextmanager
def preloaded(source):
    """An environment in which it is."""
    with tempfile.TemporaryDirectory() as scratch:
        yield {**os.environ, "LD_PRELOAD": made_shared(source, scratch)}


def static_library():
    """The static library libbatcher_ffi.a: the one that BATCHER_LIB names, itself or its folder, or that of this
    repository, which is brought up to date first. None where it can't be had."""
    named = os.environ.get("BATCHER_LIB")
    if named is None:
        if subprocess.run([f"{TOP}/tools/prove", "batcher_ffi"], check=False).returncode:
            return None
        named = f"{TOP}/crates/batcher_ffi/out"
    named = os.path.abspath(named)
    file = named if named.endswith(".a") else f"{named}/libbatcher_ffi.a"
    if os.path.isfile(file):
        return file
    say(f"there is no {file}")
    return None


def rows_of(program, words):
    """The rows that the benchmark prints, in words, of which the first five name it: those that have all these words."""
    printed = subprocess.run([program], capture_output=True, text=True, check=True).stdout
    rows = (line.split() for line in printed.splitlines()[1:])
    return [row for row in rows if set(words) <= set(row[:5])]
