"""What the scripts of checks/ share: tables, built programs, counts, runs in which a request for memory fails, and words of `rt`.

A script runs from the top of the repository, once `rt ci` or `rt run` has built the programs. With a folder as its word, it takes
them from there. Its last line is `NAME: N passed, M failed`.
"""

import collections
import concurrent.futures
import functools
import glob
import importlib
import os
import pathlib
import re
import shutil
import subprocess
import sys
import tempfile

TOP = os.path.dirname(os.path.dirname(os.path.realpath(__file__)))
# A folder of programs in place of those that `rt ci` built.
FOLDER = next((os.path.abspath(it) for it in sys.argv[1:] if os.path.isdir(it)), None)
SECONDS = 300


def read(path, default=""):
    return pathlib.Path(path).read_text("utf-8", "replace") if os.path.isfile(path) else default


def held(path):
    return pathlib.Path(path).read_bytes()


def write(path, data):
    pathlib.Path(path).write_bytes(data.encode() if isinstance(data, str) else data)


def processors():
    return len(os.sched_getaffinity(0))


def free_memory():
    """Returns how many bytes are free."""
    return 1024 * int(re.search(r"MemAvailable:\s+(\d+)", read("/proc/meminfo"))[1])


def side_by_side(call, some):
    """Returns what a call returns for each of these, in order; as many run at once as there are processors."""
    with concurrent.futures.ThreadPoolExecutor(processors()) as pool:
        return list(pool.map(call, some))


# ---- Rows ----


def decoded(text):
    """Returns the bytes that a row spells: `%0A` is a byte, `%(300:[)` is 300 brackets."""
    found = re.sub(r"%\((\d+):(.*?)\)", lambda it: it[2] * int(it[1]), text).encode()
    return re.sub(rb"%([0-9A-Fa-f]{2})", lambda it: bytes([int(it[1], 16)]), found)


def lines(name):
    """Returns the lines of checks/rows/NAME. One that ends with a backslash goes on in the next."""
    return re.findall("^[^#\n].*", read(f"{TOP}/checks/rows/{name}").replace("\\\n", ""), re.M)


def rows(name):
    """Yields the words, the document and the answer of each row `WORDS < DOCUMENT => ANSWER` of checks/rows/NAME."""
    for line in lines(name):
        words, rest = line.split(" < ", 1)
        yield words, *(decoded(it).decode(errors="surrogateescape") for it in rest.split(" => ", 1))


# ---- Counts ----


class Counts:
    """Counts the checks of a script, and says which fail."""

    def __init__(self):
        self.name, self.passed, self.failed = os.path.basename(sys.argv[0]), 0, 0

    def check(self, what, is_right, told=""):
        self.passed, self.failed = self.passed + bool(is_right), self.failed + (not is_right)
        if not is_right:
            print(f"{self.name}: {what}: {told}"[:2000], flush=True)

    def end(self):
        """Prints the last line, and returns the status. ./check compares it with checks/floors."""
        print(f"{self.name}: {self.passed} passed, {self.failed} failed")
        return 1 if self.failed or not self.passed else 0


def totals(line):
    """Returns the counts of such a last line, or None."""
    found = re.search(r"(\d+) passed, (\d+) failed$", line)
    return found and tuple(map(int, found.groups()))


def give_up(why):
    """Ends a script that can't begin."""
    counts = Counts()
    counts.check("it can't begin", False, why)
    sys.exit(counts.end())


def install(**packages):
    """Installs Debian's packages for each command that isn't there, if it can."""
    missing = [it for command, names in packages.items() if not shutil.which(command) for it in names.split()]
    if missing and os.getuid() == 0:
        for words in (["update"], ["install", "-y", "--no-install-recommends", *missing]):
            env = os.environ | {"DEBIAN_FRONTEND": "noninteractive"}
            subprocess.run(["apt-get", "-q", *words], env=env, capture_output=True)


# ---- Built programs ----


def builds(name):
    """Returns the builds of a program: two where `rt ci` built it, one in a folder that was named."""
    of_rt_ci = [f"{TOP}/crates/{name}/out/{name}{it}" for it in ("", ".by-rattle")]
    places = [f"{FOLDER}/{name}", f"{FOLDER}/{name}-unproved"] if FOLDER else of_rt_ci
    return [it for it in places if os.access(it, os.X_OK)] or give_up(f"there is no {places[0]}: run rt ci first")


def program(name):
    return builds(name)[0]


Ran = collections.namedtuple("Ran", "status out err")


def run(words, given=b"", timeout=SECONDS, **how):
    """Runs a program, and returns its status and both outputs."""
    ran = subprocess.run(words, input=given, capture_output=True, timeout=timeout, **how)
    return Ran(ran.returncode, ran.stdout, ran.stderr)


# ---- Requests for memory ----

# Requests, the bytes that they ask for, and how many more blocks are held at the end than at the beginning.
Section = collections.namedtuple("Section", "requests asked kept")
# A run under refuse.c: what lies between its marks, the bytes that it asked for, the blocks that it did not free, and how many
# marks there were before a request was refused (None if none was).
Counted = collections.namedtuple("Counted", "status out err sections asked left marks")


@functools.lru_cache(maxsize=None)
def counting_library():
    """Compiles refuse.c, once for a run of a script."""
    install(gcc="gcc libc6-dev")
    library = f"{tempfile.mkdtemp()}/refuse.so"
    subprocess.run(["gcc", "-O1", "-shared", "-fPIC", "-o", library, f"{TOP}/checks/refuse.c"], check=True)
    return library


def open_counts(library):
    """Begins a process that counts: its descriptor 3, on which refuse.c writes, is a file of its own."""
    with tempfile.TemporaryFile() as counts:
        file = os.dup(counts.fileno())
    os.dup2(file, 3)
    os.environ |= {"COUNTED": library}


def counted(words, given, refuse=0):
    """Runs a program with the request of this number refused, or none. Its document is a text."""
    os.ftruncate(3, 0)
    os.lseek(3, 0, os.SEEK_SET)
    env = os.environ | {"LD_PRELOAD": os.environ["COUNTED"], "REFUSE": str(refuse)}
    ran = subprocess.run(words, input=given.encode(errors="surrogateescape"), capture_output=True, pass_fds=(3,), env=env)
    lines = os.pread(3, 1 << 20, 0).decode().splitlines()
    marks = lines.index("refused") if "refused" in lines else None
    *counts, end = [[*map(int, it.split())] for it in lines if it != "refused"] or [[0, 0, None]]
    sections = [Section(*(after - before for before, after in zip(*ends))) for ends in zip(counts[::2], counts[1::2])]
    out, err = (it.decode(errors="surrogateescape").rstrip("\n") for it in (ran.stdout, ran.stderr))
    return Counted(ran.returncode, out, err, sections, end[1], end[2], marks)


def refusals(words, given):
    """Yields the run in which the first request is refused, the second, and so on, and last the one in which none is."""
    for number in range(1, 5000):
        ran = counted(words, given, number)
        yield ran
        if ran.marks is None:
            return
    raise RuntimeError(f"{words} has no last run")


def each_counted(call, rows):
    """Yields what a call returns for each row, in processes of their own."""
    # So that no pipe of the pool has that descriptor.
    os.dup2(os.open(os.devnull, os.O_RDONLY), 3)
    library = counting_library()
    try:
        with concurrent.futures.ProcessPoolExecutor(processors(), initializer=open_counts, initargs=(library,)) as pool:
            yield from pool.map(call, rows, chunksize=4)
    finally:
        shutil.rmtree(os.path.dirname(library))


# ---- The command `rt` ----


@functools.lru_cache(maxsize=None)
def rtlib():
    """Returns the library of `rt`, which knows the toolchain's words of a check."""
    doc = subprocess.run(["rt", "doc"], stdout=subprocess.PIPE, text=True, check=True).stdout
    sys.path.insert(0, f"{os.path.dirname(doc.strip())}/bin")
    return importlib.import_module("rtlib")


def crates():
    """Returns the crates of crates.txt, and what rt knows of each, lowest first."""
    return rtlib().crates_below(TOP)


def is_of_rt_ci(crate):
    """Returns whether the library in out/rlib was made as `rt ci` does, without a stamp, and no file of the crate is newer."""
    made = f"{crate.folder}/out/rlib"
    if os.path.exists(f"{made}/stamp") or not os.path.isfile(f"{crate.rlib}/format"):
        return False
    files = [it for part in ("src", "specs", "proofs") for it in glob.glob(f"{crate.folder}/{part}/**", recursive=True)]
    return all(os.path.getmtime(it) <= os.path.getmtime(made) for it in files if os.path.isfile(it))
