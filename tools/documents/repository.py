"""The files of the repository: documents and their tables, crates and their words; and what is said of them."""
import functools
import os
import re
import sys

TOP = os.path.dirname(os.path.dirname(os.path.dirname(os.path.realpath(__file__))))
PARTS = ("src", "specs", "proofs", "must-fail")
# How many seconds the blocks of a document, and a program of docs/checks/, may take.
LONGEST = 120


class Found:
    """What was found wrong, and what was looked at."""

    def __init__(self, verbose):
        self.verbose, self.wrong, self.subject = verbose, 0, ""

    def say(self, text):
        print(f"docs/check: {text}", file=sys.stderr, flush=True)

    def bad(self, where, text):
        self.wrong += 1
        self.say(f"{where}: {text}")

    def note(self, text):
        if self.verbose:
            self.say(f"{self.subject}: {text}")


found = Found("--verbose" in sys.argv)


def read(path):
    with open(f"{TOP}/{path}", encoding="utf-8") as it:
        return it.read()


def lines_of(path):
    return list(enumerate(read(path).splitlines(), 1))


def documents():
    names = ["README.md", "CHANGELOG.md", "bench/README.md"]
    names += sorted(f"docs/{it}" for it in os.listdir(f"{TOP}/docs") if it.endswith((".md", ".1")))
    return [it for it in names if os.path.isfile(f"{TOP}/{it}")]


def files_below(folder, kinds):
    """Returns the files of these kinds below a folder of the repository, each by its path there."""
    for at, folders, names in os.walk(f"{TOP}/{folder}"):
        folders[:] = sorted(it for it in folders if it != "out")
        for name in sorted(names):
            if name.endswith(kinds):
                yield os.path.relpath(f"{at}/{name}", f"{TOP}/{folder}")


def crates():
    """Returns, by crate, what crates.txt says that it stands on."""
    said = {}
    for line in read("crates.txt").splitlines():
        line = line.partition("#")[0].strip()
        if line:
            said[line.partition(":")[0].split()[0]] = line.partition(":")[2].split()
    return said


def groups():
    """Returns the crates of each group: the heading above them in crates.txt."""
    found, group = {}, ""
    for line in read("crates.txt").splitlines():
        heading = re.fullmatch(r"# (\w+)", line)
        group = heading[1] if heading else group
        line = line.partition("#")[0].strip()
        if line:
            found.setdefault(group, []).append(line.partition(":")[0].split()[0])
    return found


def table_rows(path, heading=None, level=2):
    """Returns the rows of the tables of a document, or of one of its sections, as a line's number and its cells."""
    inside, rows = heading is None, []
    for number, line in lines_of(path):
        head = re.match(r"(#+) (.*)", line)
        if head and heading and len(head[1]) <= level:
            inside = head[2].strip() == heading
        if inside and line.startswith("|") and not re.fullmatch(r"[|\s:-]+", line):
            rows.append((number, [it.strip() for it in re.split(r"(?<!\\)\|", line)[1:-1]]))
    return rows


@functools.lru_cache(maxsize=None)
def sources(crate, parts=("src",)):
    """Returns the text of all files of a crate."""
    return "\n".join(read(f"crates/{crate}/{part}/{name}") for part in parts for name in files_below(f"crates/{crate}/{part}", (".rt", ".antt")))


@functools.lru_cache(maxsize=None)
def words_in(crate):
    """Returns the words of all files of a crate."""
    return frozenset(re.findall(r"\w+", sources(crate, ("src", "specs", "proofs"))))
