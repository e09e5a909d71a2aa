"""Names of docs/PROOFS.md, and the forms of documents: lengths, the kit that is named, versions, man pages and units."""
import os
import re
import shutil
import subprocess
import tempfile

from documents.limits import is_taken
from documents.repository import TOP, crates, found, lines_of, read, words_in

PAGES = ("docs/pir.1", "docs/pir_list.1", "docs/pir_show.1")


def look_at_proofs():
    path, count = "docs/PROOFS.md", 0
    known = frozenset(crates()).union(*(words_in(it) for it in crates()))
    for number, line in lines_of(path):
        for part in (part for word in re.findall(r"`([A-Za-z_][\w:]*)`", line) for part in word.split("::")):
            count += 1
            if part and part not in known:
                found.bad(f"{path}:{number}", f"no crate has {part}")
    found.note(f"{count} names")


def look_at_versions():
    """Looks whether the versions of CHANGELOG.md fall, each with its date, and the man pages name the newest."""
    heads = [it[3:] for it in read("CHANGELOG.md").splitlines() if it.startswith("## ")]
    versions = [re.fullmatch(r"(\d+)\.(\d+)\.(\d+), (\d+ \w+ \d{4})(, .+)?", it) for it in heads]
    for head, it in zip(heads, versions):
        if not it:
            found.bad("CHANGELOG.md", f"`## {head}` is no version with its date, as `## 0.4.0, 29 November 2026`")
    numbers = [tuple(map(int, it.groups()[:3])) for it in versions if it]
    if numbers != sorted(set(numbers), reverse=True):
        found.bad("CHANGELOG.md", "its versions don't fall")
    for page in PAGES if numbers else ():
        if f".Os Hirdyqos {'.'.join(map(str, numbers[0]))}" not in read(page).splitlines():
            found.bad(page, f"it doesn't name the version {'.'.join(map(str, numbers[0]))} of CHANGELOG.md")
    said = re.search(r"const VERSION: &str = \"(.+)\";", read("crates/list_words/src/command.rt"))
    if numbers and (not said or said[1] != ".".join(map(str, numbers[0]))):
        found.bad("crates/list_words/src/command.rt", "VERSION isn't the newest of CHANGELOG.md")


def look_at_forms(program):
    look_at_versions()
    for path, most, parts, what in (("README.md", 120, str.splitlines, "lines"), ("docs/ARCHITECTURE.md", 200, str.splitlines, "lines"), ("docs/PERFORMANCE.md", 2500, str.split, "words")):
        count = len(parts(read(path)))
        if count > most:
            found.bad(path, f"it has {count} {what}, and is to have {most} at most")
    kit = re.search(r"^KIT = \"(.+)\"", read("tools/build"), re.M)[1]
    if kit not in read("README.md"):
        found.bad("README.md", f"it doesn't name the kit of tools/build: {kit}")
    if shutil.which("rt"):
        ran = subprocess.run(["rt", "version"], stdin=subprocess.DEVNULL, stdout=subprocess.PIPE, stderr=subprocess.DEVNULL, text=True)
        if ran.stdout.strip().partition(" ")[2] != kit.partition(" ")[2]:
            found.bad("tools/build", f"it names the kit {kit}, and rt version says {ran.stdout.strip()}, of another logic")
    else:
        found.note("skipped rt version: no kit is on the path")
    for words in (["mandoc", "-Tlint", "-Wwarning"], ["groff", "-mdoc", "-ww", "-z", "-Kutf8"]):
        if not shutil.which(words[0]):
            found.note(f"skipped {words[0]}: it isn't installed")
            continue
        for page in PAGES:
            ran = subprocess.run([*words, f"{TOP}/{page}"], stdin=subprocess.DEVNULL, stdout=subprocess.PIPE, stderr=subprocess.STDOUT, text=True)
            said = [it for it in ran.stdout.splitlines() if "outdated mandoc.db" not in it]
            for it in said[:5]:
                found.bad(page, f"{words[0]}: {it.replace(f'{TOP}/{page}', page)}")
    for name in sorted(it for it in os.listdir(f"{TOP}/examples") if it.endswith((".service", ".target"))):
        look_at_unit(f"examples/{name}", program)


def look_at_unit(path, program):
    """Looks whether systemd takes a unit file, and the program the words with which it starts."""
    unit, name = read(path), os.path.basename(path)
    if shutil.which("systemd-analyze"):
        with tempfile.TemporaryDirectory(prefix="pir-docs-") as room:
            with open(f"{room}/{name}", "w", encoding="utf-8") as it:
                it.write(re.sub(r"(?m)^ExecStart=\S+", "ExecStart=/bin/true", unit))
            ran = subprocess.run(["systemd-analyze", "verify", f"{room}/{name}"], stdin=subprocess.DEVNULL, stdout=subprocess.PIPE, stderr=subprocess.STDOUT, text=True)
            # (of an instance it says the name with its port)
            if ran.returncode or name.partition("@")[0] in ran.stdout:
                found.bad(path, f"systemd-analyze verify: {ran.stdout.strip()[:300]}")
    else:
        found.note("skipped systemd-analyze: it isn't installed")
    if name.endswith(".target"):
        return
    start = re.search(r"(?m)^ExecStart=\S*?/(crates/\S+) (.+)", unit)
    if not start or start[1] != "crates/pir/out/pir":
        found.bad(path, "ExecStart isn't the built program")
    elif program:
        # (an empty list, and an address of no machine: it ends at once)
        words = start[2].replace("/srv/pir/database", "/dev/null").replace("127.0.0.1:%i", "192.0.2.1:7011").split()
        if not is_taken(program, words):
            found.bad(path, "the program doesn't take the words of ExecStart")
