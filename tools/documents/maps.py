"""The map, the groups of crates and their drawing are what crates.txt and the files of the crates say."""
import re
import subprocess
import sys

from documents.repository import TOP, crates, found, groups, read, table_rows, words_in


def is_current(script, document):
    """Says whether a document is what its script makes, and what the script says of it."""
    ran = subprocess.run([sys.executable, f"{TOP}/{script}", "--check"], stdin=subprocess.DEVNULL, stdout=subprocess.DEVNULL, stderr=subprocess.PIPE, text=True)
    for line in ran.stderr.splitlines():
        found.bad(script, line)
    if ran.returncode and not ran.stderr:
        found.bad(document, f"it isn't what {script} makes: run it")


def look_at_map():
    is_current("tools/draw-map", "docs/MAP.md")
    found.note(f"{len(re.findall(r'(?m)^[|] ', read('docs/MAP.md')))} rows stand in the map")


def look_at_crates():
    path, said, told = "docs/ARCHITECTURE.md", crates(), {}
    for number, cells in table_rows(path, "The crates"):
        for name in re.findall(r"`(\w+)`", cells[1]):
            told.setdefault(name, []).append((number, cells[0]))
    for group, names in groups().items():
        for name in names:
            rows = told.pop(name, [])
            if len(rows) != 1:
                found.bad(path, f"the crate {name} stands in {len(rows)} rows of the table of crates")
            elif rows[0][1].lower() != group.lower():
                found.bad(f"{path}:{rows[0][0]}", f"{name} is of the group {group}, by crates.txt, and stands in the row {rows[0][1]}")
    for name, rows in sorted(told.items()):
        found.bad(f"{path}:{rows[0][0]}", f"crates.txt has no crate {name}")
    for name, uses in said.items():
        for it in uses:
            if it not in words_in(name):
                found.bad("crates.txt", f"{name}: no file of it names {it}")
    is_current("tools/draw-crates", "docs/crates.svg")
    found.note(f"{len(said)} crates")
