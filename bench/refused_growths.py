#!/usr/bin/env python3
"""Refuses each growth of a run over ports in memory, one after the other, and looks what it wrote.

    bench/refused_growths.py [--case WORD] [PROGRAM]

PROGRAM is crates/pir_cases/out/pir_cases where none is named.

A case of each command, from crates/pir_cases/data, is run again and again: in run N the Nth growth of the whole process is
refused, until a run meets no refusal. bench/refuse_call.c does it, which `cc` builds; where there is no compiler a line says
so, and nothing is run. Most growths are those of the command's own run. Where one is refused to what reads the case, fills the
ports or tells a difference, the program ends with an error of its own; those runs are counted, and show nothing.

A run that was refused a growth has to come to what the case expects, or end with 12 (no memory), and then nothing was written:
Output, the record and the shares are empty, no share was opened, no guest came in, and in each fetch no link was asked, or each.

For each case it prints how many runs ended so; then what went otherwise, and it ends with status 1 where anything did, or where
no run of a case ended with 12. It needs Linux with glibc, and Python 3.8."""
import argparse
import collections
import os
import re
import shutil
import subprocess
import sys
import tempfile

TOP = os.path.dirname(os.path.dirname(os.path.abspath(__file__)))
DATA = f"{TOP}/crates/pir_cases/data"
SECONDS = 60
CASES = [
    ("replay.cases", "three servers agree"),
    ("report.cases", "a liar is named"),
    ("fetch.cases", "a fetch and its replay"),
    ("report.cases", "a fetch names the liar"),
    ("xor.cases", "a fetch and its replay"),
    ("serve.cases", "each guest gets its reply"),
    ("selfrun.cases", "three workers"),
    ("demo.cases", "a demonstration"),
    ("lookup.cases", "the last of three rows"),
    ("split.cases", "three servers, of which one learns nothing"),
    ("front.cases", "three guests, each of whom each shard answers"),
]
DIFFERENCE = re.compile(r"[^:]*:\d+: .*: pieces \d+, Unchanged: (\w+)(?:\((.*?)\))? (.*) where (.*) is expected$")
# What is compared, and what is seen of it where nothing was written and nobody asked. What ports still hold may be anything.
NOTHING = {"Took": '""', "OpenedWith": "nothing", "GuestWasGiven": "nothing", "ChildWasStartedWith": "nothing"}


def text_of(file, name):
    """The case alone, run once, with the bytes that are named before it."""
    before, own = [], []
    for line in open(f"{DATA}/{file}", encoding="utf-8"):
        if own and line == "\n":
            return "".join(before + own)
        if own or line == f"case {name}\n":
            own += [] if line.startswith(("pieces", "replays", "twice")) else [line]
        elif line.startswith("bytes ") or (line.startswith("+ ") and before):
            before.append(line)
    sys.exit(f"{file} has no case {name} with a line behind it")


def fault_of(lines, asked):
    """What went otherwise in a run that tells these differences, in words, or None; `asked` has the links that are asked."""
    found = [DIFFERENCE.match(line) for line in lines]
    if not all(found):
        return f"a line that tells no difference: {lines}"
    if found[0].groups()[:3:2] != ("Status", "Memory"):
        return lines[0]
    taken = {}  # by link, how long what it took is
    for what, port, seen, wanted in (one.groups() for one in found[1:]):
        if what == "Took" and port.startswith("Link") and (seen == '""' or wanted.startswith(seen)):
            taken[port] = len(seen)
        elif what != "StillHolds" and seen != NOTHING.get(what):
            return f"no memory, and {what} {port} has {seen}"
    if taken and (set(taken) != asked or len(set(taken.values())) > 1):
        return f"no memory, and some links were asked alone: {lines}"
    return None


def refuse(program, library, folder, file, name, wrongs):
    """Refuses each growth of a case in turn; gives how many runs ended how."""
    text, log, ended, number = text_of(file, name), f"{folder}/log", collections.Counter(), 0
    with open(f"{folder}/one.cases", "w", encoding="utf-8") as one:
        one.write(text)
    asked = {f"Link({line.split()[2]})" for line in text.splitlines() if line.startswith("took link")}
    while True:
        number += 1
        environment = {**os.environ, "LD_PRELOAD": library, "REFUSE_LOG": log, "REFUSE_GROWTH": str(number)}
        open(log, "w").close()
        ran = subprocess.run([program, f"{folder}/one.cases"], capture_output=True, env=environment, timeout=SECONDS)
        lines = ran.stdout.decode().splitlines()
        well, met = ran.returncode == 0 and lines == ["1 cases, 0 failed"], os.path.getsize(log) > 0
        if not met:
            if not well:
                wrongs.append(f"{name}: nothing is refused, and yet: {lines}")
            return ended
        if well:
            ended["as expected"] += 1
        elif lines[-1:] != ["1 cases, 1 failed"] or lines[0].endswith(("memory", "(no memory)")):
            ended["outside of the run"] += 1
        else:
            fault = fault_of(lines[:-1], asked)
            if fault:
                wrongs.append(f"{name}, growth {number}: {fault}")
            ended["with 12"] += 1


def main():
    parse = argparse.ArgumentParser(usage=__doc__)
    parse.add_argument("program", nargs="?", default=f"{TOP}/crates/pir_cases/out/pir_cases")
    parse.add_argument("--case", default="")
    options = parse.parse_args()
    program = os.path.abspath(options.program)
    if not shutil.which("cc"):
        print("skipped: there is no C compiler")
        return 0
    wrongs = []
    with tempfile.TemporaryDirectory() as folder:
        library = f"{folder}/refuse_call.so"
        subprocess.run(["cc", "-O1", "-shared", "-fPIC", "-o", library, f"{TOP}/bench/refuse_call.c", "-ldl"], check=True)
        for file, name in CASES:
            if options.case not in f"{file} {name}":
                continue
            ended = refuse(program, library, folder, file, name, wrongs)
            if not ended["with 12"]:
                wrongs.append(f"{name}: no run ended with 12")
            print(f"{file}, {name}: {', '.join(f'{count} {how}' for how, count in sorted(ended.items()))}", flush=True)
    for fault in wrongs:
        print(fault)
    print(f"{len(wrongs)} wrong")
    return 1 if wrongs else 0


if __name__ == "__main__":
    sys.exit(main())
