#!/usr/bin/env python3
"""Runs the programs that batch.sh has built and prints what they took: see there.

usage: batch.py ROUNDS FOLDER ROWSxWIDTH .., where FOLDER has ours-LANES, and where they are there batch-LANES and peers"""
import os
import re
import subprocess
import sys

COUNTS = ["1", "2", "4", "8", "16"]
LANES = ["sse4.2", "avx2"]
# What is beside each of our calls: kernels of the C++ program, and lines of the peers.
BESIDE = {"products": (["nibbles"], ["isal-rows", "isal-groups"]), "answers": (["xor gather", "xor planes"], [])}


def output(words, **settings):
    return subprocess.run(words, env={**os.environ, **settings}, capture_output=True, text=True, check=True).stdout.splitlines()


def ours(folder, lanes, word, rows, width, rounds):
    """Returns the best time of our calls in milliseconds for each number of queries or bitmaps."""
    lines = output([f"{folder}/ours-{lanes}", word, rows, width, str(rounds), "1", *COUNTS])
    return {it.split()[4]: int(it.split()[5]) / 1e6 for it in lines}


def batch(folder, lanes, rows, width, rounds, kernel):
    """Returns the milliseconds of a kernel of the C++ program for each number of queries, or none where it isn't there."""
    if not os.path.exists(f"{folder}/batch-{lanes}"):
        return {}
    lines = output([f"{folder}/batch-{lanes}", "bench", rows, width, str(rounds), "1", kernel], PANEL="8192", ROWS="4")
    line = next((it for it in lines if it.startswith(f"1 threads {kernel} ")), "")
    return {count: float(time) for count, time in re.findall(r"q(\d+) +([0-9.]+)", line)}


def peers(folder, rows, width, rounds):
    """Returns, for each of ISA-L's ways and for reading, the milliseconds for each number of queries."""
    times = {}
    if os.path.exists(f"{folder}/peers"):
        for line in output([f"{folder}/peers", "several", rows, width, str(rounds), *COUNTS]):
            name, _, _, count, time, _ = line.split()
            times.setdefault(name, {})[count] = int(time) / 1e6
    return times


def main():
    rounds, folder = int(sys.argv[1]), sys.argv[2]
    builds = [it for it in LANES if os.path.exists(f"{folder}/ours-{it}")]
    for shape in sys.argv[3:]:
        rows, width = shape.split("x")
        others = peers(folder, rows, width, rounds)
        for word, (kernels, names) in BESIDE.items():
            for lanes in builds:
                beside = {kernel: batch(folder, lanes, rows, width, rounds, kernel) for kernel in kernels}
                beside.update({name: others.get(name, {}) for name in names})
                for count, time in ours(folder, lanes, word, rows, width, rounds).items():
                    ratios = [f"{time / its[count]:.2f} of {name}" for name, its in beside.items() if its.get(count)]
                    if "reading" in others:
                        ratios.append(f"{time / others['reading']['1']:.2f} of reading")
                    print(f"{word} {rows} x {width}, {lanes}, {count} at once: {time:.2f} ms", *ratios, sep=", ", flush=True)


main()
