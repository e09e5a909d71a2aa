#!/usr/bin/env python3
"""Times a look-up by key beside as many fetches as it makes, from three servers on loopback.

Each fetch is a program of its own, which is started and ends; a look-up is one. So the time of a start, that of a command
which does next to nothing, is taken off each before they are compared. It prints the best time of each and their ratio.

    bench/lookup.py [RUNS [PROGRAM [ROWSxWIDTH ..]]]      (PIR, or crates/pir/out/pir, where none is named)"""
import os
import subprocess
import sys
import tempfile
import time

from servers import free_ports, serve

TOP = os.path.dirname(os.path.dirname(os.path.abspath(__file__)))
RUNS = int(sys.argv[1]) if len(sys.argv) > 1 else 20
PROGRAM = os.path.abspath(sys.argv[2] if len(sys.argv) > 2 else os.environ.get("PIR", f"{TOP}/crates/pir/out/pir"))
SHAPES = sys.argv[3:] or ["1023x64", "16383x64", "262143x64"]
SERVERS, KEY_LEN = 3, 8


def rows_of(rows, width):
    """Rows that ascend: the number of each, and filler."""
    return b"".join((3 * j).to_bytes(KEY_LEN, "big").ljust(width, b".") for j in range(rows))


def seconds(words, times, status, begins):
    """How long it takes to run the program so many times. It has to end so, and to print this first."""
    began = time.monotonic()
    for _ in range(times):
        ran = subprocess.run([PROGRAM, *map(str, words)], stdout=subprocess.PIPE)
        if ran.returncode != status or not ran.stdout.startswith(begins):
            sys.exit(f"{words[0]} ended with {ran.returncode}: {ran.stdout[:80]}")
    return time.monotonic() - began


def measure(rows, width, folder):
    with open(f"{folder}/database", "wb") as file:
        file.write(rows_of(rows, width))
    ports = free_ports(SERVERS)
    servers = serve(PROGRAM, folder, width, ports)
    try:
        shape = ["--rows", rows, "--width", width, "--degree", 1, "--agree", 3]
        addresses = [f"127.0.0.1:{port}" for port in ports]
        turns = rows.bit_length()
        look_up = ["lookup", *shape, "--key", (3 * (rows // 3)).to_bytes(KEY_LEN, "big").hex(), *addresses]
        fetch = ["fetch", *shape, "--block", rows // 3, *addresses]
        best = [float("inf")] * 3
        for _ in range(RUNS):
            took = [
                seconds(look_up, 1, 0, b"found "),
                seconds(fetch, turns, 0, b"blocks 1\n"),
                seconds(["replay", f"{TOP}/examples/three-servers.session"], 1, 0, b"blocks 1\n"),
            ]
            best = [min(one, other) for one, other in zip(best, took)]
    finally:
        for server in servers:
            server.kill()
            server.wait()
    start = best[2]
    one, all_turns = best[0] - start, best[1] - turns * start
    print(
        f"{rows} x {width}: look-up {1e3 * best[0]:.2f} ms, {turns} fetches {1e3 * best[1]:.2f} ms, a start {1e3 * start:.2f} ms; "
        f"without starts {1e3 * one:.2f} and {1e3 * all_turns:.2f} ms, ratio {one / all_turns:.2f}",
        flush=True,
    )


with tempfile.TemporaryDirectory() as work:
    for shape in SHAPES:
        measure(*map(int, shape.split("x")), work)
