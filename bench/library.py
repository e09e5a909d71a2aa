#!/usr/bin/env python3
"""Times a fetch in Python through libpir beside `pir fetch`, from four servers on loopback, each without its start.

A fetch in Python is made in this process, which has started: the queries, four connections, the answers and the verdict. One by
the program is a process of its own, so the time of a start, that of a command which does next to nothing, is taken off. It
prints the best time of each and their ratio.

    bench/library.py [RUNS [PROGRAM [LIBRARY [ROWSxWIDTH ..]]]]      (PIR and PIR_LIBRARY, or what is built in crates/)"""
import os
import socket
import subprocess
import sys
import tempfile
import time

from servers import free_ports, serve

TOP = os.path.dirname(os.path.dirname(os.path.abspath(__file__)))
RUNS = int(sys.argv[1]) if len(sys.argv) > 1 else 200
PROGRAM = os.path.abspath(sys.argv[2] if len(sys.argv) > 2 else os.environ.get("PIR", f"{TOP}/crates/pir/out/pir"))
LIBRARY = os.path.abspath(sys.argv[3] if len(sys.argv) > 3 else os.environ.get("PIR_LIBRARY", f"{TOP}/crates/libpir/out/libpir.so"))
SHAPES = sys.argv[4:] or ["1024x64", "65536x64", "65536x1024"]
SERVERS, DEGREE, AGREE = 4, 1, 3

os.environ["PIR_LIBRARY"] = LIBRARY
sys.path.insert(0, f"{TOP}/python")
import pir  # noqa: E402  (it loads the library that is named above)


def read(link, most):
    """The bytes that come before the server closes, at most so many."""
    pieces = []
    while most > 0:
        piece = link.recv(most)
        if not piece:
            break
        pieces.append(piece)
        most -= len(piece)
    return b"".join(pieces)


def fetch(client, row, ports):
    """A row, by plain sockets: all servers are sent their queries before the first answer is awaited."""
    query = client.ask(row)
    links = []
    for port, frame in zip(ports, query.frames):
        link = socket.create_connection(("127.0.0.1", port))
        link.sendall(frame)
        links.append(link)
    answers = []
    for link in links:
        answers.append(read(link, query.answer_size))
        link.close()
    return query.judge(answers).block


def seconds_of(words, begins):
    """How long the program runs. It has to end with status 0, and to print this first."""
    began = time.monotonic()
    ran = subprocess.run([PROGRAM, *map(str, words)], stdout=subprocess.PIPE)
    if ran.returncode or not ran.stdout.startswith(begins):
        sys.exit(f"{words[0]} ended with {ran.returncode}: {ran.stdout[:80]}")
    return time.monotonic() - began


def measure(rows, width, folder):
    row = rows // 3
    with open(f"{folder}/database", "wb") as file:
        for j in range(rows):
            file.write(j.to_bytes(4, "big").ljust(width, b"."))
    ports = free_ports(SERVERS)
    servers = serve(PROGRAM, folder, width, ports)
    client = pir.Client(rows=rows, width=width, degree=DEGREE, agree=AGREE, servers=SERVERS)
    wanted = row.to_bytes(4, "big").ljust(width, b".")
    words = ["fetch", "--rows", rows, "--width", width, "--degree", DEGREE, "--agree", AGREE, "--block", row]
    best = [float("inf")] * 3
    try:
        for _ in range(RUNS):
            began = time.monotonic()
            if fetch(client, row, ports) != wanted:
                sys.exit("another row came")
            took = [
                time.monotonic() - began,
                seconds_of([*words, *(f"127.0.0.1:{port}" for port in ports)], b"blocks 1\n"),
                seconds_of(["replay", f"{TOP}/examples/three-servers.session"], b"blocks 1\n"),
            ]
            best = [min(one, other) for one, other in zip(best, took)]
    finally:
        for server in servers:
            server.kill()
            server.wait()
    ours, whole, start = best
    print(
        f"{rows} x {width}: in Python {1e3 * ours:.2f} ms, by the program {1e3 * whole:.2f} ms, a start {1e3 * start:.2f} ms; "
        f"ratio without the start {ours / (whole - start):.2f}",
        flush=True,
    )


with tempfile.TemporaryDirectory() as work:
    for shape in SHAPES:
        measure(*map(int, shape.split("x")), work)
