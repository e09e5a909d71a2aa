#!/usr/bin/env python3
"""No measurement: a fetch takes as long as its slowest server, and not as long as all of them one after the other.

32 servers on loopback that answer 100 ms after the whole query came are asked for a row, in either scheme: that has to
take 300 ms at most. Then as many `pir serve` as a fetch may ask, which answer at once: a second at most. The row has to be
listed. It prints the seconds of each beside its limit, and ends with 1 where one took longer or went otherwise.

    bench/far_servers.py [PROGRAM]      (PIR, or crates/pir/out/pir, where none is named)"""
import contextlib
import os
import re
import socket
import subprocess
import sys
import tempfile
import threading
import time

TOP = os.path.dirname(os.path.dirname(os.path.abspath(__file__)))
PROGRAM = os.path.abspath(sys.argv[1] if len(sys.argv) > 1 else os.environ.get("PIR", f"{TOP}/crates/pir/out/pir"))

FAR_SERVERS = 32
FAR_SECONDS = 0.1  # from the last byte of the query to the first of the answer
FAR_LIMIT = 0.3
PLAIN_LIMIT = 1.0

ROWS, WIDTH = 64, 32
HEADER_LEN = 24

wrong = 0


def most_servers():
    """How many servers a fetch may ask."""
    with open(f"{TOP}/crates/quantity_limits/src/lib.rt") as source:
        return int(re.search(r"^pub const MOST_SERVERS: u8 = (\d+);", source.read(), re.M)[1])


def times(a, b):
    """The product of two bytes in the field of 256 elements by 0x11b."""
    product = 0
    while b:
        product ^= a * (b & 1)
        a = a << 1 ^ (0x11B if a & 0x80 else 0)
        b >>= 1
    return product


TIMES = [bytes(times(factor, byte) for byte in range(256)) for factor in range(256)]


def combined(rows, scheme, payload):
    """The sum of the rows, each times its byte of the payload, or, in the XOR scheme, its bit, the highest first."""
    total = 0
    for j, row in enumerate(rows):
        factor = payload[j] if scheme == "shamir" else payload[j // 8] >> (7 - j % 8) & 1
        total ^= int.from_bytes(row.translate(TIMES[factor]), "big")
    return total.to_bytes(WIDTH, "big")


def take(peer, length):
    taken = b""
    while len(taken) < length:
        piece = peer.recv(length - len(taken))
        if not piece:
            raise OSError("the query is cut short")
        taken += piece
    return taken


def answer_late(door, rows, scheme):
    """Answers one guest, that long after its query came."""
    peer = door.accept()[0]
    query = take(peer, HEADER_LEN + (ROWS if scheme == "shamir" else (ROWS + 7) // 8))
    came = time.monotonic()
    answer = b"PIRA" + query[4:HEADER_LEN] + combined(rows, scheme, query[HEADER_LEN:])
    time.sleep(max(0, came + FAR_SECONDS - time.monotonic()))
    peer.sendall(answer)
    peer.close()


@contextlib.contextmanager
def far_servers(count, rows, scheme):
    """So many servers of one guest each that answer late, as their addresses."""
    doors = [socket.create_server(("127.0.0.1", 0)) for _ in range(count)]
    threads = [threading.Thread(target=answer_late, args=(door, rows, scheme), daemon=True) for door in doors]
    for thread in threads:
        thread.start()
    yield ["127.0.0.1:%d" % door.getsockname()[1] for door in doors]
    for door in doors:
        door.close()


def free_ports(count):
    doors = [socket.create_server(("127.0.0.1", 0)) for _ in range(count)]
    ports = [door.getsockname()[1] for door in doors]
    for door in doors:
        door.close()
    return ports


@contextlib.contextmanager
def plain_servers(count, database):
    """So many `pir serve` of one guest each, as their addresses; they are ended behind."""
    addresses = [f"127.0.0.1:{port}" for port in free_ports(count)]
    words = [PROGRAM, "serve", "--database", database, "--width", str(WIDTH), "--conns", "1", "--listen"]
    servers = []
    try:
        for address in addresses:
            servers.append(subprocess.Popen([*words, address], stdout=subprocess.PIPE))
        for server in servers:
            if server.stdout.readline() != b"ready\n":
                raise OSError("a server isn't ready")
        yield addresses
    finally:
        for server in servers:
            server.kill()
            server.communicate()


def fetch(name, addresses, scheme, rows, limit):
    """Fetches row 1, and prints the seconds beside the limit and whether the row came."""
    global wrong
    words = ["fetch", "--rows", str(ROWS), "--width", str(WIDTH), "--block", "1"]
    words += ["--degree", "1", "--agree", str(len(addresses))] if scheme == "shamir" else ["--scheme", "xor"]
    start = time.monotonic()
    ran = subprocess.run([PROGRAM, *words, *addresses], stdout=subprocess.PIPE, check=False)
    seconds = time.monotonic() - start
    listed = ran.stdout == b"blocks 1\n%s\n" % rows[1].hex().encode()
    good = listed and seconds <= limit
    wrong += not good
    print(f"{name:60} {seconds:5.3f} s of {limit}{'' if good else '  WRONG' if listed else '  WRONG: not the row'}", flush=True)


content = os.urandom(ROWS * WIDTH)
matrix = [content[j * WIDTH : (j + 1) * WIDTH] for j in range(ROWS)]
for scheme in ("shamir", "xor"):
    with far_servers(FAR_SERVERS, matrix, scheme) as addresses:
        fetch(f"{FAR_SERVERS} servers that answer after 100 ms, {scheme}", addresses, scheme, matrix, FAR_LIMIT)
with tempfile.NamedTemporaryFile() as database:
    database.write(content)
    database.flush()
    most = most_servers()
    with plain_servers(most, database.name) as addresses:
        fetch(f"{most} servers that answer at once, shamir", addresses, "shamir", matrix, PLAIN_LIMIT)
sys.exit(1 if wrong else 0)
