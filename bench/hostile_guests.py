#!/usr/bin/env python3
"""Strangers at three servers and strange servers at a client: nobody else is to be held up, and nothing is to be left.

    bench/hostile_guests.py [--guests N] [--batches N] [--quick] [PROGRAM]     (crates/pir/out/pir where none is named)

First, N guests (10,000) in batches (20) at each of three servers: they connect and close, close with a reset, say a part of a
query, noise, another shape or a whole query and go, and never read. After each batch an honest fetch asks all three servers,
and has to have its block within the limits below: in turn with nobody before it, and with one slow guest before it at each
server, who is idle, drips a byte at a time, or takes none of the answer (--quick leaves these out). Memory, descriptors and
threads of each server, by /proc, have to be after the last batch what they were after the first.

Then one fetch after the other from three honest servers and a strange one, which drips, floods, resets, answers before it is
asked, closes, says nothing, never lets anybody in, or isn't there: each has to end within the limits and find the block; and
one from all of them together.

What was seen is printed, and the status is 1 where something was otherwise. It needs Linux and Python 3.8."""
import argparse
import os
import random
import re
import socket
import struct
import subprocess
import sys
import tempfile
import threading
import time

TOP = os.path.dirname(os.path.dirname(os.path.abspath(__file__)))

# Limits of the program, in seconds: what a guest may take of a server in all, what a link may wait for one call and take in
# all, and what more both may take for each 64 KB.
GUEST_SECONDS = 5
LINK_CALL_SECONDS = 10
LINK_SECONDS = 20
SECONDS_FOR_64_KB = 1
# What the machine may be late.
LATE_SECONDS = 2
# How much memory may grow over all batches: less than a byte for each guest.
GROWTH_KB = 8
# A byte in so many seconds: less than each call may wait.
DRIP_SECONDS = 2

# Rows of 256 KB, of which the second is fetched: an answer is more than a stream takes that nobody reads.
WIDE = 262144
WIDTH = 65536
SHAPE = struct.pack(">QII", 7, 4, WIDTH)
QUERY = b"PIRQ\x01\x01\x01\0" + SHAPE + b"\x05\x06\x07\x08"
SMALL = 1024


def free_port():
    with socket.socket() as door:
        door.bind(("127.0.0.1", 0))
        return door.getsockname()[1]


class Server:
    """A process that serves the database."""

    def __init__(self, program, database, workers=1):
        self.port = free_port()
        self.address = f"127.0.0.1:{self.port}"
        self.process = subprocess.Popen([program, "serve", "--database", database, "--width", str(WIDTH), "--conns", "65535",
                                         "--workers", str(workers), "--listen", self.address], stdout=subprocess.PIPE)
        if self.process.stdout.readline() != b"ready\n":
            sys.exit("a server isn't ready")

    def state(self):
        """Kilobytes of memory, descriptors and threads, once the last guest is gone: then the standard streams, the database and
        the door are open."""
        folder = f"/proc/{self.process.pid}"
        for _ in range(200):
            descriptors = len(os.listdir(f"{folder}/fd"))
            if descriptors <= 5:
                break
            time.sleep(0.01)
        status = open(f"{folder}/status").read()
        return (int(re.search(r"VmRSS:\s*(\d+)", status)[1]), descriptors, int(re.search(r"Threads:\s*(\d+)", status)[1]))

    def end(self):
        self.process.kill()
        self.process.wait()


def connect(port, small=False):
    guest = socket.socket()
    if small:
        guest.setsockopt(socket.SOL_SOCKET, socket.SO_RCVBUF, SMALL)
    guest.settimeout(60)
    guest.connect(("127.0.0.1", port))
    return guest


def reset(guest):
    guest.setsockopt(socket.SOL_SOCKET, socket.SO_LINGER, struct.pack("ii", 1, 0))
    guest.close()


def close_at_once(port, rng):
    connect(port).close()


def reset_at_once(port, rng):
    reset(connect(port))


def say(words, end=socket.socket.close):
    """A guest that says this and goes, without reading."""

    def visit(port, rng):
        guest = connect(port)
        try:
            guest.sendall(words(rng))
        except ConnectionError:
            pass
        end(guest)
    return visit


QUICK = [close_at_once, reset_at_once, say(lambda rng: QUERY[:rng.randrange(1, 28)]),
         say(lambda rng: QUERY[:rng.randrange(1, 28)], reset), say(lambda rng: rng.randbytes(rng.randrange(1, 200))),
         say(lambda rng: QUERY[:19] + b"\x09" + QUERY[20:]), say(lambda rng: b"P" + rng.randbytes(60000)),
         say(lambda rng: QUERY), say(lambda rng: QUERY, reset)]


# Slow guests, who are in until they are told to go, or the server has had enough of them.


def idle(guest, told):
    told.wait()


def drip(guest, told):
    for byte in QUERY:
        guest.sendall(bytes([byte]))
        if told.wait(DRIP_SECONDS):
            return


def never_read(guest, told):
    guest.sendall(QUERY)
    told.wait()


SLOW = [idle, drip, never_read]


def hold(port, manner, told):
    """A slow guest in a thread of its own, which has come in or is the next to."""
    guest = connect(port, small=True)

    def visit():
        try:
            manner(guest, told)
        except OSError:
            pass
        guest.close()
    thread = threading.Thread(target=visit)
    thread.start()
    return thread


def fetch(program, folder, servers, seconds, agree=3, degree=1):
    """Fetches the second row. Gives the seconds it took, and what went otherwise, or None."""
    begun = time.monotonic()
    try:
        run = subprocess.run([program, "fetch", "--rows", "4", "--width", str(WIDTH), "--block", "1", "--degree", str(degree),
                              "--agree", str(agree), *servers], capture_output=True, timeout=60 * len(servers) + 60)
    except subprocess.TimeoutExpired:
        return time.monotonic() - begun, "it didn't end"
    spent = time.monotonic() - begun
    with open(f"{folder}/database", "rb") as file:
        row = file.read()[WIDTH:2 * WIDTH]
    if run.returncode != 0 or run.stdout != b"blocks 1\n" + row.hex().encode() + b"\n":
        return spent, f"status {run.returncode}, {run.stdout[:40]!r}, {run.stderr!r}"
    return spent, f"it took {spent:.1f} s in place of {seconds}" if spent > seconds else None


def run_batch(servers, count, rng, lost):
    """Guests at all servers, eight at a time. Notes those who couldn't come in."""
    jobs = [[(rng.choice(QUICK), random.Random(rng.random())) for _ in servers] for _ in range(count)]

    def visitor(first):
        for row in jobs[first::8]:
            for (visit, own), server in zip(row, servers):
                try:
                    visit(server.port, own)
                except OSError as fault:
                    lost.append(fault)
    visitors = [threading.Thread(target=visitor, args=(first,)) for first in range(8)]
    for thread in visitors:
        thread.start()
    for thread in visitors:
        thread.join()


def fetch_behind(program, folder, servers, manner, seconds):
    """An honest fetch with a slow guest before it at each server, or with none."""
    told = threading.Event()
    held = [hold(server.port, manner, told) for server in servers] if manner else []
    time.sleep(0.1 if manner else 0)
    try:
        return fetch(program, folder, [server.address for server in servers], seconds)
    finally:
        told.set()
        for thread in held:
            thread.join()


def try_guests(program, folder, options, wrongs):
    servers = [Server(program, f"{folder}/database", workers) for workers in (1, 2, 4)]
    rng, begun, waits, lost, first = random.Random(1), time.monotonic(), {}, [], None
    manners = [None] if options.quick else [None, *SLOW]
    try:
        for batch in range(options.batches):
            run_batch(servers, options.guests // options.batches, rng, lost)
            manner = manners[batch % len(manners)]
            seconds = (GUEST_SECONDS + 2 * SECONDS_FOR_64_KB if manner else 0) + LATE_SECONDS
            spent, fault = fetch_behind(program, folder, servers, manner, seconds)
            waits.setdefault(manner.__name__ if manner else "none", []).append(spent)
            if fault:
                wrongs.append(f"the fetch after batch {batch + 1}, slow guest {manner and manner.__name__}: {fault}")
            states = [server.state() for server in servers]
            first = first or states
        print(f"{options.batches} batches, {options.guests} guests at each of 3 servers, {time.monotonic() - begun:.0f} s")
        for name, spent in waits.items():
            print(f"  a fetch behind a slow guest ({name}) at each: {min(spent):.3f} to {max(spent):.3f} s")
        for server, before, after in zip(servers, first, states):
            print(f"  memory {before[0]} to {after[0]} KB, descriptors {before[1]} to {after[1]}, "
                  f"threads {before[2]} to {after[2]}")
            if after[1:] != before[1:] or after[0] > before[0] + GROWTH_KB:
                wrongs.append(f"the server at {server.address} has grown")
        if lost:
            wrongs.append(f"{len(lost)} guests couldn't come in: {lost[0]}")
    finally:
        for server in servers:
            server.end()


# Strange servers: what each does with a stream.


def flood(stream):
    while True:
        stream.sendall(b"PIRA" * 65536)


def drip_answer(stream):
    for byte in (b"PIRA\x01\x01\x04\0" + bytes(100)):
        time.sleep(DRIP_SECONDS)
        stream.sendall(bytes([byte]))


def answer_early(stream):
    stream.sendall(b"PIRA\x01\x01\x04\0" + SHAPE + bytes(WIDTH))
    time.sleep(30)


def say_nothing(stream):
    stream.recv(100000)
    time.sleep(120)


def take_slowly(stream):
    """It reads the query a byte at a time."""
    while stream.recv(1):
        time.sleep(DRIP_SECONDS)


STRANGE = {"drips": drip_answer, "floods": flood, "resets": reset, "answers early": answer_early,
           "closes": socket.socket.close, "says nothing": say_nothing, "takes slowly": take_slowly}


def strange_server(does):
    """A door that lets everybody in; its address."""
    door = socket.create_server(("127.0.0.1", 0))

    def guest(stream):
        try:
            does(stream)
        except OSError:
            pass

    def meet():
        while True:
            try:
                stream, _ = door.accept()
            except OSError:
                return
            threading.Thread(target=guest, args=(stream,), daemon=True).start()
    threading.Thread(target=meet, daemon=True).start()
    return door, f"127.0.0.1:{door.getsockname()[1]}"


def closed_door():
    """A door that lets nobody in: its queue is full."""
    door = socket.socket()
    door.bind(("127.0.0.1", 0))
    door.listen(0)
    waiting = []
    for _ in range(4):
        guest = socket.socket()
        guest.setblocking(False)
        guest.connect_ex(door.getsockname())
        waiting.append(guest)
    return (door, waiting), f"127.0.0.1:{door.getsockname()[1]}"


def try_servers(program, folder, wrongs):
    servers = [Server(program, f"{folder}/database") for _ in range(3)]
    honest = [server.address for server in servers]
    doors = {name: strange_server(does) for name, does in STRANGE.items()}
    doors["lets nobody in"] = closed_door()
    doors["isn't there"] = (None, f"127.0.0.1:{free_port()}")
    limit = LINK_SECONDS + 2 * SECONDS_FOR_64_KB + LATE_SECONDS
    try:
        for name, (_, address) in doors.items():
            spent, fault = fetch(program, folder, [address, *honest], limit)
            print(f"a fetch beside a server that {name}: {spent:.1f} s", flush=True)
            if fault:
                wrongs.append(f"a fetch beside a server that {name}: {fault}")
        everybody = [address for _, address in doors.values()]
        # At most nine strange answers beside the three honest ones: 4 of 13 would be needed, so two more are honest.
        spent, fault = fetch(program, folder, [*everybody, *honest], limit * len(doors))
        print(f"a fetch beside all of these: {spent:.1f} s", flush=True)
        if fault:
            wrongs.append(f"a fetch beside all of these: {fault}")
    finally:
        for server in servers:
            server.end()


def main():
    parse = argparse.ArgumentParser(usage=__doc__)
    parse.add_argument("program", nargs="?", default=f"{TOP}/crates/pir/out/pir")
    parse.add_argument("--guests", type=int, default=10000)
    parse.add_argument("--batches", type=int, default=20)
    parse.add_argument("--quick", action="store_true")
    parse.add_argument("--only", choices=["guests", "servers"])
    options = parse.parse_args()
    program, wrongs = os.path.abspath(options.program), []
    with tempfile.TemporaryDirectory() as folder:
        with open(f"{folder}/database", "wb") as file:
            file.write(random.Random(0).randbytes(WIDE))
        if options.only != "servers":
            try_guests(program, folder, options, wrongs)
        if options.only != "guests":
            try_servers(program, folder, wrongs)
    for fault in wrongs:
        print(fault)
    return 1 if wrongs else 0


if __name__ == "__main__":
    sys.exit(main())
