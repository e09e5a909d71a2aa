#!/usr/bin/env python3
"""Counts how many guests a second are answered, all on this machine: by one server, by four servers of one list whose guests
are spread by hand, by the same four behind haproxy without TLS and with it, and by a front over four shards; with 1, 8 and 64
clients at once, each of whom comes again as soon as he has his answer. A guest is what a server sees of a fetch: a connection, a
query and its answer. It prints a table for each list, in which each number stands beside how many bytes of the list were read a
second, and before them what else can be the limit: guests a second at a list of one byte, and runs of `pir fetch` a second.

    bench/throughput.py [--seconds S] [--lists ROWSxWIDTH,..] [--clients N,..] [PROGRAM]

The lists are 65536x1024 (64 MB) and 262144x4096 (1 GB) where none are named, and S is 5, or 10 for a gigabyte. It needs
4.5 GB of memory for a gigabyte, haproxy and openssl, and an idle machine."""
import argparse
import contextlib
import os
import re
import shutil
import socket
import ssl
import subprocess
import sys
import tempfile
import threading
import time

TOP = os.path.dirname(os.path.dirname(os.path.abspath(__file__)))
SERVERS = 4
HEADER = 24
# Python's own work is spread over so many processes.
CLIENT_PROCESSES = 4
WARM = 0.5
QUIET = {"stdin": subprocess.DEVNULL, "stdout": subprocess.DEVNULL, "stderr": subprocess.DEVNULL}


def words_read():
    words = argparse.ArgumentParser(usage=__doc__.split("\n\n")[1].strip(), add_help=False)
    words.add_argument("--seconds", type=float, default=0)
    words.add_argument("--lists", default="65536x1024,262144x4096")
    words.add_argument("--clients", default="1,8,64")
    words.add_argument("program", nargs="?", default=f"{TOP}/crates/pir/out/pir")
    return words.parse_args()


class List:
    """Rows in a file, and in a file for each of four shards."""

    def __init__(self, work, rows, width):
        self.rows, self.width, self.path = rows, width, f"{work}/{rows}x{width}"
        self.shard = -(-rows // SERVERS)
        piece = os.urandom(1 << 20)
        with open(self.path, "wb") as whole:
            for at in range(0, rows * width, len(piece)):
                # (no two pieces are the same)
                whole.write((at.to_bytes(8, "big") + piece[8:])[: rows * width - at])
        with open(self.path, "rb") as whole:
            for i in range(SERVERS):
                with open(f"{self.path}.{i}", "wb") as part:
                    part.write(whole.read(self.shard * width))

    def frame(self):
        return b"PIRQ\x01\x01\x01\0" + bytes(8) + self.rows.to_bytes(4, "big") + self.width.to_bytes(4, "big") + os.urandom(self.rows)


def free_port():
    with socket.socket() as door:
        door.bind(("127.0.0.1", 0))
        return door.getsockname()[1]


def free_ports(count):
    """The first of so many ports one behind another at which nobody listens."""
    for first in range(20000 + os.getpid() % 9000, 60000, count):
        with contextlib.ExitStack() as doors, contextlib.suppress(OSError):
            for port in range(first, first + count):
                doors.enter_context(socket.create_server(("127.0.0.1", port)))
            return first
    sys.exit("no ports are free")


class Started:
    """Processes, which are ended behind."""

    def __init__(self, program):
        self.program, self.processes = program, []

    def __enter__(self):
        return self

    def __exit__(self, *_):
        for it in self.processes:
            it.kill()
            it.communicate()

    def ready(self, words):
        """Starts the program, and waits until it is ready."""
        process = subprocess.Popen([self.program, *words], stdin=subprocess.DEVNULL, stdout=subprocess.PIPE)
        self.processes.append(process)
        if process.stdout.readline() != b"ready\n":
            sys.exit(f"{' '.join(words)}: it isn't ready")

    def serve(self, path, width, port):
        self.ready(["serve", "--database", path, "--width", str(width), "--conns", "65535", "--listen", f"127.0.0.1:{port}"])

    def door(self, it, first, work, tls):
        """haproxy before the servers from this port on; its port."""
        port = free_port()
        words = f"--rows {it.rows} --width {it.width} --servers {SERVERS} --first-port {first} --door 127.0.0.1:{port}"
        words += f" --certificate {work}/pem" if tls else " --no-tls"
        made = subprocess.run([f"{TOP}/examples/pool-config", *words.split()], check=True, stdout=subprocess.PIPE, text=True)
        with open(f"{work}/haproxy.cfg", "w", encoding="utf-8") as file:
            file.write(re.sub(r"(?m)^    (chroot|user|group|log|log-format) .*\n", "", made.stdout))
        self.processes.append(subprocess.Popen(["haproxy", "-db", "-f", f"{work}/haproxy.cfg"], **QUIET))
        until = time.monotonic() + 20
        while time.monotonic() < until:
            with contextlib.suppress(OSError), socket.create_connection(("127.0.0.1", port), 1):
                return port
            time.sleep(0.02)
        sys.exit("haproxy doesn't listen")


# What guests come to: each starts what it needs, and gives the ports at which they come in, and whether by TLS.


def one_server(started, it, work):
    port = free_port()
    started.serve(it.path, it.width, port)
    return [port], False


def four_servers(started, it, work):
    first = free_ports(SERVERS)
    for i in range(SERVERS):
        started.serve(it.path, it.width, first + i)
    return [first + i for i in range(SERVERS)], False


def four_behind_a_door(started, it, work):
    ports, _ = four_servers(started, it, work)
    return [started.door(it, ports[0], work, False)], False


def four_behind_tls(started, it, work):
    ports, _ = four_servers(started, it, work)
    return [started.door(it, ports[0], work, True)], True


def a_front(started, it, work):
    shards, port = [], free_port()
    for i in range(SERVERS):
        shards.append(free_port())
        started.serve(f"{it.path}.{i}", it.width, shards[-1])
    words = f"front --rows {it.rows} --width {it.width} --shard {it.shard} --conns 65535 --listen 127.0.0.1:{port}"
    started.ready([*words.split(), *(f"127.0.0.1:{shard}" for shard in shards)])
    return [port], False


WAYS = [("one server", one_server), ("four servers", four_servers), ("four behind haproxy", four_behind_a_door),
        ("four behind haproxy with TLS", four_behind_tls), ("a front over four shards", a_front)]


def asked(port, frame, size, context):
    """One guest; whether he got an answer."""
    with socket.create_connection(("127.0.0.1", port), 60) as plain:
        with context.wrap_socket(plain, server_hostname="127.0.0.1") if context else contextlib.nullcontext(plain) as guest:
            guest.sendall(frame)
            taken, status = 0, None
            while taken < size and (piece := guest.recv(65536)):
                status = piece[7] if taken == 0 and len(piece) > 7 else status
                taken += len(piece)
            return taken == size and status == 0


def client_loop(port, frame, size, context, since, until, counts):
    """A client who comes again and again; counts those of his answers that came in time, and the guests who got none."""
    while time.monotonic() < until:
        try:
            well = asked(port, frame, size, context)
        except OSError:
            well = False
        if since <= time.monotonic() < until:
            counts[not well] += 1


def clients_at(ports, count, frame, size, trusted, seconds):
    """Lets so many clients come for so long; the answers a second, and how many guests got none."""
    since = time.monotonic() + WARM
    pipes = []
    for first in range(min(count, CLIENT_PROCESSES)):
        reader, writer = os.pipe()
        if not os.fork():
            context = ssl.create_default_context(cafile=trusted) if trusted else None
            counts, mine = [0, 0], range(first, count, CLIENT_PROCESSES)
            threads = [threading.Thread(target=client_loop, args=(ports[i % len(ports)], frame, size, context, since, since + seconds, counts)) for i in mine]
            for it in threads:
                it.start()
            for it in threads:
                it.join()
            os.write(writer, b"%d %d" % tuple(counts))
            os._exit(0)
        os.close(writer)
        pipes.append(reader)
    answered = lost = 0
    for reader in pipes:
        with os.fdopen(reader, "rb") as said:
            came, none = map(int, said.read().split())
        answered, lost = answered + came, lost + none
        os.wait()
    return answered / seconds, lost


def beside(program, work, seconds):
    """What limits where a list is small: guests a second of a server of one byte, and runs of the program a second."""
    it = List(work, 1, 1)
    with Started(program) as started:
        ports, _ = one_server(started, it, work)
        rate, _ = clients_at(ports, 4, it.frame(), HEADER + 1, None, seconds)
        print(f"a list of one byte, one server, four clients: {rate:.0f} guests a second")
        # (servers anew, since one meets 65535 guests at most)
        fresh = [one_server(started, it, work)[0][0] for _ in range(2)]
        words = [program, *"fetch --rows 1 --width 1 --block 0 --degree 1 --agree 2".split(), *(f"127.0.0.1:{port}" for port in fresh)]
        until, runs = time.monotonic() + seconds, 0
        while time.monotonic() < until:
            runs += subprocess.run(words, stdin=subprocess.DEVNULL, stdout=subprocess.DEVNULL, check=True).returncode == 0
        print(f"the same list, two servers, `pir fetch` one after the other: {runs / seconds:.0f} runs a second")


def table(program, work, rows, width, clients, seconds):
    it = List(work, rows, width)
    frame = it.frame()
    print(f"\nguests a second at {rows} rows of {width} bytes, and in brackets the gigabytes of the list that are read a second\n")
    print("| Clients at once | " + " | ".join(name for name, _ in WAYS) + " |\n|" + "---|" * (len(WAYS) + 1), flush=True)
    cells = {count: [] for count in clients}
    for name, way in WAYS:
        with Started(program) as started:
            ports, tls = way(started, it, work)
            for count in clients:
                rate, lost = clients_at(ports, count, frame, HEADER + width, f"{work}/certificate" if tls else None, seconds)
                cells[count].append(f"{rate:.{0 if rate >= 100 else 1}f} ({rate * rows * width / 1e9:.1f})" + (f", {lost} got none" if lost else ""))
    for count in clients:
        print(f"| {count} | " + " | ".join(cells[count]) + " |", flush=True)


def main():
    words = words_read()
    if not all(map(shutil.which, ("haproxy", "openssl"))):
        sys.exit("throughput: haproxy and openssl are needed")
    program = os.path.abspath(words.program)
    with tempfile.TemporaryDirectory() as work:
        subprocess.run(["openssl", "req", "-x509", "-newkey", "rsa:2048", "-nodes", "-days", "2", "-subj", "/CN=127.0.0.1", "-addext",
                        "subjectAltName=IP:127.0.0.1", "-keyout", f"{work}/key", "-out", f"{work}/certificate"], check=True, **QUIET)
        with open(f"{work}/pem", "w") as both:
            both.write(open(f"{work}/key").read() + open(f"{work}/certificate").read())
        beside(program, work, words.seconds or 3)
        for shape in words.lists.split(","):
            rows, width = map(int, shape.split("x"))
            seconds = words.seconds or (10 if rows * width > 1 << 28 else 5)
            table(program, work, rows, width, [int(it) for it in words.clients.split(",")], seconds)


main()
