#!/usr/bin/env python3
"""Refuses the calls of `pir`, one after the other, and looks how each run ends.

    bench/refused_calls.py [--world WORD] [--kind KIND] [--from] [--names] [PROGRAM]

PROGRAM is crates/pir/out/pir where none is named.

A small world is run again and again: a replay of a file and of standard input, a fetch over loopback by either scheme, with
and without a record, a look-up of two turns, a database that is split in three, a workload, a server of three guests, a front
over two shards that meets as many, and a demonstration, with refusals in the parent or in each child. In run N the Nth growth
is refused, then the Nth call of each other kind, until a run meets no refusal; with --from all from the Nth on.
bench/refuse_call.c does it, which `cc` builds; where there is no compiler a line says so, and nothing is run. With --names the
first server of a fetch has a name, which the C library looks up: glibc 2.36 itself ends a process by a signal where the first
or the third growth of that is refused, a program of ten lines too.

Each run has to end with the whole text and record and its status; or with 12 (no memory), when nothing was written; or
with 8, 9, 10, 11 or 13, where the calls refused are of that cause, and then Output and the record have a front of what
they would have. Of the shares of a split those before one are whole then, that one is a front of what it would be, and those
behind it aren't there; after any other fault there is none. Standard error has the line of the status, or nothing where that
was refused. Each guest gets a front of its reply, at a front also of a frame that names a lost shard, and where the run says
that all is well each but one gets all of its reply. No child may be left.

For each world it prints how many runs there were, and for each kind of call how many ended with each status; then what went
otherwise, and it ends with status 1 where anything did. It needs Linux with glibc, and Python 3.8."""
import argparse
import collections
import itertools
import os
import shutil
import signal
import socket
import subprocess
import sys
import tempfile
import time

TOP = os.path.dirname(os.path.dirname(os.path.abspath(__file__)))
KINDS = ["growth", "open", "read", "write", "socket", "bind", "listen", "option", "accept", "connect", "poll", "pipe", "spawn",
         "thread"]
SECONDS = 60
LINES = {8: "pir: read fault\n", 9: "pir: write fault\n", 10: "pir: bad input\n", 11: "pir: door fault\n",
         12: "pir: no memory\n", 13: "pir: child fault\n"}

# The example of docs/SPECIFICATION.md: the rows `4142` and `4344`, of which the second is fetched.
SHAPE = bytes.fromhex("0000000000000007 00000002 00000002")
COINS = bytes.fromhex("0000000000000007 05 07")
XOR_COINS = bytes.fromhex("0000000000000007 80")
QUERY = b"PIRQ\x01\x01\x01\0" + SHAPE + b"\x05\x06"
ANSWERS = [b"PIRA\x01\x01" + bytes([i, 0]) + SHAPE + bytes.fromhex(p) for i, p in ((1, "cfd2"), (2, "4073"), (3, "cce5"))]
HEAD = b"PIRS\x01\x01\x01\x02\x03\0\0\0" + SHAPE
XOR_ANSWERS = [b"PIRA\x01\x02" + bytes([i, 0]) + SHAPE + bytes.fromhex(p) for i, p in ((1, "4142"), (2, "0206"))]
XOR_HEAD = b"PIRS\x01\x02\x01\x02\x02\0\0\0" + SHAPE
BLOCK = b"blocks 1\n4344\n"
TOO_FEW = [b"too few 0 2\n", b"too few 1 2\n"]
LOST = [b"PIRA\x01\x01\x01\x04" + SHAPE + bytes([shard]) for shard in (1, 2)]
GUESTS = [QUERY, b"PIRQ\x01", QUERY]

# The coins of a look-up of two turns, those of a split, and what each server then has.
LOOKUP_COINS = COINS + bytes.fromhex("0000000000000008 05 07")
SPLIT_COINS = bytes.fromhex("01020304")
SHARES = [bytes.fromhex(share) for share in ("40404040", "4346454c", "42444648")]


def records(head, answers, silent=()):
    """The file of a session in which some servers, counted from 0, are silent."""
    parts = [bytes([i + 1, 0, 0, 0, 0, 0]) if i in silent else bytes([i + 1, 1, 0, 0, 0, 26]) + answer
             for i, answer in enumerate(answers)]
    return head + b"".join(parts)


def free_port():
    with socket.socket() as door:
        door.bind(("127.0.0.1", 0))
        return door.getsockname()[1]


def free_ports(count):
    """The first of so many ports in a row, each of which a door opens."""
    for first in range(20000 + os.getpid() % 1000 * 20, 64000, count + 1):
        try:
            for port in range(first, first + count):
                socket.create_server(("127.0.0.1", port)).close()
        except OSError:
            continue
        return first
    sys.exit("no ports are free")


class Ran:
    """How a run ended."""

    def __init__(self, status, text, line, record=None, given=None):
        self.status, self.text, self.line, self.record, self.given = status, text, line, record, given


class World:
    """Words that are run, with what they would write."""
    where = None  # the first word of the processes in which calls are refused; None: in all
    endings = {}  # status: the texts that may be whole with it
    faults = {8, 9}  # the faults that may come
    text = BLOCK

    def __init__(self, name, folder, program):
        self.name, self.folder, self.program = name, folder, program
        self.words, self.given, self.whole_records = [], None, None
        self.record = f"{folder}/record"

    def run(self, environment):
        if os.path.exists(self.record):
            os.unlink(self.record)
        process = subprocess.run([self.program, *self.words], input=self.given, capture_output=True, env=environment,
                                 timeout=SECONDS)
        record = open(self.record, "rb").read() if os.path.exists(self.record) else None
        return Ran(process.returncode, process.stdout, process.stderr.decode(), record)

    def wrong(self, ran):
        """What went otherwise than it may, in words, or None."""
        if ran.status in self.endings:
            return self.wrong_whole(ran)
        if ran.status == 12:
            return "it wrote, and says that there was no memory" if ran.text or ran.record else self.wrong_line(ran)
        if ran.status not in self.faults:
            return f"status {ran.status}"
        if ran.status != 9 and (ran.text or ran.record):
            return f"it wrote before the fault {ran.status}"
        if not any(text.startswith(ran.text) for texts in self.endings.values() for text in texts):
            return f"output {ran.text!r}"
        if ran.record and not any(whole.startswith(ran.record) for whole in self.whole_records):
            return f"record {ran.record!r}"
        return self.wrong_line(ran)

    def wrong_whole(self, ran):
        if ran.text not in self.endings[ran.status] or ran.line:
            return f"status {ran.status} with {ran.text!r} and {ran.line!r}"
        if self.whole_records and ran.record not in self.whole_records:
            return f"status {ran.status} with the record {ran.record!r}"
        return None

    def wrong_line(self, ran):
        return None if LINES[ran.status].startswith(ran.line) else f"standard error has {ran.line!r}"


def replay(folder, program, by_input):
    world = World("replay of standard input" if by_input else "replay", folder, program)
    world.words = ["replay", "-" if by_input else f"{folder}/session"]
    world.given = records(HEAD, ANSWERS) if by_input else None
    world.endings = {0: [BLOCK]}
    return world


def fetch(folder, program, xor, keep, options):
    world = World(f"fetch {'by XOR' if xor else 'by Shamir'}{' with a record' if keep else ''}", folder, program)
    scheme = ["--scheme", "xor", "--coins", f"{folder}/xor-coins"] if xor else [
        "--degree", "1", "--agree", "2", "--coins", f"{folder}/coins"]
    addresses = [serve(world, xor) for _ in range(2 if xor else 3)]
    if options.names:
        addresses[0] = addresses[0].replace("127.0.0.1", "localhost")
    world.words = ["fetch", "--rows", "2", "--width", "2", "--block", "1", *scheme,
                   *(["--record", world.record] if keep else []), *addresses]
    # One refusal makes one server silent, which Shamir's scheme gets over; a run of them may do so with each.
    most = len(addresses) if options.all_after else 1
    world.endings = {0: [BLOCK], 5: TOO_FEW} if xor or options.all_after else {0: [BLOCK]}
    head, answers = (XOR_HEAD, XOR_ANSWERS) if xor else (HEAD, ANSWERS)
    if keep:
        world.whole_records = [records(head, answers, silent) for count in range(most + 1)
                               for silent in itertools.combinations(range(len(answers)), count)]
    return world


servers = []


def serve(world, xor=False, database="database"):
    """Starts a server in which nothing is refused, and gives its address."""
    address = f"127.0.0.1:{free_port()}"
    process = subprocess.Popen([world.program, "serve", "--database", f"{world.folder}/{database}", "--width", "2", "--conns",
                                "65535", "--listen", address, *(["--scheme", "xor"] if xor else [])],
                               stdout=subprocess.PIPE)
    servers.append(process)
    if process.stdout.readline() != b"ready\n":
        sys.exit("a server isn't ready")
    return address


def lookup(folder, program, options):
    world = World("lookup of the second of two rows", folder, program)
    addresses = [serve(world) for _ in range(3)]
    world.words = ["lookup", "--rows", "2", "--width", "2", "--key", "43", "--degree", "1", "--agree", "2", "--coins",
                   f"{folder}/lookup-coins", *addresses]
    world.endings = {0: [b"found 4344\n"], **({5: TOO_FEW} if options.all_after else {})}
    return world


class Shared(World):
    """A database that is split in three."""
    text = b"split 3 2 2\n"

    def files(self):
        return [f"{self.folder}/share.{index}" for index in range(1, len(SHARES) + 1)]

    def run(self, environment):
        for file in filter(os.path.exists, self.files()):
            os.unlink(file)
        process = subprocess.run([self.program, *self.words], capture_output=True, env=environment, timeout=SECONDS)
        ran = Ran(process.returncode, process.stdout, process.stderr.decode())
        ran.shares = [open(file, "rb").read() if os.path.exists(file) else None for file in self.files()]
        return ran

    def wrong(self, ran):
        left = f"status {ran.status} with {ran.shares}, {ran.text!r} and {ran.line!r}"
        whole = 0
        while whole < len(SHARES) and ran.shares[whole] == SHARES[whole]:
            whole += 1
        if ran.status == 0:
            return None if whole == len(SHARES) and ran.text == self.text and not ran.line else left
        if ran.status not in (8, 9, 12) or not self.text.startswith(ran.text):
            return left
        if ran.status != 9 and (ran.text or any(share is not None for share in ran.shares)):
            return left
        if whole < len(SHARES) and (ran.text or not SHARES[whole].startswith(ran.shares[whole] or b"")
                                    or any(share is not None for share in ran.shares[whole + 1:])):
            return left
        return self.wrong_line(ran)


def split(folder, program):
    world = Shared("split in three", folder, program)
    world.words = ["split", "--database", f"{folder}/database", "--width", "2", "--servers", "3", "--tau", "1", "--into",
                   f"{folder}/share", "--coins", f"{folder}/split-coins"]
    return world


def selfrun(folder, program):
    world = World("selfrun with three workers", folder, program)
    world.words = ("selfrun --seed 0 --rows 2 --width 2 --servers 4 --degree 1 --agree 3 --liars 1 --workers 3").split()
    world.endings = {0: [b"blocks 1\n76b8\nselfrun n 4 k 4 t 1 h 3 liars 1 cost 4 bound 1\n"]}
    world.faults = {9}
    return world


class Served(World):
    """A server of three guests, of whom the second goes away early."""
    faults = {8, 9, 11}
    most = 1  # how many guests may get something else than their reply where the status is 0
    replies = [ANSWERS[0], b"", ANSWERS[0]]
    others = []  # what a guest may be given in place of its reply

    def run(self, environment):
        port = free_port()
        words = [*self.words, "--listen", f"127.0.0.1:{port}"]
        process = subprocess.Popen([self.program, *words], stdout=subprocess.PIPE, stderr=subprocess.PIPE, env=environment)
        text = process.stdout.readline()
        given = [self.visit(port, said) for said in GUESTS] if text == b"ready\n" else None
        rest, line = process.communicate(timeout=SECONDS)
        return Ran(process.returncode, text + rest, line.decode(), given=given)

    def visit(self, port, said):
        """What one guest is given, or None where nothing came."""
        got = b""
        try:
            with socket.create_connection(("127.0.0.1", port), timeout=SECONDS) as guest:
                guest.sendall(said)
                guest.shutdown(socket.SHUT_WR)
                piece = guest.recv(100)
                while piece:
                    got += piece
                    piece = guest.recv(100)
        except socket.timeout:
            return b"nothing in time"
        except OSError:
            return got or None
        return got

    def wrong(self, ran):
        for got, reply in zip(ran.given or [], self.replies):
            if got and not any(frame.startswith(got) for frame in [reply, *self.others]):
                return f"a guest was given {got!r}"
        if ran.status == 0:
            short = sum(got != reply for got, reply in zip(ran.given or [], self.replies))
            if ran.text != b"ready\n" or ran.line or short > self.most:
                return f"status 0 with {ran.text!r}, {ran.line!r}, {ran.given}"
            return None
        if ran.status not in self.faults | {12}:
            return f"status {ran.status}"
        if ran.text != b"" and ran.status in (8, 12) or not b"ready\n".startswith(ran.text):
            return f"status {ran.status} with {ran.text!r}"
        return self.wrong_line(ran)


def serving(folder, program, options):
    world = Served("serve with three guests", folder, program)
    world.most = 3 if options.all_after else 1
    world.words = ["serve", "--database", f"{folder}/database", "--width", "2", "--conns", "3", "--workers", "2"]
    return world


def fronting(folder, program, options):
    world = Served("front over two shards with three guests", folder, program)
    shards = [serve(world, database=f"shard{place}") for place in range(2)]
    world.faults, world.others, world.most = {9, 11}, LOST, 3 if options.all_after else 1
    world.words = ["front", "--rows", "2", "--width", "2", "--shard", "1", "--conns", "3", *shards]
    return world


class Shown(World):
    """A demonstration with three children."""
    faults = {8, 9, 10, 13}
    endings = {0: [BLOCK]}

    def run(self, environment):
        first = free_ports(3)
        words = [*self.words, "--port", str(first - 1)]
        with tempfile.TemporaryFile() as text, tempfile.TemporaryFile() as line:
            # No pipe, which a child that is left would hold open.
            process = subprocess.Popen([self.program, *words], stdout=text, stderr=line, env=environment)
            process.wait(SECONDS)
            text.seek(0)
            line.seek(0)
            ran = Ran(process.returncode, text.read(), line.read().decode())
        self.left = left_of(f"127.0.0.1:{first}", f"127.0.0.1:{first + 1}", f"127.0.0.1:{first + 2}")
        return ran

    def wrong(self, ran):
        if self.left:
            return f"status {ran.status}, and {len(self.left)} children are left"
        if self.where == "serve":
            # The children write lines of their own.
            lines = [line for line in ran.line.splitlines(True) if line not in LINES.values()]
            ran.line = "".join(lines)
        return super().wrong(ran)


def left_of(*addresses):
    """The processes among whose words one of these stands; they are ended."""
    time.sleep(0.002)
    left = []
    for process in filter(str.isdigit, os.listdir("/proc")):
        try:
            words = open(f"/proc/{process}/cmdline", "rb").read().decode().split("\0")
            state = open(f"/proc/{process}/stat").read().rsplit(")", 1)[1].split()[0]
        except OSError:
            continue
        if state != "Z" and "serve" in words and any(address in words for address in addresses):
            left.append(int(process))
            os.kill(int(process), signal.SIGKILL)
    return left


def demo(folder, program, where, options):
    world = Shown(f"demo, refused in {'each child' if where == 'serve' else 'the parent'}", folder, program)
    world.where = where
    if where == "serve" or options.all_after:
        # Few of three answer, since the same call is refused in each child.
        world.endings = {0: [BLOCK], 5: TOO_FEW}
    world.words = ("demo --rows 2 --width 2 --block 1 --servers 3 --degree 1 --agree 2").split() + [
        "--database", f"{folder}/database", "--coins", f"{folder}/coins"]
    return world


def refuse(world, kind, library, options, wrongs):
    """Runs a world until no call of the kind is left to be refused; gives how many runs ended with each status."""
    log, ended, number = f"{world.folder}/log", collections.Counter(), 0
    while number < options.most:
        number += 1
        environment = {**os.environ, "LD_PRELOAD": library, "REFUSE_LOG": log}
        environment.update({"REFUSE_GROWTH": str(number)} if kind == "growth" else {"REFUSE_CALL": f"{kind}:{number}"})
        if options.all_after:
            environment["REFUSE_ON"] = "1"
        if world.where:
            environment["REFUSE_IN"] = world.where
        open(log, "w").close()
        label = f"{world.name}, {kind} {number}"
        try:
            ran = world.run(environment)
        except subprocess.TimeoutExpired:
            wrongs.append(f"{label}: no end within {SECONDS} s")
            ended["none"] += 1
            continue
        met = os.path.getsize(log) > 0
        fault = world.wrong(ran)
        if fault is None and not met and ran.status != 0:
            fault = f"status {ran.status} though nothing was refused"
        if fault:
            wrongs.append(f"{label}: {fault}")
        if not met:
            break
        ended[ran.status] += 1
    return ended


def refuse_all(world, library, options, wrongs):
    """Refuses the calls of each kind in a world; prints a line, and gives the number of runs."""
    parts, runs = [], 0
    for kind in KINDS:
        ended = refuse(world, kind, library, options, wrongs) if options.kind in kind else {}
        if ended:
            runs += sum(ended.values())
            parts.append(f"{kind} " + " ".join(f"{count}x{status}" for status, count in sorted(ended.items(), key=str)))
    print(f"{world.name}: {runs} runs, by status: {', '.join(parts)}", flush=True)
    return runs


def main():
    parse = argparse.ArgumentParser(usage=__doc__)
    parse.add_argument("program", nargs="?", default=f"{TOP}/crates/pir/out/pir")
    parse.add_argument("--world", default="")
    parse.add_argument("--kind", default="")
    parse.add_argument("--from", dest="all_after", action="store_true")
    parse.add_argument("--names", action="store_true")
    parse.add_argument("--most", type=int, default=100000)
    options = parse.parse_args()
    program = os.path.abspath(options.program)
    if not shutil.which("cc"):
        print("skipped: there is no C compiler")
        return 0
    wrongs, runs = [], 0
    with tempfile.TemporaryDirectory() as folder:
        library = f"{folder}/refuse_call.so"
        subprocess.run(["cc", "-O1", "-shared", "-fPIC", "-o", library, f"{TOP}/bench/refuse_call.c", "-ldl"], check=True)
        for name, content in (("database", b"ABCD"), ("coins", COINS), ("xor-coins", XOR_COINS),
                              ("lookup-coins", LOOKUP_COINS), ("split-coins", SPLIT_COINS), ("shard0", b"AB"),
                              ("shard1", b"CD"), ("session", records(HEAD, ANSWERS))):
            with open(f"{folder}/{name}", "wb") as file:
                file.write(content)
        try:
            worlds = [replay(folder, program, False), replay(folder, program, True)]
            worlds += [fetch(folder, program, xor, keep, options) for xor in (False, True) for keep in (False, True)]
            worlds += [lookup(folder, program, options), split(folder, program), selfrun(folder, program)]
            worlds += [serving(folder, program, options), fronting(folder, program, options)]
            worlds += [demo(folder, program, where, options) for where in ("demo", "serve")]
            for world in worlds:
                if options.world in world.name:
                    runs += refuse_all(world, library, options, wrongs)
        finally:
            for server in servers:
                server.kill()
                server.wait()
    for fault in wrongs:
        print(fault)
    print(f"{runs} runs in which a call was refused, {len(wrongs)} wrong")
    return 1 if wrongs else 0


if __name__ == "__main__":
    sys.exit(main())
