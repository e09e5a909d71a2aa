#!/usr/bin/env python3
"""No measurement: fetches beside a server that drips, floods, resets, answers early or never reads, and guests that are idle.

A fetch from three honest servers and one of these has to list the row within the time that a link may take in all; from
three and two silent ones, and a look-up from three and one, within that of one call. A guest who comes behind an idle one
has to be answered within the time that a guest may take, and one of a front over a shard that a stranger holds, or that
drips, within that of the front. A name whose thirty places don't answer costs one call (that needs `unshare -m`, and is left
out without), and a demonstration with a child that is stopped ends. It prints the seconds of each beside its limit, and
ends with 1 where one took longer or went otherwise. It takes three quarters of a minute.

    bench/slow_peers.py [PROGRAM]      (PIR, or crates/pir/out/pir, where none is named)"""
import contextlib
import os
import signal
import socket
import struct
import subprocess
import sys
import tempfile
import threading
import time
from concurrent.futures import ThreadPoolExecutor

TOP = os.path.dirname(os.path.dirname(os.path.abspath(__file__)))
PROGRAM = os.path.abspath(sys.argv[1] if len(sys.argv) > 1 else os.environ.get("PIR", f"{TOP}/crates/pir/out/pir"))

# The limits of crates/os_ports/src/limits.rt, in seconds.
LINK_CALL, LINK_WHOLE, GUEST_CALL, GUEST_WHOLE, BYTES_A_SECOND = 10, 20, 3, 5, 65536
SERVER_LINK_WHOLE, CHILDREN = 9, 30
# What starting a process and answering takes at most, on a busy machine.
SLACK = 2

LONG = {"rows": 1 << 20, "width": 1}  # the query is long
WIDE = {"rows": 16, "width": 65536}  # the answer is long
RESET = struct.pack("ii", 1, 0)

wrong = 0
stopped = threading.Event()


def take(peer, length):
    while length > 0:
        length -= len(peer.recv(min(length, 65536)) or b" " * length)


def silent(peer, shape):
    take(peer, 24 + shape["rows"])
    stopped.wait()


def dripping(seconds):
    def manner(peer, shape):
        take(peer, 24 + shape["rows"])
        while not stopped.wait(seconds):
            peer.send(b"P")

    return manner


def flooding(peer, shape):
    take(peer, 24 + shape["rows"])
    while not stopped.is_set():
        peer.send(b"P" * 65536)


def resetting(peer, shape):
    take(peer, 24 + shape["rows"])
    peer.setsockopt(socket.SOL_SOCKET, socket.SO_LINGER, RESET)
    peer.close()


def early(peer, shape):
    peer.sendall(b"P" * (24 + shape["width"]))
    peer.close()


def never_reading(peer, shape):
    stopped.wait()


def slowly_reading(peer, shape):
    while not stopped.wait(0.5):
        peer.recv(1024)


# The name, the manner, the shape of the database, and the limit but for what was moved.
PEERS = [
    ("says nothing", silent, WIDE, LINK_CALL),
    ("drips a byte a second", dripping(1), WIDE, LINK_WHOLE),
    ("drips a byte every nine seconds", dripping(9), WIDE, LINK_WHOLE),
    ("floods", flooding, WIDE, 0),
    ("resets", resetting, WIDE, 0),
    ("answers before it is asked", early, WIDE, 0),
    ("never reads", never_reading, LONG, LINK_WHOLE),
    ("reads two kilobytes a second", slowly_reading, LONG, LINK_WHOLE),
    ("lets nobody in", None, WIDE, LINK_CALL),
]


def said(name, result, limit):
    """Prints the seconds of a fetch beside the limit, and whether it gave the row."""
    global wrong
    seconds, well = result
    good = well and seconds <= limit + SLACK
    wrong += not good
    print(f"{name:70} {seconds:5.1f} s of {limit:2}{'' if good else '  WRONG' if well else '  WRONG: not the row'}", flush=True)


def serve_as(manner, shape, host="127.0.0.1"):
    """Starts a server of this manner in a thread, and returns its address."""
    door = socket.socket()
    door.setsockopt(socket.SOL_SOCKET, socket.SO_RCVBUF, 4096)
    door.bind((host, 0))
    door.listen(0 if manner is None else 16)
    if manner is None:
        # These fill the list of those who wait to be let in, so that the next isn't answered.
        kept = [socket.socket() for _ in range(4)]
        for it in kept:
            it.setblocking(False)
            it.connect_ex(door.getsockname())
        time.sleep(0.2)

    def run():
        try:
            if manner is None:
                stopped.wait()
                return kept
            while not stopped.is_set():
                threading.Thread(target=met, args=(manner, door.accept()[0], shape), daemon=True).start()
        except OSError:
            pass
        return door

    threading.Thread(target=run, daemon=True).start()
    return "127.0.0.1:%d" % door.getsockname()[1]


def met(manner, peer, shape):
    """Meets one who was let in."""
    with contextlib.suppress(OSError):
        manner(peer, shape)


def pir_server(shape, database):
    """Starts a `pir serve`, and returns the process and its address."""
    for _ in range(20):
        with socket.socket() as door:
            door.bind(("127.0.0.1", 0))
            address = "127.0.0.1:%d" % door.getsockname()[1]
        words = ["serve", "--database", database, "--width", str(shape["width"]), "--conns", "1000", "--listen", address]
        process = subprocess.Popen([PROGRAM, *words], stdout=subprocess.PIPE, stderr=subprocess.DEVNULL)
        if process.stdout.readline() == b"ready\n":
            return process, address
        process.wait()  # another run took the port
    raise OSError("no server says that it is ready")


@contextlib.contextmanager
def pir_servers(count, shape, database):
    """So many honest servers, as their addresses; they are ended behind."""
    servers = []
    try:
        for _ in range(count):
            servers.append(pir_server(shape, database))
        yield [address for _, address in servers]
    finally:
        for process, _ in servers:
            process.kill()
            process.communicate()


def fetch(shape, database, addresses, agree):
    """Fetches row 1, and returns the seconds and whether it came."""
    words = ["fetch", "--rows", str(shape["rows"]), "--width", str(shape["width"]), "--block", "1", "--degree", "1"]
    start = time.monotonic()
    ran = subprocess.run([PROGRAM, *words, "--agree", str(agree), *addresses], stdout=subprocess.PIPE, check=False)
    with open(database, "rb") as rows:
        row = rows.read()[shape["width"] : 2 * shape["width"]]
    return time.monotonic() - start, ran.stdout == b"blocks 1\n%s\n" % row.hex().encode()


def all_time(shape, whole):
    """The seconds that a stream may take in all which moves a query and an answer."""
    return whole + (48 + shape["rows"] + shape["width"]) // BYTES_A_SECOND


def fetch_beside(name, manner, shape, limit, database):
    with pir_servers(3, shape, database) as honest:
        peer = serve_as(manner, shape)
        limit = all_time(shape, limit) if limit == LINK_WHOLE else limit
        said(f"a fetch whose first server {name}", fetch(shape, database, [peer, *honest], 3), limit)


def header(shape):
    return b"PIRQ\x01\x01\x01\x00" + bytes(7) + b"\x07" + struct.pack(">II", shape["rows"], shape["width"])


def guest_says_nothing(guest, shape):
    stopped.wait()


def guest_drips(first):
    def manner(guest, shape):
        guest.sendall(header(shape) if first else b"")
        while not stopped.wait(1):
            guest.send(b"P")

    return manner


def guest_never_reads(guest, shape):
    guest.sendall(header(shape) + bytes(shape["rows"]))
    stopped.wait()


def guest_resets(guest, shape):
    guest.setsockopt(socket.SOL_SOCKET, socket.SO_LINGER, RESET)
    guest.close()


GUESTS = [
    ("says nothing", guest_says_nothing, WIDE, 1, GUEST_CALL),
    ("drips its header", guest_drips(False), WIDE, 1, GUEST_WHOLE),
    ("drips a long query", guest_drips(True), LONG, 1, GUEST_WHOLE),
    ("never reads", guest_never_reads, WIDE, 1, 0),
    ("resets", guest_resets, WIDE, 1, 0),
    ("says nothing, and two more", guest_says_nothing, WIDE, 3, 3 * GUEST_CALL),
]


def fetch_behind(name, manner, shape, count, limit, database):
    with pir_servers(2, shape, database) as servers:
        for address in servers * count:
            host, port = address.split(":")
            guest = socket.create_connection((host, int(port)))
            threading.Thread(target=idle, args=(manner, guest, shape), daemon=True).start()
        time.sleep(0.1)
        said(f"a fetch behind a guest at each server who {name}", fetch(shape, database, servers, 2), limit)


def idle(manner, guest, shape):
    try:
        manner(guest, shape)
        stopped.wait()
    except OSError:
        pass


def fetch_beside_two(shape, database):
    """Two servers say nothing: the wait for both is one."""
    with pir_servers(3, shape, database) as honest:
        peers = [serve_as(silent, shape) for _ in range(2)]
        said("a fetch whose first two servers say nothing", fetch(shape, database, [*peers, *honest], 3), LINK_CALL)


def look_up_beside_one(shape, database):
    """One server says nothing: of the look-up's turns the first alone waits for it."""
    rows = [(3 * j).to_bytes(8, "big") for j in range(shape["rows"])]
    with open(database, "wb") as file:
        file.write(b"".join(rows))
    with pir_servers(3, shape, database) as honest:
        words = ["lookup", "--rows", str(shape["rows"]), "--width", "8", "--degree", "1", "--agree", "3", "--key", rows[77].hex()]
        start = time.monotonic()
        ran = subprocess.run([PROGRAM, *words, serve_as(silent, shape), *honest], stdout=subprocess.PIPE, check=False)
        result = time.monotonic() - start, ran.stdout.startswith(b"found ") and rows[77].hex().encode() in ran.stdout
        said("a look-up of fourteen turns whose first server says nothing", result, LINK_CALL)


@contextlib.contextmanager
def front_over(shape, shards):
    """A front over these shards, each of which has an equal part of the rows, as its address."""
    with socket.socket() as door:
        door.bind(("127.0.0.1", 0))
        address = "127.0.0.1:%d" % door.getsockname()[1]
    words = ["front", "--rows", str(shape["rows"]), "--width", str(shape["width"]), "--conns", "1000", "--listen", address]
    words += ["--shard", str(shape["rows"] // len(shards)), *shards]
    with subprocess.Popen([PROGRAM, *words], stdout=subprocess.PIPE) as front:
        try:
            front.stdout.readline()
            yield address
        finally:
            front.kill()


def fetch_through_front(shape, database, name, manner):
    """A stranger holds a shard of a front for as long as it may. The front answers all the same: no fetch does without it."""
    part = {**shape, "rows": shape["rows"] // 2}
    with open(database, "rb") as file:
        halves = [file.read(part["rows"] * shape["width"]) for _ in range(2)]
    with contextlib.ExitStack() as stack:
        shards = []
        for i, half in enumerate(halves):
            with open(f"{database}.{name.split()[0]}.{i}", "wb") as file:
                file.write(half)
            shards += stack.enter_context(pir_servers(1, part, file.name))
        honest = stack.enter_context(pir_servers(2, shape, database))
        front = stack.enter_context(front_over(shape, shards))
        host, port = shards[0].split(":")
        guest = socket.create_connection((host, int(port)))
        threading.Thread(target=idle, args=(manner, guest, shape), daemon=True).start()
        time.sleep(0.1)
        result = fetch(shape, database, [front, *honest], 3)
        said(f"a fetch through a front with a guest at a shard who {name}", result, GUEST_WHOLE)


def front_over_dripping(shape):
    """All shards of a front drip: it says in time that the first is lost."""
    shards = [serve_as(dripping(0.9), {**shape, "rows": 4}) for _ in range(4)]
    with front_over(shape, shards) as address:
        host, port = address.split(":")
        start = time.monotonic()
        with socket.create_connection((host, int(port))) as guest:
            guest.sendall(header(shape) + bytes(shape["rows"]))
            answer = guest.recv(4096)
        well = answer[7:8] == b"\4" and answer[24:] == b"\1"
        said("status 4 of a front over shards that drip", (time.monotonic() - start, well), SERVER_LINK_WHOLE)


def fetch_by_name(shape, database):
    """The first server is a name with thirty places, none of which lets anybody in."""
    if subprocess.run(["unshare", "-m", "true"], stderr=subprocess.DEVNULL, check=False).returncode != 0:
        return
    port = serve_as(None, shape, "0.0.0.0").split(":")[1]
    with open(f"{database}.hosts", "w") as hosts:
        hosts.write("".join(f"127.0.0.{i} thirty-places\n" for i in range(1, 31)))
    with pir_servers(3, shape, database) as honest:
        inside = f"mount --bind {database}.hosts /etc/hosts && exec {PROGRAM} fetch --rows {shape['rows']} --width {shape['width']}"
        inside += f" --block 1 --degree 1 --agree 3 thirty-places:{port} {' '.join(honest)}"
        start = time.monotonic()
        ran = subprocess.run(["unshare", "-m", "sh", "-c", inside], stdout=subprocess.PIPE, check=False)
        result = time.monotonic() - start, ran.stdout.startswith(b"blocks 1\n")
        said("a fetch whose first server is a name with thirty dead places", result, LINK_CALL)


def children_of(process):
    with open(f"/proc/{process.pid}/task/{process.pid}/children") as file:
        return [int(number) for number in file.read().split()]


def demo_with_stopped_child(shape, database):
    """The first child is stopped once it is ready: the demonstration does without its answer, and kills it in the end."""
    port = next(it for it in range(23000, 29000, 5) if all(is_free(it + i) for i in range(1, 5)))
    words = f"demo --port {port} --database {database} --rows {shape['rows']} --width {shape['width']} --block 1"
    start = time.monotonic()
    with subprocess.Popen([PROGRAM, *words.split(), *"--servers 4 --degree 1 --agree 3".split()], stdout=subprocess.PIPE) as demo:
        # (the second is started once the first is ready)
        while demo.poll() is None and len(found := children_of(demo)) < 2:
            time.sleep(0.002)
        os.kill(found[0], signal.SIGSTOP)
        well = demo.stdout.read().startswith(b"blocks 1\n")
    result = time.monotonic() - start, well and not os.path.exists(f"/proc/{found[0]}")
    said("a demonstration with a child that is stopped", result, LINK_CALL + CHILDREN)


def is_free(port):
    try:
        socket.create_server(("127.0.0.1", port)).close()
    except OSError:
        return False
    return True


def dripping_guest(seconds):
    def manner(guest, shape):
        while not stopped.wait(seconds):
            guest.send(b"P")

    return manner


with tempfile.TemporaryDirectory() as work:
    files = {}
    for shape in (LONG, WIDE):
        path = f"{work}/{shape['rows']}"
        with open(path, "wb") as file:
            file.write(os.urandom(shape["rows"] * shape["width"]))
        files[shape["rows"]] = path
    wide = files[WIDE["rows"]]
    with ThreadPoolExecutor(len(PEERS) + len(GUESTS) + 7) as pool:
        runs = [pool.submit(fetch_beside, *it, files[it[2]["rows"]]) for it in PEERS]
        runs += [pool.submit(fetch_behind, *it, files[it[2]["rows"]]) for it in GUESTS]
        runs.append(pool.submit(fetch_beside_two, WIDE, wide))
        runs.append(pool.submit(look_up_beside_one, {"rows": 16383, "width": 8}, f"{work}/sorted"))
        for name, manner in (("drips a byte each 0.9 s", dripping_guest(0.9)), ("says nothing", guest_says_nothing)):
            runs.append(pool.submit(fetch_through_front, WIDE, wide, name, manner))
        runs.append(pool.submit(front_over_dripping, WIDE))
        runs.append(pool.submit(fetch_by_name, WIDE, wide))
        runs.append(pool.submit(demo_with_stopped_child, WIDE, wide))
    stopped.set()
    for run in runs:
        run.result()
sys.exit(1 if wrong else 0)
