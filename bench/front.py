#!/usr/bin/env python3
"""Times a guest's query through a front over four shards, beside the same query to one server of all rows, in turns; and through
a front over shards that do no work, beside a plain relay of the same bytes: it takes the query, gives each shard its part and
takes its answer, and gives the last one to its guest. All are processes on loopback, each shard pinned to a processor of its own
where there are five or more. It prints the best times and their ratios. The answers of the front and of the server are compared.

    bench/front.py [ROWS [WIDTH [RUNS [PROGRAM]]]]
"""
import os
import socket
import subprocess
import sys
import tempfile
import time

TOP = os.path.dirname(os.path.dirname(os.path.abspath(__file__)))
ROWS, WIDTH, RUNS = (int(sys.argv[i]) if len(sys.argv) > i else usual for i, usual in ((1, 65536), (2, 1024), (3, 9)))
PROGRAM = sys.argv[4] if len(sys.argv) > 4 else f"{TOP}/crates/pir/out/pir"
SHARDS = 4
SHARD = -(-ROWS // SHARDS)
HEADER, ANSWER = 24, 24 + WIDTH
FIRST_PORT = 7800


def header(magic, rows):
    """The header of a query, or of its answer with status 0, for one block of so many rows."""
    return magic + bytes([1, 1, 1, 0]) + bytes(7) + b"\x07" + rows.to_bytes(4, "big") + WIDTH.to_bytes(4, "big")


def take(stream, size):
    """Takes so many bytes, in a buffer of their own."""
    room = bytearray(size)
    view, taken = memoryview(room), 0
    while taken < size:
        came = stream.recv_into(view[taken:])
        if not came:
            sys.exit(f"a stream ended after {taken} of {size} bytes")
        taken += came
    return room


def ask(port, frame):
    """Sends a frame to this port, and gives the answer and the seconds that it took."""
    start = time.perf_counter()
    with socket.create_connection(("127.0.0.1", port)) as stream:
        stream.sendall(frame)
        answer = take(stream, ANSWER)
    return bytes(answer), time.perf_counter() - start


def rows_of(i):
    """How many rows lie on shard i, counted from 0."""
    return min(SHARD, ROWS - i * SHARD)


def listen(port):
    """A socket at which guests come in; it is open before the process that meets them is there."""
    door = socket.socket()
    door.setsockopt(socket.SOL_SOCKET, socket.SO_REUSEADDR, 1)
    door.bind(("127.0.0.1", port))
    door.listen(128)
    return door


def idle_shard(door, i):
    """Answers each query for the rows of shard i with zero bytes."""
    while True:
        guest, _ = door.accept()
        with guest:
            take(guest, HEADER + rows_of(i))
            guest.sendall(header(b"PIRA", rows_of(i)) + bytes(WIDTH))


def relay(door, ports):
    """The plain relay."""
    while True:
        guest, _ = door.accept()
        with guest:
            query = memoryview(take(guest, HEADER + ROWS))
            for i, port in enumerate(ports):
                part = query[HEADER + i * SHARD :][: rows_of(i)]
                answer, _ = ask(port, header(b"PIRQ", rows_of(i)) + bytes(part))
            guest.sendall(answer)


def pinned(place):
    """Pins this process to the processor with this place, where there are five or more."""
    cores = sorted(os.sched_getaffinity(0))
    if len(cores) > SHARDS:
        os.sched_setaffinity(0, {cores[place % len(cores)]})


def fork(work, place):
    """Starts a process that does this work, and gives its number."""
    number = os.fork()
    if not number:
        pinned(place)
        work()
    return number


def start(words, place):
    """Starts the program, and waits until it is ready."""
    run = subprocess.Popen([PROGRAM, *words], stdout=subprocess.PIPE, text=True, preexec_fn=lambda: pinned(place))
    if run.stdout.readline() != "ready\n":
        sys.exit(f"{words} isn't ready: status {run.wait()}")
    return run


def front(port, ports):
    """The words of a front at this port over these shards."""
    words = f"front --rows {ROWS} --width {WIDTH} --shard {SHARD} --conns {RUNS} --listen 127.0.0.1:{port}"
    return [*words.split(), *(f"127.0.0.1:{it}" for it in ports)]


def serve(port, database):
    """The words of a server at this port."""
    return f"serve --database {database} --width {WIDTH} --conns {RUNS} --listen 127.0.0.1:{port}".split()


def beside(ours, theirs, frame, same):
    """The best times at two ports, in turns; with `same` the answers have to be."""
    times = ([], [])
    for _ in range(RUNS):
        (mine, spent), (other, passed) = ask(ours, frame), ask(theirs, frame)
        if same and mine != other:
            sys.exit("the front's answer is another than the server's")
        times[0].append(spent)
        times[1].append(passed)
    return min(times[0]), min(times[1])


def said(what, pair):
    """Prints two times and their ratio."""
    print(f"{what}: {pair[0] * 1000:.2f} ms and {pair[1] * 1000:.2f} ms, ratio {pair[0] / pair[1]:.2f}")


def main():
    """Both comparisons."""
    frame = header(b"PIRQ", ROWS) + os.urandom(ROWS)
    port, shards = FIRST_PORT, [FIRST_PORT + 10 + i for i in range(SHARDS)]
    runs, forks = [], []
    try:
        with tempfile.TemporaryDirectory() as work:
            rows = os.urandom(ROWS * WIDTH)
            for i in [*range(SHARDS), None]:
                with open(f"{work}/{'all' if i is None else i}", "wb") as it:
                    it.write(rows if i is None else rows[i * SHARD * WIDTH :][: SHARD * WIDTH])
            del rows
            runs += [start(serve(shards[i], f"{work}/{i}"), i) for i in range(SHARDS)]
            runs += [start(serve(port + 1, f"{work}/all"), SHARDS), start(front(port, shards), SHARDS)]
        said(f"a front over {SHARDS} shards, and one server of {ROWS} rows of {WIDTH} bytes", beside(port, port + 1, frame, True))
        for run in runs:
            run.wait()
        idle = [FIRST_PORT + 20 + i for i in range(SHARDS)]
        for i, it in enumerate(idle):
            door = listen(it)
            forks.append(fork(lambda: idle_shard(door, i), i))
        door = listen(port + 3)
        forks.append(fork(lambda: relay(door, idle), SHARDS))
        runs.append(start(front(port + 2, idle), SHARDS))
        said("a front over shards that do no work, and a plain relay", beside(port + 2, port + 3, frame, False))
        runs[-1].wait()
    finally:
        for number in forks:
            os.kill(number, 9)
            os.waitpid(number, 0)
        for run in runs:
            if run.poll() is None:
                run.kill()


main()
