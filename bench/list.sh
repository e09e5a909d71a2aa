#!/usr/bin/env bash
# Times `pir_list build` of LINES lines of 40 hexadecimal digits beside `LC_ALL=C sort -u` of the same file with one thread, and
# with one for each processor, in turns: by the clock, in the time of the processor, and the greatest memory. Then it looks up
# one key from four servers on loopback beside `pir fetch` of one row of the same shape, and 1000 keys beside as many fetches
# of several rows as that takes queries. With --quick there are 20000 lines, 100 keys and one turn of each.
# usage: bench/list.sh [--quick] [LINES [RUNS]]      (10000000 lines, 3 runs; the programs are PIR and PIR_LIST, where these are set)
set -eu
top=$(cd "$(dirname "$0")/.." && pwd)
lines=10000000 runs=3 keys=1000
if [ "${1:-}" = --quick ]; then
  lines=20000 runs=1 keys=100
  shift
fi
work=$(mktemp -d)
trap 'rm -rf "$work"' EXIT
pir=${PIR:-$top/crates/pir/out/pir} pir_list=${PIR_LIST:-$top/crates/pir_list/out/pir_list}
if [ -z "${PIR:-}" ]; then "$top/tools/build" pir </dev/null; fi
if [ -z "${PIR_LIST:-}" ]; then "$top/tools/build" pir_list </dev/null; fi
python3 - "$pir" "$pir_list" "$work" "${1:-$lines}" "${2:-$runs}" "$keys" <<'PY'
import hashlib, os, re, socket, subprocess, sys, time
pir, pir_list, work = sys.argv[1:4]
count, runs, asked = map(int, sys.argv[4:])
SERVERS, DEGREE, AGREE, PIECE = 4, 1, 3, 100000
# Runs a program to its end, which has to have this status: the time by the clock and of the processor, and the greatest memory.
def run(words, status=0):
    start = time.perf_counter()
    it = subprocess.Popen([str(word) for word in words], stdin=subprocess.DEVNULL, stdout=subprocess.DEVNULL, env={**os.environ, "LC_ALL": "C"})
    _, ended, used = os.wait4(it.pid, 0)
    it.returncode = os.waitstatus_to_exitcode(ended)
    if it.returncode != status:
        sys.exit(f"{words[0]} {words[1]} ended with {it.returncode}")
    return time.perf_counter() - start, used.ru_utime + used.ru_stime, used.ru_maxrss * 1024
# The least of each of several runs.
def best(runs):
    return [min(it) for it in zip(*runs)]
# The lines of one piece; each has its own.
def piece(number, many):
    digits = hashlib.shake_256(str(number).encode()).hexdigest(20 * many)
    return [digits[i : i + 40] for i in range(0, 40 * many, 40)]
with open(f"{work}/lines", "w") as file:
    for at in range(0, count, PIECE):
        file.write("\n".join(piece(at, min(PIECE, count - at))) + "\n")
build = [pir_list, "build", f"{work}/lines", "--database", f"{work}/database", "--catalog", f"{work}/catalog"]
threads = sorted({1, os.cpu_count()})
sorts = {n: ["sort", "-u", f"--parallel={n}", "-T", work, "-o", f"{work}/sorted", f"{work}/lines"] for n in threads}
builds, sortings = [], {n: [] for n in threads}
for _ in range(runs):
    builds.append(run(build))
    for n in threads:
        sortings[n].append(run(sorts[n]))
        os.remove(f"{work}/sorted")
clock, busy, memory = best(builds)
print(f"build of {count} lines: {clock:.2f} s, processor {busy:.2f} s, memory {memory / 2**20:.0f} MB, {memory / count:.1f} bytes a line")
for n in threads:
    by_clock, by_busy, peak = best(sortings[n])
    print(f"sort -u --parallel={n}: {by_clock:.2f} s, processor {by_busy:.2f} s, memory {peak / 2**20:.0f} MB; "
          f"ratio {clock / by_clock:.2f}, of the processor {busy / by_busy:.2f}, of memory {memory / peak:.2f}", flush=True)
with open(f"{work}/catalog") as file:
    text = file.read()
rows, width = (int(re.search(f"(?m)^{name} = ([0-9]+)$", text)[1]) for name in ("rows", "width"))
doors = [socket.create_server(("127.0.0.1", 0)) for _ in range(SERVERS)]
addresses = ["127.0.0.1:%d" % door.getsockname()[1] for door in doors]
for door in doors:
    door.close()
servers = []
try:
    for address in addresses:
        words = [pir, "serve", "--database", f"{work}/database", "--width", str(width), "--conns", "65535", "--listen", address]
        servers.append(subprocess.Popen(words, stdout=subprocess.PIPE))
    for server in servers:
        if server.stdout.readline() != b"ready\n":
            sys.exit("a server isn't ready")
    keys = piece(0, min(PIECE, count))[:asked]
    shared = ["--degree", DEGREE, "--agree", AGREE]
    find = [pir_list, "find", f"{work}/catalog", "--servers", ",".join(addresses), *shared, "--keys"]
    fetch = [pir, "fetch", "--rows", rows, "--width", width, *shared]
    # What a look-up of so many keys is, and the fetches of as many rows, q in each.
    def both(many):
        path = f"{work}/keys.{many}"
        with open(path, "w") as file:
            file.write("\n".join(keys[:many]) + "\n")
        q = min(16, 65536 // width, many)
        parts = [min(q, many - at) for at in range(0, many, q)]
        more = [["--more", ",".join(str(i % rows) for i in range(1, n))] if n > 1 else [] for n in parts]
        fetches = [[*fetch, "--block", 0, *it, *addresses] for it in more]
        found, fetched = [], []
        for _ in range(max(runs, 20 if many == 1 and runs > 1 else runs)):
            found.append(run([*find, path]))
            turn = [run(words) for words in fetches]
            fetched.append([sum(it[i] for it in turn) for i in (0, 1)])
        found, fetched = best(found), best(fetched)
        print(f"keys {many}, among {rows} rows of {width} bytes: find {1e3 * found[0]:.1f} ms, processor {1e3 * found[1]:.1f}; "
              f"fetches {len(parts)}, of {q} each: {1e3 * fetched[0]:.1f} ms, processor {1e3 * fetched[1]:.1f}; ratio {found[0] / fetched[0]:.2f}", flush=True)
    both(1)
    both(len(keys))
finally:
    for server in servers:
        server.kill()
        server.wait()
PY
