#!/usr/bin/env bash
# Serves a database from a file and prints the greatest memory of the server as a ratio to the file's size, and the time
# until it is ready as a ratio to reading the same file into a fresh buffer. A file of SIZE bytes is made.
# usage: bench/serve_memory.sh [SIZE [WIDTH [RUNS [PROGRAM]]]]
set -eu
top=$(cd "$(dirname "$0")/.." && pwd)
work=$(mktemp -d)
trap 'rm -rf "$work"' EXIT
size=${1:-268435456}
program=${4:-${PIR:-$top/crates/pir/out/pir}}
if [ "$program" = "$top/crates/pir/out/pir" ]; then "$top/tools/build" </dev/null; fi
head -c "$size" /dev/urandom >"$work/database"
python3 - "$program" "$work/database" "${2:-1024}" "${3:-5}" <<'PY'
import re, socket, subprocess, sys, time
program, path, width, runs = sys.argv[1], sys.argv[2], sys.argv[3], int(sys.argv[4])
def address():
    with socket.socket() as door:
        door.bind(("127.0.0.1", 0))
        return "127.0.0.1:%d" % door.getsockname()[1]
def peak(process):
    with open(f"/proc/{process}/status") as status:
        return int(re.search(r"VmHWM:\s*(\d+) kB", status.read())[1]) * 1024
# The time until the server has loaded the file, and its greatest memory then.
def serve():
    words = ["serve", "--database", path, "--width", width, "--conns", "1", "--listen", address()]
    start = time.perf_counter()
    with subprocess.Popen([program, *words], stdout=subprocess.PIPE, text=True) as run:
        line = run.stdout.readline()
        spent = time.perf_counter() - start
        if line != "ready\n":
            sys.exit(f"the server says {line!r}, and not that it is ready")
        memory = peak(run.pid)
        run.kill()
    return spent, memory
# Python's own buffer for the whole file is fresh each time.
def read():
    start = time.perf_counter()
    with open(path, "rb", buffering=0) as file:
        size = len(file.read())
    return time.perf_counter() - start, size
loads, reads = [], []
for _ in range(runs):
    loads.append(serve())
    reads.append(read())
size = reads[0][1]
load, plain, memory = min(loads)[0], min(reads)[0], max(peak for _, peak in loads)
print(f"memory {memory / size:.3f} of the file's {size} bytes, at most {memory - size} bytes more")
print(f"ready after {load * 1000:.1f} ms, a plain read {plain * 1000:.1f} ms, ratio {load / plain:.2f}")
PY
