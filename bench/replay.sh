#!/usr/bin/env bash
# Replays a session of some servers, eight if not said, of which the last LIARS lie, two if not said, beside reading the same
# bytes with sha256sum. It prints the time of each, their ratio, and the greatest memory of the replay beside the session's
# size. usage: bench/replay.sh [DEGREE AGREEMENT [RUNS [SERVERS LIARS]]]
set -eu
top=$(cd "$(dirname "$0")/.." && pwd)
degree=${1:-3} agreement=${2:-5} runs=${3:-5} servers=${4:-8} liars=${5:-2}
work=$(mktemp -d)
trap 'rm -rf "$work"' EXIT
python3 "$top/bench/make_session.py" "$degree" "$agreement" "$servers" 65536 "$liars" 1 >"$work/session"
program=${PIR:-$top/crates/pir/out/pir}
if [ -z "${PIR:-}" ]; then "$top/tools/build" </dev/null; fi
"$program" replay "$work/session" >"$work/text" || echo "status $?"
head -c 60 "$work/text"
echo
python3 - "$program" "$work/session" "$runs" <<'PY'
import os, re, subprocess, sys, time
program, session, runs = sys.argv[1], sys.argv[2], int(sys.argv[3])
def best(words):
    times = []
    for _ in range(runs):
        start = time.perf_counter()
        subprocess.run(words, stdout=subprocess.DEVNULL)
        times.append(time.perf_counter() - start)
    return min(times)
# A text with a block is longer than a pipe holds, so the program waits for its reader: it has decoded, and still
# stands.
def peak():
    with subprocess.Popen([program, "replay", session], stdout=subprocess.PIPE) as run:
        run.stdout.read(1)
        with open(f"/proc/{run.pid}/status") as status:
            memory = re.search(r"VmHWM:\s*(\d+) kB", status.read())
        run.stdout.read()
    return f"{memory.group(1)} KiB" if memory else "not seen"
digest = best(["sha256sum", session])
replay = best([program, "replay", session])
print(f"replay {replay * 1000:.1f} ms, sha256sum {digest * 1000:.1f} ms, ratio {replay / digest:.1f}, peak {peak()} for a session of {os.path.getsize(session) // 1024} KiB")
PY
