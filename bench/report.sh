#!/usr/bin/env bash
# Replays a session of some servers, eight if not said, of which the last LIARS lie, two if not said, with `--report` beside the
# same replay without it, in turn. It prints the time of each, their ratio, and the greatest memory of each.
# usage: bench/report.sh [DEGREE AGREEMENT [RUNS [SERVERS LIARS]]]
set -eu
top=$(cd "$(dirname "$0")/.." && pwd)
degree=${1:-3} agreement=${2:-6} runs=${3:-15} servers=${4:-8} liars=${5:-2}
work=$(mktemp -d)
trap 'rm -rf "$work"' EXIT
python3 "$top/bench/make_session.py" "$degree" "$agreement" "$servers" 65536 "$liars" 1 >"$work/session"
program=${PIR:-$top/crates/pir/out/pir}
if [ -z "${PIR:-}" ]; then "$top/tools/build" </dev/null; fi
"$program" replay --report "$work/session" >"$work/text" || echo "status $?"
grep '^liars' "$work/text" || echo "no line of liars"
python3 - "$program" "$work/session" "$runs" <<'PY'
import re, subprocess, sys, time
program, session, runs = sys.argv[1], sys.argv[2], int(sys.argv[3])
ways = {"replay": [program, "replay", session], "replay --report": [program, "replay", "--report", session]}
best = dict.fromkeys(ways, float("inf"))
for _ in range(runs):
    for name, words in ways.items():
        start = time.perf_counter()
        subprocess.run(words, stdout=subprocess.DEVNULL)
        best[name] = min(best[name], time.perf_counter() - start)
# A text with a block is longer than a pipe holds, so the program waits for its reader: it has decoded, and still
# stands.
def peak(words):
    with subprocess.Popen(words, stdout=subprocess.PIPE) as run:
        run.stdout.read(1)
        with open(f"/proc/{run.pid}/status") as status:
            memory = re.search(r"VmHWM:\s*(\d+) kB", status.read())
        run.stdout.read()
    return f"{memory.group(1)} KiB" if memory else "not seen"
for name, words in ways.items():
    print(f"{name} {best[name] * 1000:.1f} ms, peak {peak(words)}")
print(f"ratio {best['replay --report'] / best['replay']:.2f}")
PY
