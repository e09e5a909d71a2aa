#!/usr/bin/env bash
# Splits a database of SIZE bytes into shares, beside only reading as many coins from the same place and writing as many files
# of that size, in turns. It prints the best time of each, the ratio, and the same of the processor's time, which other work
# on the machine disturbs less; and the greatest memory of the splitting as a ratio to the database and its coins.
# usage: bench/split.sh [SIZE [TAU [SERVERS [RUNS [PROGRAM]]]]]
set -eu
top=$(cd "$(dirname "$0")/.." && pwd)
work=$(mktemp -d)
trap 'rm -rf "$work"' EXIT
size=${1:-268435456}
program=${5:-${PIR:-$top/crates/pir/out/pir}}
if [ "$program" = "$top/crates/pir/out/pir" ]; then "$top/tools/build" </dev/null; fi
head -c "$size" /dev/urandom >"$work/database"
python3 - "$program" "$work" "${2:-1}" "${3:-5}" "${4:-5}" <<'PY'
import os, subprocess, sys, time
program, work, tau, servers, runs = sys.argv[1], sys.argv[2], *map(int, sys.argv[3:])
size, width, coins = os.path.getsize(f"{work}/database"), 1024, "/dev/urandom"
words = f"split --database {work}/database --width {width} --servers {servers} --tau {tau} --into {work}/share --coins {coins}".split()
said = f"split {servers} {-(-size // width)} {width}\n"
# Both make the files anew, so that none is written over.
def clear():
    for name in os.listdir(work):
        if name != "database":
            os.remove(f"{work}/{name}")
def split():
    clear()
    start = time.perf_counter()
    run = subprocess.Popen([program, *words], stdout=subprocess.PIPE, text=True)
    line = run.stdout.read()
    _, status, used = os.wait4(run.pid, 0)
    spent = time.perf_counter() - start
    run.returncode = os.waitstatus_to_exitcode(status)
    if line != said or run.returncode:
        sys.exit(f"it says {line!r} with status {run.returncode}, and not {said!r}")
    return spent, used.ru_utime + used.ru_stime, used.ru_maxrss * 1024
# Python's own buffer for the coins is fresh each time, and a file is written in one call as far as the system takes it.
def plain():
    clear()
    start, busy = time.perf_counter(), time.process_time()
    with open(coins, "rb", buffering=0) as it:
        room = memoryview(bytearray(size * tau))
        taken = 0
        while taken < len(room):
            taken += it.readinto(room[taken:])
    for a in range(1, servers + 1):
        with open(f"{work}/plain.{a}", "wb", buffering=0) as it:
            done = 0
            while done < size:
                done += it.write(room[done:size])
    return time.perf_counter() - start, time.process_time() - busy
splits, plains = [], []
for _ in range(runs):
    splits.append(split())
    plains.append(plain())
for text, which in ("by the clock", 0), ("of the processor", 1):
    best, beside = min(it[which] for it in splits), min(it[which] for it in plains)
    print(f"{text}: split {best * 1000:.1f} ms, coins read and files written {beside * 1000:.1f} ms, ratio {best / beside:.2f}")
memory, may = max(it[2] for it in splits), size * (1 + tau)
print(f"memory {memory / may:.3f} of the {may} bytes of database and coins, {memory - may} bytes more")
PY
