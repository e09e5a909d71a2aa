#!/usr/bin/env bash
# Runs `pir demo` again and again, every second time such that it fails, and then looks for processes and listening sockets
# that were left behind.
# usage: bench/demo_loop.sh [RUNS [PROGRAM [PORT]]]
set -u
top=$(cd "$(dirname "$0")/.." && pwd)
runs=${1:-200}
program=${2:-$top/pir}
port=${3:-21000}
folder=$(mktemp -d)
trap 'rm -rf "$folder"' EXIT
printf ABCD >"$folder/database"
printf 'short' >"$folder/short"
"$program" replay "$top/examples/three-servers.session" >"$folder/out" || exit 1

# The words of a demonstration from port $1 on, of the database $2 with the coins $3.
demo() {
  "$program" demo --port "$1" --database "$2" --rows 2 --width 2 --block 1 --servers 3 --degree 1 --agree 2 --coins "$3" 2>/dev/null
}

# Runs the words behind the first two, which are the status and the text that are wanted.
wrong=0
wanted() {
  local status=$1 text=$2 got
  shift 2
  got=$("$@")
  local ended=$?
  if [ "$ended" != "$status" ] || [ "$got" != "$text" ]; then
    wrong=$((wrong + 1))
    echo "run $run: status $ended in place of $status, text '$got'"
  fi
}

block=$'blocks 1\n4344'
for ((run = 0; run < runs; run++)); do
  base=$((port + run % 100 * 4))
  case $((run % 8)) in
  1) wanted 13 "" demo "$base" "$folder/missing" /dev/urandom ;;
  3) wanted 8 "" demo "$base" "$folder/database" "$folder/missing" ;;
  5) wanted 10 "" demo "$base" "$folder/database" "$folder/short" ;;
  7) # The port of the third child is in use.
    python3 -c 'import socket, subprocess, sys
s = socket.create_server(("127.0.0.1", int(sys.argv[1])))
sys.exit(subprocess.run(sys.argv[2:]).returncode)' $((base + 3)) \
      "$program" demo --port "$base" --database "$folder/database" --rows 2 --width 2 --block 1 --servers 3 --degree 1 --agree 2 >"$folder/out" 2>&1
    [ $? = 13 ] || { wrong=$((wrong + 1)); echo "run $run: a port in use gave no status 13"; } ;;
  *) wanted 0 "$block" demo "$base" "$folder/database" /dev/urandom ;;
  esac
done

left=$(pgrep -fc "serve --database $folder/")
listening=$(python3 - "$port" <<'END'
import sys
first = int(sys.argv[1])
lines = open("/proc/net/tcp").read().splitlines()[1:]
ports = [int(l.split()[1].split(":")[1], 16) for l in lines if l.split()[3] == "0A"]
print(sum(first <= p < first + 404 for p in ports))
END
)
echo "$runs runs, half of them made to fail: $wrong wrong, $left processes left, $listening listening sockets left"
[ "$wrong$left$listening" = 000 ]
