#!/usr/bin/env bash
# Times drawing the stream of a workload beside filling a small buffer with as many bytes by rand_chacha itself, both in one
# run, for databases of a megabyte, of 64 and of 1024, or of the shapes that are named.
# usage: bench/selfrun_stream.sh [ROUNDS [ROWSxWIDTH ..]]
set -eu
top=$(cd "$(dirname "$0")/.." && pwd)
# shellcheck source=bench/program.sh
source "$top/bench/program.sh"
rounds=${1:-5}
shift $(($# < 1 ? $# : 1))
if [ $# -eq 0 ]; then set -- 4096x256 65536x1024 1048576x1024; fi
for shape in "$@"; do
  "$bench" stream "${shape%x*}" "${shape#*x}" "$rounds" |
    awk -v shape="$shape" '{ printf "%s: draw %d us, fill %d us, ratio %.2f\n", shape, $1, $2, $2 / $1 }'
done
