#!/usr/bin/env bash
# Times the verdict on the answers of servers with rows of 65536 bytes, as the gate builds it and for AVX2, each beside the C++
# program rows.cc of a folder, built for the same lanes, where that and a compiler are there.
# usage: bench/decide.sh [ROUNDS [FOLDER]]
set -eu
top=$(cd "$(dirname "$0")/.." && pwd)
# About as many as the C++ program gets for the shortest case.
rounds=${1:-500}
peers=${2:-$top/../shared/peers}
width=65536
# shellcheck source=bench/program.sh
source "$top/bench/program.sh"
work=$(mktemp -d)
trap 'rm -rf "$work"' EXIT
if [ ! -e "$peers/rows.cc" ]; then
  echo "there is no rows.cc in $peers: it is skipped, and there is no ratio"
elif ! command -v g++ >/dev/null; then
  echo "g++ isn't installed: the C++ program is skipped, and there is no ratio"
else
  for lanes in $(each_build); do
    g++ -O3 -std=c++17 "-m$lanes" "$peers/rows.cc" -o "$work/rows-$lanes" -lpthread 2>/dev/null
  done
fi

# given K T LIARS FIRST: makes the answers; the last LIARS lie in the columns from FIRST on.
given() {
  (cd "$top/bench" && python3 -c '
import sys
from make_session import answers
servers, degree, width, liars, first = map(int, sys.argv[1:6])
sys.stdout.buffer.writelines(answers(degree, servers, width, liars, first, 1))' "$1" "$2" $width "$3" "$4") >"$work/bytes"
}

cases="3|1|2|0|0|all agree
8|1|5|0|0|all agree
8|3|6|0|0|all agree
8|3|6|2|0|2 liars, all columns
8|3|6|2|65535|2 liars, last column
20|3|12|0|0|all agree
20|3|12|8|0|8 liars, all columns
32|15|24|0|0|all agree
32|15|24|8|0|8 liars, all columns"

# A machine with neighbours has phases in which all takes twice as long: so the programs take turns, and of each the best time of
# all turns counts.
turns=8

# ours PROGRAM T H: our best time in nanoseconds, of two runs, and how many blocks are listed.
ours() {
  for _ in 1 2; do
    "$1" decide "$2" "$3" $width "$rounds" "$work/bytes"
    sleep 0.1
  done | sort -n | head -n 1
}

# theirs LANES SHAPE CASE: the C++ program's best time in milliseconds, nothing where it isn't there. The first line of each case
# and width in a table is that of 65536 columns.
theirs() {
  for table in "$work/table-$1-"*; do
    [ ! -s "$table" ] || awk -v shape="$2" -v said="$3" -v width=$width '
      $1 == shape && index($0, said " ") { sub(".*" said, ""); if ($1 == width) { print $2; exit } }' "$table"
  done | sort -g | head -n 1
}

for ((turn = 1; turn <= turns; turn++)); do
  for lanes in $(each_build); do
    # Its cases of this width come first, in 14 lines behind two.
    [ ! -x "$work/rows-$lanes" ] || "$work/rows-$lanes" bench 0.2 | head -n 16 >"$work/table-$lanes-$turn"
  done
  while IFS='|' read -r k t h liars first case; do
    given "$k" "$t" "$liars" "$first"
    for lanes in $(each_build); do
      ours "$(built_for "$lanes")" "$t" "$h" >>"$work/ours-$lanes-$k-$t-$h-$liars-$first"
    done
  done <<<"$cases"
done

while IFS='|' read -r k t h liars first case; do
  for lanes in $(each_build); do
    read -r time blocks < <(sort -n "$work/ours-$lanes-$k-$t-$h-$liars-$first")
    awk -v name="decide $k,$t,$h $case, $lanes, $blocks listed" -v ours="$time" -v theirs="$(theirs "$lanes" "$k,$t,$h" "$case")" 'BEGIN {
      printf "%s: %.3f ms", name, ours / 1e6
      if (theirs != "") printf ", C++ %.3f ms, ratio %.2f", theirs, ours / 1e6 / theirs
      print ""
    }'
  done
done <<<"$cases"
