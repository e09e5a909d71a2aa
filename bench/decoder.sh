#!/usr/bin/env bash
# Times the list of one column by Koetter's iteration, as the gate builds it and for AVX2, each beside the C++ program column.cc of
# a folder, built for the same lanes, at the same points, where that and a compiler are there.
# usage: bench/decoder.sh [ROUNDS [FOLDER]]
set -eu
top=$(cd "$(dirname "$0")/.." && pwd)
rounds=${1:-10}
peers=${2:-$top/../shared/peers}
# shellcheck source=bench/program.sh
source "$top/bench/program.sh"
built=$(mktemp -d)
trap 'rm -rf "$built"' EXIT
have=no
if [ ! -e "$peers/column.cc" ]; then
  echo "there is no column.cc in $peers: it is skipped, and there is no ratio"
elif ! command -v g++ >/dev/null; then
  echo "g++ isn't installed: the C++ program is skipped, and there is no ratio"
else
  for lanes in $(each_build); do
    g++ -O3 -std=c++17 "-m$lanes" -w "-I$peers" "$top/bench/column_points.cc" -o "$built/column-$lanes" -lpthread
  done
  have=yes
fi

# told NAME OURS THEIRS: a line, with the ratio where theirs is known. Both are in milliseconds.
told() {
  awk -v name="$1" -v ours="$2" -v theirs="$3" 'BEGIN {
    printf "%s: %.4f ms", name, ours
    if (theirs != "") printf ", C++ %.4f ms, ratio %.2f", theirs, ours / theirs
    print ""
  }'
}

# points KIND K: K points that all have one value, or whose values look random.
points() {
  for ((x = 1; x <= $2; x++)); do
    if [ "$1" = agree ]; then echo "$x 67"; else echo "$x $(((x * x * 73 + x * 151 + 29) % 251))"; fi
  done
}

# least FIRST SECOND: the lesser number of the two; FIRST may be empty.
least() { awk -v a="$1" -v b="$2" 'BEGIN { print (a == "" || b + 0 < a + 0) ? b : a }'; }

# The best times so far, by shape and build: ours where all agree and where few do, and the C++ program's for the same lanes.
declare -A agree few theirs agree_count few_count

# turn LANES: one turn of that build and its peer at the present shape.
turn() {
  local at="$shape $1" program count time theirs_count
  program=$(built_for "$1")
  count=$((rounds * often))
  # shellcheck disable=SC2046
  read -r time "agree_count[$at]" < <("$program" column "$t" "$h" "$count" $(points agree "$k"))
  agree[$at]=$(least "${agree[$at]-}" "$time")
  # shellcheck disable=SC2046
  read -r time "few_count[$at]" < <("$program" column "$t" "$h" "$count" $(points few "$k"))
  few[$at]=$(least "${few[$at]-}" "$time")
  if [ $have = yes ]; then
    # shellcheck disable=SC2046
    read -r time theirs_count _ < <("$built/column-$1" "$t" "$h" "$count" $(points few "$k"))
    theirs[$at]=$(least "${theirs[$at]-}" "$time")
    [ "$theirs_count" = "${few_count[$at]}" ] || echo "$k,$t,$h: we list ${few_count[$at]}, C++ $theirs_count" >&2
  fi
}

# milliseconds NANOSECONDS
milliseconds() { awk -v ns="$1" 'BEGIN { print ns / 1e6 }'; }

# All take turns, each through all shapes, and the best time of each counts: so neither a busy machine nor one of its phases, in which
# all takes twice as long, spoils one alone. The last number says how many times ROUNDS the list is made in a turn.
shapes=("8 1 3 20" "8 3 5 10" "20 3 8 2" "32 5 13 1" "32 28 30 1" "32 15 23 40" "20 3 12 200" "47 1 7 1" "255 1 17 1")
for _ in 1 2 3 4 5 6; do
  for shape in "${shapes[@]}"; do
    read -r k t h often <<<"$shape"
    for lanes in $(each_build); do turn "$lanes"; done
  done
done
for shape in "${shapes[@]}"; do
  read -r k t h often <<<"$shape"
  for lanes in $(each_build); do
    at="$shape $lanes"
    told "column $k,$t,$h agree, $lanes, ${agree_count[$at]} listed" "$(milliseconds "${agree[$at]}")" ""
    told "column $k,$t,$h few, $lanes, ${few_count[$at]} listed" "$(milliseconds "${few[$at]}")" "${theirs[$at]:+$(milliseconds "${theirs[$at]}")}"
  done
done
