#!/usr/bin/env bash
# Times the list decoding of one column, beside SageMath's decoder of Guruswami and Sudan where `sage` is installed.
# usage: bench/column_list.sh [ROUNDS]
set -eu
top=$(cd "$(dirname "$0")/.." && pwd)
rounds=${1:-5}
# shellcheck source=bench/program.sh
source "$top/bench/program.sh"
peer=$(command -v sage || true)
if [ -z "$peer" ]; then
  echo "sage isn't installed: its decoder is skipped, and there is no ratio"
fi

# The best time of SageMath's decoder for the same points, in nanoseconds.
peer_time() {
  sage -python - "$@" <<'PY'
import sys, time
from sage.all import GF, PolynomialRing, codes, vector
from sage.coding.guruswami_sudan.gs_decoder import GRSGuruswamiSudanDecoder
t, h, rounds, *numbers = map(int, sys.argv[1:])
x = PolynomialRing(GF(2), "x").gen()
field = GF(256, "a", modulus=x**8 + x**4 + x**3 + x + 1)
byte = getattr(field, "from_integer", None) or field.fetch_int
places = [byte(n) for n in numbers[0::2]]
values = vector(field, [byte(n) for n in numbers[1::2]])
code = codes.GeneralizedReedSolomonCode(places, t + 1)
decoder = GRSGuruswamiSudanDecoder(code, tau=len(places) - h)
times = []
for _ in range(rounds):
    start = time.perf_counter_ns()
    decoder.decode_to_message(values)
    times.append(time.perf_counter_ns() - start)
print(min(times))
PY
}

# measure NAME T H X Y ..: one line for these points.
measure() {
  local name=$1 degree=$2 agreement=$3
  shift 3
  read -r time count < <("$bench" column "$degree" "$agreement" "$rounds" "$@")
  local theirs=0
  if [ -n "$peer" ]; then
    theirs=$(peer_time "$degree" "$agreement" "$rounds" "$@")
  fi
  awk -v name="$name" -v k=$(($# / 2)) -v t="$degree" -v h="$agreement" -v time="$time" -v count="$count" -v theirs="$theirs" 'BEGIN {
    printf "k %d, t %d, h %d, %s: %d listed, %.3f ms", k, t, h, name, count, time / 1e6
    if (theirs > 0) printf ", sage %.3f ms, ratio %.4f", theirs / 1e6, time / theirs
    print ""
  }'
}

# same K: K points with one value.
same() {
  for ((x = 1; x <= $1; x++)); do echo "$x 67"; done
}

# none K: K points whose values look random, as those of liars alone.
none() {
  for ((x = 1; x <= $1; x++)); do echo "$x $(((x * x * 73 + x * 151 + 29) % 251))"; done
}

for shape in "5 1 3" "8 1 3" "8 3 5" "20 3 12"; do
  read -r k t h <<<"$shape"
  # shellcheck disable=SC2046
  measure "all agree" "$t" "$h" $(same "$k")
  # shellcheck disable=SC2046
  measure "few agree" "$t" "$h" $(none "$k")
done
# Long lists: two lines; eight lines through eight points of the plane over three elements; seven cubics, the most that a
# search found. Of twenty points no two cubics can have twelve each.
measure "long list" 1 3 1 16 2 16 3 16 4 23 5 22
measure "long list" 1 3 5 104 85 6 106 86 140 5 157 159 167 158 211 125 245 131
measure "long list" 3 5 8 1 9 2 10 4 11 7 12 7 13 5 14 0 15 2
