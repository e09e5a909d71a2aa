#!/usr/bin/env bash
# Times a query for a database of 2^20 rows beside a plain copy of its coins, both in one run, at degrees 1, 3 and 7, as the
# gate builds it and for AVX2.
# usage: bench/query.sh [ROUNDS]
set -eu
top=$(cd "$(dirname "$0")/.." && pwd)
# shellcheck source=bench/program.sh
source "$top/bench/program.sh"
for degree in 1 3 7; do
  for lanes in $(each_build); do
    "$(built_for "$lanes")" query $((1 << 20)) "$degree" "${1:-100}" |
      awk -v degree="$degree" -v lanes="$lanes" '{
        printf "degree %d, %s: query %d us, copy %d us, ratio %.1f\n", degree, lanes, $2, $1, $2 / $1
      }'
  done
done
