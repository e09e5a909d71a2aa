#!/usr/bin/env bash
# Times a share of a database of 16 MB beside one pass that reads its bytes and coins and writes as many bytes as the
# share has, both in one run, at tau 1, 2, 3, 4 and 8, as the gate builds it and for AVX2.
# usage: bench/share.sh [ROUNDS [POSITIONS]]
set -eu
top=$(cd "$(dirname "$0")/.." && pwd)
# shellcheck source=bench/program.sh
source "$top/bench/program.sh"
for tau in 1 2 3 4 8; do
  for lanes in $(each_build); do
    "$(built_for "$lanes")" share "${2:-$((1 << 24))}" "$tau" "${1:-30}" |
      awk -v tau="$tau" -v lanes="$lanes" '{
        printf "tau %d, %s: share %d us, one pass %d us, speed %.2f of it\n", tau, lanes, $2, $1, $1 / $2
      }'
  done
done
