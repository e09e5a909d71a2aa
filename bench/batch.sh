#!/usr/bin/env bash
# Times the server's products of several queries, and its answers to several bitmaps, with one worker, as the gate builds them and
# for AVX2; and beside them, where they are there: the C++ program `batch`, built for the same lanes, which counts processor time,
# so it wants an idle machine; ISA-L's several outputs at once; and reading the database once.
# usage: bench/batch.sh [ROUNDS [FOLDER [ROWSxWIDTH ..]]]
set -eu
top=$(cd "$(dirname "$0")/.." && pwd)
rounds=${1:-5}
folder=${2:-$top/../shared/peers}
shift $(($# < 2 ? $# : 2))
if [ $# -eq 0 ]; then set -- 262144x4096 65536x1024 1048576x64; fi
work=$(mktemp -d)
trap 'rm -rf "$work"' EXIT
# shellcheck source=bench/program.sh
source "$top/bench/program.sh"
for lanes in $(each_build); do cp "$(built_for "$lanes")" "$work/ours-$lanes"; done
if ! command -v g++ >/dev/null; then
  echo "g++ isn't installed: the peers are skipped"
else
  if [ -f "$folder/batch.cc" ]; then
    for lanes in $(each_build); do
      g++ -O3 -std=c++17 "-m$lanes" "$folder/batch.cc" -o "$work/batch-$lanes" -lpthread
    done
  else
    echo "there is no batch.cc in $folder: it is skipped"
  fi
  isal=()
  if echo '#include <isa-l/erasure_code.h>' | g++ -E -x c++ - >/dev/null 2>&1; then
    isal=(-DHAVE_ISAL -lisal)
  else
    echo "libisal-dev isn't installed: it is left out"
  fi
  g++ -O3 -march=native -std=c++17 "$top/bench/product_peers.cc" -o "$work/peers" -pthread "${isal[@]}"
fi
python3 "$top/bench/batch.py" "$rounds" "$work" "$@"
