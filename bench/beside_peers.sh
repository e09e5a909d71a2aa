#!/usr/bin/env bash
# Builds our program and its peers, runs them in turn on the same bytes and compares them: the body of product.sh and
# xor_answer.sh. A peer that isn't installed is left out.
# usage: bench/beside_peers.sh product|answer [ROUNDS [ROWSxWIDTH ..]]
set -eu
top=$(cd "$(dirname "$0")/.." && pwd)
what=$1
rounds=${2:-5}
shift
shift || true
if [ $# -eq 0 ]; then set -- 4096x256 65536x1024 16384x65536 1048576x64; fi
work=$(mktemp -d)
trap 'rm -rf "$work"' EXIT

# shellcheck source=bench/program.sh
source "$top/bench/program.sh"
cp "$bench" "$work/ours"
if [ -n "$bench_avx2" ]; then cp "$bench_avx2" "$work/ours-avx2"; fi

flags=()
# peer PACKAGE HEADER FLAG..: these flags, if the header is there.
peer() {
  local package=$1 header=$2
  shift 2
  if echo "#include <$header>" | g++ -E -x c++ - >/dev/null 2>&1; then
    flags+=("$@")
  else
    echo "$package isn't installed: it is left out"
  fi
}
if [ "$what" = product ]; then
  peer libisal-dev isa-l/erasure_code.h -DHAVE_ISAL -lisal
  peer libgf-complete-dev gf_complete.h -DHAVE_GF_COMPLETE -lgf_complete
fi
g++ -O3 -march=native -std=c++17 "$top/bench/product_peers.cc" -o "$work/peers" -pthread "${flags[@]}"

python3 "$top/bench/product.py" "$what" "$rounds" "$work" "$@"
