# shellcheck shell=bash
# Sourced by the scripts that time calls: `bench` is the program of crates/bench as the gate builds it, and `bench_avx2` the
# same program built for AVX2, empty on a processor without that. Both are built first; where BENCH is set, they are
# BENCH and BENCH_AVX2, as they stand, the second of which may be left out.
bench=${BENCH:-$top/crates/bench/out/bench}
bench_avx2=${BENCH_AVX2:-}
if [ -z "${BENCH:-}" ]; then
  # `rt run` always writes the same file.
  built() {
    (cd "$top/crates/bench" && rt run "$@" >/dev/null 2>&1) || { echo "crates/bench isn't built: rt run says there why" >&2; exit 1; }
  }
  if grep -qw avx2 /proc/cpuinfo; then
    built --cpu=x86-64-v3
    bench_avx2=$top/crates/bench/out/bench-avx2
    cp "$bench" "$bench_avx2"
  fi
  built
elif [ -z "$bench_avx2" ]; then
  echo "BENCH is set and BENCH_AVX2 isn't: the build for AVX2 is left out"
fi

# each_build: the lanes of each build that is there, sse4.2 and avx2, which are also what g++ builds a peer for.
each_build() { printf '%s\n' sse4.2 ${bench_avx2:+avx2}; }

# built_for LANES: the program of that build.
built_for() { if [ "$1" = avx2 ]; then echo "$bench_avx2"; else echo "$bench"; fi; }
