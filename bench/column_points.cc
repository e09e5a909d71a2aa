// Times the list of one column by the peer column.cc at the points that are given, so that both programs decode the same column:
// prints the best time in nanoseconds, how many polynomials are listed, and how many nodes its tree of y-roots has.
// bench/decoder.sh builds it beside that peer.
// usage: column_points T H ROUNDS X Y ..
#define NO_MAIN
#include "column.cc"

int main(int count, char **words) {
  if (count < 4) return 2;
  gf_init();
  const int t = atoi(words[1]), h = atoi(words[2]), rounds = atoi(words[3]);
  std::vector<Pt> points;
  for (int i = 4; i + 1 < count; i += 2) points.push_back({(u8)atoi(words[i]), (u8)atoi(words[i + 1])});
  double best = 1e9;
  size_t listed = 0;
  u64 nodes = 0;
  for (int round = 0; round < rounds; round++) {
    nodes = 0;
    const double start = now();
    listed = column_list(points, t, h, LANES, nodes).size();
    best = std::min(best, now() - start);
  }
  printf("%.0f %zu %llu\n", best * 1e9, listed, (unsigned long long)nodes);
}
