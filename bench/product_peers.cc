// Peers of the server's product over GF(256), and of its answer in the XOR scheme: for each number of workers a line for
// each peer, with its name, how many rows it reads and their width, the number of workers, the best time of so many calls in
// nanoseconds, and the checksum of the result if its field is ours. Of the products of several queries with one worker a line
// has the number of queries in place of that of workers. bench/beside_peers.sh and bench/batch.sh build it, with HAVE_ISAL and
// HAVE_GF_COMPLETE where those libraries are installed.
// usage: product_peers product|answer ROWS WIDTH CALLS WORKERS..
//        product_peers several ROWS WIDTH CALLS QUERIES..
#include <algorithm>
#include <chrono>
#include <cinttypes>
#include <cstdint>
#include <cstdio>
#include <cstdlib>
#include <cstring>
#include <thread>
#include <utility>
#include <vector>
#ifdef HAVE_ISAL
#include <isa-l/erasure_code.h>
#endif
#ifdef HAVE_GF_COMPLETE
extern "C" {
#include <gf_complete.h>
}
#endif

using Byte = uint8_t;

// The query has a byte for each row; for an answer it is a bitmap, with a bit for each.
struct Case {
  size_t rows, width;
  const Byte *matrix, *query;
};

// What a worker does for the rows from `from` up to `to`: it adds their products, or those whose bit is set, to `sums`.
using Kernel = void (*)(const Case &, size_t from, size_t to, Byte *sums);

// ---- the classic loop: one look-up in a table of 256 x 256 products a byte

static Byte products[256][256];

static Byte product(unsigned a, unsigned b) {
  unsigned sum = 0;
  for (; b; b >>= 1) {
    if (b & 1) sum ^= a;
    a = a << 1 ^ (a >> 7) * 0x11B;
  }
  return sum;
}

static void by_table(const Case &c, size_t from, size_t to, Byte *sums) {
  for (size_t j = from; j < to; j++) {
    const Byte *row = c.matrix + j * c.width, *table = products[c.query[j]];
    for (size_t i = 0; i < c.width; i++) sums[i] ^= table[row[i]];
  }
}

// ---- ISA-L's multiply and add, in its own field, whose polynomial is 0x11D

#ifdef HAVE_ISAL
static void by_isal(const Case &c, size_t from, size_t to, Byte *sums) {
  Byte table[32];
  for (size_t j = from; j < to; j++) {
    gf_vect_mul_init(c.query[j], table);
    gf_vect_mad(c.width, 1, 0, table, const_cast<Byte *>(c.matrix + j * c.width), sums);
  }
}
#endif

// ---- ISA-L's several outputs at once, in its own field: the sums of so many queries, each of which has a byte for each row

#ifdef HAVE_ISAL
// What ISA-L makes of each factor.
static Byte factor_tables[256][32];

static void make_factor_tables() {
  for (unsigned factor = 0; factor < 256; factor++) gf_vect_mul_init(factor, factor_tables[factor]);
}

// Row by row: each is read once, and added to all sums, up to six at once.
static void several_by_rows(const Case &c, size_t queries, Byte *sums) {
  std::vector<Byte> tables(32 * queries);
  std::vector<Byte *> outputs(queries);
  for (size_t v = 0; v < queries; v++) outputs[v] = sums + v * c.width;
  for (size_t j = 0; j < c.rows; j++) {
    for (size_t v = 0; v < queries; v++) memcpy(&tables[32 * v], factor_tables[c.query[v * c.rows + j]], 32);
    ec_encode_data_update(c.width, 1, queries, 0, tables.data(), const_cast<Byte *>(c.matrix + j * c.width), outputs.data());
  }
}

// 32 rows at once, in columns that a near cache holds for all queries: up to six outputs stay in registers over the 32, and are then
// added to the sums.
static void several_by_groups(const Case &c, size_t queries, Byte *sums) {
  constexpr size_t GROUP = 32, COLUMNS = 4096;
  std::vector<Byte> tables(32 * GROUP * queries), parts(COLUMNS * queries);
  std::vector<Byte *> sources(GROUP), outputs(queries);
  for (size_t v = 0; v < queries; v++) outputs[v] = &parts[v * COLUMNS];
  for (size_t at = 0; at < c.width; at += COLUMNS) {
    size_t columns = std::min(COLUMNS, c.width - at);
    for (size_t j = 0; j < c.rows; j += GROUP) {
      size_t group = std::min(GROUP, c.rows - j);
      for (size_t g = 0; g < group; g++) sources[g] = const_cast<Byte *>(c.matrix + (j + g) * c.width + at);
      for (size_t v = 0; v < queries; v++) {
        for (size_t g = 0; g < group; g++) memcpy(&tables[32 * (v * group + g)], factor_tables[c.query[v * c.rows + j + g]], 32);
      }
      ec_encode_data(columns, group, queries, tables.data(), sources.data(), outputs.data());
      for (size_t v = 0; v < queries; v++) {
        const Byte *part = outputs[v];
        Byte *__restrict own = sums + v * c.width + at;
        for (size_t i = 0; i < columns; i++) own[i] ^= part[i];
      }
    }
  }
}
#endif

// ---- gf-complete's multiplication of a region, in our field

#ifdef HAVE_GF_COMPLETE
static gf_t field;

static void by_gf_complete(const Case &c, size_t from, size_t to, Byte *sums) {
  for (size_t j = from; j < to; j++) {
    field.multiply_region.w32(&field, const_cast<Byte *>(c.matrix + j * c.width), sums, c.query[j], c.width, 1);
  }
}
#endif

// ---- the plain loop of the XOR scheme: the rows whose bit is set, one after the other

static bool is_set(const Byte *bitmap, size_t row) { return bitmap[row / 8] >> (7 - row % 8) & 1; }

static void by_rows(const Case &c, size_t from, size_t to, Byte *__restrict sums) {
  size_t width = c.width;
  for (size_t j = from; j < to; j++) {
    if (!is_set(c.query, j)) continue;
    const Byte *row = c.matrix + j * width;
    for (size_t i = 0; i < width; i++) sums[i] ^= row[i];
  }
}

// ---- the limit of the machine: the same bytes are only read, in four streams

using Lanes = uint64_t __attribute__((vector_size(32)));

static void by_reading(const Case &c, size_t from, size_t to, Byte *sums) {
  size_t quarter = (to - from) / 4 * c.width;
  const Byte *start = c.matrix + from * c.width;
  Lanes sum[4] = {};
  for (size_t i = 0; i + 64 <= quarter; i += 64) {
    for (size_t k = 0; k < 4; k++) {
      Lanes pair[2];
      memcpy(pair, start + k * quarter + i, 64);
      sum[k] ^= pair[0] ^ pair[1];
    }
  }
  sum[0] ^= sum[1] ^ sum[2] ^ sum[3];
  sums[0] = sum[0][0] ^ sum[0][1] ^ sum[0][2] ^ sum[0][3];
}

// ---- one product, on so many threads

static Byte *lanes_of(size_t bytes) {
  void *place = aligned_alloc(64, (bytes + 63) / 64 * 64);
  if (!place) {
    fprintf(stderr, "no memory\n");
    exit(1);
  }
  return static_cast<Byte *>(place);
}

static void multiply(const Case &c, Kernel kernel, size_t workers, Byte *scratch, size_t stride, Byte *out) {
  auto part = [&](size_t worker) {
    Byte *sums = scratch + worker * stride;
    memset(sums, 0, c.width);
    kernel(c, worker * c.rows / workers, (worker + 1) * c.rows / workers, sums);
  };
  std::vector<std::thread> threads;
  for (size_t worker = 1; worker < workers; worker++) threads.emplace_back(part, worker);
  part(0);
  for (auto &thread : threads) thread.join();
  memset(out, 0, c.width);
  for (size_t worker = 0; worker < workers; worker++) {
    for (size_t i = 0; i < c.width; i++) out[i] ^= scratch[worker * stride + i];
  }
}

static void measure(const Case &c, const char *name, Kernel kernel, size_t workers, long calls, bool same_field) {
  size_t stride = (c.width + 63) / 64 * 64;
  Byte *scratch = lanes_of(workers * stride), *out = lanes_of(c.width);
  int64_t best = INT64_MAX;
  for (long call = 0; call < calls; call++) {
    auto start = std::chrono::steady_clock::now();
    multiply(c, kernel, workers, scratch, stride, out);
    auto time = std::chrono::steady_clock::now() - start;
    best = std::min<int64_t>(best, std::chrono::duration_cast<std::chrono::nanoseconds>(time).count());
  }
  uint64_t hash = 0xcbf29ce484222325;
  for (size_t i = 0; i < c.width; i++) hash = (hash ^ out[i]) * 0x00000100000001b3;
  printf("%s %zu %zu %zu %" PRId64 " ", name, c.rows, c.width, workers, best);
  if (same_field) {
    printf("%016" PRIx64 "\n", hash);
  } else {
    printf("-\n");
  }
  free(scratch);
  free(out);
}

// Bytes that look random, eight from each number, as crates/bench makes them.
static void fill(uint64_t &state, Byte *bytes, size_t count) {
  for (size_t i = 0; i < count; i += 8) {
    state ^= state << 13;
    state ^= state >> 7;
    state ^= state << 17;
    memcpy(bytes + i, &state, std::min<size_t>(8, count - i));
  }
}

// The peers of the product, on so many threads.
static void measure_product(const Case &c, size_t workers, long calls) {
  measure(c, "reading", by_reading, workers, calls, false);
#ifdef HAVE_ISAL
  measure(c, "isal", by_isal, workers, calls, false);
#endif
#ifdef HAVE_GF_COMPLETE
  // A region must begin as its sums do.
  if (c.width % 16 == 0) measure(c, "gf-complete", by_gf_complete, workers, calls, true);
#endif
  // The table is slow: a tenth of the calls tells enough.
  measure(c, "table", by_table, workers, std::max(calls / 10, 2L), true);
}

// The peers of the answer, on so many threads. As many rows are read as have their bit set.
static void measure_answer(const Case &c, size_t workers, long calls) {
  Case read = c;
  read.rows = 0;
  for (size_t j = 0; j < c.rows; j++) read.rows += is_set(c.query, j);
  measure(read, "reading", by_reading, workers, calls, false);
  measure(c, "rows", by_rows, workers, calls, true);
}

// The peers of the products of so many queries, on one thread. Where both are there, they must agree.
static void measure_several(const Case &c, size_t queries, long calls) {
#ifdef HAVE_ISAL
  using Several = void (*)(const Case &, size_t, Byte *);
  const std::pair<const char *, Several> ways[] = {{"isal-rows", several_by_rows}, {"isal-groups", several_by_groups}};
  std::vector<Byte> sums(queries * c.width), first;
  for (auto [name, way] : ways) {
    int64_t best = INT64_MAX;
    for (long call = 0; call < calls; call++) {
      auto start = std::chrono::steady_clock::now();
      std::fill(sums.begin(), sums.end(), 0);
      way(c, queries, sums.data());
      auto time = std::chrono::steady_clock::now() - start;
      best = std::min<int64_t>(best, std::chrono::duration_cast<std::chrono::nanoseconds>(time).count());
    }
    if (first.empty()) first = sums;
    if (first != sums) {
      fprintf(stderr, "ISA-L's two ways differ\n");
      exit(1);
    }
    printf("%s %zu %zu %zu %" PRId64 " -\n", name, c.rows, c.width, queries, best);
  }
#endif
  if (queries == 1) measure(c, "reading", by_reading, 1, calls, false);
}

int main(int argc, char **argv) {
  bool answer = argc > 1 && !strcmp(argv[1], "answer"), several = argc > 1 && !strcmp(argv[1], "several");
  if (argc < 6 || (!answer && !several && strcmp(argv[1], "product"))) {
    fprintf(stderr, "usage: product_peers product|answer ROWS WIDTH CALLS WORKERS..\n       product_peers several ROWS WIDTH CALLS QUERIES..\n");
    return 2;
  }
  size_t rows = strtoul(argv[2], nullptr, 10), width = strtoul(argv[3], nullptr, 10);
  long calls = strtol(argv[4], nullptr, 10);
  for (unsigned a = 0; a < 256; a++) {
    for (unsigned b = 0; b < 256; b++) products[a][b] = product(a, b);
  }
  size_t most = 1;
  for (int i = 5; several && i < argc; i++) most = std::max<size_t>(most, strtoul(argv[i], nullptr, 10));
  size_t query_size = answer ? (rows + 7) / 8 : rows * most;
#ifdef HAVE_ISAL
  make_factor_tables();
#endif
  Byte *matrix = lanes_of(rows * width), *query = lanes_of(query_size);
  uint64_t state = 88172645463325252;
  fill(state, matrix, rows * width);
  fill(state, query, query_size);
  Case c = {rows, width, matrix, query};
#ifdef HAVE_GF_COMPLETE
  if (!gf_init_hard(&field, 8, GF_MULT_DEFAULT, GF_REGION_DEFAULT, GF_DIVIDE_DEFAULT, 0x11B, 0, 0, nullptr, nullptr)) {
    fprintf(stderr, "gf-complete doesn't make the field\n");
    return 1;
  }
#endif
  for (int i = 5; i < argc; i++) {
    size_t workers = strtoul(argv[i], nullptr, 10);
    if (several) {
      measure_several(c, workers, calls);
    } else if (answer) {
      measure_answer(c, workers, calls);
    } else {
      measure_product(c, workers, calls);
    }
  }
}
