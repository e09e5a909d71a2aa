/* Calls each export of libpir with numbers at and past the ends of their ranges, with lengths of 0 and with buffers that are a
 * byte short, each buffer of exactly the size that is said, so that a memory checker sees any access beyond it. It prints what isn't
 * as include/pir.h says, and ends with 1 then. docs/checks/library runs it, under valgrind where that is there. */
#include <stdio.h>
#include <stdlib.h>
#include <string.h>

#include "pir.h"

static int wrong;

static void expect(const char *what, long long have, long long want) {
    if (have != want) {
        printf("%s gives %lld, and it should give %lld\n", what, have, want);
        wrong = 1;
    }
}

/* So many bytes that hold a pattern; never null. */
static uint8_t *bytes(size_t size) {
    uint8_t *it = malloc(size ? size : 1);
    memset(it, 0xa5, size);
    return it;
}

static int untouched(const uint8_t *it, size_t size) {
    for (size_t i = 0; i < size; i++)
        if (it[i] != 0xa5) return 0;
    return 1;
}

static const pir_plan GOOD = {PIR_SHAMIR, 1, 3, 4, 0, 10, 8};

/* The three sizes of a plan that is none, or of so many blocks. */
static void sizes(const char *what, pir_plan plan, size_t blocks, long long coins, long long query, long long answer) {
    expect(what, pir_coins(&plan, blocks), coins);
    expect(what, pir_query_size(&plan, blocks), query);
    expect(what, pir_answer_size(&plan, blocks), answer);
}

static void no_plan(const char *what, pir_plan plan) { sizes(what, plan, 1, PIR_BAD_PLAN, PIR_BAD_PLAN, PIR_BAD_PLAN); }

static void plans(void) {
    sizes("a plan", GOOD, 1, 8 + 10, 24 + 10, 24 + 8);
    sizes("16 blocks", GOOD, 16, 8 + 160, 24 + 160, 24 + 128);
    sizes("no block", GOOD, 0, PIR_BAD_BLOCKS, PIR_BAD_BLOCKS, PIR_BAD_BLOCKS);
    sizes("17 blocks", GOOD, 17, PIR_BAD_BLOCKS, PIR_BAD_BLOCKS, PIR_BAD_BLOCKS);
    sizes("SIZE_MAX blocks", GOOD, SIZE_MAX, PIR_BAD_BLOCKS, PIR_BAD_BLOCKS, PIR_BAD_BLOCKS);
    uint32_t ends[] = {0, 1, 2, 255, 256, 257, 65535, 65536, 1u << 20, (1u << 20) + 1, 1u << 30, UINT32_MAX};
    for (size_t field = 0; field < 7; field++)
        for (size_t i = 0; i < sizeof ends / sizeof *ends; i++) {
            uint32_t numbers[7] = {PIR_SHAMIR, 1, 3, 4, 0, 10, 8};
            numbers[field] = ends[i];
            pir_plan plan;
            memcpy(&plan, numbers, sizeof plan);
            int good = (plan.scheme == 1) && plan.degree >= 1 && (uint64_t)plan.degree + plan.tau < plan.agreement &&
                       plan.agreement <= plan.servers && plan.servers <= 255 && plan.rows >= 1 && plan.rows <= 1u << 20 &&
                       plan.width >= 1 && plan.width <= 1u << 16 && (uint64_t)plan.rows * plan.width <= 1u << 30;
            if (good) sizes("an end of a range", plan, 1, 8 + (long long)plan.rows * plan.degree, 24 + plan.rows, 24 + plan.width);
            else no_plan("past a range", plan);
        }
    sizes("most servers", (pir_plan){PIR_SHAMIR, 254, 255, 255, 0, 1u << 20, 1024}, 1, 8 + 254ll * (1 << 20), 24 + (1 << 20), 24 + 1024);
    sizes("the widest rows", (pir_plan){PIR_SHAMIR, 1, 2, 2, 0, 1 << 14, 1 << 16}, 1, 8 + (1 << 14), 24 + (1 << 14), 24 + (1 << 16));
    sizes("two of the widest rows", (pir_plan){PIR_SHAMIR, 1, 2, 2, 0, 1 << 14, 1 << 16}, 2, PIR_BAD_BLOCKS, PIR_BAD_BLOCKS, PIR_BAD_BLOCKS);
    no_plan("too many bytes", (pir_plan){PIR_SHAMIR, 1, 2, 2, 0, (1 << 14) + 1, 1 << 16});
    no_plan("a sum that wraps", (pir_plan){PIR_SHAMIR, 2, 3, 4, UINT32_MAX, 10, 8});
    no_plan("a sum that wraps", (pir_plan){PIR_SHAMIR, UINT32_MAX, 3, 4, 2, 10, 8});
    sizes("the XOR scheme", (pir_plan){PIR_XOR, 2, 3, 3, 0, 10, 8}, 1, 8 + 2 * 2, 24 + 2, 24 + 8);
    no_plan("the XOR scheme, of lower degree", (pir_plan){PIR_XOR, 1, 3, 3, 0, 10, 8});
    no_plan("the XOR scheme, with a server more", (pir_plan){PIR_XOR, 2, 3, 4, 0, 10, 8});
    no_plan("the XOR scheme, shared", (pir_plan){PIR_XOR, 1, 3, 3, 1, 10, 8});
}

/* A query with buffers of exactly these sizes. */
static void query(const char *what, pir_plan plan, size_t n_blocks, uint32_t block, size_t n_coins, uint32_t index, size_t n_out,
                  int32_t code, size_t told) {
    uint32_t *blocks = malloc(n_blocks ? n_blocks * sizeof *blocks : 1);
    for (size_t i = 0; i < n_blocks; i++) blocks[i] = block;
    uint8_t *coins = bytes(n_coins), *out = bytes(n_out);
    size_t used = 77;
    expect(what, pir_query(&plan, blocks, n_blocks, coins, n_coins, index, out, n_out, &used), code);
    expect(what, used, told);
    if (code) expect(what, untouched(out, n_out), 1);
    else expect(what, memcmp(out, "PIRQ", 4), 0);
    free(blocks), free(coins), free(out);
}

static void queries(void) {
    query("a query", GOOD, 1, 9, 18, 1, 34, PIR_DONE, 34);
    query("a query of the last server", GOOD, 1, 0, 18, 4, 34, PIR_DONE, 34);
    query("a query with more of all", GOOD, 1, 0, 100, 4, 100, PIR_DONE, 34);
    query("16 blocks", GOOD, 16, 9, 168, 2, 184, PIR_DONE, 184);
    query("room a byte short", GOOD, 1, 9, 18, 1, 33, PIR_SMALL_ROOM, 34);
    query("no room", GOOD, 1, 9, 18, 1, 0, PIR_SMALL_ROOM, 34);
    query("a coin short", GOOD, 1, 9, 17, 1, 34, PIR_FEW_COINS, 77);
    query("no coins", GOOD, 1, 9, 0, 1, 34, PIR_FEW_COINS, 77);
    query("index 0", GOOD, 1, 9, 18, 0, 34, PIR_BAD_INDEX, 77);
    query("an index past the last", GOOD, 1, 9, 18, 5, 34, PIR_BAD_INDEX, 77);
    query("index 257", GOOD, 1, 9, 18, 257, 34, PIR_BAD_INDEX, 77);
    query("the greatest index", GOOD, 1, 9, 18, UINT32_MAX, 34, PIR_BAD_INDEX, 77);
    query("a block past the last", GOOD, 1, 10, 18, 1, 34, PIR_BAD_BLOCKS, 77);
    query("the greatest block", GOOD, 1, UINT32_MAX, 18, 1, 34, PIR_BAD_BLOCKS, 77);
    query("no block", GOOD, 0, 0, 18, 1, 34, PIR_BAD_BLOCKS, 77);
    query("17 blocks", GOOD, 17, 0, 178, 1, 194, PIR_BAD_BLOCKS, 77);
    query("no plan", (pir_plan){3, 1, 3, 4, 0, 10, 8}, 0, 99, 0, 0, 0, PIR_BAD_PLAN, 77);
    query("the XOR scheme", (pir_plan){PIR_XOR, 2, 3, 3, 0, 10, 8}, 1, 9, 12, 3, 26, PIR_DONE, 26);
    query("most servers", (pir_plan){PIR_SHAMIR, 254, 255, 255, 0, 3, 1}, 1, 2, 8 + 762, 255, 27, PIR_DONE, 27);
}

/* Answers of GOOD's four servers with these lengths; all right ones hold one block. */
static void judge(const char *what, pir_plan plan, size_t n_lengths, const size_t *given, size_t n_answers, size_t n_present,
                  size_t n_who, size_t n_out, int32_t code, int32_t liars_code, uint64_t needed) {
    uint8_t *answers = bytes(n_answers), *present = bytes(n_present), *out = bytes(n_out), *who = bytes(n_who);
    size_t *lengths = malloc(n_lengths ? n_lengths * sizeof *lengths : 1), at = 0;
    for (size_t i = 0; i < n_lengths; i++) {
        lengths[i] = given[i];
        if (given[i] >= 32 && at + 32 <= n_answers) {
            const uint8_t head[24] = {'P', 'I', 'R', 'A', 1, 1, i + 1, 0, 0, 0, 0, 0, 0, 0, 0, 7, 0, 0, 0, 10, 0, 0, 0, 8};
            memcpy(answers + at, head, 24), memcpy(answers + at + 24, "row 0009", 8);
        }
        at += given[i] <= n_answers ? given[i] : 0;
    }
    pir_listing listing;
    memset(&listing, 0xa5, sizeof listing);
    expect(what, pir_judge(&plan, 1, 7, answers, n_answers, lengths, n_lengths, present, n_present, out, n_out, &listing), code);
    if (code) expect(what, untouched(out, n_out), 1);
    else expect(what, memcmp(out, "row 0009", 8), 0);
    if (code < 0 && code != PIR_SMALL_ROOM) expect(what, untouched((uint8_t *)&listing, sizeof listing), 1);
    else expect(what, listing.needed, needed);
    memset(out, 0xa5, n_out);
    code = pir_liars(&plan, 1, 7, answers, n_answers, lengths, n_lengths, present, n_present, out, n_out, who, n_who, &listing);
    expect(what, code, liars_code);
    if (code == PIR_DONE) expect(what, who[n_who - 1], given[n_lengths - 1] >= 32);
    free(answers), free(present), free(out), free(who), free(lengths);
}

static void judgements(void) {
    const size_t whole[4] = {32, 32, 32, 32}, cut[4] = {32, 32, 32, 31}, none[4] = {0}, longer[4] = {40, 32, 33, 32};
    const size_t wraps[4] = {SIZE_MAX, 2, 32, 95}, past[4] = {32, 32, 32, 33};
    judge("four answers", GOOD, 4, whole, 128, 4, 4, 8, PIR_DONE, PIR_DONE, 8);
    judge("an answer that is cut", GOOD, 4, cut, 127, 4, 4, 8, PIR_DONE, PIR_DONE, 8);
    judge("answers that are longer", GOOD, 4, longer, 137, 4, 4, 8, PIR_DONE, PIR_DONE, 8);
    judge("room a byte short", GOOD, 4, whole, 128, 4, 4, 7, PIR_SMALL_ROOM, PIR_SMALL_ROOM, 8);
    judge("no room", GOOD, 4, whole, 128, 4, 4, 0, PIR_SMALL_ROOM, PIR_SMALL_ROOM, 8);
    judge("no byte of any", GOOD, 4, none, 0, 4, 4, 0, PIR_FEW_ANSWERS, PIR_FEW_ANSWERS, 0);
    judge("no lengths", GOOD, 0, none, 0, 0, 0, 0, PIR_BAD_ANSWERS, PIR_BAD_ANSWERS, 0);
    judge("a length too few", GOOD, 3, whole, 96, 4, 4, 8, PIR_BAD_ANSWERS, PIR_BAD_ANSWERS, 0);
    judge("a mark too few", GOOD, 4, whole, 128, 3, 4, 8, PIR_BAD_ANSWERS, PIR_BAD_ANSWERS, 0);
    judge("a byte too few for who lied", GOOD, 4, whole, 128, 4, 3, 8, PIR_DONE, PIR_BAD_ANSWERS, 8);
    judge("a byte left over", GOOD, 4, whole, 129, 4, 4, 8, PIR_BAD_ANSWERS, PIR_BAD_ANSWERS, 0);
    judge("a length past the end", GOOD, 4, past, 128, 4, 4, 8, PIR_BAD_ANSWERS, PIR_BAD_ANSWERS, 0);
    judge("lengths whose sum wraps", GOOD, 4, wraps, 128, 4, 4, 8, PIR_BAD_ANSWERS, PIR_BAD_ANSWERS, 0);
    judge("no plan", (pir_plan){PIR_SHAMIR, 1, 5, 4, 0, 10, 8}, 4, whole, 128, 4, 4, 8, PIR_BAD_PLAN, PIR_BAD_PLAN, 0);
    judge("too weak an agreement", (pir_plan){PIR_SHAMIR, 3, 4, 20, 0, 10, 8}, 20, (size_t[20]){32, 32, 32, 32, 32, 32}, 192, 20, 20, 8,
          PIR_WEAK_AGREEMENT, PIR_WEAK_AGREEMENT, 0);
}

/* A look-up with buffers of exactly these sizes, in a row of the worked list of three keys with values. */
static void find(const char *what, pir_list list, const char *key, size_t n_row, size_t n_out, int32_t code, size_t told) {
    static const uint8_t worked[40] = {0x73, 0xf1, 0xe1, 0x4a, 0xbd, 0xbe, 0xd3, 0x22, 0, 2, 0xa6, 0xcb, 0xea, 0x7e,
                                       0xc4, 0x12, 0xd1, 0x37, 0, 3, 'o', 'n', 'e', 0, 0, 0xad, 0x45, 0xbe, 0x30, 0x0d,
                                       0x8d, 0x97, 0xd6, 0, 5, 't', 'h', 'r', 'e', 'e'};
    uint8_t salt[16], *row = bytes(n_row), *own = bytes(strlen(key)), *out = bytes(n_out);
    for (int i = 0; i < 16; i++) salt[i] = i;
    memcpy(row, worked, n_row < 40 ? n_row : 40), memcpy(own, key, strlen(key));
    size_t used = 77;
    expect(what, pir_list_find(&list, salt, worked, row, n_row, own, strlen(key), out, n_out, &used), code);
    expect(what, used, told);
    if (code) expect(what, untouched(out, n_out), 1);
    free(row), free(own), free(out);
}

static void lists(void) {
    uint8_t salt[16];
    for (int i = 0; i < 16; i++) salt[i] = i;
    const struct { const char *key; uint32_t rows; long long row; } rows[] = {
        {"alpha", 1, 0}, {"alpha", 2, 1}, {"alpha", 4, 2}, {"alpha", 1000, 651}, {"beta", 2, 0}, {"beta", 4, 1}, {"beta", 1000, 494},
        {"gamma", 1000, 676}, {"delta", 1000, 341}, {"epsilon", 4, 3}, {"epsilon", 1000, 971}};
    for (size_t i = 0; i < sizeof rows / sizeof *rows; i++) {
        pir_list list = {8, 0, rows[i].rows};
        expect(rows[i].key, pir_list_row(&list, salt, (const uint8_t *)rows[i].key, strlen(rows[i].key)), rows[i].row);
    }
    const struct { pir_list list; int good; } numbers[] = {
        {{8, 0, 1}, 1}, {{32, 16384, 1 << 20}, 1}, {{7, 0, 1}, 0}, {{33, 0, 1}, 0}, {{0, 0, 1}, 0}, {{8, 16385, 1}, 0}, {{8, 0, 0}, 0},
        {{8, 0, (1 << 20) + 1}, 0}, {{UINT32_MAX, 0, 1}, 0}, {{8, UINT32_MAX, 1}, 0}, {{8, 0, UINT32_MAX}, 0}};
    for (size_t i = 0; i < sizeof numbers / sizeof *numbers; i++) {
        long long row = pir_list_row(&numbers[i].list, salt, salt, 0);
        expect("the numbers of a list", row >= 0 ? 0 : row, numbers[i].good ? 0 : PIR_BAD_LIST);
    }
    const pir_list list = {8, 5, 2};
    find("gamma", list, "gamma", 40, 5, PIR_DONE, 5);
    find("alpha", list, "alpha", 40, 3, PIR_DONE, 3);
    find("epsilon", list, "epsilon", 40, 0, PIR_NOT_IN_LIST, 77);
    find("gamma, with room a byte short", list, "gamma", 40, 4, PIR_SMALL_ROOM, 5);
    find("gamma, with no room", list, "gamma", 40, 0, PIR_SMALL_ROOM, 5);
    find("gamma in a row that is cut", list, "gamma", 39, 5, PIR_BROKEN_ROW, 77);
    find("gamma in no byte", list, "gamma", 0, 5, PIR_BROKEN_ROW, 77);
    find("beta in another key's row", list, "beta", 40, 5, PIR_BROKEN_ROW, 77);
    find("a key of no byte", list, "", 40, 5, pir_list_row(&list, salt, salt, 0) == 1 ? PIR_NOT_IN_LIST : PIR_BROKEN_ROW, 77);
    find("a row that is too long", list, "gamma", 65537, 5, PIR_BAD_LIST, 77);
    find("the numbers of no list", (pir_list){8, 5, 0}, "gamma", 40, 5, PIR_BAD_LIST, 77);
    find("shorter values", (pir_list){8, 4, 2}, "gamma", 40, 5, PIR_BROKEN_ROW, 77);
}

/* A reply with buffers of exactly these sizes, for a database of the rows `AB` and `CD`. */
static void reply(const char *what, const char *rows, size_t n_rows, uint32_t scheme, uint32_t width, const uint8_t *query, size_t n_guest,
                  size_t n_out, int32_t code, size_t told, uint32_t how, const char *payload) {
    uint8_t *database = bytes(n_rows), *guest = bytes(n_guest), *out = bytes(n_out);
    memcpy(database, rows, strlen(rows) < n_rows ? strlen(rows) : n_rows), memcpy(guest, query, n_guest < 26 ? n_guest : 26);
    size_t used = 77;
    uint32_t met = 77;
    expect(what, pir_reply(database, n_rows, scheme, width, guest, n_guest, out, n_out, &used, &met), code);
    expect(what, used, told), expect(what, met, how);
    if (code || !told) expect(what, untouched(out, n_out), 1);
    else expect(what, memcmp(out, "PIRA", 4) || out[7] != how || memcmp(out + 24, payload, told - 24), 0);
    free(database), free(guest), free(out);
}

static void replies(void) {
    const uint8_t shamir[26] = {'P', 'I', 'R', 'Q', 1, 1, 2, 0, 0, 0, 0, 0, 0, 0, 0, 7, 0, 0, 0, 2, 0, 0, 0, 2, 0x01, 0x00};
    const uint8_t chosen[26] = {'P', 'I', 'R', 'Q', 1, 2, 1, 0, 0, 0, 0, 0, 0, 0, 0, 7, 0, 0, 0, 2, 0, 0, 0, 2, 0xc0, 0xff};
    uint8_t other[26], unused[26];
    memcpy(other, shamir, 26), memcpy(unused, chosen, 26);
    other[19] = 3, unused[24] = 0x81;
    reply("a row", "ABCD", 4, PIR_SHAMIR, 2, shamir, 26, 26, PIR_DONE, 26, PIR_SERVED, "AB");
    reply("a query with a byte behind", "ABCD", 4, PIR_SHAMIR, 2, shamir, 27, 30, PIR_DONE, 26, PIR_SERVED, "AB");
    reply("the sum of two rows", "ABCD", 4, PIR_XOR, 2, chosen, 25, 26, PIR_DONE, 26, PIR_SERVED, "\x02\x06");
    reply("room a byte short", "ABCD", 4, PIR_SHAMIR, 2, shamir, 26, 25, PIR_SMALL_ROOM, 26, PIR_SERVED, "");
    reply("no room", "ABCD", 4, PIR_SHAMIR, 2, shamir, 26, 0, PIR_SMALL_ROOM, 26, PIR_SERVED, "");
    reply("a query a byte short", "ABCD", 4, PIR_SHAMIR, 2, shamir, 25, 26, PIR_DONE, 0, PIR_GONE, "");
    reply("a header a byte short", "ABCD", 4, PIR_SHAMIR, 2, shamir, 23, 26, PIR_DONE, 0, PIR_GONE, "");
    reply("no byte", "ABCD", 4, PIR_SHAMIR, 2, shamir, 0, 0, PIR_DONE, 0, PIR_GONE, "");
    reply("no header", "ABCD", 4, PIR_SHAMIR, 2, shamir + 1, 25, 24, PIR_DONE, 24, 1, "");
    reply("another shape", "ABCD", 4, PIR_SHAMIR, 2, other, 26, 24, PIR_DONE, 24, 2, "");
    reply("another scheme", "ABCD", 4, PIR_SHAMIR, 2, chosen, 25, 24, PIR_DONE, 24, 3, "");
    reply("an unused bit", "ABCD", 4, PIR_XOR, 2, unused, 25, 24, PIR_DONE, 24, 1, "");
    reply("a refusal with room a byte short", "ABCD", 4, PIR_SHAMIR, 2, chosen, 25, 23, PIR_SMALL_ROOM, 24, 3, "");
    reply("rows that aren't whole", "ABCDE", 5, PIR_SHAMIR, 2, shamir, 26, 26, PIR_BAD_DATABASE, 77, 77, "");
    reply("no rows", "", 0, PIR_SHAMIR, 2, shamir, 26, 26, PIR_BAD_DATABASE, 77, 77, "");
    reply("rows of no byte", "ABCD", 4, PIR_SHAMIR, 0, shamir, 26, 26, PIR_BAD_DATABASE, 77, 77, "");
    reply("rows that are too wide", "ABCD", 65537, PIR_SHAMIR, 65537, shamir, 26, 26, PIR_BAD_DATABASE, 77, 77, "");
    reply("the greatest width", "ABCD", 4, PIR_SHAMIR, UINT32_MAX, shamir, 26, 26, PIR_BAD_DATABASE, 77, 77, "");
    reply("too many rows", "", (1 << 20) + 1, PIR_SHAMIR, 1, shamir, 26, 26, PIR_BAD_DATABASE, 77, 77, "");
    reply("no scheme", "ABCD", 4, 0, 2, shamir, 26, 26, PIR_BAD_DATABASE, 77, 77, "");
    reply("scheme 257", "ABCD", 4, 257, 2, shamir, 26, 26, PIR_BAD_DATABASE, 77, 77, "");
}

/* A replay with buffers of exactly these sizes: of a session of n servers, of which so many have to agree, with the bytes `payloads` as
 * their answers of a byte, or silent where `payloads` ends, and cut to `n_session` bytes or with others behind it. */
static void replay(const char *what, uint8_t scheme, uint8_t degree, uint8_t agreement, uint8_t n, const char *payloads, size_t n_session,
                   size_t n_out, int32_t code, size_t told, const char *text) {
    const uint8_t head[28] = {'P', 'I', 'R', 'S', 1, scheme, degree, agreement, n, 0, 0, 0, 0, 0, 0, 0, 0, 0, 0, 7, 0, 0, 0, 4, 0, 0, 0, 1};
    uint8_t whole[28 + 255 * 31], *end = whole + 28;
    memcpy(whole, head, 28);
    for (uint8_t i = 0; i < n; i++) {
        int present = i < strlen(payloads);
        const uint8_t record[31] = {i + 1, present, 0, 0, 0, present * 25, 'P', 'I', 'R', 'A', 1, scheme, i + 1, 0, 0, 0, 0, 0, 0, 0, 0, 7,
                                    0, 0, 0, 4, 0, 0, 0, 1, present ? payloads[i] : 0};
        memcpy(end, record, present ? 31 : 6);
        end += present ? 31 : 6;
    }
    size_t size = end - whole;
    if (n_session == SIZE_MAX) n_session = size;
    uint8_t *session = bytes(n_session), *out = bytes(n_out);
    memcpy(session, whole, n_session < size ? n_session : size);
    size_t used = 77;
    expect(what, pir_replay(session, n_session, out, n_out, &used), code);
    expect(what, used, told);
    size_t written = strlen(text);
    expect(what, memcmp(out, text, written), 0);
    expect(what, untouched(out + written, n_out - written), 1);
    free(session), free(out);
}

static void replays(void) {
    const size_t all = SIZE_MAX;
    replay("three that agree", PIR_SHAMIR, 1, 2, 3, "CCC", all, 12, PIR_DONE, 12, "blocks 1\n43\n");
    replay("three that agree, with more room", PIR_SHAMIR, 1, 2, 3, "CCC", all, 100, PIR_DONE, 12, "blocks 1\n43\n");
    replay("three that agree, with room a byte short", PIR_SHAMIR, 1, 2, 3, "CCC", all, 11, PIR_SMALL_ROOM, 12, "");
    replay("three that agree, with no room", PIR_SHAMIR, 1, 2, 3, "CCC", all, 0, PIR_SMALL_ROOM, 12, "");
    replay("three of which all have to agree", PIR_SHAMIR, 1, 3, 3, "CCD", all, 9, PIR_NO_BLOCK, 9, "blocks 0\n");
    replay("three of which any two agree", PIR_SHAMIR, 1, 2, 3, "@AB", all, 18, PIR_SEVERAL, 18, "blocks 3\n41\n47\nb6\n");
    replay("three that are silent", PIR_SHAMIR, 1, 2, 3, "", all, 12, PIR_FEW_ANSWERS, 12, "too few 0 2\n");
    replay("three that are silent, with room a byte short", PIR_SHAMIR, 1, 2, 3, "", all, 11, PIR_SMALL_ROOM, 12, "");
    replay("four whose agreement is weak", PIR_SHAMIR, 1, 2, 4, "CCCC", all, 15, PIR_WEAK_AGREEMENT, 15, "too weak 4 1 2\n");
    replay("the most servers", PIR_SHAMIR, 254, 255, 255, "", all, 14, PIR_FEW_ANSWERS, 14, "too few 0 255\n");
    replay("the XOR scheme", PIR_XOR, 1, 2, 2, "AB", all, 12, PIR_DONE, 12, "blocks 1\n03\n");
    replay("the XOR scheme, with one that is silent", PIR_XOR, 1, 2, 2, "A", all, 12, PIR_FEW_ANSWERS, 12, "too few 1 2\n");
    replay("no byte", PIR_SHAMIR, 1, 2, 3, "CCC", 0, 12, PIR_BAD_SESSION, 0, "");
    replay("no byte and no room", PIR_SHAMIR, 1, 2, 3, "CCC", 0, 0, PIR_BAD_SESSION, 0, "");
    replay("a header a byte short", PIR_SHAMIR, 1, 2, 3, "CCC", 27, 12, PIR_BAD_SESSION, 27, "");
    replay("a header", PIR_SHAMIR, 1, 2, 3, "CCC", 28, 12, PIR_BAD_SESSION, 28, "");
    replay("a session a byte short", PIR_SHAMIR, 1, 2, 3, "CCC", 120, 12, PIR_BAD_SESSION, 120, "");
    replay("a session with a byte behind", PIR_SHAMIR, 1, 2, 3, "CCC", 122, 12, PIR_BAD_SESSION, 121, "");
    replay("no scheme", 3, 1, 2, 3, "CCC", all, 12, PIR_BAD_SESSION, 5, "");
    replay("degree 0", PIR_SHAMIR, 0, 2, 3, "CCC", all, 12, PIR_BAD_SESSION, 6, "");
    replay("an agreement of the degree", PIR_SHAMIR, 2, 2, 3, "CCC", all, 12, PIR_BAD_SESSION, 7, "");
    replay("fewer servers than have to agree", PIR_SHAMIR, 1, 3, 2, "CC", all, 12, PIR_BAD_SESSION, 8, "");
}

int main(void) {
    expect("pir_version", pir_version(), PIR_INTERFACE);
    plans();
    queries();
    judgements();
    lists();
    replies();
    replays();
    return wrong;
}
