/* Fetches one row from servers of `pir serve`, by libpir and plain sockets, and writes it to standard output.
 *
 *     cc -Iinclude -o fetch examples/fetch.c crates/libpir/out/libpir.a
 *     ./fetch ROWS WIDTH BLOCK DEGREE AGREE HOST:PORT HOST:PORT ..
 *
 * Its status is the code of the verdict, as that of `pir fetch`; 2 for words that are wrong. Nothing is encrypted. */
#include <netdb.h>
#include <stdio.h>
#include <stdlib.h>
#include <string.h>
#include <sys/random.h>
#include <sys/socket.h>
#include <sys/time.h>
#include <unistd.h>

#include "pir.h"

/* Connects to HOST:PORT; -1 where that can't be. */
static int connect_to(const char *address) {
    char host[256];
    const char *colon = strrchr(address, ':');
    struct addrinfo hint = {.ai_socktype = SOCK_STREAM}, *found;
    if (!colon || (size_t)(colon - address) >= sizeof host) return -1;
    memcpy(host, address, colon - address);
    host[colon - address] = 0;
    if (getaddrinfo(host, colon + 1, &hint, &found)) return -1;
    int link = socket(found->ai_family, SOCK_STREAM, 0);
    struct timeval patience = {.tv_sec = 10};
    setsockopt(link, SOL_SOCKET, SO_RCVTIMEO, &patience, sizeof patience);
    setsockopt(link, SOL_SOCKET, SO_SNDTIMEO, &patience, sizeof patience);
    if (connect(link, found->ai_addr, found->ai_addrlen)) {
        close(link);
        link = -1;
    }
    freeaddrinfo(found);
    return link;
}

/* Sends the whole query; 0 where the server didn't take it. */
static int send_all(int link, const uint8_t *bytes, size_t size) {
    for (size_t at = 0; at < size;) {
        ssize_t sent = send(link, bytes + at, size - at, MSG_NOSIGNAL);
        if (sent <= 0) return 0;
        at += sent;
    }
    return 1;
}

/* Reads up to so many bytes, to the end of what comes; -1 where reading failed. */
static ssize_t read_all(int link, uint8_t *bytes, size_t most) {
    size_t at = 0;
    while (at < most) {
        ssize_t came = recv(link, bytes + at, most - at, 0);
        if (came < 0) return -1;
        if (came == 0) break;
        at += came;
    }
    return at;
}

int main(int count, char **words) {
    if (count < 8) return fprintf(stderr, "usage: fetch ROWS WIDTH BLOCK DEGREE AGREE HOST:PORT HOST:PORT ..\n"), 2;
    uint32_t servers = count - 6, block = strtoul(words[3], 0, 10);
    pir_plan plan = {PIR_SHAMIR, strtoul(words[4], 0, 10), strtoul(words[5], 0, 10), servers, 0,
                     strtoul(words[1], 0, 10), strtoul(words[2], 0, 10)};
    int64_t n_coins = pir_coins(&plan, 1), n_query = pir_query_size(&plan, 1), n_answer = pir_answer_size(&plan, 1);
    if (n_coins < 0) return fprintf(stderr, "these numbers are those of no fetch\n"), 2;

    uint8_t *coins = malloc(n_coins), *query = malloc(n_query), *answers = malloc(servers * n_answer), *row = malloc(plan.width);
    size_t *lengths = calloc(servers, sizeof *lengths), used, total = 0;
    uint8_t *present = calloc(servers, 1);
    int *links = malloc(servers * sizeof *links);
    if (!coins || !query || !answers || !row || !lengths || !present || !links) return PIR_NO_MEMORY;
    for (int64_t at = 0; at < n_coins;) {
        ssize_t came = getrandom(coins + at, n_coins - at, 0);
        if (came <= 0) return fprintf(stderr, "there are no random bytes\n"), 8;
        at += came;
    }

    /* Each server is sent its query before the answer of any is awaited. */
    for (uint32_t i = 0; i < servers; i++) {
        int32_t code = pir_query(&plan, &block, 1, coins, n_coins, i + 1, query, n_query, &used);
        if (code) return fprintf(stderr, "no query: code %d\n", code), 2;
        links[i] = connect_to(words[6 + i]);
        present[i] = links[i] >= 0 && send_all(links[i], query, used);
    }
    for (uint32_t i = 0; i < servers; i++) {
        ssize_t came = present[i] ? read_all(links[i], answers + total, n_answer) : -1;
        if (links[i] >= 0) close(links[i]);
        present[i] = came >= 0;
        lengths[i] = came > 0 ? came : 0;
        total += lengths[i];
    }

    uint64_t session = 0;
    for (int i = 0; i < 8; i++) session = session << 8 | coins[i];
    pir_listing listing;
    int32_t code = pir_judge(&plan, 1, session, answers, total, lengths, servers, present, servers, row, plan.width, &listing);
    if (code == PIR_DONE) fwrite(row, 1, listing.needed, stdout);
    else fprintf(stderr, "no row: code %d\n", code);
    return code < 0 ? 2 : code;
}
