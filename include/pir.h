/* pir.h: private look-ups in a list that several servers hold, for programs that bring their own sockets.
 *
 * It is Goldberg's robust private information retrieval (2007) over GF(256), with the XOR scheme of Chor and others (1995).
 * What a call answers is proved of it (docs/PROOFS.md). docs/LIBRARY.md is the way in, docs/SPECIFICATION.md has the frames.
 *
 * A fetch of one row: take pir_coins(..) random bytes, used once; for each server 1 to n write its query by pir_query, send it,
 * and read what comes back, at most pir_answer_size(..) bytes; hand all to pir_judge.
 *
 * Rules of every call:
 * - No pointer is null, not even for a length of 0; each is aligned and good for its length, which is below 2^63 bytes; what is
 *   written overlaps nothing else that is handed in. Beside that any numbers and any bytes may be given.
 * - It reads and writes nothing else, keeps no state, starts no thread, and does no input or output. Calls may run in several
 *   threads at once, on bytes of their own. None is for a signal handler, or for the forked child of a program with threads.
 * - A code that is negative says what the caller got wrong: the first of the causes that the call names, in that order. Then nothing
 *   is written but what the call says.
 * - Blocks are rows of the database, counted from 0. Servers are counted from 1.
 */
#ifndef PIR_H
#define PIR_H

#include <stddef.h>
#include <stdint.h>

#ifdef __cplusplus
extern "C" {
#endif

/* The interface that this header declares: what pir_version gives. */
#define PIR_INTERFACE 1

/* Codes. Those from 0 on are the statuses of the program `pir`. */
enum {
    PIR_DONE = 0,            /* all is done; of a verdict: exactly one block is listed */
    PIR_NO_BLOCK = 3,        /* no block has so many answers that agree */
    PIR_SEVERAL = 4,         /* several blocks have */
    PIR_FEW_ANSWERS = 5,     /* fewer answers are usable than have to agree */
    PIR_WEAK_AGREEMENT = 6,  /* the agreement is too weak for so many answers */
    PIR_HIGH_COST = 7,       /* the list decoding costs too much */
    PIR_BROKEN_ROW = 10,     /* the row is none of the list */
    PIR_BAD_SESSION = 10,    /* the bytes are no session: the same number, of another call */
    PIR_NO_MEMORY = 12,      /* there is no memory */
    PIR_NOT_IN_LIST = 14,    /* the key isn't in the list */
    PIR_BAD_PLAN = -1,       /* the numbers are those of no plan */
    PIR_BAD_BLOCKS = -2,     /* no block, too many, or one that isn't a row */
    PIR_BAD_INDEX = -3,      /* the index is that of no server */
    PIR_FEW_COINS = -4,      /* there are too few coins */
    PIR_SMALL_ROOM = -5,     /* there is too little room; the call says how much is needed */
    PIR_BAD_ANSWERS = -6,    /* not a length and a mark for each server, or the lengths don't add up */
    PIR_BAD_LIST = -7,       /* the numbers are those of no list, or the row is longer than any */
    PIR_BAD_DATABASE = -8    /* the bytes are no whole rows of a database, or the scheme is none */
};

/* The scheme of a plan. */
enum {
    PIR_SHAMIR = 1, /* Shamir's sharing: servers that are silent or lie are outvoted */
    PIR_XOR = 2     /* the XOR scheme: all servers have to answer, and a lie isn't noticed */
};

/* What is fetched, and how. In range: 1 <= degree, degree + tau < agreement <= servers <= 255; rows from 1 to 2^20, width from 1 to
 * 2^16, rows * width at most 2^30; in the XOR scheme tau 0 and degree + 1 = agreement = servers. Take
 * 2 * agreement > servers + degree + tau: then no more than one block is listed, and it is the right one where `agreement` servers
 * are honest; agreement - degree - tau liars who work together can have a wrong one listed. */
typedef struct pir_plan {
    uint32_t scheme;    /* PIR_SHAMIR or PIR_XOR */
    uint32_t degree;    /* so many servers together learn nothing of the block: t */
    uint32_t agreement; /* so many answers have to agree: h */
    uint32_t servers;   /* how many servers are asked: n */
    uint32_t tau;       /* so many servers together can't read the database: 0 where each holds the whole of it */
    uint32_t rows;      /* of the database */
    uint32_t width;     /* of a row, in bytes */
} pir_plan;

/* What is told of a verdict, beside its blocks; what it doesn't speak of is 0. */
typedef struct pir_listing {
    uint64_t blocks;     /* how many are listed */
    uint64_t block_size; /* bytes of the first of them, as of each: those of all rows that were asked for together */
    uint64_t needed;     /* bytes that all of them have */
    uint64_t answers;    /* usable answers k, of PIR_FEW_ANSWERS and PIR_WEAK_AGREEMENT */
    uint64_t degree;     /* degree of the answers, degree + tau of the plan, of PIR_WEAK_AGREEMENT */
    uint64_t agreement;  /* how many have to agree h, of the same two */
    uint64_t cost;       /* equations that the decoding would take, of PIR_HIGH_COST: more than 2^15 */
} pir_listing;

/* Gives PIR_INTERFACE of the library that is linked. */
uint32_t pir_version(void);

/* How many coins the queries for so many blocks take: random bytes, from a source as getrandom, used for one fetch alone.
 * A negative code: PIR_BAD_PLAN; PIR_BAD_BLOCKS where blocks isn't from 1 to 16, or blocks * width is more than 2^16. */
int64_t pir_coins(const pir_plan *plan, size_t blocks);

/* How many bytes the query has that each server is sent; negative as pir_coins. */
int64_t pir_query_size(const pir_plan *plan, size_t blocks);

/* How many bytes a whole answer has: read so many of each server, or all that come before it closes; negative as pir_coins. */
int64_t pir_answer_size(const pir_plan *plan, size_t blocks);

/* Writes the query for these blocks that server `index` is sent to the front of `out`, and its length into `used`. It takes the
 * first pir_coins(..) coins; all servers of a fetch are sent queries of the same coins.
 * PIR_DONE; PIR_BAD_PLAN, PIR_BAD_BLOCKS, PIR_BAD_INDEX where the index isn't from 1 to servers, PIR_FEW_COINS; PIR_SMALL_ROOM, and
 * then the length is in `used` all the same. What is refused leaves `out` as it was. */
int32_t pir_query(const pir_plan *plan, const uint32_t *blocks, size_t n_blocks, const uint8_t *coins, size_t n_coins,
                  uint32_t index, uint8_t *out, size_t n_out, size_t *used);

/* Judges the answers of all servers to the queries for so many blocks. `answers` has what came of each, one behind another, and
 * `lengths` how many bytes those of each are; where `present` has a 0 the server was silent. Both have an entry for each server, in
 * the order of their indices. `session` is the number that the first eight coins spell, highest first. Of an answer that is longer
 * than a whole one its prefix counts.
 * The listed blocks go to the front of `out`, one behind another, ascending as byte strings, and what is told of them into
 * `listing`.
 * PIR_DONE, PIR_NO_BLOCK, PIR_SEVERAL, PIR_FEW_ANSWERS, PIR_WEAK_AGREEMENT, PIR_HIGH_COST; PIR_NO_MEMORY, PIR_BAD_PLAN,
 * PIR_BAD_BLOCKS, PIR_BAD_ANSWERS, which all leave `out` and `listing` as they were; PIR_SMALL_ROOM, where `listing` is written, with
 * `needed`, and `out` is as it was. */
int32_t pir_judge(const pir_plan *plan, size_t blocks, uint64_t session, const uint8_t *answers, size_t n_answers,
                  const size_t *lengths, size_t n_lengths, const uint8_t *present, size_t n_present, uint8_t *out, size_t n_out,
                  pir_listing *listing);

/* Judges as pir_judge, and says who lied: where one block is listed and 2 * agreement > k + degree + tau, for the k usable answers,
 * `who` gets for each server 0 where it was silent or its answer isn't usable, 1 where it agrees, 2 where it lied. Elsewhere, as in
 * the XOR scheme, `who` is as it was. It is so whether there is room in `out` or not.
 * The codes are those of pir_judge; PIR_BAD_ANSWERS also where n_who isn't the number of servers. */
int32_t pir_liars(const pir_plan *plan, size_t blocks, uint64_t session, const uint8_t *answers, size_t n_answers,
                  const size_t *lengths, size_t n_lengths, const uint8_t *present, size_t n_present, uint8_t *out, size_t n_out,
                  uint8_t *who, size_t n_who, pir_listing *listing);

/* What a client knows of a list of keys, beside its salt and its tag: members of its catalog (docs/SPECIFICATION.md). In range:
 * digest_bytes from 8 to 32, value_bytes up to 16384, rows from 1 to 2^20. */
typedef struct pir_list {
    uint32_t digest_bytes; /* of a digest */
    uint32_t value_bytes;  /* of a value at most: 0 where keys have none */
    uint32_t rows;         /* of its table, which is the database */
} pir_list;

/* The row that a key belongs to, by the 16 bytes of the salt. A negative code: PIR_BAD_LIST. */
int64_t pir_list_row(const pir_list *list, const uint8_t salt[16], const uint8_t *key, size_t n_key);

/* What its row, as it was fetched, says of a key, by the salt and the 8 bytes of the list's tag: PIR_DONE where the list has the
 * key; then its value goes to the front of `out`, and its length into `used`. PIR_NOT_IN_LIST where it hasn't; PIR_BROKEN_ROW where
 * the bytes are the key's row in no table of this list, so that nothing is known; PIR_BAD_LIST, also of a row of more than 2^16
 * bytes; PIR_SMALL_ROOM, and then the length is in `used` all the same. Where no value is written `out` is as it was, and `used` where
 * no length is told. A row's form is looked at alone: hand in the block of a verdict. */
int32_t pir_list_find(const pir_list *list, const uint8_t salt[16], const uint8_t tag[8], const uint8_t *row, size_t n_row,
                      const uint8_t *key, size_t n_key, uint8_t *out, size_t n_out, size_t *used);

/* How a guest is met, beside the statuses 1 to 3 of a refusal. */
enum {
    PIR_SERVED = 0, /* its query is answered */
    PIR_GONE = 4    /* its bytes end before its query does: nothing is to be sent */
};

/* What a server replies to the bytes of a guest, as `pir serve` does: `database` has its rows one behind another, each of `width`
 * bytes, which are read where they lie. The reply goes to the front of `out`, its length into `used`, and into `met` how the guest is
 * met: PIR_SERVED, 1 to 3 for a refusal with that status, or PIR_GONE with a reply of no byte. It takes one thread and no memory.
 * PIR_DONE; PIR_BAD_DATABASE; PIR_SMALL_ROOM, and then `used` and `met` are told all the same, and `out` is as it was. */
int32_t pir_reply(const uint8_t *database, size_t n_database, uint32_t scheme, uint32_t width, const uint8_t *guest, size_t n_guest,
                  uint8_t *out, size_t n_out, size_t *used, uint32_t *met);

/* Judges a recorded session, as `pir replay` does: `session` has the bytes of its file (docs/SPECIFICATION.md), one that `pir fetch
 * --record` wrote, or that a caller put together of what its servers answered. The text that the program prints goes to the front of
 * `out`, with no 0 behind it, and its length into `used`. All texts but those of several blocks are shorter than their sessions.
 * PIR_DONE, PIR_NO_BLOCK, PIR_SEVERAL, PIR_FEW_ANSWERS, PIR_WEAK_AGREEMENT, PIR_HIGH_COST, each with its text; PIR_BAD_SESSION where
 * the bytes are no session, and then `used` is the length of their longest prefix that begins one; PIR_NO_MEMORY; PIR_SMALL_ROOM, and
 * then the length is in `used` all the same. Where no text is written `out` is as it was. */
int32_t pir_replay(const uint8_t *session, size_t n_session, uint8_t *out, size_t n_out, size_t *used);

#ifdef __cplusplus
}
#endif

#endif
