/*
 * Wormstrand: open train runs and the links between them, in tables of 32-bit words that the caller lends.
 *
 * Link a program with libwormstrand.a, which `tools/archive` writes for x86-64 Linux. The library keeps nothing between calls,
 * allocates nothing and calls nothing outside itself but memset; calls on different tables may run at the same time.
 *
 * Sizes
 *   n  places for runs   1 to 4,096
 *   c  cells for links   1 to 16,384
 *   d  the list limit    2 to 64
 *   store    ws_store_words(n, c) words; ws_empty makes it a store with no run and no link
 *   spare    as many words as the store
 *   waiting  n words
 * A run is named by a line, 1 to 65,535, and a trip number, any 32-bit number.
 *
 * What a caller owes
 *   - No pointer is null, also where its length is 0, and each is aligned for its type.
 *   - A length is at most the number of words, or bytes, that the pointer leads to.
 *   - The tables of one call do not overlap, and nothing else reads or writes them while the call runs.
 * Nothing more: sizes, lengths and words of any value are judged by the call, and a wrong one is refused with its number.
 *
 * What a caller gets
 *   Each call returns its refusal times 2^32 plus its number: ws_refusal and ws_number take the two apart.
 *   A refused call has number 0 and leaves every table as it was, with two exceptions. Refusal 9 of ws_link leaves the store as
 *   it was, and spare and waiting as an accepted link that began turning does. Refusals 11 to 13 stop ws_stream: the records
 *   before stand, and the number says how many they are.
 */
#ifndef WORMSTRAND_H
#define WORMSTRAND_H

#include <stddef.h>
#include <stdint.h>

#ifdef __cplusplus
extern "C" {
#endif

/*
 * Each refusal with the calls that give it. A call makes its checks in this order, but 14 comes before 5; a stream's record is judged
 * by 13, 11 and 12, in that order, before 3 to 10.
 */
enum ws_refusal_number {
    WS_DONE = 0,
    WS_SIZES = 1,      /* every call: a size outside its limits, a table of wrong length, a stream too long, a total too large */
    WS_UNSOUND = 2,    /* every call but empty: the store is not sound for n, c and d */
    WS_BAD_NAME = 3,   /* open, close, link, unlink, ask: a line is 0 or above 65,535 */
    WS_SAME_RUN = 4,   /* link, unlink, ask: both names are the same run */
    WS_NOT_OPEN = 5,   /* close, link, unlink, ask: a named run is not open; reading: a place of the set is not open */
    WS_ALREADY = 6,    /* open: already open; link: already linked */
    WS_NO_LINK = 7,    /* unlink: no such link */
    WS_NO_ROOM = 8,    /* open: no free place; link: no free cell */
    WS_TOO_DENSE = 9,  /* link: a place still waits after as many lists were turned as there are links */
    WS_TOUCHED = 10,   /* close: a link touches the run */
    WS_WRONG_MARK = 11, /* stream: a record without its mark */
    WS_WRONG_KIND = 12, /* stream: a kind that is not 1 to 5, or a second run in kind 1 or 2 */
    WS_CUT_SHORT = 13, /* stream: fewer than 15 bytes are left, and at least one */
    WS_BAD_SET = 14    /* reading: fewer than two places, or not strictly rising */
};

/* The refusal of a result, 0 where the call is done. */
static inline uint32_t ws_refusal(uint64_t result)
{
    return (uint32_t)(result >> 32);
}

/* The number of a result, 0 where a single call is refused. */
static inline uint32_t ws_number(uint64_t result)
{
    return (uint32_t)(result & 0xffffffffu);
}

/* The words of a store, and of its spare. Only for n and c within their limits. */
static inline size_t ws_store_words(size_t n, size_t c)
{
    return 4 * n + 2 + 3 * c;
}

/* Writes the store with no run and no link over whatever the table holds. Number: 0. */
uint64_t ws_empty(size_t n, size_t c, uint32_t *store, size_t store_len);

/* Opens a run in the lowest free place. Number: that place. */
uint64_t ws_open(size_t n, size_t c, size_t d, uint32_t *store, size_t store_len, uint32_t line, uint32_t trip);

/* Closes a run that no link touches; its place is free again. Number: 0. */
uint64_t ws_close(size_t n, size_t c, size_t d, uint32_t *store, size_t store_len, uint32_t line, uint32_t trip);

/*
 * Links two open runs. Number: the reversals, 0 where no list was turned. What spare and waiting hold on entry plays no part.
 * Where turning began, accepted or refused, spare then holds the store as it was on entry and every word of waiting is 0;
 * else both stay as they were.
 */
uint64_t ws_link(size_t n, size_t c, size_t d, uint32_t *store, size_t store_len, uint32_t *spare, size_t spare_len,
                 uint32_t *waiting, size_t waiting_len, uint32_t line_a, uint32_t trip_a, uint32_t line_b, uint32_t trip_b);

/* Takes the link of two open runs away, whichever way round they are named. Number: 0. */
uint64_t ws_unlink(size_t n, size_t c, size_t d, uint32_t *store, size_t store_len, uint32_t line_a, uint32_t trip_a,
                   uint32_t line_b, uint32_t trip_b);

/* Whether two open runs are linked. Writes nothing. Number: 1 or 0. */
uint64_t ws_ask(size_t n, size_t c, size_t d, const uint32_t *store, size_t store_len, uint32_t line_a, uint32_t trip_a,
                uint32_t line_b, uint32_t trip_b);

/*
 * The reading of a set of at least two open places, strictly rising. Writes nothing.
 * Number: the links with both ends in the set, divided by one less than its size, the whole part.
 */
uint64_t ws_reading(size_t n, size_t c, size_t d, const uint32_t *store, size_t store_len, const uint32_t *places,
                    size_t places_len);

/* The running totals that streams bring forward, each at most 2^62 on entry. */
typedef struct {
    uint64_t accepted;  /* links */
    uint64_t reversals; /* of accepted links */
} ws_totals;

/*
 * Carries out the records of a day, 15 bytes each and at most 983,025 bytes, as the single calls in turn. Each record carried
 * out writes its refusal and its number to two words of answers, in order; answers has at least 2 words for each 15 bytes, and
 * other words there stay. Refusals 3 to 10 do not stop a stream; 11 to 13 do, and the records before stand. The totals are
 * brought forward in place. Number: the records carried out. Spare and waiting hold what the last link that began turning
 * left, or stay as they were.
 */
uint64_t ws_stream(size_t n, size_t c, size_t d, uint32_t *store, size_t store_len, uint32_t *spare, size_t spare_len,
                   uint32_t *waiting, size_t waiting_len, const uint8_t *bytes, size_t bytes_len, uint32_t *answers,
                   size_t answers_len, ws_totals *totals);

#ifdef __cplusplus
}
#endif

#endif
