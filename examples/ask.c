/*
 * A connection between two runs, from C: lends the tables, opens, links, asks and reads.
 *
 *     tools/archive
 *     cc -Iinclude examples/ask.c target/staticlib/libwormstrand.a -o ask && ./ask
 */
#include <inttypes.h>
#include <stdio.h>

#include "wormstrand.h"

enum { PLACES = 16, CELLS = 64, LIMIT = 4, WORDS = 4 * PLACES + 2 + 3 * CELLS };

static uint32_t store[WORDS], spare[WORDS], waiting[PLACES];

static void say(const char *what, uint64_t result)
{
    if (ws_refusal(result) == WS_DONE)
        printf("%s: %" PRIu32 "\n", what, ws_number(result));
    else
        printf("%s: refused with %" PRIu32 "\n", what, ws_refusal(result));
}

int main(void)
{
    const uint32_t places[] = {0, 1};
    say("empty", ws_empty(PLACES, CELLS, store, WORDS));
    say("open line 1 trip 100", ws_open(PLACES, CELLS, LIMIT, store, WORDS, 1, 100));
    say("open line 2 trip 100", ws_open(PLACES, CELLS, LIMIT, store, WORDS, 2, 100));
    say("link the two", ws_link(PLACES, CELLS, LIMIT, store, WORDS, spare, WORDS, waiting, PLACES, 1, 100, 2, 100));
    say("link them again", ws_link(PLACES, CELLS, LIMIT, store, WORDS, spare, WORDS, waiting, PLACES, 2, 100, 1, 100));
    say("ask the other way round", ws_ask(PLACES, CELLS, LIMIT, store, WORDS, 2, 100, 1, 100));
    say("reading of both", ws_reading(PLACES, CELLS, LIMIT, store, WORDS, places, 2));
    say("close line 2 trip 100", ws_close(PLACES, CELLS, LIMIT, store, WORDS, 2, 100));
    say("unlink the two", ws_unlink(PLACES, CELLS, LIMIT, store, WORDS, 1, 100, 2, 100));
    say("close line 2 trip 100", ws_close(PLACES, CELLS, LIMIT, store, WORDS, 2, 100));
    return 0;
}
