/*
 * Runs a script of calls through the library: reads it from standard input and prints one line for each call. The commands and
 * the lines printed are those of `second run`, so that the two can be compared byte for byte; second/README.md lists them.
 *
 * Exit status: 0 done; 1 a read or write failed, memory ran out, or a call wrote outside its tables; 2 wrong arguments or a
 * wrong script line. Standard error then names the line and what is wrong, and the outcomes before it are printed.
 */
#define _POSIX_C_SOURCE 200809L

#include <inttypes.h>
#include <stdarg.h>
#include <stdbool.h>
#include <stdint.h>
#include <stdio.h>
#include <stdlib.h>
#include <string.h>
#include <sys/types.h>

#include "wormstrand.h"

/* A script gives each size up to 2^64 - 1. */
typedef char sizes_have_64_bits[sizeof(size_t) == 8 ? 1 : -1];

/* The most words a script may give a table. */
#define TABLE_WORDS_MAX ((size_t)1 << 24)

/* Words of a fixed pattern before and behind each table, looked at after each call. */
#define FENCE_WORDS ((size_t)4)
#define FENCE UINT32_C(0x5ea1ed0f)

enum { FAILED = 1, WRONG_INPUT = 2 };

/* ---- Troubles ---- */

static unsigned long long line_number;

static void stop(int status, const char *format, va_list values)
{
    fflush(stdout);
    fprintf(stderr, "driver: ");
    if (line_number > 0)
        fprintf(stderr, "script line %llu: ", line_number);
    vfprintf(stderr, format, values);
    fputc('\n', stderr);
    exit(status);
}

static void failed(const char *format, ...)
{
    va_list values;
    va_start(values, format);
    stop(FAILED, format, values);
    va_end(values);
}

static void wrong(const char *format, ...)
{
    va_list values;
    va_start(values, format);
    stop(WRONG_INPUT, format, values);
    va_end(values);
}

/* ---- Words of a line ---- */

struct text {
    const char *at;
    size_t len;
};

/* How a text is printed: %.*s with these two values. */
#define SHOWN(text) (int)(text).len, (text).at

static bool is(struct text word, const char *name)
{
    return word.len == strlen(name) && memcmp(word.at, name, word.len) == 0;
}

/* Takes the next word off the rest of a line. */
static bool next_word(struct text *rest, struct text *word)
{
    const char *space;
    if (rest->len == 0)
        return false;
    space = memchr(rest->at, ' ', rest->len);
    word->at = rest->at;
    word->len = space == NULL ? rest->len : (size_t)(space - rest->at);
    /* The space behind the word goes with it. */
    rest->at += word->len + (space != NULL);
    rest->len -= word->len + (space != NULL);
    return true;
}

static size_t count_words(struct text rest)
{
    struct text word;
    size_t count = 0;
    while (next_word(&rest, &word))
        count++;
    return count;
}

static bool has_empty_word(struct text line)
{
    size_t i;
    for (i = 1; i < line.len; i++)
        if (line.at[i] == ' ' && line.at[i - 1] == ' ')
            return true;
    return line.at[0] == ' ' || line.at[line.len - 1] == ' ';
}

/* A decimal number, digits alone, up to the most. */
static uint64_t number(struct text word, uint64_t most)
{
    uint64_t value = 0;
    size_t i;
    for (i = 0; i < word.len; i++)
        if (word.at[i] < '0' || word.at[i] > '9')
            break;
    if (word.len == 0 || i < word.len)
        wrong("`%.*s` is not a decimal number", SHOWN(word));
    for (i = 0; i < word.len; i++) {
        uint64_t digit = (uint64_t)(word.at[i] - '0');
        if (value > (most - digit) / 10)
            wrong("%.*s is too large", SHOWN(word));
        value = value * 10 + digit;
    }
    return value;
}

/* Exactly so many numbers. */
static void numbers(struct text verb, struct text rest, uint64_t most, uint64_t *found, size_t due)
{
    struct text word;
    size_t count = 0;
    while (next_word(&rest, &word)) {
        uint64_t value = number(word, most);
        if (count < due)
            found[count] = value;
        count++;
    }
    if (count != due)
        wrong("`%.*s` takes %zu numbers, not %zu", SHOWN(verb), due, count);
}

/* ---- Tables ---- */

/* The words lent, between two fences. */
struct table {
    const char *name;
    uint32_t *fenced;
    uint32_t *words;
    size_t len;
    size_t room;
};

static void fence(struct table *table)
{
    size_t i;
    for (i = 0; i < FENCE_WORDS; i++) {
        table->fenced[i] = FENCE;
        table->words[table->len + i] = FENCE;
    }
}

static bool is_fenced(const struct table *table)
{
    size_t i;
    for (i = 0; i < FENCE_WORDS; i++)
        if (table->fenced[i] != FENCE || table->words[table->len + i] != FENCE)
            return false;
    return true;
}

/* Room for so many words, so that no table, an empty one neither, is at a null pointer. */
static void make_room(struct table *table, size_t words)
{
    size_t room = table->room < 64 ? 64 : table->room;
    uint32_t *fenced;
    while (room < words)
        room *= 2;
    if (room == table->room)
        return;
    fenced = realloc(table->fenced, (room + 2 * FENCE_WORDS) * sizeof *fenced);
    if (fenced == NULL)
        failed("no memory for %zu words", words);
    table->fenced = fenced;
    table->words = fenced + FENCE_WORDS;
    table->room = room;
}

/* Puts copies of a word behind the others. */
static void add_words(struct table *table, uint32_t word, size_t copies)
{
    size_t i;
    make_room(table, table->len + copies);
    for (i = 0; i < copies; i++)
        table->words[table->len + i] = word;
    table->len += copies;
}

/* One piece of a table's line, a word or `W*K`. */
static void add_piece(struct table *table, struct text piece)
{
    struct text word = piece, copies = {"1", 1};
    const char *star = memchr(piece.at, '*', piece.len);
    uint64_t value, count;
    if (star != NULL) {
        word.len = (size_t)(star - piece.at);
        copies.at = star + 1;
        copies.len = piece.len - word.len - 1;
    }
    value = number(word, UINT32_MAX);
    count = number(copies, UINT64_MAX);
    if (count > TABLE_WORDS_MAX - table->len)
        wrong("`%.*s` makes the table longer than %zu words", SHOWN(piece), TABLE_WORDS_MAX);
    add_words(table, (uint32_t)value, (size_t)count);
}

static void set_table(struct table *table, struct text rest)
{
    struct text piece;
    table->len = 0;
    while (next_word(&rest, &piece))
        add_piece(table, piece);
    fence(table);
}

/* ---- What a script sets ---- */

enum { STORE, SPARE, WAITING, ANSWERS, TABLES };

static struct table tables[TABLES] = {
    {"store", NULL, NULL, 0, 0},
    {"spare", NULL, NULL, 0, 0},
    {"waiting", NULL, NULL, 0, 0},
    {"answers", NULL, NULL, 0, 0},
};
static struct table places = {"places", NULL, NULL, 0, 0};
static size_t n, c, d;
static ws_totals totals;
static uint8_t *bytes;
static size_t bytes_len;

static struct table *table_named(struct text name)
{
    int i;
    for (i = 0; i < TABLES; i++)
        if (is(name, tables[i].name))
            return &tables[i];
    return NULL;
}

static void set_sizes(struct text verb, struct text rest)
{
    uint64_t found[3] = {0};
    numbers(verb, rest, UINT64_MAX, found, 3);
    n = (size_t)found[0];
    c = (size_t)found[1];
    d = (size_t)found[2];
}

static void set_totals(struct text verb, struct text rest)
{
    uint64_t found[2] = {0};
    numbers(verb, rest, UINT64_MAX, found, 2);
    totals.accepted = found[0];
    totals.reversals = found[1];
}

/* Sets one word; an index past the end is passed over. */
static void poke(struct text rest)
{
    struct text name, index, word;
    struct table *table;
    uint64_t at, value;
    size_t count = count_words(rest);
    if (count != 3)
        wrong("`poke` takes a table and 2 numbers, not %zu words", count);
    next_word(&rest, &name);
    next_word(&rest, &index);
    next_word(&rest, &word);
    table = table_named(name);
    if (table == NULL)
        wrong("no table is called `%.*s`", SHOWN(name));
    at = number(index, UINT64_MAX);
    value = number(word, UINT32_MAX);
    if (at < table->len)
        table->words[at] = (uint32_t)value;
}

static uint8_t hex_digit(char digit)
{
    if (digit >= '0' && digit <= '9')
        return (uint8_t)(digit - '0');
    if (digit >= 'a' && digit <= 'f')
        return (uint8_t)(digit - 'a' + 10);
    if (digit >= 'A' && digit <= 'F')
        return (uint8_t)(digit - 'A' + 10);
    wrong("byte %u is not a hex digit", (unsigned)(unsigned char)digit);
    return 0;
}

static void set_bytes(struct text rest)
{
    size_t count = count_words(rest), i;
    uint8_t *made;
    if (count > 1)
        wrong("`bytes` takes one word of hex digits, not %zu", count);
    if (rest.len % 2 != 0)
        wrong("%zu hex digits do not make whole bytes", rest.len);
    made = realloc(bytes, rest.len / 2 + 1);
    if (made == NULL)
        failed("no memory for %zu bytes", rest.len / 2);
    bytes = made;
    bytes_len = rest.len / 2;
    for (i = 0; i < bytes_len; i++)
        bytes[i] = (uint8_t)(hex_digit(rest.at[2 * i]) << 4 | hex_digit(rest.at[2 * i + 1]));
}

/* ---- What is printed ---- */

/* FNV-1a with 64 bits. */
static uint64_t digest_number(uint64_t digest, uint64_t value, int size)
{
    int i;
    for (i = 0; i < size; i++)
        digest = (digest ^ (value >> 8 * i & 0xff)) * UINT64_C(0x100000001b3);
    return digest;
}

#define DIGEST_BASIS UINT64_C(0xcbf29ce484222325)

static uint64_t digest_bytes(void)
{
    uint64_t digest = DIGEST_BASIS;
    size_t i;
    for (i = 0; i < bytes_len; i++)
        digest = digest_number(digest, bytes[i], 1);
    return digest;
}

static uint64_t digest_all(void)
{
    uint64_t digest = DIGEST_BASIS;
    size_t i;
    int t;
    for (t = 0; t < TABLES; t++) {
        digest = digest_number(digest, tables[t].len, 8);
        for (i = 0; i < tables[t].len; i++)
            digest = digest_number(digest, tables[t].words[i], 4);
    }
    digest = digest_number(digest, totals.accepted, 8);
    return digest_number(digest, totals.reversals, 8);
}

static void show(void)
{
    size_t i;
    int t;
    for (t = 0; t < TABLES; t++) {
        printf("%s:", tables[t].name);
        for (i = 0; i < tables[t].len; i++)
            printf(" %" PRIu32, tables[t].words[i]);
        printf("\n");
    }
    printf("totals: %" PRIu64 " %" PRIu64 "\n", totals.accepted, totals.reversals);
}

static void outcome(struct text verb, uint64_t result)
{
    int t;
    for (t = 0; t < TABLES; t++)
        if (!is_fenced(&tables[t]))
            failed("the call wrote outside the table %s", tables[t].name);
    printf("%.*s %" PRIu32 " %" PRIu32 " %016" PRIx64 "\n", SHOWN(verb), ws_refusal(result), ws_number(result), digest_all());
}

/* ---- The calls ---- */

#define LENT(table) tables[table].words, tables[table].len
#define RUN_A (uint32_t)named[0], (uint32_t)named[1]
#define RUN_B (uint32_t)named[2], (uint32_t)named[3]

static uint64_t reading(struct text rest)
{
    struct text word;
    uint64_t result;
    size_t i;
    places.len = 0;
    make_room(&places, 2 * count_words(rest));
    while (next_word(&rest, &word))
        add_words(&places, (uint32_t)number(word, UINT32_MAX), 1);
    /* A second copy behind the set: it is lent to be read alone. */
    memcpy(places.words + places.len, places.words, places.len * sizeof *places.words);
    result = ws_reading(n, c, d, LENT(STORE), places.words, places.len);
    for (i = 0; i < places.len; i++)
        if (places.words[i] != places.words[places.len + i])
            failed("the call wrote to the set of places");
    return result;
}

static uint64_t stream(void)
{
    uint64_t before = digest_bytes();
    uint64_t result = ws_stream(n, c, d, LENT(STORE), LENT(SPARE), LENT(WAITING), bytes, bytes_len, LENT(ANSWERS), &totals);
    if (digest_bytes() != before)
        failed("the call wrote to the stream's bytes");
    return result;
}

/* Calls on one run, on two, and without any. False where no call has the name. */
static bool call(struct text verb, struct text rest)
{
    uint64_t named[4] = {0}, result;
    bool one = is(verb, "open") || is(verb, "close");
    bool two = is(verb, "link") || is(verb, "unlink") || is(verb, "ask");
    bool bare = is(verb, "empty") || is(verb, "stream");
    if (one || two || bare)
        numbers(verb, rest, UINT32_MAX, named, one ? 2 : two ? 4 : 0);
    if (is(verb, "empty"))
        result = ws_empty(n, c, LENT(STORE));
    else if (is(verb, "open"))
        result = ws_open(n, c, d, LENT(STORE), RUN_A);
    else if (is(verb, "close"))
        result = ws_close(n, c, d, LENT(STORE), RUN_A);
    else if (is(verb, "link"))
        result = ws_link(n, c, d, LENT(STORE), LENT(SPARE), LENT(WAITING), RUN_A, RUN_B);
    else if (is(verb, "unlink"))
        result = ws_unlink(n, c, d, LENT(STORE), RUN_A, RUN_B);
    else if (is(verb, "ask"))
        result = ws_ask(n, c, d, LENT(STORE), RUN_A, RUN_B);
    else if (is(verb, "reading"))
        result = reading(rest);
    else if (is(verb, "stream"))
        result = stream();
    else
        return false;
    outcome(verb, result);
    return true;
}

/* ---- The script ---- */

static void obey(struct text line)
{
    struct text rest = line, verb;
    struct table *table;
    next_word(&rest, &verb);
    table = table_named(verb);
    if (table != NULL) {
        set_table(table, rest);
    } else if (is(verb, "sizes")) {
        set_sizes(verb, rest);
    } else if (is(verb, "totals")) {
        set_totals(verb, rest);
    } else if (is(verb, "poke")) {
        poke(rest);
    } else if (is(verb, "bytes")) {
        set_bytes(rest);
    } else if (is(verb, "show")) {
        numbers(verb, rest, UINT32_MAX, NULL, 0);
        show();
    } else if (!call(verb, rest)) {
        wrong("no command is called `%.*s`", SHOWN(verb));
    }
}

/* Bare tables, each with its fences. */
static void begin(void)
{
    struct text none = {"", 0};
    int t;
    for (t = 0; t < TABLES; t++) {
        make_room(&tables[t], 0);
        set_table(&tables[t], none);
    }
    make_room(&places, 0);
    set_bytes(none);
}

/* Takes the line's end off, as it is on either kind of system. */
static struct text without_end(const char *line, size_t len)
{
    struct text text = {line, len};
    if (text.len > 0 && line[text.len - 1] == '\n') {
        text.len--;
        if (text.len > 0 && line[text.len - 1] == '\r')
            text.len--;
    }
    return text;
}

int main(int argc, char **argv)
{
    char *line = NULL;
    size_t room = 0;
    ssize_t len;
    if (argc != 1) {
        fprintf(stderr, "usage: %s < SCRIPT\n", argv[0]);
        return WRONG_INPUT;
    }
    begin();
    while ((len = getline(&line, &room, stdin)) >= 0) {
        struct text text = without_end(line, (size_t)len);
        line_number++;
        if (text.len == 0 || text.at[0] == '#')
            continue;
        if (has_empty_word(text))
            wrong("words must be separated by exactly one space");
        obey(text);
    }
    line_number = 0;
    if (ferror(stdin))
        failed("reading the script failed");
    if (fflush(stdout) != 0)
        failed("writing the outcomes failed");
    free(line);
    return 0;
}
