/* Plays calls of the library for bench/run, and says what they took.
 *
 * Its input is blocks. A block is how many bytes it has, and then calls: `r` with how many queries are to be registered
 * in one change, and the id and the text of each, `m` with the id of an article, how many fields it has, and the name
 * and the text of each, or `c`, which counts. A text stands after its length; numbers are 8 bytes, as this machine has
 * them. The answer to a block is a line of three numbers, which are nanoseconds by the clock, nanoseconds of processor
 * time, and how many bytes follow, and then a line for each `m` and `c`, as the program answers them. What is timed are
 * the calls, with the reading of what they found, and not the block's way in nor the answer's way out. */
#define _GNU_SOURCE
#include "pressclip.h"

#include <inttypes.h>
#include <stdio.h>
#include <stdlib.h>
#include <string.h>
#include <time.h>

#define MOST_FIELDS 16
#define MOST_QUERIES 1024

/* A block that is read from its front. */
typedef struct block {
    const char *at, *end;
} block;

/* What is to be written. */
typedef struct answer {
    char *bytes;
    size_t length, room;
} answer;

static void fail(const char *what) {
    fprintf(stderr, "bench/embedded: %s\n", what);
    exit(1);
}

static void expect(int status) {
    if (status != PRESSCLIP_OK) fail(pressclip_word(status));
}

static uint64_t nanoseconds(clockid_t clock) {
    struct timespec now;
    clock_gettime(clock, &now);
    return (uint64_t)now.tv_sec * 1000000000 + (uint64_t)now.tv_nsec;
}

static const char *take(block *from, size_t length) {
    const char *at = from->at;
    if ((size_t)(from->end - at) < length) fail("a block ends early");
    from->at += length;
    return at;
}

static uint64_t take_number(block *from) {
    uint64_t number;
    memcpy(&number, take(from, sizeof number), sizeof number);
    return number;
}

static const char *take_text(block *from, size_t *length) {
    *length = (size_t)take_number(from);
    return take(from, *length);
}

static void add(answer *to, const char *text, size_t length) {
    if (to->room - to->length < length) {
        to->room = 2 * (to->length + length);
        to->bytes = realloc(to->bytes, to->room);
        if (to->bytes == NULL) fail("no memory");
    }
    memcpy(to->bytes + to->length, text, length);
    to->length += length;
}

static void add_word(answer *to, const char *word) { add(to, word, strlen(word)); }

/* Ids are taken to need no escapes, as those of bench/run. */
static void add_found(answer *to, pressclip_result *found, const char *article, size_t article_length) {
    const char *id, *before = "\"";
    size_t length;
    add_word(to, "{\"alerts\":[{\"article\":\"");
    add(to, article, article_length);
    add_word(to, "\",\"queries\":[");
    for (; pressclip_next_id(found, &id, &length); before = ",\"") {
        add_word(to, before);
        add(to, id, length);
        add_word(to, "\"");
    }
    add_word(to, "]}]}\n");
}

static void match(pressclip *engine, block *from, answer *to) {
    pressclip_field fields[MOST_FIELDS];
    pressclip_result *found;
    size_t length;
    const char *id = take_text(from, &length);
    uint64_t count = take_number(from);
    if (count > MOST_FIELDS) fail("an article has too many fields");
    for (uint64_t place = 0; place < count; place++) {
        fields[place].name = take_text(from, &fields[place].name_length);
        fields[place].text = take_text(from, &fields[place].text_length);
    }
    expect(pressclip_match(engine, id, length, fields, (size_t)count, &found));
    add_found(to, found, id, length);
    pressclip_result_free(found);
}

static void enter(pressclip *engine, block *from) {
    static pressclip_listing listings[MOST_QUERIES];
    uint64_t count = take_number(from);
    size_t which;
    if (count > MOST_QUERIES) fail("a change has too many queries");
    for (uint64_t place = 0; place < count; place++) {
        listings[place].id = take_text(from, &listings[place].id_length);
        listings[place].query = take_text(from, &listings[place].query_length);
    }
    expect(pressclip_register_many(engine, listings, (size_t)count, &which));
}

static void tell_count(pressclip *engine, answer *to) {
    char line[64];
    uint64_t count;
    expect(pressclip_count(engine, &count));
    snprintf(line, sizeof line, "{\"count\":%" PRIu64 "}\n", count);
    add_word(to, line);
}

static void play(pressclip *engine, block from, answer *to) {
    while (from.at < from.end) {
        char call = *take(&from, 1);
        if (call == 'r') enter(engine, &from);
        else if (call == 'm') match(engine, &from, to);
        else if (call == 'c') tell_count(engine, to);
        else fail("a call is unknown");
    }
}

int main(void) {
    pressclip *engine;
    answer told = {NULL, 0, 0};
    expect(pressclip_open(false, &engine));
    for (uint64_t size; fread(&size, sizeof size, 1, stdin) == 1;) {
        char *bytes = malloc(size + 1);
        if (bytes == NULL || fread(bytes, 1, size, stdin) != size) fail("a block is not read");
        told.length = 0;
        uint64_t start = nanoseconds(CLOCK_MONOTONIC), cpu = nanoseconds(CLOCK_PROCESS_CPUTIME_ID);
        play(engine, (block){bytes, bytes + size}, &told);
        cpu = nanoseconds(CLOCK_PROCESS_CPUTIME_ID) - cpu;
        start = nanoseconds(CLOCK_MONOTONIC) - start;
        printf("%" PRIu64 " %" PRIu64 " %zu\n", start, cpu, told.length);
        fwrite(told.bytes, 1, told.length, stdout);
        fflush(stdout);
        free(bytes);
    }
    pressclip_close(&engine);
    free(told.bytes);
    return 0;
}
