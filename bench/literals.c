/* Has Hyperscan find words in texts, for bench/literals.py, and says what that took.
 *
 * Its input is blocks. A block is how many bytes it has, and then either `w`, how many fields there are, and of each how
 * many words are to be found in it, and these, or `a`, how many articles there are, and of each a text for each field. A
 * text stands after its length; numbers are 8 bytes, as this machine has them. The answer to a block is a line of three
 * numbers: nanoseconds by the clock, nanoseconds of processor time, and how many bytes the words were compiled to, or
 * how often one was found. Words are compiled once, and then articles are read; nothing is done where one is found. */
#define _GNU_SOURCE
#include <hs/hs.h>
#include <inttypes.h>
#include <stdbool.h>
#include <stdio.h>
#include <stdlib.h>
#include <string.h>
#include <time.h>

#define MOST_FIELDS 16

/* A block that is read from its front. */
typedef struct block {
    const char *at, *end;
} block;

/* What was compiled of each field, or nothing where a field has no words. */
typedef struct scanner {
    uint64_t fields;
    hs_database_t *compiled[MOST_FIELDS];
    hs_scratch_t *scratch;
} scanner;

static void fail(const char *what) {
    fprintf(stderr, "bench/literals: %s\n", what);
    exit(1);
}

static void expect(bool holds, const char *else_what) {
    if (!holds) fail(else_what);
}

static uint64_t nanoseconds(clockid_t clock) {
    struct timespec now;
    clock_gettime(clock, &now);
    return (uint64_t)now.tv_sec * 1000000000 + (uint64_t)now.tv_nsec;
}

static void *room_for(uint64_t count, size_t size) {
    void *room = calloc(count + 1, size);
    expect(room != NULL, "no memory");
    return room;
}

static const char *take(block *from, size_t length) {
    const char *at = from->at;
    expect((size_t)(from->end - at) >= length, "a block ends early");
    from->at += length;
    return at;
}

static uint64_t take_number(block *from) {
    uint64_t number;
    memcpy(&number, take(from, sizeof number), sizeof number);
    return number;
}

static const char *take_text(block *from, size_t *length) {
    *length = (size_t)take_number(from);
    return take(from, *length);
}

static hs_database_t *compile(const char **words, const size_t *lengths, const unsigned *ids, uint64_t count) {
    hs_database_t *compiled;
    hs_compile_error_t *error;
    if (hs_compile_lit_multi(words, NULL, ids, lengths, (unsigned)count, HS_MODE_BLOCK, NULL, &compiled, &error) !=
        HS_SUCCESS)
        fail(error->message);
    return compiled;
}

static hs_database_t *compile_field(block *from) {
    uint64_t count = take_number(from);
    const char **words = room_for(count, sizeof *words);
    size_t *lengths = room_for(count, sizeof *lengths);
    unsigned *ids = room_for(count, sizeof *ids);
    for (uint64_t place = 0; place < count; place++) {
        words[place] = take_text(from, &lengths[place]);
        ids[place] = (unsigned)place;
    }
    hs_database_t *compiled = count > 0 ? compile(words, lengths, ids, count) : NULL;
    free(words);
    free(lengths);
    free(ids);
    return compiled;
}

/* How many bytes all fields are compiled to. */
static uint64_t compile_all(scanner *by, block *from) {
    uint64_t bytes = 0;
    by->fields = take_number(from);
    expect(by->fields <= MOST_FIELDS, "there are too many fields");
    for (uint64_t field = 0; field < by->fields; field++) {
        size_t size = 0;
        by->compiled[field] = compile_field(from);
        if (by->compiled[field] == NULL) continue;
        expect(hs_alloc_scratch(by->compiled[field], &by->scratch) == HS_SUCCESS, "no memory");
        expect(hs_database_size(by->compiled[field], &size) == HS_SUCCESS, "no size is told");
        bytes += size;
    }
    return bytes;
}

static int count_one(unsigned id, unsigned long long from, unsigned long long to, unsigned flags, void *found) {
    (void)id, (void)from, (void)to, (void)flags;
    ++*(uint64_t *)found;
    return 0;
}

/* How often a word is found in all articles. */
static uint64_t scan_all(const scanner *by, block *from) {
    uint64_t found = 0;
    for (uint64_t left = take_number(from); left > 0; left--)
        for (uint64_t field = 0; field < by->fields; field++) {
            size_t length;
            const char *text = take_text(from, &length);
            if (by->compiled[field] != NULL)
                expect(hs_scan(by->compiled[field], text, (unsigned)length, 0, by->scratch, count_one, &found) ==
                           HS_SUCCESS, "a text is not read");
        }
    return found;
}

static uint64_t play(scanner *by, block from) {
    char asked = *take(&from, 1);
    expect(asked == 'w' || asked == 'a', "a block is unknown");
    return asked == 'w' ? compile_all(by, &from) : scan_all(by, &from);
}

int main(void) {
    scanner by = {0, {NULL}, NULL};
    expect(hs_valid_platform() == HS_SUCCESS, "Hyperscan does not run on this processor");
    for (uint64_t size; fread(&size, sizeof size, 1, stdin) == 1;) {
        char *bytes = room_for(size, 1);
        expect(fread(bytes, 1, size, stdin) == size, "a block is not read");
        uint64_t start = nanoseconds(CLOCK_MONOTONIC), cpu = nanoseconds(CLOCK_PROCESS_CPUTIME_ID);
        uint64_t told = play(&by, (block){bytes, bytes + size});
        cpu = nanoseconds(CLOCK_PROCESS_CPUTIME_ID) - cpu;
        start = nanoseconds(CLOCK_MONOTONIC) - start;
        printf("%" PRIu64 " %" PRIu64 " %" PRIu64 "\n", start, cpu, told);
        fflush(stdout);
        free(bytes);
    }
    return 0;
}
