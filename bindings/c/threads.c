/* Eight threads over one registry: one makes the changes that its input lists, and seven match meanwhile, some of them
 * on snapshots. Prints what each match found, and how many changes were over before it and may have been over after it;
 * bindings/shared_tests.py compares this with a plain filter. Each line of the input has words apart by tabs:
 *     article TEXT | register ID QUERY | many ID QUERY [ID QUERY ..] | delete ID | clear | purge
 * The first argument says how many matches each of the seven makes. */
#define _GNU_SOURCE
#include "pressclip.h"

#include <pthread.h>
#include <stdatomic.h>
#include <stdio.h>
#include <stdlib.h>
#include <string.h>

#define THREADS 8
#define MOST_WORDS 64
#define HELD 10

static char **articles, **changes;
static size_t article_count, change_count;
static int match_count;
static pressclip_shared *shared;
static atomic_size_t over;

static void need(int status, const char *what) {
    if (status == PRESSCLIP_OK) return;
    fprintf(stderr, "%s: %s\n", what, pressclip_word(status));
    exit(1);
}

/* Registers the queries of a line together. */
static void register_together(char **words, size_t count) {
    pressclip_listing listings[MOST_WORDS / 2];
    size_t which;
    for (size_t place = 0; place < count / 2; place++) {
        char *id = words[2 * place], *query = words[2 * place + 1];
        listings[place] = (pressclip_listing){id, strlen(id), query, strlen(query), NULL, 0};
    }
    need(pressclip_shared_register_many(shared, listings, count / 2, &which), "many");
}

static void change(char *line) {
    char *words[MOST_WORDS], *rest = line;
    size_t count = 0;
    uint64_t deleted;
    while (count < MOST_WORDS && (words[count] = strsep(&rest, "\t")) != NULL) count++;
    if (strcmp(words[0], "register") == 0)
        need(pressclip_shared_register(shared, words[1], strlen(words[1]), words[2], strlen(words[2]), "mail", 4),
             words[0]);
    else if (strcmp(words[0], "many") == 0)
        register_together(words + 1, count - 1);
    else if (strcmp(words[0], "delete") == 0)
        need(pressclip_shared_delete(shared, words[1], strlen(words[1]), &deleted), words[0]);
    else if (strcmp(words[0], "clear") == 0)
        need(pressclip_shared_clear(shared), words[0]);
    else
        need(pressclip_shared_purge(shared), words[0]);
}

static void *make_changes(void *unused) {
    (void)unused;
    for (size_t number = 0; number < change_count; number++) {
        change(changes[number]);
        atomic_store(&over, number + 1);
    }
    return NULL;
}

/* Writes what was found, and ends the result. */
static void tell(FILE *out, size_t before, size_t after, size_t article, pressclip_result *result) {
    const char *id;
    size_t length;
    fprintf(out, "%zu\t%zu\t%zu", before, after, article);
    while (pressclip_next_id(result, &id, &length)) fprintf(out, "\t%.*s", (int)length, id);
    fputc('\n', out);
    pressclip_result_free(result);
}

/* Matches articles on one snapshot, which sees what was registered when it was taken. */
static void match_on_snapshot(FILE *out, unsigned *dice) {
    pressclip_view *view;
    pressclip_result *result;
    size_t before = atomic_load(&over);
    need(pressclip_shared_snapshot(shared, &view), "snapshot");
    size_t after = atomic_load(&over) + 1;
    for (int turn = 0; turn < HELD; turn++) {
        size_t article = (size_t)rand_r(dice) % article_count;
        pressclip_field field = {"text", 4, articles[article], strlen(articles[article])};
        need(pressclip_snapshot_match(view, "a", 1, &field, 1, &result), "snapshot_match");
        tell(out, before, after, article, result);
    }
    pressclip_snapshot_free(&view);
}

static void match_on_shared(FILE *out, unsigned *dice) {
    pressclip_result *result;
    size_t article = (size_t)rand_r(dice) % article_count;
    pressclip_field field = {"text", 4, articles[article], strlen(articles[article])};
    size_t before = atomic_load(&over);
    need(pressclip_shared_match(shared, "a", 1, &field, 1, &result), "shared_match");
    tell(out, before, atomic_load(&over) + 1, article, result);
}

/* Matches two articles by one call, which sees the same queries for both. */
static void match_together(FILE *out, unsigned *dice) {
    pressclip_result *results[2];
    pressclip_field fields[2];
    pressclip_article given[2];
    size_t which, article[2];
    for (int place = 0; place < 2; place++) {
        article[place] = (size_t)rand_r(dice) % article_count;
        fields[place] = (pressclip_field){"text", 4, articles[article[place]], strlen(articles[article[place]])};
        given[place] = (pressclip_article){"a", 1, &fields[place], 1};
    }
    size_t before = atomic_load(&over);
    need(pressclip_shared_match_many(shared, given, 2, results, &which), "match_many");
    size_t after = atomic_load(&over) + 1;
    for (int place = 0; place < 2; place++) tell(out, before, after, article[place], results[place]);
}

typedef struct matcher {
    pthread_t thread;
    unsigned dice;
    char *told;
    size_t size;
} matcher;

static void *make_matches(void *given) {
    matcher *own = given;
    FILE *out = open_memstream(&own->told, &own->size);
    for (int turn = 0; turn < match_count; turn++) {
        int kind = rand_r(&own->dice) % 8;
        if (kind == 0)
            match_on_snapshot(out, &own->dice);
        else if (kind == 1)
            match_together(out, &own->dice);
        else
            match_on_shared(out, &own->dice);
    }
    fclose(out);
    return NULL;
}

static void add(char ***lines, size_t *count, const char *line) {
    *lines = realloc(*lines, (*count + 1) * sizeof **lines);
    (*lines)[(*count)++] = strdup(line);
}

static void free_all(char **lines, size_t count) {
    for (size_t line = 0; line < count; line++) free(lines[line]);
    free(lines);
}

int main(int count, char **words) {
    char *line = NULL;
    size_t room = 0;
    pthread_t changer;
    matcher matchers[THREADS - 1];
    match_count = count > 1 ? atoi(words[1]) : 100;
    for (ssize_t read; (read = getline(&line, &room, stdin)) > 0;) {
        line[read - 1] = '\0';
        if (strncmp(line, "article\t", 8) == 0)
            add(&articles, &article_count, line + 8);
        else
            add(&changes, &change_count, line);
    }
    free(line);
    need(pressclip_shared_open(true, &shared), "open");
    for (unsigned number = 0; number < THREADS - 1; number++) {
        matchers[number].dice = number + 1;
        pthread_create(&matchers[number].thread, NULL, make_matches, &matchers[number]);
    }
    pthread_create(&changer, NULL, make_changes, NULL);
    for (int number = 0; number < THREADS - 1; number++) pthread_join(matchers[number].thread, NULL);
    pthread_join(changer, NULL);
    for (int number = 0; number < THREADS - 1; number++) {
        fwrite(matchers[number].told, 1, matchers[number].size, stdout);
        free(matchers[number].told);
    }
    pressclip_shared_close(&shared);
    free_all(articles, article_count);
    free_all(changes, change_count);
    return 0;
}
