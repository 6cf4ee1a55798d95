/* Threads that match articles on one registry, while another registers queries: for bench/threads.
 *
 * Its words are how many threads match, where 0 is one engine and no registry, for how many seconds, and how many
 * queries are registered a second meanwhile, each in its own place. A line of its input is a query, `r`, its id and its
 * text, or an article, `m`, its title and its text, with a tab between. Prints how many articles were matched a second,
 * and by how many KiB the resident memory had grown since the input was read, when the threads were told to end. */
#define _GNU_SOURCE
#include "pressclip.h"

#include <pthread.h>
#include <stdatomic.h>
#include <stdio.h>
#include <stdlib.h>
#include <string.h>
#include <time.h>
#include <unistd.h>

#define MOST_THREADS 64

/* A line of the input, without its letter. */
typedef struct pair {
    const char *first, *second;
    size_t first_length, second_length;
} pair;

static pair *queries, *articles;
static size_t query_count, article_count;
static pressclip *engine;
static pressclip_shared *shared;
static atomic_bool over;

static void expect(int status) {
    if (status == PRESSCLIP_OK) return;
    fprintf(stderr, "bench/shared: %s\n", pressclip_word(status));
    exit(1);
}

static double seconds_now(void) {
    struct timespec now;
    clock_gettime(CLOCK_MONOTONIC, &now);
    return (double)now.tv_sec + (double)now.tv_nsec / 1e9;
}

static void wait_for(double seconds) {
    if (seconds > 0) usleep((useconds_t)(seconds * 1e6));
}

/* How much memory is resident. */
static size_t resident_kib(void) {
    size_t all, resident;
    FILE *told = fopen("/proc/self/statm", "r");
    if (told == NULL || fscanf(told, "%zu %zu", &all, &resident) != 2) exit(1);
    fclose(told);
    return resident * (size_t)sysconf(_SC_PAGESIZE) / 1024;
}

/* Reads the whole input, which stays in memory. */
static void read_input(void) {
    char *line = NULL;
    size_t room = 0, most = 0;
    for (ssize_t length; (length = getline(&line, &room, stdin)) > 2;) {
        if (query_count + article_count == most) {
            most = 2 * most + 1024;
            queries = realloc(queries, most * sizeof *queries);
            articles = realloc(articles, most * sizeof *articles);
        }
        char *first = strndup(line + 2, (size_t)length - 3), *second = strchr(first, '\t');
        if (second == NULL) exit(1);
        *second++ = '\0';
        pair read = {first, second, strlen(first), strlen(second)};
        if (line[0] == 'r') queries[query_count++] = read;
        else articles[article_count++] = read;
    }
    free(line);
}

static void enter(const pair *query) {
    if (shared == NULL)
        expect(pressclip_register(engine, query->first, query->first_length, query->second, query->second_length,
                                  NULL, 0));
    else
        expect(pressclip_shared_register(shared, query->first, query->first_length, query->second,
                                         query->second_length, NULL, 0));
}

static void match(const pair *article) {
    pressclip_result *result;
    pressclip_field fields[] = {{"title", 5, article->first, article->first_length},
                                {"text", 4, article->second, article->second_length}};
    if (shared == NULL) expect(pressclip_match(engine, "a", 1, fields, 2, &result));
    else expect(pressclip_shared_match(shared, "a", 1, fields, 2, &result));
    pressclip_result_free(result);
}

/* Matches until all is over, from the article on that the number says, and makes the number how many were matched. */
static void *make_matches(void *given) {
    size_t *number = given, first = *number, matched = 0;
    for (; !atomic_load(&over); matched++) match(&articles[(first + matched) % article_count]);
    *number = matched;
    return NULL;
}

/* Registers so many queries a second. */
static void *make_changes(void *a_second) {
    double start = seconds_now(), each = 1.0 / *(int *)a_second;
    for (size_t changes = 0; !atomic_load(&over); changes++) {
        enter(&queries[changes % query_count]);
        wait_for(start + (double)changes * each - seconds_now());
    }
    return NULL;
}

/* How many articles these threads match in a second, and the memory before they end. */
static double matches_a_second(size_t threads, int seconds, int changes_a_second, size_t *kib) {
    pthread_t matching[MOST_THREADS], changing;
    size_t number[MOST_THREADS], matched = 0;
    double start = seconds_now();
    for (size_t thread = 0; thread < threads; thread++) {
        number[thread] = thread * article_count / threads;
        if (pthread_create(&matching[thread], NULL, make_matches, &number[thread]) != 0) exit(1);
    }
    if (changes_a_second > 0 && pthread_create(&changing, NULL, make_changes, &changes_a_second) != 0) exit(1);
    wait_for(seconds);
    *kib = resident_kib();
    atomic_store(&over, true);
    for (size_t thread = 0; thread < threads; thread++) {
        pthread_join(matching[thread], NULL);
        matched += number[thread];
    }
    if (changes_a_second > 0) pthread_join(changing, NULL);
    return (double)matched / (seconds_now() - start);
}

int main(int count, char **words) {
    if (count != 4 || atoi(words[1]) > MOST_THREADS) return 2;
    size_t threads = (size_t)atoi(words[1]);
    read_input();
    size_t before = resident_kib(), after;
    if (threads == 0) expect(pressclip_open(false, &engine));
    else expect(pressclip_shared_open(false, &shared));
    for (size_t place = 0; place < query_count; place++) enter(&queries[place]);
    double rate = matches_a_second(threads == 0 ? 1 : threads, atoi(words[2]), atoi(words[3]), &after);
    printf("%.0f %zu\n", rate, after - before);
    pressclip_shared_close(&shared);
    pressclip_close(&engine);
    return 0;
}
