/* pressclip as a library: register queries once, then hand in articles, and read which queries hold of each.
 *
 * Build it by ./build and then bindings/c/build, and link with bindings/c/libpressclip.a (bindings/c/libpressclip.so is
 * the same for languages that load libraries). make -C bindings/c install puts it where compilers and pkg-config look.
 *
 * Texts are bytes in UTF-8 with their length; they need no byte 0 at the end, and may have some within. What a call is
 * handed is the caller's, is read in the call alone, and may be changed or freed after it. Each call answers one of the
 * numbers of pressclip_status, 0 where it went well. After any other number the engine is as it was, and nothing was
 * written through the pointers, but for the place of what was refused among many.
 *
 * Of an engine, a snapshot or a result, one thread at a time is in a call. They may go from thread to thread, where one
 * thread's calls are over before those of the next begin, and different ones know nothing of each other: each thread
 * may have a snapshot of its own of one engine. A pressclip_shared alone takes calls of any number of threads at once.
 * Its changes wait for each other; its matches wait for nothing but the moment in which their thread takes a new
 * snapshot.
 *
 * What the library can't check: that a pointer points where the length says, that what is handed in was opened here and
 * is not closed, and that threads keep to these rules. No call is made from a signal handler, or in the child of a fork
 * from a process with threads. malloc, realloc and free are those of the C library. */
#ifndef PRESSCLIP_H
#define PRESSCLIP_H

#include <stdbool.h>
#include <stddef.h>
#include <stdint.h>

#ifdef __cplusplus
extern "C" {
#endif

/* The version of this header, as the file VERSION has it; pressclip_version tells that of the library. */
#define PRESSCLIP_VERSION "1.0.0"
#define PRESSCLIP_VERSION_MAJOR 1
#define PRESSCLIP_VERSION_MINOR 0
#define PRESSCLIP_VERSION_PATCH 0

/* What a call comes to. pressclip_word gives the word. */
typedef enum pressclip_status {
    PRESSCLIP_OK = 0,
    PRESSCLIP_LIMIT = 1,     /* limit: an id is not 1 to 256 bytes; over 16 fields; a bad field name, or one twice; over
                                1,024 queries in one call */
    PRESSCLIP_QUERY = 2,     /* query: the text is no query; pressclip_explain says why */
    PRESSCLIP_LISTENER = 3,  /* listener: neither mail nor feed */
    PRESSCLIP_FULL = 4,      /* full: over 1,000,000 queries, or 4,294,967,295 accepted changes */
    PRESSCLIP_NO_MEMORY = 5, /* memory: an allocation failed */
    PRESSCLIP_UTF8 = 6,      /* utf8: a text is not UTF-8 */
    PRESSCLIP_FEED = 7,      /* feed: a line has a line feed */
    PRESSCLIP_LINES = 8,     /* lines: 18,446,744,073,709,551,615 lines were answered */
    PRESSCLIP_CLOSED = 9,    /* closed: the engine, snapshot or registry is a null pointer, as its end leaves it */
    PRESSCLIP_NULL = 10,     /* null: another pointer is null that must not be */
    PRESSCLIP_SIZE = 11,     /* size: a length is over PTRDIFF_MAX, or a count over 1,000,000 */
    PRESSCLIP_ORDER = 12     /* order: the ids of a part are not in their byte order */
} pressclip_status;

/* An engine. */
typedef struct pressclip pressclip;

/* A snapshot: what stood registered at one moment, with words of its own. No later change shows in it. */
typedef struct pressclip_view pressclip_view;

/* One registry for any number of threads. */
typedef struct pressclip_shared pressclip_shared;

/* What was found of an article: the ids of the queries that hold of it, and where. */
typedef struct pressclip_result pressclip_result;

/* A field of an article. */
typedef struct pressclip_field {
    const char *name;
    size_t name_length;
    const char *text;
    size_t text_length;
} pressclip_field;

/* A query to register among others: its id, its text, and its listener, or null where it has none. */
typedef struct pressclip_listing {
    const char *id;
    size_t id_length;
    const char *query;
    size_t query_length;
    const char *listener;
    size_t listener_length;
} pressclip_listing;

/* An article to match among others: its id, and count fields, which may be null where count is 0. */
typedef struct pressclip_article {
    const char *id;
    size_t id_length;
    const pressclip_field *fields;
    size_t count;
} pressclip_article;

/* Two queries, each of which is a word, a phrase or a prefix, and how near they are to be. */
typedef struct pressclip_pair {
    const char *first;
    size_t first_length;
    const char *second;
    size_t second_length;
    size_t between; /* The most words between them; 0 where they are to be next to each other. */
    bool ordered;   /* Whether the first has to be before the second. */
} pressclip_pair;

/* All that was found of an article, in arrays. The texts of ids lie one after another, each with a byte 0 behind it,
 * and id_at has where each begins, and last where they end: the id n is the id_at[n + 1] - id_at[n] - 1 bytes from
 * ids + id_at[n]. Names of fields lie in the same way. The hits of the id n have the numbers from hit_at[n] on, below
 * hit_at[n + 1]. The hit h is the word hit_position[h] of the field with the name hit_name[h]. All count from 0, and no
 * array is null. */
typedef struct pressclip_found {
    size_t count;                 /* How many ids there are. */
    const char *ids;              /* Their texts, in the byte order of ids. */
    const uint64_t *id_at;        /* count + 1 places. */
    const uint64_t *hit_at;       /* count + 1 numbers of hits. */
    size_t hit_count;             /* How many hits there are: of an id by field name and then by position. */
    const uint64_t *hit_name;     /* hit_count numbers of names. */
    const uint64_t *hit_position; /* hit_count numbers of words, from 0, as pressclip_words counts them. */
    size_t name_count;            /* How many fields have a hit. */
    const char *names;            /* Their names, once each, in no promised order. */
    const uint64_t *name_at;      /* name_count + 1 places. */
} pressclip_found;

/* The version of the library, as "1.0.0". Not to be freed. */
const char *pressclip_version(void);

/* The word for a status, as in the list above; "ok" for 0, and "unknown" for what is none. Not to be freed. */
const char *pressclip_word(int status);

/* Opens an engine with no query. Where hits is true, replies and results show where in an article each query holds.
 * The engine is the caller's, who ends it by pressclip_close. It works on the thread that calls it, and starts none.
 * PRESSCLIP_NULL, PRESSCLIP_NO_MEMORY. */
int pressclip_open(bool hits, pressclip **engine);

/* Ends the engine and makes the pointer null. Results that were read from it stay. A null pointer, or a pointer to one,
 * is let be. */
void pressclip_close(pressclip **engine);

/* Answers one line of the protocol, without its line feed: the reply with its line feed, or no bytes for a blank line.
 * It is the engine's next line, counted from 1, and sees what all lines and calls before it registered. Refusals by the
 * protocol are replies, and PRESSCLIP_OK. The reply is the caller's, who frees it by pressclip_free.
 * PRESSCLIP_CLOSED, PRESSCLIP_NULL, PRESSCLIP_SIZE, PRESSCLIP_FEED, PRESSCLIP_LINES, PRESSCLIP_NO_MEMORY; a line that
 * was not answered is not counted. The one exception of this library: where the reply itself has no room, the line was
 * taken and counted, and PRESSCLIP_NO_MEMORY is answered in the place of its reply. */
int pressclip_line(pressclip *engine, const char *line, size_t length, char **reply, size_t *reply_length);

/* Frees a reply, a query's text, or the spans of pressclip_words. A null pointer is let be. */
void pressclip_free(void *answer);

/* Registers a query under an id, in the place of the one with this id, for the listener mail or feed, or for none where
 * listener is null.
 * PRESSCLIP_CLOSED, PRESSCLIP_NULL, PRESSCLIP_SIZE, PRESSCLIP_UTF8, PRESSCLIP_LIMIT, PRESSCLIP_QUERY,
 * PRESSCLIP_LISTENER, PRESSCLIP_FULL, PRESSCLIP_NO_MEMORY. */
int pressclip_register(pressclip *engine, const char *id, size_t id_length, const char *query, size_t query_length,
                       const char *listener, size_t listener_length);

/* Registers queries in order, each in the place of the one with its id, in one change: all or none. Where one is
 * refused, which is its place from 0, and the status is its own: first of all texts that may not be handed on, then of
 * texts that are not UTF-8, and then for what pressclip_register would refuse it by itself. Where there is no room for
 * all of them the status is PRESSCLIP_FULL and which is count; over 1,024 of them are PRESSCLIP_LIMIT, and which is
 * 1,024. listings may be null where count is 0.
 * PRESSCLIP_CLOSED, PRESSCLIP_NULL, PRESSCLIP_SIZE, PRESSCLIP_UTF8, PRESSCLIP_LIMIT, PRESSCLIP_QUERY,
 * PRESSCLIP_LISTENER, PRESSCLIP_FULL, PRESSCLIP_NO_MEMORY. */
int pressclip_register_many(pressclip *engine, const pressclip_listing *listings, size_t count, size_t *which);

/* Takes the query with this id out; deleted is 1 then, and 0 where none has the id.
 * PRESSCLIP_CLOSED, PRESSCLIP_NULL, PRESSCLIP_SIZE, PRESSCLIP_UTF8, PRESSCLIP_LIMIT, PRESSCLIP_FULL,
 * PRESSCLIP_NO_MEMORY. */
int pressclip_delete(pressclip *engine, const char *id, size_t id_length, uint64_t *deleted);

/* Takes all queries out. PRESSCLIP_CLOSED, PRESSCLIP_FULL, PRESSCLIP_NO_MEMORY. */
int pressclip_clear(pressclip *engine);

/* Gives back the memory of queries that were replaced or taken out, which else waits for later changes. What is
 * registered stays. PRESSCLIP_CLOSED, PRESSCLIP_NO_MEMORY. */
int pressclip_purge(pressclip *engine);

/* Gives the text of the query that is registered under an id, as it was handed in; query is null where none has the id.
 * The text is the caller's, who frees it by pressclip_free.
 * PRESSCLIP_CLOSED, PRESSCLIP_NULL, PRESSCLIP_SIZE, PRESSCLIP_UTF8, PRESSCLIP_LIMIT, PRESSCLIP_NO_MEMORY. */
int pressclip_show(pressclip *engine, const char *id, size_t id_length, char **query, size_t *query_length);

/* How many queries are registered. PRESSCLIP_CLOSED, PRESSCLIP_NULL, PRESSCLIP_NO_MEMORY. */
int pressclip_count(pressclip *engine, uint64_t *count);

/* Matches an article of these fields, and gives what was found. No listener hears of it, and it is no line. fields may
 * be null where count is 0. The result is the caller's, who frees it by pressclip_result_free.
 * PRESSCLIP_CLOSED, PRESSCLIP_NULL, PRESSCLIP_SIZE, PRESSCLIP_UTF8, PRESSCLIP_LIMIT, PRESSCLIP_NO_MEMORY. */
int pressclip_match(pressclip *engine, const char *id, size_t id_length, const pressclip_field *fields, size_t count,
                    pressclip_result **result);

/* Matches count articles, all by the same queries, and gives a result for each, which the caller frees by
 * pressclip_result_free: all or none. Where one is refused, which is its place from 0, and the status is its own. The
 * arrays may be null where count is 0.
 * PRESSCLIP_CLOSED, PRESSCLIP_NULL, PRESSCLIP_SIZE, PRESSCLIP_UTF8, PRESSCLIP_LIMIT, PRESSCLIP_NO_MEMORY. */
int pressclip_match_many(pressclip *engine, const pressclip_article *articles, size_t count, pressclip_result **results,
                         size_t *which);

/* How many queries hold, or how many ids pressclip_snapshot_ids gave. 0 for a null pointer. */
size_t pressclip_result_count(const pressclip_result *result);

/* How many queries were asked whether they hold: those that have a word, or the start of a word, in common with the
 * article by which they are looked up. 0 for a null pointer, and where the result is of no match. */
uint64_t pressclip_result_asked(const pressclip_result *result);

/* How many nanoseconds the match took, from the reading of the article to what was found. 0 for a null pointer, and
 * where the result is of no match. */
uint64_t pressclip_result_nanoseconds(const pressclip_result *result);

/* Gives the next id, in the byte order of ids, and whether there is one. The id lies in the result, with no byte 0
 * after it, as long as that is not freed. */
bool pressclip_next_id(pressclip_result *result, const char **id, size_t *length);

/* Gives the next hit of the id that was given last, by field name and then by position, and whether there is one: the
 * name of the field, which lies in the result, and which of its words it is, from 0, as pressclip_words counts them.
 * There are none where the engine shows no hits. */
bool pressclip_next_hit(pressclip_result *result, const char **field, size_t *length, uint64_t *position);

/* Gives all ids and hits of a result at once, and leaves what pressclip_next_id and pressclip_next_hit give next. It is
 * put together by the first call, lies in the result, and stays as long as that is not freed.
 * PRESSCLIP_NULL, PRESSCLIP_NO_MEMORY. */
int pressclip_result_all(pressclip_result *result, const pressclip_found **found);

/* Frees a result, and all that lies in it. A null pointer is let be. */
void pressclip_result_free(pressclip_result *result);

/* Gathers what count engines found of one article, where each query is registered in one of them, as one engine with
 * all the queries finds it: the ids of all in their byte order, with their hits. How many queries were asked, and how
 * many nanoseconds it took, are the sums of the parts'. Each part may come from a thread of its own. They stay as they
 * are and the caller's, whose the result is too. An id that several parts have is there for each, in the order of the
 * parts. parts may be null where count is 0.
 * PRESSCLIP_NULL, PRESSCLIP_SIZE, PRESSCLIP_LIMIT where 64 bits can't count the queries that were asked,
 * PRESSCLIP_NO_MEMORY. */
int pressclip_gather(const pressclip_result *const *parts, size_t count, pressclip_result **whole);

/* Puts the ids of count parts in order, as pressclip_gather does, for those who keep what goes with them. Each part has
 * its ids in their byte order, and counts has how many; lengths has how long each is, one part after another, and ids
 * their texts with nothing between. Each place of order, which has as many as there are ids, is given which id stands
 * there, counted from 0 through all parts. ids may be any bytes. The pointers may be null where there is nothing.
 * PRESSCLIP_NULL, PRESSCLIP_SIZE, PRESSCLIP_ORDER, PRESSCLIP_NO_MEMORY. */
int pressclip_gather_ids(const char *ids, const size_t *lengths, const size_t *counts, size_t count, uint64_t *order);

/* Takes a snapshot of an engine, in constant time. What stands registered in it stays, whatever is changed in the
 * engine later, also after its end. It shows hits where the engine does. It holds the memory of what was replaced or
 * taken out since, until it is freed by pressclip_snapshot_free.
 * PRESSCLIP_CLOSED, PRESSCLIP_NULL, PRESSCLIP_NO_MEMORY. */
int pressclip_snapshot(pressclip *engine, pressclip_view **view);

/* Frees a snapshot and makes the pointer null. Results that were read from it stay. A null pointer, or a pointer to
 * one, is let be. */
void pressclip_snapshot_free(pressclip_view **view);

/* Matches an article as pressclip_match does, by the queries of the snapshot.
 * PRESSCLIP_CLOSED, PRESSCLIP_NULL, PRESSCLIP_SIZE, PRESSCLIP_UTF8, PRESSCLIP_LIMIT, PRESSCLIP_NO_MEMORY. */
int pressclip_snapshot_match(pressclip_view *view, const char *id, size_t id_length, const pressclip_field *fields,
                             size_t count, pressclip_result **result);

/* Matches articles as pressclip_match_many does, by the queries of the snapshot.
 * PRESSCLIP_CLOSED, PRESSCLIP_NULL, PRESSCLIP_SIZE, PRESSCLIP_UTF8, PRESSCLIP_LIMIT, PRESSCLIP_NO_MEMORY. */
int pressclip_snapshot_match_many(pressclip_view *view, const pressclip_article *articles, size_t count,
                                  pressclip_result **results, size_t *which);

/* How many queries were registered. PRESSCLIP_CLOSED, PRESSCLIP_NULL, PRESSCLIP_NO_MEMORY. */
int pressclip_snapshot_count(pressclip_view *view, uint64_t *count);

/* Gives the text of a query as pressclip_show does, of those of the snapshot.
 * PRESSCLIP_CLOSED, PRESSCLIP_NULL, PRESSCLIP_SIZE, PRESSCLIP_UTF8, PRESSCLIP_LIMIT, PRESSCLIP_NO_MEMORY. */
int pressclip_snapshot_show(pressclip_view *view, const char *id, size_t id_length, char **query,
                            size_t *query_length);

/* Gives the ids of the snapshot that come after a text in their byte order, and most of them at most; from the first on
 * where after is null. They are read like a result without hits, which the caller frees by pressclip_result_free. The
 * first of these calls for a snapshot sorts its ids and keeps them in it; each costs a search then, and a step for each
 * id that it gives.
 * PRESSCLIP_CLOSED, PRESSCLIP_NULL, PRESSCLIP_SIZE, PRESSCLIP_NO_MEMORY. */
int pressclip_snapshot_ids(pressclip_view *view, const char *after, size_t after_length, size_t most,
                           pressclip_result **ids);

/* Opens a registry with no query for any number of threads, as pressclip_open opens an engine. It starts no thread.
 * Each thread that matches keeps a snapshot of what stood at its last match, until it matches anew or ends, or the
 * registry is closed. PRESSCLIP_NULL, PRESSCLIP_NO_MEMORY. */
int pressclip_shared_open(bool hits, pressclip_shared **shared);

/* Ends the registry with the snapshots that threads keep of it, and makes the pointer null. The caller sees to it that
 * no other thread is in a call of it or begins one; threads that matched may live on, and may end at the same time.
 * Results and snapshots that were handed out stay. A null pointer, or a pointer to one, is let be. */
void pressclip_shared_close(pressclip_shared **shared);

/* Registers a query as pressclip_register does.
 * PRESSCLIP_CLOSED, PRESSCLIP_NULL, PRESSCLIP_SIZE, PRESSCLIP_UTF8, PRESSCLIP_LIMIT, PRESSCLIP_QUERY,
 * PRESSCLIP_LISTENER, PRESSCLIP_FULL, PRESSCLIP_NO_MEMORY. */
int pressclip_shared_register(pressclip_shared *shared, const char *id, size_t id_length, const char *query,
                              size_t query_length, const char *listener, size_t listener_length);

/* Registers queries as pressclip_register_many does.
 * PRESSCLIP_CLOSED, PRESSCLIP_NULL, PRESSCLIP_SIZE, PRESSCLIP_UTF8, PRESSCLIP_LIMIT, PRESSCLIP_QUERY,
 * PRESSCLIP_LISTENER, PRESSCLIP_FULL, PRESSCLIP_NO_MEMORY. */
int pressclip_shared_register_many(pressclip_shared *shared, const pressclip_listing *listings, size_t count,
                                   size_t *which);

/* Takes a query out as pressclip_delete does.
 * PRESSCLIP_CLOSED, PRESSCLIP_NULL, PRESSCLIP_SIZE, PRESSCLIP_UTF8, PRESSCLIP_LIMIT, PRESSCLIP_FULL,
 * PRESSCLIP_NO_MEMORY. */
int pressclip_shared_delete(pressclip_shared *shared, const char *id, size_t id_length, uint64_t *deleted);

/* Takes all queries out. PRESSCLIP_CLOSED, PRESSCLIP_FULL, PRESSCLIP_NO_MEMORY. */
int pressclip_shared_clear(pressclip_shared *shared);

/* Gives memory back as pressclip_purge does; what snapshots hold stays until these are freed.
 * PRESSCLIP_CLOSED, PRESSCLIP_NO_MEMORY. */
int pressclip_shared_purge(pressclip_shared *shared);

/* How many queries are registered. PRESSCLIP_CLOSED, PRESSCLIP_NULL, PRESSCLIP_NO_MEMORY. */
int pressclip_shared_count(pressclip_shared *shared, uint64_t *count);

/* Gives the text of a query as pressclip_show does.
 * PRESSCLIP_CLOSED, PRESSCLIP_NULL, PRESSCLIP_SIZE, PRESSCLIP_UTF8, PRESSCLIP_LIMIT, PRESSCLIP_NO_MEMORY. */
int pressclip_shared_show(pressclip_shared *shared, const char *id, size_t id_length, char **query,
                          size_t *query_length);

/* Answers a line as pressclip_line does. The lines of all threads are counted together, and changes wait for a line
 * also where it matches.
 * PRESSCLIP_CLOSED, PRESSCLIP_NULL, PRESSCLIP_SIZE, PRESSCLIP_FEED, PRESSCLIP_LINES, PRESSCLIP_NO_MEMORY. */
int pressclip_shared_line(pressclip_shared *shared, const char *line, size_t length, char **reply,
                          size_t *reply_length);

/* Takes a snapshot as pressclip_snapshot does. PRESSCLIP_CLOSED, PRESSCLIP_NULL, PRESSCLIP_NO_MEMORY. */
int pressclip_shared_snapshot(pressclip_shared *shared, pressclip_view **view);

/* Matches an article as pressclip_match does, by what is registered when the call begins or later.
 * PRESSCLIP_CLOSED, PRESSCLIP_NULL, PRESSCLIP_SIZE, PRESSCLIP_UTF8, PRESSCLIP_LIMIT, PRESSCLIP_NO_MEMORY. */
int pressclip_shared_match(pressclip_shared *shared, const char *id, size_t id_length, const pressclip_field *fields,
                           size_t count, pressclip_result **result);

/* Matches articles as pressclip_match_many does, by what is registered when the call begins or later.
 * PRESSCLIP_CLOSED, PRESSCLIP_NULL, PRESSCLIP_SIZE, PRESSCLIP_UTF8, PRESSCLIP_LIMIT, PRESSCLIP_NO_MEMORY. */
int pressclip_shared_match_many(pressclip_shared *shared, const pressclip_article *articles, size_t count,
                                pressclip_result **results, size_t *which);

/* Tells how a text is read as a query, or its fault and the byte at which it is: the JSON that pressclip-explain gives
 * to {"query":..}, without a line feed. docs/EXPLAIN.md has its members. No engine is needed. The reply is the
 * caller's, who frees it by pressclip_free.
 * PRESSCLIP_NULL, PRESSCLIP_SIZE, PRESSCLIP_UTF8, PRESSCLIP_NO_MEMORY. */
int pressclip_explain(const char *query, size_t length, char **reply, size_t *reply_length);

/* Tells what a line of the protocol, without its line feed, would be refused for, whatever is registered: the JSON that
 * pressclip-explain gives to {"line":..}, without a line feed. The line may be any bytes. No engine is needed. The
 * reply is the caller's, who frees it by pressclip_free.
 * PRESSCLIP_NULL, PRESSCLIP_SIZE, PRESSCLIP_FEED, PRESSCLIP_NO_MEMORY. */
int pressclip_explain_line(const char *line, size_t length, char **reply, size_t *reply_length);

/* Tells where the words of a text stand: how many there are, and for each, in order, two numbers, its first byte and
 * the byte behind its last one. All count from 0, and the n-th word is the one at position n of a hit. No engine is
 * needed. The spans are the caller's, who frees them by pressclip_free, also where there is no word.
 * PRESSCLIP_NULL, PRESSCLIP_SIZE, PRESSCLIP_UTF8, PRESSCLIP_NO_MEMORY. */
int pressclip_words(const char *text, size_t length, uint64_t **spans, size_t *count);

/* Tells whether two queries are near in an article of these fields, as Lucene's span near query: in one field a place
 * of the first and a place of the second have no word in common, and at most pair->between words stand between the end
 * of the one and the start of the other. The query by which both have to hold, +(first) +(second), holds of each such
 * article. fields may be null where count is 0. Where a query is no word, phrase or prefix, the status is that of a
 * text that is no query. No engine is needed.
 * PRESSCLIP_NULL, PRESSCLIP_SIZE, PRESSCLIP_UTF8, PRESSCLIP_LIMIT, PRESSCLIP_QUERY, PRESSCLIP_NO_MEMORY. */
int pressclip_near(const pressclip_field *fields, size_t count, const pressclip_pair *pair, bool *near);

#ifdef __cplusplus
}
#endif
#endif
