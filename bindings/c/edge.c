/* Between C and the calls that the crate clip_c exports: it looks at pointers and lengths. */
#define _POSIX_C_SOURCE 200809L

#include "edge.h"

#include <stdlib.h>
#include <time.h>

/* An export that answers a text by bytes, which are kept, and says how many these are. */
typedef uint32_t answerer(slot *kept, const unsigned char *text, size_t length, size_t *size);

const pressclip_field edge_no_field = {"", 0, "", 0};

int edge_text_status(const char *text, size_t length) {
    if (text == NULL) return PRESSCLIP_NULL;
    return length > PTRDIFF_MAX ? PRESSCLIP_SIZE : PRESSCLIP_OK;
}

const char *pressclip_version(void) { return PRESSCLIP_VERSION; }

const char *pressclip_word(int status) {
    static const char *const words[] = {"ok",   "limit", "query", "listener", "full", "memory",
                                        "utf8", "feed",  "lines", "closed",   "null", "size",
                                        "order"};
    return status >= 0 && status < 13 ? words[status] : "unknown";
}

int pressclip_open(bool hits, pressclip **engine) {
    if (engine == NULL) return PRESSCLIP_NULL;
    pressclip *made = malloc(sizeof *made + clip_size());
    if (made == NULL) return PRESSCLIP_NO_MEMORY;
    made->kept.at = (unsigned char *)made->room;
    clip_open(&made->kept, hits);
    *engine = made;
    return PRESSCLIP_OK;
}

void pressclip_close(pressclip **engine) {
    if (engine == NULL || *engine == NULL) return;
    clip_close(&(*engine)->kept);
    free(*engine);
    *engine = NULL;
}

unsigned char *edge_taken(slot *kept, size_t size) {
    unsigned char *room = malloc(size == 0 ? 1 : size);
    if (room == NULL) return NULL;
    if (clip_take(kept, room, size)) return room;
    free(room);
    return NULL;
}

/* Hands out what an engine answers to a text that may be handed on. */
static int answered(pressclip *engine, answerer *call, const char *text, size_t length, char **reply,
                    size_t *reply_length) {
    size_t size = 0;
    int status = (int)call(&engine->kept, edge_bytes(text), length, &size);
    if (status != PRESSCLIP_OK) return status;
    unsigned char *bytes = edge_taken(&engine->kept, size);
    if (bytes == NULL) return PRESSCLIP_NO_MEMORY;
    *reply = (char *)bytes;
    *reply_length = size;
    return PRESSCLIP_OK;
}

/* Hands out what an engine that is there for this call alone answers to a text. */
static int answered_alone(answerer *call, const char *text, size_t length, char **reply, size_t *reply_length) {
    pressclip *engine;
    if (reply == NULL || reply_length == NULL) return PRESSCLIP_NULL;
    int status = edge_text_status(text, length);
    if (status == PRESSCLIP_OK) status = pressclip_open(false, &engine);
    if (status != PRESSCLIP_OK) return status;
    status = answered(engine, call, text, length, reply, reply_length);
    pressclip_close(&engine);
    return status;
}

int pressclip_line(pressclip *engine, const char *line, size_t length, char **reply, size_t *reply_length) {
    if (engine == NULL) return PRESSCLIP_CLOSED;
    if (reply == NULL || reply_length == NULL) return PRESSCLIP_NULL;
    int status = edge_text_status(line, length);
    return status == PRESSCLIP_OK ? answered(engine, clip_line, line, length, reply, reply_length) : status;
}

int pressclip_explain(const char *query, size_t length, char **reply, size_t *reply_length) {
    return answered_alone(clip_explain, query, length, reply, reply_length);
}

int pressclip_explain_line(const char *line, size_t length, char **reply, size_t *reply_length) {
    return answered_alone(clip_explain_line, line, length, reply, reply_length);
}

int pressclip_words(const char *text, size_t length, uint64_t **spans, size_t *count) {
    char *bytes = NULL;
    size_t size = 0;
    if (spans == NULL || count == NULL) return PRESSCLIP_NULL;
    int status = answered_alone(clip_words, text, length, &bytes, &size);
    if (status != PRESSCLIP_OK) return status;
    /* Each number is put where its bytes were. */
    uint64_t *numbers = (uint64_t *)(void *)bytes;
    for (size_t place = 0; place < size / 8; place++) numbers[place] = edge_number(edge_bytes(bytes + 8 * place));
    *spans = numbers;
    *count = size / 16;
    return PRESSCLIP_OK;
}

void pressclip_free(void *answer) { free(answer); }

int pressclip_register(pressclip *engine, const char *id, size_t id_length, const char *query, size_t query_length,
                       const char *listener, size_t listener_length) {
    if (engine == NULL) return PRESSCLIP_CLOSED;
    int status = edge_text_status(id, id_length);
    if (status == PRESSCLIP_OK) status = edge_text_status(query, query_length);
    if (status == PRESSCLIP_OK && listener != NULL) status = edge_text_status(listener, listener_length);
    if (status != PRESSCLIP_OK) return status;
    bool has_listener = listener != NULL;
    return (int)clip_register(&engine->kept, edge_bytes(id), id_length, edge_bytes(query), query_length, has_listener,
                              edge_bytes(has_listener ? listener : ""), has_listener ? listener_length : 0);
}

/* Whether a query may be handed on, and why not. */
static int listing_status(const pressclip_listing *listing) {
    int status = edge_text_status(listing->id, listing->id_length);
    if (status == PRESSCLIP_OK) status = edge_text_status(listing->query, listing->query_length);
    if (status == PRESSCLIP_OK && listing->listener != NULL)
        status = edge_text_status(listing->listener, listing->listener_length);
    return status;
}

/* The query as the crate takes it. */
static listed listed_of(const pressclip_listing *listing) {
    bool has_listener = listing->listener != NULL;
    return (listed){edge_bytes(listing->id),
                    listing->id_length,
                    edge_bytes(listing->query),
                    listing->query_length,
                    edge_bytes(has_listener ? listing->listener : ""),
                    has_listener ? listing->listener_length : 0,
                    has_listener};
}

int pressclip_register_many(pressclip *engine, const pressclip_listing *listings, size_t count, size_t *which) {
    if (engine == NULL) return PRESSCLIP_CLOSED;
    if (which == NULL || (count != 0 && listings == NULL)) return PRESSCLIP_NULL;
    if (count > EDGE_MOST) return PRESSCLIP_SIZE;
    for (size_t place = 0; place < count; place++) {
        int status = listing_status(&listings[place]);
        if (status == PRESSCLIP_OK) continue;
        *which = place;
        return status;
    }
    listed *queries = malloc((count + 1) * sizeof *queries);
    if (queries == NULL) return PRESSCLIP_NO_MEMORY;
    for (size_t place = 0; place < count; place++) queries[place] = listed_of(&listings[place]);
    uint64_t refused = 0;
    int status = (int)clip_register_many(&engine->kept, queries, count, &refused);
    free(queries);
    if (status != PRESSCLIP_OK && status != PRESSCLIP_NO_MEMORY) *which = (size_t)refused;
    return status;
}

int pressclip_delete(pressclip *engine, const char *id, size_t id_length, uint64_t *deleted) {
    if (engine == NULL) return PRESSCLIP_CLOSED;
    if (deleted == NULL) return PRESSCLIP_NULL;
    int status = edge_text_status(id, id_length);
    if (status != PRESSCLIP_OK) return status;
    return (int)clip_delete(&engine->kept, edge_bytes(id), id_length, deleted);
}

int pressclip_clear(pressclip *engine) {
    return engine == NULL ? PRESSCLIP_CLOSED : (int)clip_clear(&engine->kept);
}

int pressclip_purge(pressclip *engine) {
    return engine == NULL ? PRESSCLIP_CLOSED : (int)clip_purge(&engine->kept);
}

int edge_show(slot *kept, const char *id, size_t id_length, char **query, size_t *query_length) {
    int status = edge_text_status(id, id_length);
    if (status != PRESSCLIP_OK) return status;
    bool has = false;
    size_t size = 0;
    status = (int)clip_show(kept, edge_bytes(id), id_length, &has, &size);
    if (status != PRESSCLIP_OK) return status;
    char *text = has ? (char *)edge_taken(kept, size) : NULL;
    if (has && text == NULL) return PRESSCLIP_NO_MEMORY;
    *query = text;
    *query_length = has ? size : 0;
    return PRESSCLIP_OK;
}

int pressclip_show(pressclip *engine, const char *id, size_t id_length, char **query, size_t *query_length) {
    if (engine == NULL) return PRESSCLIP_CLOSED;
    if (query == NULL || query_length == NULL) return PRESSCLIP_NULL;
    return edge_show(&engine->kept, id, id_length, query, query_length);
}

int pressclip_count(pressclip *engine, uint64_t *count) {
    if (engine == NULL) return PRESSCLIP_CLOSED;
    if (count == NULL) return PRESSCLIP_NULL;
    return (int)clip_count(&engine->kept, count);
}

int edge_fields_status(const pressclip_field *fields, size_t count) {
    if (count > EDGE_MOST) return PRESSCLIP_SIZE;
    if (count != 0 && fields == NULL) return PRESSCLIP_NULL;
    for (size_t place = 0; place < count; place++) {
        int status = edge_text_status(fields[place].name, fields[place].name_length);
        if (status == PRESSCLIP_OK) status = edge_text_status(fields[place].text, fields[place].text_length);
        if (status != PRESSCLIP_OK) return status;
    }
    return PRESSCLIP_OK;
}

int pressclip_near(const pressclip_field *fields, size_t count, const pressclip_pair *pair, bool *near) {
    bool answer = false;
    if (pair == NULL || near == NULL) return PRESSCLIP_NULL;
    int status = edge_fields_status(fields, count);
    if (status == PRESSCLIP_OK) status = edge_text_status(pair->first, pair->first_length);
    if (status == PRESSCLIP_OK) status = edge_text_status(pair->second, pair->second_length);
    if (status != PRESSCLIP_OK) return status;
    status = (int)clip_near(count == 0 ? &edge_no_field : fields, count, pair, &answer);
    if (status == PRESSCLIP_OK) *near = answer;
    return status;
}

/* Nanoseconds of a clock that only goes on. */
static uint64_t now(void) {
    struct timespec time;
    clock_gettime(CLOCK_MONOTONIC, &time);
    return (uint64_t)time.tv_sec * 1000000000 + (uint64_t)time.tv_nsec;
}

int edge_match(slot *kept, const char *id, size_t id_length, const pressclip_field *fields, size_t count,
               pressclip_result **result) {
    int status = edge_text_status(id, id_length);
    if (status == PRESSCLIP_OK) status = edge_fields_status(fields, count);
    if (status != PRESSCLIP_OK) return status;
    size_t size = 0;
    uint64_t start = now();
    status = (int)clip_match(kept, edge_bytes(id), id_length, count == 0 ? &edge_no_field : fields, count, &size);
    uint64_t end = now();
    if (status != PRESSCLIP_OK) return status;
    unsigned char *bytes = edge_taken(kept, size);
    pressclip_result *made = bytes == NULL ? NULL : edge_result(bytes, fields, count);
    if (made == NULL) return PRESSCLIP_NO_MEMORY;
    made->nanoseconds = end - start;
    *result = made;
    return PRESSCLIP_OK;
}

int edge_match_many(slot *kept, const pressclip_article *articles, size_t count, pressclip_result **results,
                    size_t *which) {
    if (which == NULL || (count != 0 && (articles == NULL || results == NULL))) return PRESSCLIP_NULL;
    if (count > EDGE_MOST) return PRESSCLIP_SIZE;
    pressclip_result **made = malloc((count + 1) * sizeof *made);
    if (made == NULL) return PRESSCLIP_NO_MEMORY;
    int status = PRESSCLIP_OK;
    size_t place = 0;
    for (; place < count; place++) {
        const pressclip_article *article = &articles[place];
        status = edge_match(kept, article->id, article->id_length, article->fields, article->count, &made[place]);
        if (status != PRESSCLIP_OK) break;
    }
    if (status != PRESSCLIP_OK) {
        *which = place;
        while (place-- > 0) pressclip_result_free(made[place]);
    } else {
        for (place = 0; place < count; place++) results[place] = made[place];
    }
    free(made);
    return status;
}

int pressclip_match(pressclip *engine, const char *id, size_t id_length, const pressclip_field *fields, size_t count,
                    pressclip_result **result) {
    if (engine == NULL) return PRESSCLIP_CLOSED;
    if (result == NULL) return PRESSCLIP_NULL;
    return edge_match(&engine->kept, id, id_length, fields, count, result);
}

int pressclip_match_many(pressclip *engine, const pressclip_article *articles, size_t count,
                         pressclip_result **results, size_t *which) {
    if (engine == NULL) return PRESSCLIP_CLOSED;
    return edge_match_many(&engine->kept, articles, count, results, which);
}
