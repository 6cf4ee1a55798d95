/* What the files of this folder share: what lies behind the types of pressclip.h, and the calls that the crate clip_c
 * exports. */
#ifndef PRESSCLIP_EDGE_H
#define PRESSCLIP_EDGE_H

#include "pressclip.h"

/* The slot of crates/clip_engine/src/slot.rt: the address of room that only the crates read and write. */
typedef struct slot {
    unsigned char *at;
} slot;

struct pressclip {
    slot kept;
    max_align_t room[];
};

/* A snapshot is kept as an engine is, and no call changes it. ids is null until they are asked for: their bytes as the
 * crate answers them, and place has where each begins. */
struct pressclip_view {
    slot kept;
    unsigned char *ids;
    size_t *place;
    size_t count;
    max_align_t room[];
};

/* The bytes that the crate answers: how many queries were asked, a count of ids, and then as pressclip_next_id and
 * pressclip_next_hit read them. What pressclip_result_all gives of them lies in room, which is null before its first
 * call. The article has most_names fields, whose names with a byte 0 behind each take most_names_size bytes. */
struct pressclip_result {
    size_t count, left, hits_left, at;
    unsigned char *bytes;
    size_t most_names, most_names_size;
    uint64_t asked, nanoseconds;
    uint64_t *room;
    pressclip_found found;
};

/* A query to register among others, as the crate takes it. */
typedef struct listed {
    const unsigned char *id;
    size_t id_length;
    const unsigned char *query;
    size_t query_length;
    const unsigned char *listener;
    size_t listener_length;
    bool has_listener;
} listed;

/* An id that a part tells of, and what goes with it, as the crate takes it; and a part. */
typedef struct told {
    const unsigned char *id;
    size_t id_length;
    const unsigned char *rest;
    size_t rest_length;
} told;

typedef struct part {
    uint64_t asked;
    const told *told;
    size_t count;
} part;

/* The exports of clip_c. clip_near takes no slot, and clip_open one that keeps nothing. clip_snapshot takes one that
 * keeps something, and one that keeps nothing, which then keeps the snapshot. All others want a slot that keeps
 * something, and all but clip_close leave it so. */
size_t clip_size(void);
void clip_open(slot *kept, bool hits);
void clip_close(slot *kept);
uint32_t clip_snapshot(slot *kept, slot *snapshot);
uint32_t clip_line(slot *kept, const unsigned char *line, size_t length, size_t *size);
uint32_t clip_register(slot *kept, const unsigned char *id, size_t id_length, const unsigned char *query,
                       size_t query_length, bool has_listener, const unsigned char *listener, size_t listener_length);
uint32_t clip_register_many(slot *kept, const listed *queries, size_t count, uint64_t *which);
uint32_t clip_delete(slot *kept, const unsigned char *id, size_t length, uint64_t *deleted);
uint32_t clip_clear(slot *kept);
uint32_t clip_purge(slot *kept);
uint32_t clip_count(slot *kept, uint64_t *count);
uint32_t clip_show(slot *kept, const unsigned char *id, size_t length, bool *has, size_t *size);
uint32_t clip_ids(slot *kept, size_t *size);
uint32_t clip_match(slot *kept, const unsigned char *id, size_t id_length, const pressclip_field *fields, size_t count,
                    size_t *size);
uint32_t clip_explain(slot *kept, const unsigned char *query, size_t length, size_t *size);
uint32_t clip_explain_line(slot *kept, const unsigned char *line, size_t length, size_t *size);
uint32_t clip_words(slot *kept, const unsigned char *text, size_t length, size_t *size);
uint32_t clip_near(const pressclip_field *fields, size_t count, const pressclip_pair *pair, bool *answer);
uint32_t clip_gather(slot *kept, const part *parts, size_t count, size_t *size);
bool clip_take(slot *kept, unsigned char *room, size_t size);

/* What the files call of each other is no part of the library's face. */
#pragma GCC visibility push(hidden)

#define EDGE_MOST 1000000

/* What stands for fields where there are none. */
extern const pressclip_field edge_no_field;

static inline const unsigned char *edge_bytes(const char *text) { return (const unsigned char *)text; }

/* The number that eight bytes are, the lowest first. */
static inline uint64_t edge_number(const unsigned char *bytes) {
    return (uint64_t)bytes[0] | (uint64_t)bytes[1] << 8 | (uint64_t)bytes[2] << 16 | (uint64_t)bytes[3] << 24 |
           (uint64_t)bytes[4] << 32 | (uint64_t)bytes[5] << 40 | (uint64_t)bytes[6] << 48 | (uint64_t)bytes[7] << 56;
}

/* Whether a text, or fields, may be handed on, and why not. */
int edge_text_status(const char *text, size_t length);
int edge_fields_status(const pressclip_field *fields, size_t count);

/* Takes the bytes that a slot keeps, or null where there is no memory for them; a byte is asked for at least. */
unsigned char *edge_taken(slot *kept, size_t size);

/* The text of a query, and the matches of one article and of many, in what a slot keeps. The pointers that are written
 * through are not null. */
int edge_show(slot *kept, const char *id, size_t id_length, char **query, size_t *query_length);
int edge_match(slot *kept, const char *id, size_t id_length, const pressclip_field *fields, size_t count,
               pressclip_result **result);
int edge_match_many(slot *kept, const pressclip_article *articles, size_t count, pressclip_result **results,
                    size_t *which);

/* A result of these bytes, which become its own, or null where there is no memory, and they are freed. */
pressclip_result *edge_result(unsigned char *bytes, const pressclip_field *fields, size_t count);

/* Writes down what a result tells of each id: its hits are what goes with it. */
void edge_tell(const pressclip_result *result, told *all);

#pragma GCC visibility pop

#endif
