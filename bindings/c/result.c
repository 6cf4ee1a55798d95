/* Results: their ids and hits, one after another and all at once. */
#include "edge.h"

#include <stdlib.h>
#include <string.h>

/* The next number of a result. */
static uint64_t next_number(pressclip_result *result) {
    uint64_t number = edge_number(result->bytes + result->at);
    result->at += 8;
    return number;
}

/* The next text of a result. */
static void next_text(pressclip_result *result, const char **text, size_t *length) {
    *length = (size_t)next_number(result);
    *text = (const char *)result->bytes + result->at;
    result->at += *length;
}

/* Makes the first id of a result the next one. */
static void begin(pressclip_result *result) {
    result->at = 16;
    result->left = result->count;
    result->hits_left = 0;
}

pressclip_result *edge_result(unsigned char *bytes, const pressclip_field *fields, size_t count) {
    pressclip_result *made = malloc(sizeof *made);
    if (made == NULL) {
        free(bytes);
        return NULL;
    }
    made->bytes = bytes;
    made->most_names = made->most_names_size = count;
    for (size_t place = 0; place < count; place++) made->most_names_size += fields[place].name_length;
    made->room = NULL;
    made->asked = edge_number(bytes);
    made->nanoseconds = 0;
    made->count = (size_t)edge_number(bytes + 8);
    begin(made);
    return made;
}

uint64_t pressclip_result_asked(const pressclip_result *result) { return result == NULL ? 0 : result->asked; }

uint64_t pressclip_result_nanoseconds(const pressclip_result *result) {
    return result == NULL ? 0 : result->nanoseconds;
}

size_t pressclip_result_count(const pressclip_result *result) { return result == NULL ? 0 : result->count; }

/* What pressclip_next_hit does, where no pointer is null. */
static bool next_hit(pressclip_result *result, const char **field, size_t *length, uint64_t *position) {
    if (result->hits_left == 0) return false;
    result->hits_left--;
    next_text(result, field, length);
    *position = next_number(result);
    return true;
}

/* What pressclip_next_id does, where no pointer is null. */
static bool next_id(pressclip_result *result, const char **id, size_t *length) {
    const char *field;
    size_t field_length;
    uint64_t position;
    while (next_hit(result, &field, &field_length, &position)) continue;
    if (result->left == 0) return false;
    result->left--;
    next_text(result, id, length);
    result->hits_left = (size_t)next_number(result);
    return true;
}

bool pressclip_next_hit(pressclip_result *result, const char **field, size_t *length, uint64_t *position) {
    if (result == NULL || field == NULL || length == NULL || position == NULL) return false;
    return next_hit(result, field, length, position);
}

bool pressclip_next_id(pressclip_result *result, const char **id, size_t *length) {
    if (result == NULL || id == NULL || length == NULL) return false;
    return next_id(result, id, length);
}

void edge_tell(const pressclip_result *result, told *all) {
    pressclip_result walk = *result;
    const char *id, *field;
    size_t id_length, length;
    uint64_t position;
    begin(&walk);
    for (; next_id(&walk, &id, &id_length); all++) {
        size_t start = walk.at - 8;
        while (next_hit(&walk, &field, &length, &position)) continue;
        *all = (told){edge_bytes(id), id_length, result->bytes + start, walk.at - start};
    }
}

/* Texts that are put one after another, a byte 0 behind each, and where they begin and end. */
typedef struct texts {
    char *bytes;
    uint64_t *at;
    size_t count, size;
} texts;

/* No texts yet, in this room. */
static texts no_texts(char *bytes, uint64_t *at) {
    at[0] = 0;
    return (texts){bytes, at, 0, 0};
}

/* Puts a text behind the others. */
static void put(texts *all, const char *text, size_t length) {
    memcpy(all->bytes + all->size, text, length);
    all->bytes[all->size + length] = '\0';
    all->size += length + 1;
    all->at[++all->count] = all->size;
}

/* Whether the text with this number is this one. */
static bool is_text(const texts *all, size_t number, const char *text, size_t length) {
    const uint64_t *at = all->at + number;
    return at[1] - at[0] == length + 1 && memcmp(all->bytes + at[0], text, length) == 0;
}

/* The number of a text, which is put behind the others where it is none of them. It is looked for at a number first. */
static size_t number_of(texts *all, size_t first, const char *text, size_t length) {
    if (first < all->count && is_text(all, first, text, length)) return first;
    for (size_t number = 0; number < all->count; number++)
        if (is_text(all, number, text, length)) return number;
    put(all, text, length);
    return all->count - 1;
}

/* Puts the arrays of a result together, and says whether there is memory for them. */
static bool put_together(pressclip_result *result) {
    pressclip_result walk = *result;
    const char *text;
    size_t length, ids_size = 0, hit_count = 0, hit = 0, name = 0;
    begin(&walk);
    while (next_id(&walk, &text, &length)) {
        ids_size += length + 1;
        hit_count += walk.hits_left;
    }
    size_t places = result->count + 1;
    size_t numbers = 2 * places + 2 * hit_count + result->most_names + 1;
    uint64_t *room = malloc(numbers * sizeof *room + ids_size + result->most_names_size);
    if (room == NULL) return false;
    uint64_t *hit_at = room + places, *hit_name = hit_at + places, *hit_position = hit_name + hit_count;
    texts ids = no_texts((char *)(room + numbers), room);
    texts names = no_texts(ids.bytes + ids_size, hit_position + hit_count);
    begin(&walk);
    while (next_id(&walk, &text, &length)) {
        hit_at[ids.count] = hit;
        put(&ids, text, length);
        for (; next_hit(&walk, &text, &length, &hit_position[hit]); hit++)
            hit_name[hit] = name = number_of(&names, name, text, length);
    }
    hit_at[ids.count] = hit;
    result->room = room;
    result->found = (pressclip_found){ids.count, ids.bytes, ids.at,      hit_at,      hit,
                                      hit_name,  hit_position, names.count, names.bytes, names.at};
    return true;
}

int pressclip_result_all(pressclip_result *result, const pressclip_found **found) {
    if (result == NULL || found == NULL) return PRESSCLIP_NULL;
    if (result->room == NULL && !put_together(result)) return PRESSCLIP_NO_MEMORY;
    *found = &result->found;
    return PRESSCLIP_OK;
}

void pressclip_result_free(pressclip_result *result) {
    if (result == NULL) return;
    free(result->room);
    free(result->bytes);
    free(result);
}
