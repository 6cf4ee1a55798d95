/* Gathering: what the parts of one registry found, as one. */
#include "edge.h"

#include <stdlib.h>

/* Room for so many parts, for what they tell, and for so many bytes, in this order; null where there is none. */
static part *room_for(size_t parts, size_t tells, size_t bytes) {
    return malloc((parts + 1) * sizeof(part) + (tells + 1) * sizeof(told) + bytes);
}

/* Where what the parts tell stands in their room. */
static told *told_in(part *parts, size_t count) { return (told *)(void *)(parts + count + 1); }

/* Gathers parts, and gives the bytes that the crate answers, which are the caller's. */
static int gathered(const part *parts, size_t count, unsigned char **bytes) {
    pressclip *engine = NULL;
    size_t size = 0;
    int status = pressclip_open(false, &engine);
    if (status != PRESSCLIP_OK) return status;
    status = (int)clip_gather(&engine->kept, parts, count, &size);
    unsigned char *taken = status == PRESSCLIP_OK ? edge_taken(&engine->kept, size) : NULL;
    pressclip_close(&engine);
    if (status != PRESSCLIP_OK) return status;
    *bytes = taken;
    return taken == NULL ? PRESSCLIP_NO_MEMORY : PRESSCLIP_OK;
}

/* The result of what was gathered of results, or null where there is no memory. */
static pressclip_result *whole_of(const pressclip_result *const *parts, size_t count, unsigned char *bytes) {
    pressclip_result *made = edge_result(bytes, NULL, 0);
    if (made == NULL) return NULL;
    for (size_t place = 0; place < count; place++) {
        made->nanoseconds += parts[place]->nanoseconds;
        made->most_names += parts[place]->most_names;
        made->most_names_size += parts[place]->most_names_size;
    }
    return made;
}

int pressclip_gather(const pressclip_result *const *parts, size_t count, pressclip_result **whole) {
    if (whole == NULL || (count != 0 && parts == NULL)) return PRESSCLIP_NULL;
    if (count > EDGE_MOST) return PRESSCLIP_SIZE;
    size_t tells = 0;
    for (size_t place = 0; place < count; place++) {
        if (parts[place] == NULL) return PRESSCLIP_NULL;
        tells += parts[place]->count;
    }
    part *handed = room_for(count, tells, 0);
    if (handed == NULL) return PRESSCLIP_NO_MEMORY;
    told *next = told_in(handed, count);
    for (size_t place = 0; place < count; place++) {
        handed[place] = (part){parts[place]->asked, next, parts[place]->count};
        edge_tell(parts[place], next);
        next += parts[place]->count;
    }
    unsigned char *bytes = NULL;
    int status = gathered(handed, count, &bytes);
    free(handed);
    if (status != PRESSCLIP_OK) return status;
    pressclip_result *made = whole_of(parts, count, bytes);
    if (made == NULL) return PRESSCLIP_NO_MEMORY;
    *whole = made;
    return PRESSCLIP_OK;
}

/* How many ids the parts have, and whether they may be handed on. */
static int ids_status(const char *ids, const size_t *lengths, const size_t *counts, size_t count, size_t *total) {
    size_t size = 0;
    if (count != 0 && counts == NULL) return PRESSCLIP_NULL;
    if (count > EDGE_MOST) return PRESSCLIP_SIZE;
    for (size_t place = 0; place < count; place++) {
        if (counts[place] > EDGE_MOST) return PRESSCLIP_SIZE;
        *total += counts[place];
    }
    if (*total != 0 && (ids == NULL || lengths == NULL)) return PRESSCLIP_NULL;
    for (size_t number = 0; number < *total; number++) {
        if (lengths[number] > PTRDIFF_MAX - size) return PRESSCLIP_SIZE;
        size += lengths[number];
    }
    return PRESSCLIP_OK;
}

/* Has each id tell its own number, which takes eight bytes. */
static void tell_numbers(told *all, const unsigned char *ids, const size_t *lengths, size_t total,
                         unsigned char *numbers) {
    for (size_t number = 0; number < total; ids += lengths[number++], numbers += 8) {
        for (size_t byte = 0; byte < 8; byte++) numbers[byte] = (unsigned char)((uint64_t)number >> 8 * byte);
        all[number] = (told){ids, lengths[number], numbers, 8};
    }
}

int pressclip_gather_ids(const char *ids, const size_t *lengths, const size_t *counts, size_t count, uint64_t *order) {
    size_t total = 0;
    int status = ids_status(ids, lengths, counts, count, &total);
    if (status != PRESSCLIP_OK) return status;
    if (total != 0 && order == NULL) return PRESSCLIP_NULL;
    part *handed = room_for(count, total, 8 * total);
    if (handed == NULL) return PRESSCLIP_NO_MEMORY;
    told *all = told_in(handed, count), *next = all;
    tell_numbers(all, edge_bytes(ids), lengths, total, (unsigned char *)(all + total + 1));
    for (size_t place = 0; place < count; next += counts[place++]) handed[place] = (part){0, next, counts[place]};
    unsigned char *bytes = NULL;
    status = gathered(handed, count, &bytes);
    free(handed);
    if (status != PRESSCLIP_OK) return status;
    const unsigned char *at = bytes + 16;
    for (size_t place = 0; place < total; place++, at += 8) {
        at += 8 + edge_number(at);
        order[place] = edge_number(at);
    }
    free(bytes);
    return PRESSCLIP_OK;
}
