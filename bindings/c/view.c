/* Snapshots: what stood registered at one moment. */
#include "edge.h"

#include <stdlib.h>
#include <string.h>

int pressclip_snapshot(pressclip *engine, pressclip_view **view) {
    if (engine == NULL) return PRESSCLIP_CLOSED;
    if (view == NULL) return PRESSCLIP_NULL;
    pressclip_view *made = malloc(sizeof *made + clip_size());
    if (made == NULL) return PRESSCLIP_NO_MEMORY;
    made->kept.at = (unsigned char *)made->room;
    made->ids = NULL;
    made->place = NULL;
    made->count = 0;
    int status = (int)clip_snapshot(&engine->kept, &made->kept);
    if (status != PRESSCLIP_OK) {
        free(made);
        return status;
    }
    *view = made;
    return PRESSCLIP_OK;
}

void pressclip_snapshot_free(pressclip_view **view) {
    if (view == NULL || *view == NULL) return;
    clip_close(&(*view)->kept);
    free((*view)->ids);
    free((*view)->place);
    free(*view);
    *view = NULL;
}

int pressclip_snapshot_match(pressclip_view *view, const char *id, size_t id_length, const pressclip_field *fields,
                             size_t count, pressclip_result **result) {
    if (view == NULL) return PRESSCLIP_CLOSED;
    if (result == NULL) return PRESSCLIP_NULL;
    return edge_match(&view->kept, id, id_length, fields, count, result);
}

int pressclip_snapshot_match_many(pressclip_view *view, const pressclip_article *articles, size_t count,
                                  pressclip_result **results, size_t *which) {
    if (view == NULL) return PRESSCLIP_CLOSED;
    return edge_match_many(&view->kept, articles, count, results, which);
}

int pressclip_snapshot_count(pressclip_view *view, uint64_t *count) {
    if (view == NULL) return PRESSCLIP_CLOSED;
    if (count == NULL) return PRESSCLIP_NULL;
    return (int)clip_count(&view->kept, count);
}

int pressclip_snapshot_show(pressclip_view *view, const char *id, size_t id_length, char **query,
                            size_t *query_length) {
    if (view == NULL) return PRESSCLIP_CLOSED;
    if (query == NULL || query_length == NULL) return PRESSCLIP_NULL;
    return edge_show(&view->kept, id, id_length, query, query_length);
}

/* Has the crate list the ids, once for a view, and finds where each begins. */
static int list_ids(pressclip_view *view) {
    if (view->ids != NULL) return PRESSCLIP_OK;
    size_t size = 0;
    int status = (int)clip_ids(&view->kept, &size);
    if (status != PRESSCLIP_OK) return status;
    unsigned char *ids = edge_taken(&view->kept, size);
    size_t count = ids == NULL ? 0 : (size_t)edge_number(ids);
    size_t *place = ids == NULL ? NULL : malloc((count + 1) * sizeof *place);
    if (place == NULL) {
        free(ids);
        return PRESSCLIP_NO_MEMORY;
    }
    place[0] = 8;
    for (size_t number = 0; number < count; number++)
        place[number + 1] = place[number] + 8 + (size_t)edge_number(ids + place[number]);
    view->ids = ids;
    view->place = place;
    view->count = count;
    return PRESSCLIP_OK;
}

/* Whether the id with this number comes after a text, in the byte order of ids. */
static bool comes_after(const pressclip_view *view, size_t number, const char *text, size_t length) {
    const unsigned char *id = view->ids + view->place[number];
    size_t id_length = (size_t)edge_number(id);
    int order = memcmp(id + 8, text, id_length < length ? id_length : length);
    return order == 0 ? id_length > length : order > 0;
}

/* The number of the first id that comes after a text. */
static size_t first_after(const pressclip_view *view, const char *text, size_t length) {
    size_t low = 0, high = view->count;
    while (low < high) {
        size_t middle = low + (high - low) / 2;
        if (comes_after(view, middle, text, length))
            high = middle;
        else
            low = middle + 1;
    }
    return low;
}

/* The ids with the numbers from one up to another, as a result without hits, or null where there is no memory. */
static pressclip_result *result_of(const pressclip_view *view, size_t first, size_t end) {
    size_t size = 16 + view->place[end] - view->place[first] + 8 * (end - first);
    unsigned char *bytes = calloc(1, size);
    if (bytes == NULL) return NULL;
    uint64_t count = end - first;
    for (size_t byte = 0; byte < 8; byte++) bytes[8 + byte] = (unsigned char)(count >> 8 * byte);
    unsigned char *to = bytes + 16;
    for (size_t number = first; number < end; number++) {
        size_t length = view->place[number + 1] - view->place[number];
        memcpy(to, view->ids + view->place[number], length);
        to += length + 8;
    }
    return edge_result(bytes, NULL, 0);
}

int pressclip_snapshot_ids(pressclip_view *view, const char *after, size_t after_length, size_t most,
                           pressclip_result **ids) {
    if (view == NULL) return PRESSCLIP_CLOSED;
    if (ids == NULL) return PRESSCLIP_NULL;
    if (after != NULL && after_length > PTRDIFF_MAX) return PRESSCLIP_SIZE;
    int status = list_ids(view);
    if (status != PRESSCLIP_OK) return status;
    size_t first = after == NULL ? 0 : first_after(view, after, after_length);
    size_t left = view->count - first;
    pressclip_result *made = result_of(view, first, first + (most < left ? most : left));
    if (made == NULL) return PRESSCLIP_NO_MEMORY;
    *ids = made;
    return PRESSCLIP_OK;
}
