/* One registry for any number of threads: changes go one after another under a lock, and each thread matches on a
 * snapshot of its own, which it takes anew where a change came between. */
#define _POSIX_C_SOURCE 200809L

#include "edge.h"

#include <pthread.h>
#include <stdatomic.h>
#include <stdlib.h>

/* What a thread keeps of a shared registry. The thread alone reads and writes it, but for next_of_registry and closed,
 * which stand under the lock of all seats, and for the view where the registry is closed. */
typedef struct seat {
    pressclip_shared *registry;
    uint64_t number;
    pressclip_view *view;
    uint64_t generation;
    struct seat *next_of_thread;
    struct seat *next_of_registry;
    atomic_bool closed;
} seat;

/* number is no other registry's, also of one that was closed. generation goes up by each change. */
struct pressclip_shared {
    pthread_mutex_t lock;
    pressclip *engine;
    uint64_t number;
    _Atomic uint64_t generation;
    seat *seats;
};

/* Guards which seats registries have. It is held for a step for each seat at most, and by no match that has a seat. */
static pthread_mutex_t all_seats = PTHREAD_MUTEX_INITIALIZER;
static uint64_t last_number;
static pthread_once_t key_once = PTHREAD_ONCE_INIT;
static pthread_key_t key;
static bool has_key;

/* Takes a seat out of its registry's list, where that is open. */
static void leave(seat *one) {
    pthread_mutex_lock(&all_seats);
    if (!atomic_load(&one->closed)) {
        seat **link = &one->registry->seats;
        while (*link != one) link = &(*link)->next_of_registry;
        *link = one->next_of_registry;
    }
    pthread_mutex_unlock(&all_seats);
}

/* Ends what a thread keeps, when the thread ends. */
static void end_thread(void *first) {
    for (seat *one = first, *next; one != NULL; one = next) {
        next = one->next_of_thread;
        leave(one);
        pressclip_snapshot_free(&one->view);
        free(one);
    }
}

static void make_key(void) { has_key = pthread_key_create(&key, end_thread) == 0; }

/* Frees the seats of the thread whose registries are closed, and gives those that are left. */
static seat *open_seats(seat *first) {
    seat *left = NULL;
    for (seat *one = first, *next; one != NULL; one = next) {
        next = one->next_of_thread;
        if (atomic_load(&one->closed)) {
            free(one);
            continue;
        }
        one->next_of_thread = left;
        left = one;
    }
    return left;
}

/* Gives the thread a seat at a registry, or null where there is no memory. */
static seat *sit_down(pressclip_shared *shared) {
    seat *made = malloc(sizeof *made);
    if (made == NULL) return NULL;
    made->registry = shared;
    made->number = shared->number;
    made->view = NULL;
    made->generation = 0;
    atomic_init(&made->closed, false);
    made->next_of_thread = open_seats(pthread_getspecific(key));
    if (pthread_setspecific(key, made) != 0) {
        /* No room for the key was there, so the thread had no seat. */
        free(made);
        return NULL;
    }
    pthread_mutex_lock(&all_seats);
    made->next_of_registry = shared->seats;
    shared->seats = made;
    pthread_mutex_unlock(&all_seats);
    return made;
}

/* The thread's seat at a registry, or null where there is no memory for one. */
static seat *seat_at(pressclip_shared *shared) {
    for (seat *one = pthread_getspecific(key); one != NULL; one = one->next_of_thread)
        if (one->number == shared->number) return one;
    return sit_down(shared);
}

/* The thread's view of what is registered, which it takes anew where that has changed. */
static int newest(pressclip_shared *shared, pressclip_view **view) {
    seat *own = seat_at(shared);
    if (own == NULL) return PRESSCLIP_NO_MEMORY;
    if (own->view == NULL || own->generation != atomic_load(&shared->generation)) {
        pressclip_view *taken;
        pthread_mutex_lock(&shared->lock);
        uint64_t generation = atomic_load(&shared->generation);
        int status = pressclip_snapshot(shared->engine, &taken);
        pthread_mutex_unlock(&shared->lock);
        if (status != PRESSCLIP_OK) return status;
        pressclip_snapshot_free(&own->view);
        own->view = taken;
        own->generation = generation;
    }
    *view = own->view;
    return PRESSCLIP_OK;
}

int pressclip_shared_open(bool hits, pressclip_shared **shared) {
    if (shared == NULL) return PRESSCLIP_NULL;
    pthread_once(&key_once, make_key);
    pressclip_shared *made = malloc(sizeof *made);
    if (made == NULL || !has_key) {
        free(made);
        return PRESSCLIP_NO_MEMORY;
    }
    int status = pressclip_open(hits, &made->engine);
    if (status == PRESSCLIP_OK && pthread_mutex_init(&made->lock, NULL) != 0) {
        pressclip_close(&made->engine);
        status = PRESSCLIP_NO_MEMORY;
    }
    if (status != PRESSCLIP_OK) {
        free(made);
        return status;
    }
    atomic_init(&made->generation, 0);
    made->seats = NULL;
    pthread_mutex_lock(&all_seats);
    made->number = ++last_number;
    pthread_mutex_unlock(&all_seats);
    *shared = made;
    return PRESSCLIP_OK;
}

void pressclip_shared_close(pressclip_shared **shared) {
    if (shared == NULL || *shared == NULL) return;
    pressclip_shared *ended = *shared;
    pthread_mutex_lock(&all_seats);
    for (seat *one = ended->seats, *next; one != NULL; one = next) {
        next = one->next_of_registry;
        pressclip_snapshot_free(&one->view);
        atomic_store(&one->closed, true);
    }
    pthread_mutex_unlock(&all_seats);
    /* Those of other threads are freed by these, at their next seat or at their end. */
    seat *left = open_seats(pthread_getspecific(key));
    pthread_setspecific(key, left);
    pthread_mutex_destroy(&ended->lock);
    pressclip_close(&ended->engine);
    free(ended);
    *shared = NULL;
}

/* Ends a change: after one that went well, each thread takes a new view at its next match. */
static int changed(pressclip_shared *shared, int status) {
    if (status == PRESSCLIP_OK) atomic_fetch_add(&shared->generation, 1);
    pthread_mutex_unlock(&shared->lock);
    return status;
}

int pressclip_shared_register(pressclip_shared *shared, const char *id, size_t id_length, const char *query,
                              size_t query_length, const char *listener, size_t listener_length) {
    if (shared == NULL) return PRESSCLIP_CLOSED;
    pthread_mutex_lock(&shared->lock);
    return changed(shared, pressclip_register(shared->engine, id, id_length, query, query_length, listener,
                                              listener_length));
}

int pressclip_shared_register_many(pressclip_shared *shared, const pressclip_listing *listings, size_t count,
                                   size_t *which) {
    if (shared == NULL) return PRESSCLIP_CLOSED;
    pthread_mutex_lock(&shared->lock);
    return changed(shared, pressclip_register_many(shared->engine, listings, count, which));
}

int pressclip_shared_delete(pressclip_shared *shared, const char *id, size_t id_length, uint64_t *deleted) {
    if (shared == NULL) return PRESSCLIP_CLOSED;
    pthread_mutex_lock(&shared->lock);
    return changed(shared, pressclip_delete(shared->engine, id, id_length, deleted));
}

int pressclip_shared_clear(pressclip_shared *shared) {
    if (shared == NULL) return PRESSCLIP_CLOSED;
    pthread_mutex_lock(&shared->lock);
    return changed(shared, pressclip_clear(shared->engine));
}

int pressclip_shared_purge(pressclip_shared *shared) {
    if (shared == NULL) return PRESSCLIP_CLOSED;
    pthread_mutex_lock(&shared->lock);
    return changed(shared, pressclip_purge(shared->engine));
}

int pressclip_shared_line(pressclip_shared *shared, const char *line, size_t length, char **reply,
                          size_t *reply_length) {
    if (shared == NULL) return PRESSCLIP_CLOSED;
    pthread_mutex_lock(&shared->lock);
    int status = pressclip_line(shared->engine, line, length, reply, reply_length);
    /* Where the reply has no room, the line was taken all the same. */
    changed(shared, status == PRESSCLIP_NO_MEMORY ? PRESSCLIP_OK : status);
    return status;
}

int pressclip_shared_count(pressclip_shared *shared, uint64_t *count) {
    if (shared == NULL) return PRESSCLIP_CLOSED;
    pthread_mutex_lock(&shared->lock);
    int status = pressclip_count(shared->engine, count);
    pthread_mutex_unlock(&shared->lock);
    return status;
}

int pressclip_shared_show(pressclip_shared *shared, const char *id, size_t id_length, char **query,
                          size_t *query_length) {
    if (shared == NULL) return PRESSCLIP_CLOSED;
    pthread_mutex_lock(&shared->lock);
    int status = pressclip_show(shared->engine, id, id_length, query, query_length);
    pthread_mutex_unlock(&shared->lock);
    return status;
}

int pressclip_shared_snapshot(pressclip_shared *shared, pressclip_view **view) {
    if (shared == NULL) return PRESSCLIP_CLOSED;
    pthread_mutex_lock(&shared->lock);
    int status = pressclip_snapshot(shared->engine, view);
    pthread_mutex_unlock(&shared->lock);
    return status;
}

int pressclip_shared_match(pressclip_shared *shared, const char *id, size_t id_length, const pressclip_field *fields,
                           size_t count, pressclip_result **result) {
    pressclip_view *view;
    if (shared == NULL) return PRESSCLIP_CLOSED;
    int status = newest(shared, &view);
    return status == PRESSCLIP_OK ? pressclip_snapshot_match(view, id, id_length, fields, count, result) : status;
}

int pressclip_shared_match_many(pressclip_shared *shared, const pressclip_article *articles, size_t count,
                                pressclip_result **results, size_t *which) {
    pressclip_view *view;
    if (shared == NULL) return PRESSCLIP_CLOSED;
    int status = newest(shared, &view);
    return status == PRESSCLIP_OK ? pressclip_snapshot_match_many(view, articles, count, results, which) : status;
}
