/* What the Python package makes of a result: objects, by calls of the interpreter, whose addresses the package hands
 * over, since the library is linked with no Python. The interpreter's lock is held. */
#include "edge.h"

typedef void object;

/* Calls of CPython's stable interface, under their names there. Where one fails, the interpreter knows why, and what it
 * gives is null, or -1. tuple_new is how the interpreter makes a tuple of some class. */
typedef struct interpreter {
    object *(*PyList_New)(ptrdiff_t count);
    object *(*PyList_GetItem)(object *list, ptrdiff_t place);
    int (*PyList_SetItem)(object *list, ptrdiff_t place, object *item);
    object *(*PyTuple_New)(ptrdiff_t count);
    int (*PyTuple_SetItem)(object *tuple, ptrdiff_t place, object *item);
    object *(*PyUnicode_DecodeUTF8)(const char *bytes, ptrdiff_t length, const char *errors);
    void (*PyObject_GC_UnTrack)(object *tracked);
    void (*Py_IncRef)(object *held);
    void (*Py_DecRef)(object *held);
    object *(*tuple_new)(object *class, object *arguments, object *names);
} interpreter;

/* What is made of: fields has the hits of all words of each field that has a hit, and arguments the pair alone. */
typedef struct making {
    const interpreter *python;
    const pressclip_found *found;
    object *class, *fields, *arguments, *pair;
} making;

/* Puts an item into a tuple that nobody else has, which then owns it; says whether there was one. */
static bool put(const interpreter *python, object *tuple, size_t place, object *item) {
    return item != NULL && python->PyTuple_SetItem(tuple, (ptrdiff_t)place, item) == 0;
}

/* The hit with this number, held once more, or null. */
static object *hit_of(const making *all, uint64_t hit) {
    object *words = all->python->PyList_GetItem(all->fields, (ptrdiff_t)all->found->hit_name[hit]);
    if (words == NULL) return NULL;
    object *found = all->python->PyList_GetItem(words, (ptrdiff_t)all->found->hit_position[hit]);
    all->python->Py_IncRef(found);
    return found;
}

/* A tuple of the hits of an id, or null. The garbage collector needs not look at it, as it is in no cycle. */
static object *hits_of(const making *all, size_t id) {
    const interpreter *python = all->python;
    uint64_t first = all->found->hit_at[id];
    size_t count = (size_t)(all->found->hit_at[id + 1] - first);
    object *hits = python->PyTuple_New((ptrdiff_t)count);
    if (hits == NULL || count == 0) return hits;
    for (size_t place = 0; place < count; place++) {
        if (put(python, hits, place, hit_of(all, first + place))) continue;
        python->Py_DecRef(hits);
        return NULL;
    }
    python->PyObject_GC_UnTrack(hits);
    return hits;
}

/* What is found of an id, or null. It is in no cycle either. */
static object *one_of(const making *all, size_t id) {
    const interpreter *python = all->python;
    const uint64_t *at = all->found->id_at + id;
    object *text = python->PyUnicode_DecodeUTF8(all->found->ids + at[0], (ptrdiff_t)(at[1] - at[0] - 1), NULL);
    if (!put(python, all->pair, 0, text) || !put(python, all->pair, 1, hits_of(all, id))) return NULL;
    object *one = python->tuple_new(all->class, all->arguments, NULL);
    if (one != NULL) python->PyObject_GC_UnTrack(one);
    return one;
}

/* The list of all that is found, or null. */
static object *list_of(const making *all) {
    const interpreter *python = all->python;
    object *list = python->PyList_New((ptrdiff_t)all->found->count);
    for (size_t id = 0; list != NULL && id < all->found->count; id++) {
        object *one = one_of(all, id);
        if (one != NULL && python->PyList_SetItem(list, (ptrdiff_t)id, one) == 0) continue;
        python->Py_DecRef(list);
        return NULL;
    }
    return list;
}

/* The list of what is found, each of this class, made of a pair of its id and a tuple of its hits; null where a call
 * fails. fields is a list of lists: for each name of a field, the hit that each word of the field would be. */
object *pressclip_python_found(const interpreter *python, const pressclip_found *found, object *class, object *fields);

object *pressclip_python_found(const interpreter *python, const pressclip_found *found, object *class, object *fields) {
    object *list = NULL, *arguments = python->PyTuple_New(1);
    object *pair = arguments == NULL ? NULL : python->PyTuple_New(2);
    if (put(python, arguments, 0, pair)) {
        making all = {python, found, class, fields, arguments, pair};
        /* The collector shows them to nobody then, who might hold a pair that changes. */
        python->PyObject_GC_UnTrack(arguments);
        python->PyObject_GC_UnTrack(pair);
        list = list_of(&all);
    }
    python->Py_DecRef(arguments);
    return list;
}
