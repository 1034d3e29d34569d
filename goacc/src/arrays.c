/*
 * The arrays of a script: each is an object of the program, a variable or a piece of the heap or of a stack. It is
 * declared when a directive names some of it first.
 *
 * Of a variable the program's debug data tells where it begins and ends. Of another object an array has what was named
 * first, and as much before and behind it, up to a limit. So a section that goes beyond it later lies in the same
 * array, as a program of C needs it. An object of which nothing is mapped may be gone, and its bytes another one's.
 */
#define _GNU_SOURCE
#include <ctype.h>
#include <inttypes.h>
#include <pthread.h>
#include <stdio.h>
#include <string.h>

#include "inner.h"

/* The bytes before and behind a piece at most. */
#define MARGIN 1024

/* at, end: where it begins, and behind its end, in the program; and of its bytes those that are of its object. */
typedef struct array {
    uintptr_t at, end, from, until;
    bool is_local;
    char name[40];
} array;

/* What is kept beside one table: its arrays, of which those that are gone have no byte, and the bytes of all. */
static struct {
    array *list;
    size_t count, room, pieces;
    uint64_t bytes;
    bool has_nowhere;
} all[LWA_DEVICES];

#define OWN all[lwa_on]

void lwa_forget_arrays(void)
{
    OWN.count = OWN.pieces = 0;
    OWN.bytes = 0;
    OWN.has_nowhere = false;
}

/* ---- Declarations ---- */

static bool is_taken(const char *name)
{
    for (size_t i = 0; i < OWN.count; i++) {
        if (strcmp(OWN.list[i].name, name) == 0) {
            return true;
        }
    }
    return strcmp(name, LWA_NO_ARRAY) == 0;
}

/* The name of an object as a script may have it, and no other array has. */
static void set_name(array *a, const char *object)
{
    char base[24];
    size_t len = 0;

    if (!isalpha((unsigned char)object[0])) {
        base[len++] = 'v';
    }
    for (; *object != '\0' && len < sizeof base - 1; object++) {
        base[len++] = isalnum((unsigned char)*object) ? (char)tolower((unsigned char)*object) : '_';
    }
    base[len] = '\0';
    strcpy(a->name, base);
    for (size_t n = 2; is_taken(a->name); n++) {
        snprintf(a->name, sizeof a->name, "%s_%zu", base, n);
    }
}

static bool is_on_stack(uintptr_t at)
{
    pthread_attr_t thread;
    void *low = NULL;
    size_t len = 0;

    if (pthread_getattr_np(pthread_self(), &thread) == 0) {
        pthread_attr_getstack(&thread, &low, &len);
        pthread_attr_destroy(&thread);
    }
    return at - (uintptr_t)low < len;
}

/* A piece ends where the bytes of another begin. */
static void add_margin(array *a)
{
    const size_t margin = a->end - a->at < MARGIN ? a->end - a->at : MARGIN;

    a->at -= margin < a->at ? margin : 0;
    a->end += margin < UINTPTR_MAX - a->end ? margin : 0;
    for (size_t i = 0; i < OWN.count; i++) {
        const array *other = &OWN.list[i];

        if (other->until <= a->from && other->until > a->at) {
            a->at = other->until;
        } else if (other->from >= a->until && other->from < a->end) {
            a->end = other->from;
        }
    }
}

/* NULL: there is no room for it. What may have a pointer keeps the alignment of its addresses. */
static array *declare(FILE *script, uintptr_t at, size_t len)
{
    array a = {.at = at, .end = at + len, .from = at, .until = at + len};
    char object[LWA_NAME];
    uintptr_t from;
    size_t size;

    if (lwa_object_at(at, &from, &size, object)) {
        a.at = a.from = from < at ? from : at;
        a.end = a.until = from + size > at + len ? from + size : at + len;
        a.is_local = is_on_stack(at);
    } else {
        snprintf(object, sizeof object, "%s%zu", is_on_stack(at) ? "stack" : "heap", ++OWN.pieces);
        add_margin(&a);
    }
    if (a.end - a.at >= LWA_POINTER) {
        a.at -= a.at % LWA_POINTER;
    }
    if (a.end - a.at > LWA_SCRIPT_HOST - OWN.bytes) {
        return NULL;
    }
    OWN.bytes += (a.end - a.at + 15) / 16 * 16;
    set_name(&a, object);
    fprintf(script, "array %s %zu\n", a.name, (size_t)(a.end - a.at));
    OWN.list = lwa_grown(OWN.list, OWN.count, &OWN.room, sizeof a);
    OWN.list[OWN.count] = a;
    return &OWN.list[OWN.count++];
}

/* ---- Finding ---- */

static bool holds(const array *a, uintptr_t at, size_t len)
{
    return at >= a->at && at + len <= a->end;
}

/* Whether the object of an array is there no more. */
static bool is_gone(const array *a, uintptr_t at, size_t len)
{
    char object[LWA_NAME];
    uintptr_t from;
    size_t size;

    if (lwa_meets(a->at, a->end - a->at) != NULL) {
        return false;
    }
    return !holds(a, at, len) || (a->is_local && lwa_object_at(at, &from, &size, object) && from != a->from);
}

/* The array that a section lies in, or else one that has its first bytes. NULL: no array can have it. */
static array *array_of(FILE *script, uintptr_t at, size_t len)
{
    array *met = NULL;

    for (size_t i = 0; i < OWN.count; i++) {
        array *a = &OWN.list[i];

        if (at >= a->until || at + len <= a->from) {
            continue;
        }
        if (is_gone(a, at, len)) {
            a->at = a->end = a->from = a->until = 0;
        } else if (met == NULL || (!holds(met, at, len) && at >= a->at)) {
            met = a;
        }
    }
    if (met == NULL) {
        return declare(script, at, len);
    }
    if (holds(met, at, len)) {
        met->from = at < met->from ? at : met->from;
        met->until = at + len > met->until ? at + len : met->until;
    }
    return at >= met->at ? met : NULL;
}

/* A part that acc_map_data has mapped is some of what acc_malloc gave. */
static uintptr_t in_root(uintptr_t at)
{
    const lwa_block *block = lwa_meets(at, 1);

    return block != NULL && block->part && block->root != block ? lwa_device_of(block, at) : at;
}

bool lwa_array_at(FILE *script, uintptr_t at, size_t len, char text[LWA_ARRAY])
{
    const uintptr_t start = in_root(at);
    const array *a = array_of(script, start, len != 0 ? len : 1);

    if (a != NULL) {
        snprintf(text, LWA_ARRAY, "%s[%" PRIuPTR, a->name, start - a->at);
    }
    return a != NULL;
}

void lwa_no_array(FILE *script, uint64_t offset, char text[LWA_ARRAY])
{
    if (!OWN.has_nowhere) {
        OWN.has_nowhere = true;
        fputs("array " LWA_NO_ARRAY " 16\n", script);
        OWN.bytes += 16;
    }
    snprintf(text, LWA_ARRAY, LWA_NO_ARRAY "[%" PRIu64, offset);
}
