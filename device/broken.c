/* Broken runtimes: libgomp of GCC 12 with one mistake each. The library is preloaded, BROKEN names the mistake, and
   each call of a program goes on to libgomp, but for what the mistake changes. So a suite of programs can be tried:
   some program has to see each mistake. README.md says more. BROKEN=none changes nothing, and BROKEN=list prints all
   mistakes.

   The programs are of one thread, and have no `wait` clause on another directive, and no attach clause. */
#define _GNU_SOURCE
#include <dlfcn.h>
#include <openacc.h>
#include <stdarg.h>
#include <stdbool.h>
#include <stdint.h>
#include <stdio.h>
#include <stdlib.h>
#include <string.h>

/* Every mistake, with what it does. */
#define MISTAKES(MISTAKE)                                                                                              \
    MISTAKE(none, "nothing")                                                                                           \
    MISTAKE(attach_ignored, "acc_attach does nothing")                                                                 \
    MISTAKE(attach_of_mapping, "acc_attach takes the first byte of the mapping for the target")                        \
    MISTAKE(detach_ignored, "acc_detach and acc_detach_finalize do nothing")                                           \
    MISTAKE(detach_at_once, "acc_detach sets the attachment counter to zero")                                          \
    MISTAKE(detach_finalize_once, "acc_detach_finalize takes one away")                                                \
    MISTAKE(finalize_ignored, "exit data takes one away, with finalize too")                                           \
    MISTAKE(finalize_of_both, "finalize sets the structured counter to zero too")                                      \
    MISTAKE(dynamic_dropped_twice, "exit data takes two away")                                                         \
    MISTAKE(enter_data_not_counted, "enter data does not count what is present")                                       \
    MISTAKE(region_not_counted, "a region does not count what is present")                                             \
    MISTAKE(region_end_of_all, "the end of a region ends the mapping, though enter data holds it")                     \
    MISTAKE(no_create_creates, "no_create maps what is absent")                                                        \
    MISTAKE(present_unchecked, "the clause present passes over what is absent")                                        \
    MISTAKE(partly_present_accepted, "a clause passes over what is partly present")                                    \
    MISTAKE(exit_of_absent_fails, "exit data of what is absent is an error")                                           \
    MISTAKE(copyin_omitted, "copy and copyin copy nothing to the device")                                              \
    MISTAKE(copyin_again, "copy and copyin copy what is present once more")                                            \
    MISTAKE(copyin_copies_back, "copyin copies back at the end of a region")                                           \
    MISTAKE(create_copies_back, "create copies back at the end of a region")                                           \
    MISTAKE(copyout_omitted, "copy and copyout copy nothing back")                                                     \
    MISTAKE(copyout_while_held, "exit data copyout copies though the mapping stays")                                   \
    MISTAKE(copy_back_while_held, "the end of an inner region copies back")                                            \
    MISTAKE(delete_copies_out, "delete copies back as copyout does")                                                   \
    MISTAKE(zero_ignored, "new bytes are not filled with zero")                                                        \
    MISTAKE(update_ignored, "update copies nothing")                                                                   \
    MISTAKE(update_wrong_way, "update copies in the other direction")                                                  \
    MISTAKE(update_of_whole, "update copies all of the mapping")                                                       \
    MISTAKE(if_present_ignored, "update with if_present of what is absent is an error")                                \
    MISTAKE(if_present_always, "update without if_present passes over what is absent")                                 \
    MISTAKE(present_never, "acc_is_present is never true")                                                             \
    MISTAKE(present_of_first_byte, "acc_is_present asks of the first byte alone")                                      \
    MISTAKE(deviceptr_of_mapping, "acc_deviceptr is that of the mapping's first byte")                                 \
    MISTAKE(wait_ignored, "wait waits for nothing")                                                                    \
    MISTAKE(wait_of_one_queue, "wait without a queue waits for queue 0")                                               \
    MISTAKE(queue_out_of_order, "every second copy of a queue comes before the others")                                \
    MISTAKE(device_unchecked, "acc_set_device_num passes over a device that is not there")

#define NAME(name, what) name,
enum mistake { MISTAKES(NAME) COUNT };
#undef NAME

static enum mistake mistake;

/* The function of libgomp that a function here stands before. */
#define NEXT(name) ((__typeof__(&name))dlsym(RTLD_NEXT, #name))

__attribute__((constructor)) static void choose(void)
{
#define NAME(name, what) #name,
    static const char *const names[] = {MISTAKES(NAME)};
#undef NAME
#define WHAT(name, what) what,
    static const char *const told[] = {MISTAKES(WHAT)};
#undef WHAT
    const char *wanted = getenv("BROKEN");
    if (wanted != NULL && strcmp(wanted, "list") == 0) {
        for (size_t i = 0; i < COUNT; i++)
            printf("%s\t%s\n", names[i], told[i]);
        fflush(stdout);
        _Exit(0);
    }
    while (mistake < COUNT && (wanted == NULL || strcmp(names[mistake], wanted) != 0))
        mistake++;
    if (mistake == COUNT) {
        fprintf(stderr, "broken: BROKEN names no mistake\n");
        _Exit(2);
    }
}

static bool is(enum mistake name)
{
    return mistake == name;
}

/* ---- Items, as gcc passes them. A kind is the low byte of a number. */

enum {
    CREATE = 0x00,
    COPYIN = 0x01,
    COPYOUT = 0x02,
    COPY = 0x03,
    PRESENT = 0x06,
    DELETE_FINALIZE = 0x07,
    NO_CREATE = 0x0b,
    DELETE = 0x17,
    UPDATE_DEVICE = 0x81,
    UPDATE_SELF = 0x82,
    COPYOUT_FINALIZE = 0x82
};

enum { MOST = 64, OTHER_QUEUES = 100, NO_FLAGS = -1 };

struct items {
    size_t count;
    void *start[MOST];
    size_t length[MOST];
    unsigned short kind[MOST];
};

static struct items taken(size_t count, void **start, size_t *length, unsigned short *kind)
{
    struct items items = {.count = 0};
    if (count > MOST) {
        fprintf(stderr, "broken: a directive has more than %d items\n", MOST);
        _Exit(2);
    }
    items.count = count;
    for (size_t i = 0; i < count; i++) {
        items.start[i] = start[i];
        items.length[i] = length[i];
        items.kind[i] = kind[i];
    }
    return items;
}

static int kind_of(const struct items *items, size_t i)
{
    return items->kind[i] & 0xff;
}

/* Gives the items of one kind another. */
static void turn(struct items *items, int from, int to)
{
    for (size_t i = 0; i < items->count; i++) {
        if (kind_of(items, i) == from)
            items->kind[i] = (unsigned short)((items->kind[i] & 0xff00) | to);
    }
}

static void swap(struct items *items, int one, int other)
{
    enum { NEITHER = 0xff };
    turn(items, one, NEITHER);
    turn(items, other, one);
    turn(items, NEITHER, other);
}

static bool is_present(void *start, size_t length)
{
    return NEXT(acc_is_present)(start, length);
}

static bool is_partly_present(void *start, size_t length)
{
    for (size_t i = 0; i < length; i++) {
        if (is_present((char *)start + i, 1))
            return !is_present(start, length);
    }
    return false;
}

/* Leaves out the items of which a test holds. */
static void leave_out(struct items *items, bool (*test)(void *start, size_t length))
{
    struct items kept = {.count = 0};
    for (size_t i = 0; i < items->count; i++) {
        if (!test(items->start[i], items->length[i])) {
            kept.start[kept.count] = items->start[i];
            kept.length[kept.count] = items->length[i];
            kept.kind[kept.count++] = items->kind[i];
        }
    }
    *items = kept;
}

/* Makes a section that is present as long as its mapping. */
static void widen(void **start, size_t *length)
{
    while (is_present((char *)*start - 1, *length + 1)) {
        *start = (char *)*start - 1;
        *length += 1;
    }
    while (is_present(*start, *length + 1))
        *length += 1;
}

/* ---- Pointers, and questions */

void acc_attach(void **pointer)
{
    size_t length = 1;
    if (!is(attach_ignored))
        NEXT(acc_attach)(pointer);
    if (is(attach_of_mapping) && is_present(pointer, sizeof *pointer) && is_present(*pointer, length)) {
        void *target = *pointer;
        widen(&target, &length);
        target = NEXT(acc_deviceptr)(target);
        NEXT(acc_memcpy_to_device)(NEXT(acc_deviceptr)(pointer), &target, sizeof target);
    }
}

void acc_detach_finalize(void **pointer)
{
    if (is(detach_finalize_once))
        NEXT(acc_detach)(pointer);
    else if (!is(detach_ignored))
        NEXT(acc_detach_finalize)(pointer);
}

void acc_detach(void **pointer)
{
    if (is(detach_at_once))
        NEXT(acc_detach_finalize)(pointer);
    else if (!is(detach_ignored))
        NEXT(acc_detach)(pointer);
}

int acc_is_present(void *start, size_t length)
{
    if (is(present_of_first_byte))
        length = 1;
    return !is(present_never) && is_present(start, length);
}

void *acc_deviceptr(void *start)
{
    size_t length = 1;
    if (is(deviceptr_of_mapping) && is_present(start, length))
        widen(&start, &length);
    return NEXT(acc_deviceptr)(start);
}

void acc_set_device_num(int number, acc_device_t type)
{
    if (!is(device_unchecked) || number < acc_get_num_devices(type))
        NEXT(acc_set_device_num)(number, type);
}

/* The programs fill with zero by this call, where the compiler does not know the modifier. */
void acc_memcpy_to_device(void *to, void *from, size_t length)
{
    if (!is(zero_ignored))
        NEXT(acc_memcpy_to_device)(to, from, length);
}

/* ---- enter data and exit data */

void GOACC_enter_data(int flags, size_t count, void **start, size_t *length, unsigned short *kind, int async, int waits,
                      ...);
void GOACC_exit_data(int flags, size_t count, void **start, size_t *length, unsigned short *kind, int async, int waits,
                     ...);
void GOACC_update(int flags, size_t count, void **start, size_t *length, unsigned short *kind, int async, int waits,
                  ...);
void GOACC_data_start(int flags, size_t count, void **start, size_t *length, unsigned short *kind);
void GOACC_data_end(void);
void GOACC_wait(int async, int waits, ...);

/* Every second directive of a queue is given another queue, which is waited for first. */
static int queue_of(int async)
{
    static unsigned directives;
    return is(queue_out_of_order) && async >= 0 && directives++ % 2 == 1 ? async + OTHER_QUEUES : async;
}

/* What enter data has counted, mapping by mapping. */
static struct {
    void *start;
    size_t count;
} dynamic[MOST];

static size_t *dynamic_of(void *start, size_t length)
{
    size_t i = 0;
    widen(&start, &length);
    while (i < MOST - 1 && dynamic[i].start != NULL && dynamic[i].start != start)
        i++;
    dynamic[i].start = start;
    return &dynamic[i].count;
}

void GOACC_enter_data(int flags, size_t count, void **start, size_t *length, unsigned short *kind, int async, int waits,
                      ...)
{
    struct items items = taken(count, start, length, kind);
    (void)waits;
    if (is(copyin_omitted))
        turn(&items, COPYIN, CREATE);
    if (is(enter_data_not_counted))
        leave_out(&items, is_present);
    if (is(partly_present_accepted))
        leave_out(&items, is_partly_present);
    for (size_t i = 0; i < items.count; i++) {
        if (is(copyin_again) && kind_of(&items, i) == COPYIN && is_present(items.start[i], items.length[i]))
            acc_update_device(items.start[i], items.length[i]);
    }
    NEXT(GOACC_enter_data)(flags, items.count, items.start, items.length, items.kind, queue_of(async), 0);
    if (is(finalize_of_both)) {
        for (size_t i = 0; i < items.count; i++)
            ++*dynamic_of(items.start[i], items.length[i]);
    }
}

/* Whether no enter data counts a section. */
static bool is_uncounted(void *start, size_t length)
{
    return is_present(start, length) && *dynamic_of(start, length) == 0;
}

void GOACC_exit_data(int flags, size_t count, void **start, size_t *length, unsigned short *kind, int async, int waits,
                     ...)
{
    struct items items = taken(count, start, length, kind);
    (void)waits;
    if (is(finalize_ignored)) {
        turn(&items, COPYOUT_FINALIZE, COPYOUT);
        turn(&items, DELETE_FINALIZE, DELETE);
    }
    if (is(delete_copies_out)) {
        turn(&items, DELETE, COPYOUT);
        turn(&items, DELETE_FINALIZE, COPYOUT_FINALIZE);
    }
    if (is(copyout_omitted)) {
        turn(&items, COPYOUT, DELETE);
        turn(&items, COPYOUT_FINALIZE, DELETE_FINALIZE);
    }
    if (is(partly_present_accepted))
        leave_out(&items, is_partly_present);
    if (is(finalize_of_both)) {
        leave_out(&items, is_uncounted);
        for (size_t i = 0; i < items.count; i++) {
            bool finalizes = kind_of(&items, i) == COPYOUT_FINALIZE || kind_of(&items, i) == DELETE_FINALIZE;
            size_t *of = dynamic_of(items.start[i], items.length[i]);
            if (*of > 0)
                *of = finalizes ? 0 : *of - 1;
        }
    }
    for (size_t i = 0; i < items.count; i++) {
        bool copies = kind_of(&items, i) == COPYOUT || kind_of(&items, i) == COPYOUT_FINALIZE;
        if (is(copyout_while_held) && copies && is_present(items.start[i], items.length[i]))
            acc_update_self(items.start[i], items.length[i]);
        if (is(exit_of_absent_fails) && !is_present(items.start[i], items.length[i])) {
            fprintf(stderr, "broken: exit data of what is absent\n");
            exit(1);
        }
    }
    NEXT(GOACC_exit_data)(flags, items.count, items.start, items.length, items.kind, queue_of(async), 0);
    if (is(dynamic_dropped_twice))
        NEXT(GOACC_exit_data)(flags, items.count, items.start, items.length, items.kind, async, 0);
}

/* ---- Regions */

static struct items open_regions[MOST];
static size_t open_count;

/* Makes a region of one counter: it is an enter data, and at its end an exit data. */
static void enter_or_exit(struct items items, bool enters)
{
    for (size_t i = 0; i < items.count; i++) {
        int kind = kind_of(&items, i);
        if (enters && (kind == NO_CREATE || kind == PRESENT) && !is_present(items.start[i], items.length[i]))
            continue;
        if (enters)
            kind = kind == COPY || kind == COPYIN ? COPYIN : CREATE;
        else
            kind = kind == COPY || kind == COPYOUT ? COPYOUT : DELETE;
        turn(&items, kind_of(&items, i), kind);
        (enters ? NEXT(GOACC_enter_data) : NEXT(GOACC_exit_data))(NO_FLAGS, 1, items.start + i, items.length + i,
                                                                   items.kind + i, acc_async_sync, 0);
    }
}

void GOACC_data_start(int flags, size_t count, void **start, size_t *length, unsigned short *kind)
{
    struct items items = taken(count, start, length, kind);
    if (open_count == MOST) {
        fprintf(stderr, "broken: more than %d regions are open\n", MOST);
        _Exit(2);
    }
    open_regions[open_count++] = items;
    if (is(no_create_creates))
        turn(&items, NO_CREATE, CREATE);
    if (is(present_unchecked))
        turn(&items, PRESENT, NO_CREATE);
    if (is(copyin_omitted)) {
        turn(&items, COPYIN, CREATE);
        turn(&items, COPY, COPYOUT);
    }
    if (is(copyin_copies_back))
        turn(&items, COPYIN, COPY);
    if (is(create_copies_back))
        turn(&items, CREATE, COPYOUT);
    if (is(copyout_omitted)) {
        turn(&items, COPYOUT, CREATE);
        turn(&items, COPY, COPYIN);
    }
    if (is(region_not_counted))
        leave_out(&items, is_present);
    if (is(partly_present_accepted))
        leave_out(&items, is_partly_present);
    for (size_t i = 0; i < items.count; i++) {
        bool copies = kind_of(&items, i) == COPY || kind_of(&items, i) == COPYIN;
        if (is(copyin_again) && copies && is_present(items.start[i], items.length[i]))
            acc_update_device(items.start[i], items.length[i]);
    }
    if (is(finalize_of_both)) {
        enter_or_exit(items, true);
        items.count = 0;
    }
    NEXT(GOACC_data_start)(flags, items.count, items.start, items.length, items.kind);
}

void GOACC_data_end(void)
{
    struct items items = open_regions[--open_count];
    for (size_t i = 0; i < items.count; i++) {
        bool copies = kind_of(&items, i) == COPY || kind_of(&items, i) == COPYOUT;
        if (is(copy_back_while_held) && copies && is_present(items.start[i], items.length[i]))
            acc_update_self(items.start[i], items.length[i]);
    }
    NEXT(GOACC_data_end)();
    if (is(finalize_of_both))
        enter_or_exit(items, false);
    for (size_t i = 0; i < items.count; i++) {
        unsigned short kind = (unsigned short)((items.kind[i] & 0xff00) | DELETE_FINALIZE);
        if (is(region_end_of_all) && is_present(items.start[i], items.length[i]))
            NEXT(GOACC_exit_data)(NO_FLAGS, 1, items.start + i, items.length + i, &kind, acc_async_sync, 0);
    }
}

/* ---- update and wait */

void GOACC_update(int flags, size_t count, void **start, size_t *length, unsigned short *kind, int async, int waits,
                  ...)
{
    struct items items = taken(count, start, length, kind);
    (void)waits;
    if (is(update_ignored))
        items.count = 0;
    if (is(update_wrong_way)) {
        swap(&items, UPDATE_DEVICE, UPDATE_SELF);
        swap(&items, COPYIN, COPYOUT);
    }
    if (is(if_present_ignored)) {
        turn(&items, COPYIN, UPDATE_DEVICE);
        turn(&items, COPYOUT, UPDATE_SELF);
    }
    if (is(if_present_always)) {
        turn(&items, UPDATE_DEVICE, COPYIN);
        turn(&items, UPDATE_SELF, COPYOUT);
    }
    for (size_t i = 0; i < items.count; i++) {
        if (is(update_of_whole) && is_present(items.start[i], items.length[i]))
            widen(&items.start[i], &items.length[i]);
    }
    NEXT(GOACC_update)(flags, items.count, items.start, items.length, items.kind, queue_of(async), 0);
}

void GOACC_wait(int async, int waits, ...)
{
    va_list queues;
    (void)async;
    if (is(wait_ignored))
        return;
    if (is(wait_of_one_queue) && waits == 0) {
        acc_wait(0);
        return;
    }
    va_start(queues, waits);
    for (int i = 0; i < waits; i++) {
        int queue = va_arg(queues, int);
        acc_wait(queue + OTHER_QUEUES);
        acc_wait(queue);
    }
    va_end(queues);
    if (waits == 0) {
        for (int queue = 0; queue < 16; queue++)
            acc_wait(queue + OTHER_QUEUES);
        acc_wait_all();
    }
}
