/*
 * The profiling interface (OpenACC 3.3, chapter 5). Tools are called with the lock free, one at a time, and are told
 * nothing of what they do themselves. So what happens under the lock is noted, and told when the lock is free.
 */
#define _GNU_SOURCE
#include <pthread.h>
#include <stdlib.h>
#include <string.h>

#include "inner.h"

static pthread_mutex_t lock = PTHREAD_RECURSIVE_MUTEX_INITIALIZER_NP;

/* For each event the functions of tools that are called, in their order: how often each is registered. */
static struct {
    struct callback {
        acc_prof_callback call;
        int registered;
        bool on;
    } *list;
    size_t count, room;
} events[acc_ev_last];

/* Whether an event is off; that of acc_ev_none is for all. */
static bool off[acc_ev_last];
static _Thread_local bool off_here;
_Thread_local bool lwa_in_tool;

/* Whether there is some callback. */
static _Atomic bool some;

/* What was noted under the lock. */
static _Thread_local acc_data_event_info *notes;
static _Thread_local size_t count, room;

/* ---- Registration ---- */

/* The events at an end call their functions in the other order. */
static bool is_end(int event)
{
    return event == acc_ev_device_init_end || event == acc_ev_device_shutdown_end
        || (event >= acc_ev_enter_data_start && (event - acc_ev_enter_data_start) % 2 == 1);
}

static void insert(int event, size_t at, acc_prof_callback call)
{
    struct callback *list = lwa_grown(events[event].list, events[event].count, &events[event].room, sizeof *list);

    memmove(list + at + 1, list + at, (events[event].count++ - at) * sizeof *list);
    list[at] = (struct callback){call, 1, true};
    events[event].list = list;
    some = true;
}

static void set_callback(int event, acc_prof_callback call, acc_register_t how, bool on)
{
    struct callback *list = events[event].list;
    size_t i = 0;

    while (i < events[event].count && list[i].call != call) {
        i++;
    }
    if (i == events[event].count) {
        if (how == acc_reg && on) {
            insert(event, is_end(event) ? 0 : i, call);
        }
    } else if (how == acc_toggle) {
        list[i].on = on;
    } else if ((list[i].registered += on ? 1 : -1) == 0) {
        memmove(list + i, list + i + 1, (--events[event].count - i) * sizeof *list);
    }
}

static void set(int event, acc_prof_callback call, acc_register_t how, bool on)
{
    if (event < acc_ev_none || event >= acc_ev_last) {
        return;
    }
    pthread_mutex_lock(&lock);
    if (how == acc_toggle_per_thread && event == acc_ev_none && call == NULL) {
        off_here = !on;
    } else if (how == acc_toggle && call == NULL) {
        off[event] = !on;
    } else if (how != acc_toggle_per_thread && event != acc_ev_none && call != NULL) {
        set_callback(event, call, how, on);
    }
    pthread_mutex_unlock(&lock);
}

LWA_EXPORT void acc_prof_register(acc_event_t event, acc_prof_callback call, acc_register_t how)
{
    LWA_PASS(lwa_shadow, acc_prof_register, event, call, how)
    set((int)event, call, how, true);
}

LWA_EXPORT void acc_prof_unregister(acc_event_t event, acc_prof_callback call, acc_register_t how)
{
    LWA_PASS(lwa_shadow, acc_prof_unregister, event, call, how)
    set((int)event, call, how, false);
}

/* There is no further routine for tools. */
LWA_EXPORT acc_query_fn acc_prof_lookup(const char *name)
{
    LWA_PASS(lwa_shadow, acc_prof_lookup, name)
    return NULL;
}

/* A tool that is linked or preloaded has a function of this name, which is called in place of this one. */
LWA_EXPORT void acc_register_library(acc_prof_reg reg, acc_prof_reg unreg, acc_prof_lookup_func lookup)
{
    (void)reg;
    (void)unreg;
    (void)lookup;
}

static void find_tools(void)
{
    lwa_in_tool = true;
    acc_register_library(acc_prof_register, acc_prof_unregister, acc_prof_lookup);
    lwa_in_tool = false;
}

/* A tool may call routines while it is found, which do not look for it again. */
void lwa_find_tools(void)
{
    static pthread_once_t once = PTHREAD_ONCE_INIT;

    if (!lwa_shadow && !lwa_in_tool) {
        pthread_once(&once, find_tools);
    }
}

/* ---- Events ---- */

static void call_tools(acc_event_info *event)
{
    const acc_event_t type = event->event_type;
    const acc_device_t device = lwa_is_for_table() ? lwa_type_of_tables() : acc_device_host;
    acc_prof_info info = {type, _ACC_PROF_INFO_VALID_BYTES, _ACC_PROF_INFO_VERSION, device, (int)lwa_chosen_device(),
                          -1, acc_async_sync, acc_async_sync, NULL, NULL, -1, -1, -1, -1};
    acc_api_info api = {acc_device_api_other, _ACC_API_INFO_VALID_BYTES, device, -1, NULL, NULL, NULL};

    pthread_mutex_lock(&lock);
    lwa_in_tool = true;
    for (size_t i = 0; i < events[type].count && !off[type] && !off[acc_ev_none] && !off_here; i++) {
        if (events[type].list[i].on) {
            events[type].list[i].call(&info, event, &api);
        }
    }
    lwa_in_tool = false;
    pthread_mutex_unlock(&lock);
}

void lwa_tell(int event, int construct)
{
    acc_event_info told;

    if (event == acc_ev_none || !some || lwa_in_tool) {
        return;
    }
    memset(&told, 0, sizeof told);
    told.other_event = (acc_other_event_info){event, _ACC_OTHER_EVENT_INFO_VALID_BYTES, construct, 0, NULL};
    if (event == acc_ev_enqueue_launch_start || event == acc_ev_enqueue_launch_end) {
        told.launch_event = (acc_launch_event_info){event, _ACC_LAUNCH_EVENT_INFO_VALID_BYTES, construct, 0, NULL, NULL,
                                                    1, 1, 1};
    }
    call_tools(&told);
}

void lwa_note(int event, const lwa_block *block, uintptr_t at, size_t len)
{
    if (some && !lwa_in_tool) {
        notes = lwa_grown(notes, count, &room, sizeof *notes);
        notes[count++] = (acc_data_event_info){event, _ACC_DATA_EVENT_INFO_VALID_BYTES, 0, 1, NULL, NULL, len,
                                               (const void *)at,
                                               block != NULL ? (const void *)lwa_device_of(block, at) : NULL};
    }
}

/* A note of no block is of an event that has no data. */
void lwa_tell_notes(int construct)
{
    acc_data_event_info *list = notes;
    const size_t all = count;

    if (all == 0) {
        return;
    }
    notes = NULL;
    count = room = 0;
    for (size_t i = 0; i < all; i++) {
        acc_event_info told = {.data_event = list[i]};

        told.data_event.parent_construct = construct;
        if (list[i].device_ptr == NULL) {
            lwa_tell(list[i].event_type, construct);
        } else {
            call_tools(&told);
        }
    }
    free(list);
}
