/* The routines of devices and of queues (OpenACC 3.3, section 3.2), as GCC 12's openacc.h has them. */
#include <limits.h>
#include <stdlib.h>
#include <strings.h>

#include "inner.h"

/* What the directives of this thread are for, and whether acc_init is about to say it. */
static _Thread_local struct {
    enum { BY_ENVIRONMENT, HOST, TABLE } kind;
    unsigned device;
    bool begins;
} chosen;

acc_device_t lwa_named_type(void)
{
    static const struct {
        const char *word;
        acc_device_t type;
    } types[] = {{"", acc_device_not_host}, {"not_host", acc_device_not_host}, {"host", acc_device_host},
                 {"nvidia", acc_device_nvidia}, {"radeon", acc_device_radeon}};
    const char *word = getenv("ACC_DEVICE_TYPE");

    for (size_t i = 0; i < sizeof types / sizeof *types; i++) {
        if (strcasecmp(word != NULL ? word : "", types[i].word) == 0) {
            return types[i].type;
        }
    }
    return acc_device_none;
}

acc_device_t lwa_type_of_tables(void)
{
    const acc_device_t type = lwa_named_type();

    return type == acc_device_nvidia || type == acc_device_radeon ? type : acc_device_not_host;
}

/* What is too large for a number of a device stays none. */
static void choose_by_environment(void)
{
    if (chosen.kind == BY_ENVIRONMENT) {
        const char *text = getenv("ACC_DEVICE_NUM");
        const unsigned long number = text != NULL ? strtoul(text, NULL, 10) : 0;

        chosen.kind = lwa_named_type() == acc_device_host ? HOST : TABLE;
        chosen.device = number < UINT_MAX ? (unsigned)number : UINT_MAX;
    }
}

/* In shadow mode the runtime has chosen; what shares the host's memory is not compared. */
bool lwa_is_for_table(void)
{
    if (lwa_shadow) {
        return lwa_has_device(LWA_NEXT(acc_get_device_type)() != acc_device_host);
    }
    choose_by_environment();
    return chosen.kind == TABLE;
}

unsigned lwa_chosen_device(void)
{
    if (lwa_shadow) {
        return (unsigned)LWA_NEXT(acc_get_device_num)(LWA_NEXT(acc_get_device_type)());
    }
    choose_by_environment();
    return chosen.device;
}

/* ---- Devices ---- */

static bool is_table_type(acc_device_t type)
{
    return (lwa_shadow && type != acc_device_host) || type == acc_device_default || type == acc_device_not_host
        || type == lwa_type_of_tables() || (type == acc_device_current && lwa_is_for_table());
}

static bool is_host_type(acc_device_t type)
{
    return type == acc_device_host || (type == acc_device_current && !lwa_is_for_table());
}

static bool is_device(int number, acc_device_t type)
{
    return number >= 0 && number < acc_get_num_devices(type);
}

/* A device that there is. */
static void want(int number, acc_device_t type)
{
    if (acc_get_num_devices(type) == 0) {
        lwa_unserved("there is no device of the type %d", type);
    }
    if (!is_device(number, type)) {
        lwa_unserved("there is no device of the number %d; the last one is %d", number, acc_get_num_devices(type) - 1);
    }
}

static void choose(const char *name, void *from, int event, int number, acc_device_t type)
{
    lwa_take_for(name, from, event, acc_construct_runtime_api);
    want(number, type);
    choose_by_environment();
    chosen.kind = is_host_type(type) ? HOST : TABLE;
    chosen.device = chosen.kind == TABLE ? (unsigned)number : chosen.device;
    lwa_leave();
}

LWA_EXPORT void acc_init(acc_device_t type)
{
    LWA_PASS(lwa_shadow, acc_init, type)
    chosen.begins = true;
    choose("acc_init", LWA_FROM, acc_ev_device_init_start, 0, type);
    chosen.begins = false;
}

static void want_no_region(void)
{
    uint64_t regions = 0;

    lw_regions(lwa_table(), &regions);
    if (regions != 0) {
        lwa_unserved("%llu data regions are open", (unsigned long long)regions);
    }
}

LWA_EXPORT void acc_shutdown(acc_device_t type)
{
    lwa_take_for("acc_shutdown", LWA_FROM, acc_ev_device_shutdown_start, acc_construct_runtime_api);
    want(0, type);
    if (is_table_type(type)) {
        lwa_each_device(want_no_region);
        lwa_each_device(lwa_end_table);
    }
    LWA_LEAVE(LWA_NEXT(acc_shutdown)(type));
}

LWA_EXPORT int acc_get_num_devices(acc_device_t type)
{
    LWA_PASS(lwa_shadow, acc_get_num_devices, type)
    lwa_check_first("acc_get_num_devices", LWA_FROM);
    return is_table_type(type) ? LWA_DEVICES : is_host_type(type);
}

LWA_EXPORT void acc_set_device_type(acc_device_t type)
{
    LWA_PASS(lwa_shadow, acc_set_device_type, type)
    choose("acc_set_device_type", LWA_FROM, acc_ev_none, 0, type);
}

LWA_EXPORT acc_device_t acc_get_device_type(void)
{
    LWA_PASS(lwa_shadow, acc_get_device_type)
    lwa_check_first("acc_get_device_type", LWA_FROM);
    return chosen.begins ? acc_device_none : lwa_is_for_table() ? lwa_type_of_tables() : acc_device_host;
}

/* A type of 0 stands for all. */
LWA_EXPORT void acc_set_device_num(int number, acc_device_t type)
{
    LWA_PASS(lwa_shadow, acc_set_device_num, number, type)
    choose("acc_set_device_num", LWA_FROM, acc_ev_none, number, type != acc_device_none ? type : acc_device_current);
}

LWA_EXPORT int acc_get_device_num(acc_device_t type)
{
    LWA_PASS(lwa_shadow, acc_get_device_num, type)
    lwa_take("acc_get_device_num", LWA_FROM);
    want(0, type);
    lwa_leave();
    return is_table_type(type) ? (int)lwa_chosen_device() : 0;
}

LWA_EXPORT size_t acc_get_property(int number, acc_device_t type, acc_device_property_t property)
{
    uint64_t used = 0;
    size_t answer = 0;

    LWA_PASS(lwa_shadow, acc_get_property, number, type, property)
    lwa_take("acc_get_property", LWA_FROM);
    if (is_device(number, type) && is_table_type(type)) {
        lwa_go_to((unsigned)number);
        lw_used(lwa_table(), 0, &used);
        answer = property == acc_property_memory ? lwa_limits.device
               : property == acc_property_free_memory ? lwa_limits.device - used : 0;
    }
    lwa_leave();
    return answer;
}

/* Of the host they are those that libgomp has. */
LWA_EXPORT const char *acc_get_property_string(int number, acc_device_t type, acc_device_property_t property)
{
    LWA_PASS(lwa_shadow, acc_get_property_string, number, type, property)
    lwa_check_first("acc_get_property_string", LWA_FROM);
    if (!is_device(number, type)) {
        return NULL;
    }
    switch (property) {
    case acc_property_name: return is_table_type(type) ? "Lamwiest's table" : "GOMP";
    case acc_property_vendor: return is_table_type(type) ? "Lamwiest" : "GNU";
    case acc_property_driver: return is_table_type(type) ? "liblamwiest_acc" : "1.0";
    default: return NULL;
    }
}

/* Where gcc has not answered it itself, for code of the host. A kernel is on the device. */
LWA_EXPORT int acc_on_device(acc_device_t type)
{
    LWA_PASS(lwa_shadow, acc_on_device, type)
    lwa_check_first("acc_on_device", LWA_FROM);
    return lwa_in_kernel ? type == acc_device_not_host || type == lwa_type_of_tables()
                         : type == acc_device_host || type == acc_device_none;
}

/* ---- Queues ---- */

/* The number of async that each queue of a device was first named by, and one more; 0 for none. */
static unsigned named[LWA_DEVICES][LWA_QUEUES];

/* In shadow mode async alone is a queue of its own, as a runtime may have it. */
#define NO_NUMBER 0x7fffffffu

static unsigned number_of(int async)
{
    if (async < acc_async_sync) {
        lwa_unserved("async has the number %d, which names no queue", async);
    }
    return async == acc_async_noval ? (lwa_shadow ? NO_NUMBER : 0) : (unsigned)async;
}

uint64_t lwa_queue_of(int async)
{
    const unsigned number = async == acc_async_sync ? 0 : number_of(async);
    bool all = true;

    for (uint64_t queue = 0; async != acc_async_sync && queue < LWA_QUEUES; queue++) {
        if (named[lwa_on][queue] == number + 1) {
            return queue;
        }
        all &= named[lwa_on][queue] != 0;
    }
    return async != acc_async_sync && all ? number % LWA_QUEUES : LW_NO_QUEUE_GIVEN;
}

/* The first sixteen numbers have a queue each, that of their own number where it is free; the others share them. */
uint64_t lwa_queue(int async)
{
    uint64_t queue = lwa_queue_of(async);

    if (queue == LW_NO_QUEUE_GIVEN && async != acc_async_sync) {
        queue = number_of(async) % LWA_QUEUES;
        while (named[lwa_on][queue] != 0) {
            queue = (queue + 1) % LWA_QUEUES;
        }
        named[lwa_on][queue] = number_of(async) + 1;
    }
    return queue;
}

/* In shadow mode the runtime has said whether all of them are made. */
static int test_queue(uint64_t queue, int done)
{
    uint64_t len = 0;

    if (lwa_shadow) {
        while (done != 0 && lwa_step(queue)) {
        }
        return done;
    }
    return !lwa_step(queue) || (lw_queue_len(lwa_table(), 0, queue, &len) == LW_DONE && len == 0);
}

/* Each test makes the next copy, so that a program that only asks comes to an end. */
LWA_EXPORT int acc_async_test(int async)
{
    uint64_t queue;
    int done = 1;

    LWA_PASS(lwa_in_runtime, acc_async_test, async)
    lwa_take("acc_async_test", LWA_FROM);
    queue = lwa_queue_of(async);
    if (lwa_shadow) {
        done = LWA_NEXT(acc_async_test)(async);
    }
    if (lwa_is_for_table() && queue != LW_NO_QUEUE_GIVEN) {
        done = test_queue(queue, done);
    }
    LWA_LEAVE((void)0);
    return done;
}

LWA_EXPORT int acc_async_test_all(void)
{
    int done = 1;

    LWA_PASS(lwa_in_runtime, acc_async_test_all)
    lwa_take("acc_async_test_all", LWA_FROM);
    if (lwa_shadow) {
        done = LWA_NEXT(acc_async_test_all)();
    }
    for (uint64_t queue = 0; lwa_is_for_table() && queue < LWA_QUEUES; queue++) {
        done &= test_queue(queue, done);
    }
    LWA_LEAVE((void)0);
    return done;
}

static void wait_for(const char *name, void *from, int async, bool every)
{
    lwa_take_for(name, from, acc_ev_wait_start, acc_construct_runtime_api);
    if (lwa_is_for_table() && (every || lwa_queue_of(async) != LW_NO_QUEUE_GIVEN)) {
        lwa_wait(every ? LW_NO_QUEUE_GIVEN : lwa_queue_of(async));
    }
}

/* behind: what makes the runtime wait, too, where another queue would go on behind the first. */
#define WAIT(name, parameters, arguments, async, every, behind) \
    LWA_EXPORT void name parameters \
    { \
        LWA_PASS(lwa_in_runtime, name, LWA_LIST arguments) \
        wait_for(#name, LWA_FROM, async, every); \
        LWA_LEAVE((LWA_NEXT(name) arguments, behind)); \
    }

WAIT(acc_wait, (int async), (async), async, false, (void)0)
WAIT(acc_async_wait, (int async), (async), async, false, (void)0)
WAIT(acc_wait_all, (void), (), 0, true, (void)0)
WAIT(acc_async_wait_all, (void), (), 0, true, (void)0)
WAIT(acc_wait_async, (int async, int other), (async, other), async, false, LWA_NEXT(acc_wait)(async))
WAIT(acc_wait_all_async, (int other), (other), 0, true, LWA_NEXT(acc_wait_all)())
