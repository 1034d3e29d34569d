/* The lock, the tables under it, and the end of a program that is refused. */
#define _GNU_SOURCE
#include <dlfcn.h>
#include <inttypes.h>
#include <pthread.h>
#include <stdio.h>
#include <stdlib.h>
#include <unistd.h>

#include "inner.h"

/* The events of the stored trace at most. They are folded into the table's base when they are so few, and one for each
   mapped range, which the base has a copy of: so those that are stored lie near. */
#define TRACE 16384
#define LEAST_TRACE 256

_Thread_local unsigned lwa_on;
lw_limits lwa_limits;
uint64_t lwa_turn;

static lw_table tables[LWA_DEVICES];
static uint64_t stored[LWA_DEVICES];

static pthread_mutex_t lock = PTHREAD_MUTEX_INITIALIZER;
static _Thread_local bool has_lock;
static pthread_cond_t gathered = PTHREAD_COND_INITIALIZER;

/* The thread that ends the program, of which it is the only one that goes on. */
static bool ending;
static pthread_t ender;

/* What ends with a thread: its open regions, the innermost first. */
static pthread_key_t regions_key;

/* The call of the program that this thread is in. */
static _Thread_local struct {
    const char *name;
    void *from;
    int event, construct, cancel_state;
} caller;
_Thread_local bool lwa_in_kernel;

/* A signal handler of the program has called, and may have interrupted what reads the program's lines. */
static _Thread_local bool in_handler;

/* Some call of the program has checked the environment. */
static _Atomic bool is_checked;

lw_table *lwa_table(void)
{
    return &tables[lwa_on];
}

/* Makes a table of the sizes that the environment has. */
static void make_table(lw_table *table)
{
    char text[LWA_REFUSAL];
    lw_fault fault = {.status = LW_BAD_CONFIG};

    lwa_limits = (lw_limits)LW_LIMITS;
    lwa_limits.host = lwa_number_of("LAMWIEST_HOST", "number of bytes", 16777216);
    lwa_limits.device = lwa_number_of("LAMWIEST_DEVICE", "number of bytes", 16777216);
    lwa_limits.regions = 65536;
    lwa_limits.trace_cap = TRACE;
    /* Of a 0 the table would have a size of its own. */
    if (lwa_limits.host == 0 || lwa_limits.device == 0 || lw_table_new(table, &lwa_limits, &fault) != LW_DONE) {
        lwa_refusal_text(&fault, text);
        lwa_unserved("%s, LAMWIEST_HOST is %" PRIu64 ", LAMWIEST_DEVICE is %" PRIu64, text, lwa_limits.host,
                     lwa_limits.device);
    }
}

static void start_table(void)
{
    make_table(lwa_table());
    stored[lwa_on] = 0;
    lwa_start_script();
    lwa_start_log();
    if (caller.event != acc_ev_device_init_start && lwa_is_for_table()) {
        lwa_note(acc_ev_device_init_start, NULL, 0, 0);
        lwa_note(acc_ev_device_init_end, NULL, 0, 0);
    }
}

static bool has_table(void)
{
    return lwa_table()->at != NULL;
}

void lwa_go_to(unsigned device)
{
    if (device >= LWA_DEVICES) {
        lwa_unserved("there is no device of the number %u; the last one is %d", device, LWA_DEVICES - 1);
    }
    lwa_on = device;
    if (!has_table()) {
        start_table();
    }
    lwa_tell_loans();
}

void lwa_each_device(void (*act)(void))
{
    const unsigned on = lwa_on;

    for (lwa_on = 0; lwa_on < LWA_DEVICES; lwa_on++) {
        if (has_table()) {
            act();
        }
    }
    lwa_on = on;
}

/* ---- The lock ---- */

static void take_lock(void)
{
    has_lock = true;
    pthread_mutex_lock(&lock);
}

static void free_lock(void)
{
    pthread_mutex_unlock(&lock);
    has_lock = false;
}

static void sleep_for_good(void)
{
    free_lock();
    while (true) {
        pause();
    }
}

/* Takes the lock for a call of the program, of which the first one checks the environment. */
static void begin(const char *name, void *from, int event, int construct)
{
    caller.name = name;
    caller.from = from;
    caller.event = event;
    caller.construct = construct;
    pthread_setcancelstate(PTHREAD_CANCEL_DISABLE, &caller.cancel_state);
    if (has_lock) {
        in_handler = true;
        lwa_unserved("this thread is in a directive already");
    }
    take_lock();
    lwa_turn++;
    LWA_CHECK(lwa_check_call());
    if (ending && !pthread_equal(ender, pthread_self())) {
        sleep_for_good();
    }
    if (lwa_in_kernel) {
        lwa_unserved("it is called in a kernel");
    }
    if (!is_checked) {
        is_checked = true;
        lwa_check_environment();
    }
}

void lwa_take_for(const char *name, void *from, int event, int construct)
{
    lwa_find_tools();
    lwa_tell(event, construct);
    begin(name, from, event, construct);
    lwa_go_to(lwa_chosen_device());
    lwa_report_if_asked();
}

/* The sizes are checked by a table that is made of them, and ends at once. */
void lwa_check_first(const char *name, void *from)
{
    if (!is_checked) {
        lw_table table = LW_NO_TABLE;

        begin(name, from, acc_ev_none, acc_construct_runtime_api);
        make_table(&table);
        lw_table_end(&table);
        lwa_leave();
    }
}

/* A tool may call routines, each of which is a caller of its own. */
void lwa_leave(void)
{
    const __typeof__(caller) outer = caller;

    LWA_CHECK(lwa_keep_pages());
    free_lock();
    pthread_setcancelstate(outer.cancel_state, NULL);
    lwa_tell_notes(outer.construct);
    if (outer.event != acc_ev_none) {
        lwa_tell(outer.event + 1, outer.construct);
    }
}

/* A function of the host may call what it likes, and a tool too, on another device also. Blocks are brought back also
   where another thread ends the program, which may wait for them. */
void lwa_run_free(void (*run)(void *), void *addresses, bool on_device)
{
    const int event = on_device ? acc_ev_enqueue_launch_start : acc_ev_none;
    const __typeof__(caller) outer = caller;
    const unsigned device = lwa_on;

    free_lock();
    lwa_tell_notes(outer.construct);
    lwa_tell(event, outer.construct);
    lwa_in_kernel = on_device;
    lwa_in_runtime = on_device && lwa_shadow;
    if (!on_device) {
        LWA_CHECK(lwa_keep_pages());
    }
    run(addresses);
    LWA_CHECK(lwa_open_pages());
    lwa_in_kernel = lwa_in_runtime = false;
    lwa_tell(on_device ? event + 1 : event, outer.construct);
    caller = outer;
    lwa_on = device;
    take_lock();
    lwa_turn++;
    if (on_device && !has_table()) {
        sleep_for_good();
    }
    pthread_cond_broadcast(&gathered);
}

bool lwa_is_lent(uint32_t status)
{
    if (status != LW_LENT) {
        return false;
    }
    if (lwa_in_tool) {
        lwa_unserved("a tool needs a block that a kernel has, and would wait for good");
    }
    pthread_cond_wait(&gathered, &lock);
    lwa_turn++;
    if (!has_table()) {
        sleep_for_good();
    }
    lwa_tell_loans();
    return true;
}

/* ---- Threads and children of the program ---- */

lwa_region *lwa_innermost(void)
{
    return pthread_getspecific(regions_key);
}

void lwa_set_innermost(lwa_region *region)
{
    pthread_setspecific(regions_key, region);
}

/* The thread has its regions no more, and gets them back, so that they are its own while the program ends. */
static void end_thread(void *innermost)
{
    size_t open = 0;

    lwa_set_innermost(innermost);
    for (const lwa_region *region = innermost; region != NULL; region = region->below) {
        open++;
    }
    lwa_take("end of a thread", NULL);
    lwa_unserved("%zu of its data regions are open", open);
}

/* A child has the table as it was, and no other thread of it. */
static void in_child(void)
{
    lock = (pthread_mutex_t)PTHREAD_MUTEX_INITIALIZER;
    has_lock = false;
    gathered = (pthread_cond_t)PTHREAD_COND_INITIALIZER;
    lwa_each_device(lwa_forget_script);
    lwa_each_device(lwa_gather_all);
}

__attribute__((constructor)) static void at_start(void)
{
    lwa_start_shadow();
    lwa_start_check();
    lwa_start_report();
    pthread_key_create(&regions_key, end_thread);
    pthread_atfork(take_lock, free_lock, in_child);
}

/* ---- The table ---- */

void lwa_end_table(void)
{
    lwa_finish_script();
    lwa_finish_log();
    lw_table_end(lwa_table());
    lwa_forget_waiting();
    lwa_forget_blocks();
}

void lwa_room(void)
{
    if (stored[lwa_on] >= TRACE || stored[lwa_on] >= LEAST_TRACE + lwa_mapped[lwa_on]) {
        uint64_t folded;
        lw_fault fault;

        lwa_must(lw_rebase(lwa_table(), &folded, &fault), &fault);
        stored[lwa_on] = 0;
    }
    stored[lwa_on]++;
}

void *lwa_from(void)
{
    return caller.from;
}

/* Without lines it is what the dynamic linker knows. */
void lwa_place_text(const void *from, char text[LWA_NAME])
{
    Dl_info info;

    if (!in_handler && lwa_line_of(from, text)) {
        return;
    }
    text[0] = '\0';
    if (from == NULL || dladdr(from, &info) == 0 || info.dli_fname == NULL) {
        return;
    }
    if (info.dli_sname != NULL) {
        snprintf(text, LWA_NAME, "%s in %s", info.dli_sname, info.dli_fname);
    } else {
        snprintf(text, LWA_NAME, "%s(+0x%tx)", info.dli_fname, (const char *)from - (char *)info.dli_fbase);
    }
}

void lwa_say(const char *text)
{
    char place[LWA_NAME];

    lwa_place_text(caller.from, place);
    fflush(stdout);
    fprintf(stderr, "lamwiest: %s: %s%s%s\n", caller.name, text, place[0] != '\0' ? ", called from " : "", place);
}

/* Handlers of the end of the program run, but not a second time, and not in a kernel, which may have what they want. */
_Noreturn void lwa_end_program(const char *text)
{
    lwa_say(text);
    if (ending || lwa_in_kernel) {
        lwa_each_device(lwa_end_table);
        fflush(NULL);
        _exit(1);
    }
    ending = true;
    ender = pthread_self();
    free_lock();
    pthread_setcancelstate(caller.cancel_state, NULL);
    exit(1);
}

void lwa_refusal_text(const lw_fault *told, char text[LWA_REFUSAL])
{
    lw_fault_text(told, text, LWA_REFUSAL, NULL);
}

_Noreturn void lwa_refuse(const lw_fault *fault, const char *of)
{
    char refusal[LWA_REFUSAL], text[LWA_REFUSAL + LWA_ITEM];

    lwa_refusal_text(fault, refusal);
    lwa_log_refused(fault);
    snprintf(text, sizeof text, "%s%s%s", refusal, of[0] != '\0' ? ", " : "", of);
    lwa_end_program(text);
}

_Noreturn void lwa_unserved(const char *format, ...)
{
    char text[256];
    va_list words;

    va_start(words, format);
    vsnprintf(text, sizeof text, format, words);
    va_end(words);
    lwa_end_program(text);
}

void lwa_must(uint32_t status, const lw_fault *fault)
{
    if (status != LW_DONE) {
        lwa_refuse(fault, "");
    }
}

void *lwa_memory(void *old, size_t size)
{
    void *at = realloc(old, size != 0 ? size : 1);

    if (at == NULL) {
        lwa_unserved("no memory for the library's own lists");
    }
    return at;
}

void *lwa_grown(void *list, size_t count, size_t *room, size_t size)
{
    if (count < *room) {
        return list;
    }
    *room = *room != 0 ? 2 * *room : 8;
    return lwa_memory(list, *room * size);
}

/* At the end of the program the script, the log and the report are ended. The runtime may have ended it in a call. */
__attribute__((destructor)) static void at_end(void)
{
    bool is_wrong = false;

    LWA_CHECK(lwa_open_pages());
    if (has_lock && !lwa_in_runtime) {
        return;
    }
    if (!has_lock) {
        take_lock();
    }
    if (!ending && !lwa_in_runtime) {
        LWA_CHECK(is_wrong = lwa_finish_check());
        lwa_each_device(lwa_tell_left);
    }
    ending = true;
    ender = pthread_self();
    lwa_finish_shadow();
    lwa_each_device(lwa_end_table);
    if (is_wrong) {
        fflush(NULL);
        _exit(1);
    }
    free_lock();
}
