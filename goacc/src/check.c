/*
 * Reads of stale bytes (LAMWIEST_CHECK): what is found, and the lines of it on standard error.
 *
 * A read is seen in a signal handler, which may have interrupted anything. So it is kept there, and told when the
 * library is called next, or before the program writes or ends.
 */
#define _GNU_SOURCE
#include <dlfcn.h>
#include <inttypes.h>
#include <link.h>
#include <signal.h>
#include <stdio.h>
#include <stdlib.h>
#include <string.h>
#include <ucontext.h>
#include <unistd.h>
#include <unwind.h>

#include "inner.h"

bool lwa_checked;
static bool checks_kernels, is_error;
static size_t told_count, more;

static void find_free(void);

void lwa_start_check(void)
{
    const char *word = getenv("LAMWIEST_CHECK");

    lwa_checked = lwa_is_on("LAMWIEST_CHECK");
    checks_kernels = lwa_checked && strcmp(word, "all") == 0;
    is_error = lwa_checked && strcmp(word, "error") == 0;
    if (lwa_checked) {
        find_free();
    }
}

/* ---- What was found ---- */

/* The functions that were running, the innermost first: where each goes on. */
enum { MOST_FRAMES = 24, MOST_FOUND = 64 };
typedef struct finding {
    lwa_stale read;
    const void *frames[MOST_FRAMES];
    int frame_count;
    bool waits;     /* a copy of it is in a queue */
    uint64_t queue; /* that one */
    const void *put;
    bool is_mapped;
} finding;
static finding found[MOST_FOUND];
static size_t found_count;

/* Those of the handler come before the one that was interrupted. */
static _Unwind_Reason_Code add_frame(struct _Unwind_Context *function, void *given)
{
    finding *f = given;
    int is_interrupted = 0;
    const uintptr_t ip = _Unwind_GetIPInfo(function, &is_interrupted);

    if (f->frame_count != 0 && ip != 0) {
        f->frames[f->frame_count++] = (const void *)ip;
    } else if (is_interrupted != 0) {
        f->frame_count = 1;
    }
    return f->frame_count < MOST_FRAMES ? _URC_NO_REASON : _URC_END_OF_STACK;
}

static void see_frames(finding *f, const ucontext_t *context)
{
    f->frame_count = 0;
    _Unwind_Backtrace(add_frame, f);
    f->frame_count += f->frame_count == 0;
    f->frames[0] = (const void *)(context->uc_mcontext.gregs[REG_RIP] + 1);
}

/* The code of `free`, of the C library. */
static uintptr_t free_from;
static size_t free_len;

bool lwa_is_in_free(const void *context)
{
    static finding here;
    bool is_in = false;

    see_frames(&here, context);
    for (int i = 0; i < here.frame_count; i++) {
        is_in |= (uintptr_t)here.frames[i] - 1 - free_from < free_len;
    }
    return is_in;
}

static void find_free(void)
{
    void *library = dlopen("libc.so.6", RTLD_LAZY | RTLD_NOLOAD);
    void *found = library != NULL ? dlsym(library, "free") : NULL;
    const ElfW(Sym) *symbol = NULL;
    Dl_info info;

    if (found != NULL && dladdr1(found, &info, (void **)&symbol, RTLD_DL_SYMENT) != 0 && symbol != NULL) {
        free_from = (uintptr_t)found;
        free_len = symbol->st_size;
    }
}

static finding *sought;

static void see_waiting(uint64_t queue, const void *from, uintptr_t at, size_t len, bool out)
{
    if (out && sought->read.at - at < len) {
        sought->waits = true;
        sought->queue = queue;
        sought->put = from;
    }
}

void lwa_check_read(uintptr_t at, size_t len, bool by_words, void *given)
{
    const ucontext_t *context = given;
    lwa_stale read;
    finding *f;

    while (lwa_read_by_host(at, len, by_words, &read)) {
        if (found_count == MOST_FOUND) {
            return;
        }
        f = &found[found_count++];
        *f = (finding){.read = read};
        f->is_mapped = lwa_meets(read.at, 1) != NULL;
        sought = f;
        lwa_each_waiting(see_waiting);
        see_frames(f, context);
    }
}

/* ---- What is told ---- */

/* A line of a finding, at a place of the program where that is known. */
__attribute__((format(printf, 2, 3))) static void say(const char *place, const char *format, ...)
{
    char text[3 * LWA_NAME];
    va_list words;

    va_start(words, format);
    vsnprintf(text, sizeof text, format, words);
    va_end(words);
    fprintf(stderr, "lamwiest: %s%s%s\n", place, place[0] != '\0' ? ": " : "", text);
}

static void section(const lwa_cause *cause, uintptr_t at, size_t len, char text[LWA_NAME])
{
    if (!lwa_section_of(cause->variable, at, len, text)) {
        lwa_section_text(at, len, text);
    }
}

/* Whether code is of a library of the system, as those of C, of Fortran and of sanitizers. */
static bool is_of_system(const void *code)
{
    Dl_info info;

    return dladdr(code, &info) != 0 && info.dli_fname != NULL
        && (strncmp(info.dli_fname, "/lib/", 5) == 0 || strncmp(info.dli_fname, "/usr/lib/", 9) == 0);
}

/* The innermost function of the program whose line is known; or that which read. */
static const void *reader(const finding *f)
{
    char text[LWA_NAME];

    for (int i = 0; i < f->frame_count; i++) {
        if (!is_of_system(f->frames[i]) && lwa_line_of(f->frames[i], text)) {
            return f->frames[i];
        }
    }
    return f->frames[0];
}

/* What should have copied, or what has copied stale bytes. */
static void say_missed(const lwa_cause *cause, const char *name)
{
    char place[LWA_NAME];

    if (cause->missed == NULL) {
        return;
    }
    lwa_place_text(cause->missed, place);
    if (cause->stale == LWA_OVERWRITTEN) {
        say(place, "note: this copied older bytes than the host had");
    } else if (cause->stale == LWA_UNFILLED) {
        say(place, "note: this copied them, and nothing had filled them");
    } else if (cause->why == LWA_HELD) {
        say(place, "note: this did not copy them, since they are mapped outside of it too");
    } else if (cause->why == LWA_DELETED) {
        say(place, "note: write 'copyout(%s)' for 'delete'", name);
    } else {
        say(place, "note: write '%s(%s)' for '%s'", cause->clause == LW_COPYIN ? "copy" : "copyout", name,
            lwa_clause_name(cause->clause));
    }
}

static void tell(const finding *f)
{
    const lwa_cause *cause = lwa_cause_of(f->read.mark);
    char line[LWA_NAME], place[LWA_NAME], name[LWA_NAME];

    section(cause, f->read.at, f->read.len, name);
    lwa_place_text(reader(f), line);
    say(line, "warning: %s: %s", cause->stale == LWA_UNFILLED ? "unfilled" : "stale-host", name);
    if (cause->wrote != NULL) {
        lwa_place_text(cause->wrote, place);
        say(place, "note: this kernel wrote them on the device");
    }
    say_missed(cause, name);
    if (f->waits) {
        lwa_place_text(f->put, place);
        say(place, "note: their copy waits in queue %" PRIu64, f->queue);
        say(line, "note: write 'wait(%" PRIu64 ")' before it", f->queue);
    } else if (cause->stale == LWA_BEHIND && f->is_mapped) {
        say(line, "note: write 'update self(%s)' before it", name);
    }
}

/* Whether the same code was told of bytes that are stale for the same reason; or of many for the same directives. */
static bool is_told(const finding *f)
{
    enum { MOST = 10 };
    static struct {
        const void *ip;
        lwa_mark mark;
    } *list;
    static size_t count, room;
    const lwa_cause *cause = lwa_cause_of(f->read.mark), *other;
    const void *ip = reader(f);
    size_t alike = 0;

    for (size_t i = 0; i < count; i++) {
        if (list[i].ip == ip && list[i].mark == f->read.mark) {
            return true;
        }
        other = lwa_cause_of(list[i].mark);
        alike += list[i].ip == ip && other->stale == cause->stale && other->wrote == cause->wrote
              && other->missed == cause->missed;
    }
    if (alike == MOST) {
        more++;
        return true;
    }
    list = lwa_grown(list, count, &room, sizeof *list);
    list[count].ip = ip;
    list[count++].mark = f->read.mark;
    return false;
}

void lwa_tell_findings(void)
{
    const size_t count = found_count;

    found_count = 0;
    for (size_t i = 0; i < count; i++) {
        told_count++;
        if (!is_told(&found[i])) {
            tell(&found[i]);
        }
    }
}

void lwa_tell_unseen(const char *why)
{
    static const char *told[8];
    size_t i = 0;

    while (i < sizeof told / sizeof *told && told[i] != NULL && told[i] != why) {
        i++;
    }
    if (i < sizeof told / sizeof *told && told[i] == NULL) {
        told[i] = why;
        say("", "check: %s", why);
    }
}

static void *region_from;

void lwa_check_region(void *from)
{
    region_from = from;
}

void *lwa_check_from(void)
{
    return region_from != NULL ? region_from : lwa_from();
}

void lwa_check_call(void)
{
    lwa_open_pages();
    region_from = NULL;
    if (found_count != 0) {
        fflush(stdout);
        lwa_tell_findings();
    }
}

/* ---- Directives and kernels ---- */

void lwa_check_item(const lwa_directive *d, const lwa_item *item)
{
    const bool out = item->did.way == LW_OUT, ends = item->did.step == LW_ENDED_RANGE;

    if (item->did.step == LW_DROPPED && (item->back || item->clause == LW_COPYOUT)) {
        lwa_behind_left(item->block, item->at, item->len, item->clause, LWA_HELD);
    } else if (ends && !out) {
        lwa_behind_left(item->block, item->block->at, item->block->len, item->clause,
                        d->way == LWA_END_DATA ? LWA_REGION_ENDED : LWA_DELETED);
    }
}

/* Whether a kernel was told of an array before. */
static bool is_noted(const lwa_block *block)
{
    static struct {
        const void *from;
        uintptr_t at;
    } *list;
    static size_t count, room;

    for (size_t i = 0; i < count; i++) {
        if (list[i].from == lwa_from() && list[i].at == block->at) {
            return true;
        }
    }
    list = lwa_grown(list, count, &room, sizeof *list);
    list[count].from = lwa_from();
    list[count++].at = block->at;
    return false;
}

/* Of elements of which some bytes are stale all are told. */
static void elements(const lwa_block *block, uintptr_t *at, size_t *len, char text[LWA_NAME])
{
    size_t element, behind;

    free((void *)lwa_keep_variable(block->at, &element));
    behind = (*at + *len - block->at + element - 1) / element * element;
    *at -= (*at - block->at) % element;
    *len = (behind < block->len ? behind : block->len) - (*at - block->at);
    lwa_section_text(*at, *len, text);
}

static void note_kernel(const lwa_block *block)
{
    char place[LWA_NAME], name[LWA_NAME];
    lwa_staleness stale;
    uintptr_t at;
    size_t len;

    stale = lwa_stale_for_kernel(block, &at, &len);
    if (stale == LWA_NEW || is_noted(block)) {
        return;
    }
    elements(block, &at, &len, name);
    lwa_place_text(lwa_from(), place);
    if (stale == LWA_UNFILLED) {
        say(place, "note: unfilled: %s, if the kernel reads them", name);
    } else {
        say(place, "note: stale-device: %s, if the kernel reads them: write 'update device(%s)' before it", name, name);
    }
}

void lwa_check_kernel(const lwa_block *block, uintptr_t at, size_t len)
{
    if (checks_kernels) {
        note_kernel(block);
    }
    if (len != 0 && lwa_has(block, at, len)) {
        lwa_behind_lent(block, at, len);
    } else {
        lwa_behind_lent(block, block->at, block->len);
    }
}

/* ---- The end ---- */

/* What the program leaves behind on all devices: mappings, and copies that wait. */
static size_t left;

static void count_left(void)
{
    left += lwa_mapped[lwa_on] + lwa_waiting();
}

bool lwa_finish_check(void)
{
    lwa_each_device(count_left);
    lwa_check_call();
    if (more != 0) {
        say("", "check: %zu more", more);
    }
    return is_error && !lwa_is_child && told_count + left != 0;
}
