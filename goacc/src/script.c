/*
 * What a run leaves to look at: a script for accrun (LAMWIEST_SCRIPT=FILE), and the table's report at the end or on a
 * signal (LAMWIEST_REPORT=FILE). The files of the second table of a process are FILE.2, and so on.
 *
 * The script has the program's objects as its arrays (arrays.c). So its host memory lies otherwise than the table's; its
 * device memory lies as that.
 */
#define _GNU_SOURCE
#include <inttypes.h>
#include <signal.h>
#include <stdio.h>
#include <stdlib.h>
#include <string.h>

#include "inner.h"

/* What is kept beside one table: its number, its script, and the open regions by their numbers, the innermost last. */
static struct {
    unsigned number;
    FILE *script;
    uint64_t *open_regions;
    size_t open_count, open_room;
} all[LWA_DEVICES];

#define OWN all[lwa_on]

/* How many tables there were. */
static unsigned tables;

/* In a child of the program neither is written, since they are the program's. */
bool lwa_is_child;

const char *lwa_name_of(lwa_way way)
{
    static const char *const names[] = {
        [LWA_DATA] = "data", [LWA_END_DATA] = "end data", [LWA_ENTER_DATA] = "enter data",
        [LWA_EXIT_DATA] = "exit data", [LWA_UPDATE] = "update",
    };

    return names[way];
}

const char *lwa_clause_name(uint32_t clause)
{
    static const char *const names[] = {
        [LW_COPY] = "copy", [LW_COPYIN] = "copyin", [LW_COPYOUT] = "copyout", [LW_COPYOUT_ZERO] = "copyout",
        [LW_CREATE] = "create", [LW_CREATE_ZERO] = "create", [LW_NO_CREATE] = "no_create", [LW_PRESENT] = "present",
        [LW_ATTACH] = "attach", [LW_DELETE] = "delete", [LW_DETACH] = "detach", [LW_SELF] = "self",
        [LW_DEVICE] = "device",
    };

    return names[clause];
}

/* The file that a variable of the environment names for the table, open, or NULL. */
static FILE *open_file(const char *word)
{
    const char *name = getenv(word);
    FILE *file = NULL;
    char *path;

    if (name == NULL || lwa_is_child) {
        return NULL;
    }
    path = lwa_memory(NULL, strlen(name) + 16);
    sprintf(path, OWN.number == 1 ? "%s" : "%s.%u", name, OWN.number);
    file = fopen(path, "w");
    free(path);
    if (file == NULL) {
        fprintf(stderr, "lamwiest: the file of %s cannot be written\n", word);
    }
    return file;
}

void lwa_start_script(void)
{
    OWN.number = ++tables;
    OWN.open_count = 0;
    OWN.script = open_file("LAMWIEST_SCRIPT");
    if (OWN.script != NULL) {
        setvbuf(OWN.script, NULL, _IOLBF, BUFSIZ);
        fprintf(OWN.script, "# options: --host %d --device %" PRIu64 "\n", LWA_SCRIPT_HOST, lwa_limits.device);
        lwa_forget_arrays();
    }
}

void lwa_forget_script(void)
{
    lwa_is_child = true;
    OWN.script = NULL;
}

static void stop_script(const char *why)
{
    fprintf(OWN.script, "# the script ends here: %s\n", why);
    fclose(OWN.script);
    OWN.script = NULL;
}

/* A line, which stands behind those of the arrays that are declared for it; and whether no array can have a section. */
static FILE *line;
static char *line_text;
static size_t line_len;
static bool is_lost;

static void start_line(void)
{
    line = open_memstream(&line_text, &line_len);
    if (line == NULL) {
        lwa_unserved("no memory for the library's own lists");
    }
    is_lost = false;
}

static void end_line(void)
{
    fclose(line);
    if (is_lost) {
        stop_script("a section meets an array that it begins before, or there is no room for its array");
    } else {
        fprintf(OWN.script, "%s\n", line_text);
    }
    free(line_text);
}

/* The array and the offset of a section. */
static void write_array(uintptr_t at, size_t len)
{
    char array[LWA_ARRAY] = "";

    is_lost |= !lwa_array_at(OWN.script, at, len, array);
    fputs(array, line);
}

static void write_section(uintptr_t at, size_t len)
{
    write_array(at, len);
    fprintf(line, ":%zu]", len);
}

static void write_place(uintptr_t at, size_t len)
{
    write_array(at, len);
    fputc(']', line);
}

/* What is in no memory of the program is behind the host memory. */
static void write_pointer(uintptr_t at, uint64_t told)
{
    char array[LWA_ARRAY];

    if (told >= lwa_outside()) {
        lwa_no_array(OWN.script, LWA_SCRIPT_HOST + at % LWA_POINTER, array);
        fprintf(line, "%s]", array);
    } else {
        write_place(at, LWA_POINTER);
    }
}

/* A section that is not mapped may be larger than all of host memory. */
static bool is_too_large(const lwa_item *item)
{
    return item->told.start == LWA_NOWHERE && item->len > LWA_SCRIPT_HOST / 2;
}

static void write_item(const lwa_item *item)
{
    const bool is_outside = item->told.start >= lwa_outside();
    const size_t len = item->told.start == LWA_NOWHERE ? item->told.len : item->len;
    char array[LWA_ARRAY];

    fprintf(line, " %s(", lwa_clause_name(item->clause));
    if (lwa_is_pointer(item)) {
        write_pointer(item->at, item->told.start);
    } else if (is_outside || item->len == 0 || is_too_large(item)) {
        lwa_no_array(OWN.script, is_outside ? LWA_SCRIPT_HOST : 0, array);
        fprintf(line, "%s:%zu]", array, len < LWA_SCRIPT_HOST ? len : LWA_SCRIPT_HOST);
    } else {
        write_section(item->at, item->len);
    }
    if (item->told.pointer != 0) {
        fputs(" via ", line);
        write_pointer(item->pointer, item->told.pointer);
    }
    fputc(')', line);
}

static void open_region(uint64_t region)
{
    OWN.open_regions = lwa_grown(OWN.open_regions, OWN.open_count, &OWN.open_room, sizeof *OWN.open_regions);
    OWN.open_regions[OWN.open_count++] = region;
}

/* A script exits from the innermost region alone. */
static void close_region(uint64_t region)
{
    if (OWN.open_count == 0 || OWN.open_regions[OWN.open_count - 1] != region) {
        stop_script("a region ends that is not the innermost one");
        return;
    }
    OWN.open_count--;
    fputs("end data\n", OWN.script);
}

void lwa_script_items(const lwa_directive *d, size_t first, size_t end, bool done)
{
    if (OWN.script == NULL) {
        return;
    }
    if (d->way == LWA_END_DATA) {
        close_region(d->items.at[first].region);
        return;
    }
    start_line();
    fputs(lwa_name_of(d->way), line);
    for (size_t i = first; i < end; i++) {
        write_item(&d->items.at[i]);
    }
    if (d->option) {
        fputs(d->way == LWA_UPDATE ? " if_present" : " finalize", line);
    }
    if (d->queue != LW_NO_QUEUE_GIVEN) {
        fprintf(line, " async(%" PRIu64 ")", d->queue);
    }
    end_line();
    if (d->way == LWA_DATA && done && OWN.script != NULL) {
        open_region(d->items.at[first].region);
    }
}

/* The array of the item's section is there first, since the pointer may point into it. */
void lwa_script_point(const lwa_item *item, uintptr_t pointer, uintptr_t target)
{
    char array[LWA_ARRAY];

    if (OWN.script == NULL) {
        return;
    }
    if (item->len != 0) {
        lwa_array_at(OWN.script, item->at, item->len, array);
    }
    start_line();
    fputs(target != 0 ? "point " : "write ", line);
    write_place(pointer, LWA_POINTER);
    if (target != 0) {
        fputs(" to ", line);
        write_place(target, 1);
    } else {
        fprintf(line, " %0*d", 2 * LWA_POINTER, 0);
    }
    end_line();
}

/* ---- Kernels ---- */

void lwa_script_lent(lwa_block *block)
{
    if (OWN.script != NULL) {
        block->before = memcpy(lwa_memory(NULL, block->len), block->bytes, block->len);
    }
}

/* The bytes that a kernel has changed, from the first to the last one, but for those from an attached pointer on.
   Answers how many there are. */
static size_t changed(const lwa_block *block, size_t *from)
{
    size_t low = 0, high = block->len, pointer;

    while (low < high && block->before[low] == block->bytes[low]) {
        low++;
    }
    while (low < high && block->before[high - 1] == block->bytes[high - 1]) {
        high--;
    }
    pointer = lwa_first_pointer(block, block->at + low);
    if (pointer < block->pointer_count && block->pointers[pointer].at < block->at + high) {
        high = block->pointers[pointer].at > block->at + low ? block->pointers[pointer].at - block->at : low;
    }
    *from = low;
    return high - low;
}

/* The bytes have other values in the script, so it writes some of its own where the kernel has changed some. */
void lwa_script_gathered(lwa_block *block)
{
    static unsigned number;
    size_t from = 0, len = 0;

    if (OWN.script != NULL && block->before != NULL) {
        len = changed(block, &from);
        start_line();
        fprintf(line, len != 0 ? "kernel number %u " : "kernel add 0 ", number++ % 256);
        write_section(len != 0 ? block->at + from : block->at, len != 0 ? len : block->len);
        end_line();
    }
    free(block->before);
    block->before = NULL;
}

/* ---- Copies, and the end ---- */

bool lwa_has_script(void)
{
    return OWN.script != NULL;
}

void lwa_script_copies(const char *statement, uint64_t queue)
{
    if (OWN.script == NULL) {
        return;
    }
    if (queue == LW_NO_QUEUE_GIVEN) {
        fprintf(OWN.script, "%s\n", statement);
    } else {
        fprintf(OWN.script, "%s(%" PRIu64 ")\n", statement, queue);
    }
}

static void write_report(FILE *to)
{
    char *text = NULL;
    uint64_t len = 0;
    lw_fault fault;

    /* The first call tells the length. */
    if (lw_report(lwa_table(), NULL, 0, &len, &fault) == LW_BAD_LENGTH) {
        text = lwa_memory(NULL, len + 1);
        lwa_must(lw_report(lwa_table(), text, len + 1, &len, &fault), &fault);
    }
    fwrite(text, 1, len, to);
    free(text);
}

static void write_report_file(void)
{
    FILE *report = open_file("LAMWIEST_REPORT");

    lwa_tell_loans();
    if (report != NULL) {
        write_report(report);
        fclose(report);
    }
}

/* A signal asks for the reports, and the program's next call writes them: a handler could not take the lock. */
static _Atomic bool is_asked;

static void ask(int signal)
{
    (void)signal;
    is_asked = true;
}

void lwa_start_report(void)
{
    const struct sigaction asks = {.sa_handler = ask, .sa_flags = SA_RESTART};
    struct sigaction old;

    if (getenv("LAMWIEST_REPORT") != NULL && sigaction(SIGUSR1, NULL, &old) == 0 && old.sa_handler == SIG_DFL) {
        sigaction(SIGUSR1, &asks, NULL);
    }
}

void lwa_report_if_asked(void)
{
    if (is_asked) {
        is_asked = false;
        lwa_each_device(write_report_file);
    }
}

void lwa_finish_script(void)
{
    write_report_file();
    if (OWN.script != NULL) {
        fputs("report\n", OWN.script);
        for (; OWN.open_count != 0; OWN.open_count--) {
            fputs("end data\n", OWN.script);
        }
        fclose(OWN.script);
        OWN.script = NULL;
    }
}
