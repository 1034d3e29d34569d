/*
 * Which bytes are stale (docs/CHECK.md), by the copies that are made and by what kernels changed.
 *
 * Each byte of a block, and each byte of the host, has a mark: why it is not new, or 0. A block keeps what the device
 * and the host had when they were last looked at. So what a kernel wrote, or the host since then, is what differs.
 * The marks of the host stay when a mapping ends. They lie in pages, which pages.c keeps from being read.
 */
#define _GNU_SOURCE
#include <stdlib.h>
#include <string.h>
#include <sys/mman.h>

#include "inner.h"

/* What is known of a block: the bytes of the device and of the host as they were last seen, and the device's marks. */
struct lwa_known {
    uint8_t *device, *host;
    lwa_mark *marks;
    uint64_t kernels; /* how many kernels had ended when all of the host's bytes were seen */
    bool unseen;      /* in shadow mode: nobody has read the bytes of the device yet */
};

static uint64_t kernels;

/* The mark of the device's bytes that nothing has filled. */
static const lwa_mark never_filled = UINT16_MAX;

static lwa_cause *causes;
static size_t cause_count = 1, cause_room;

/* The pages lie where the program has nothing, since they are used while its pages are kept. */
enum { MOST_PAGES = 1 << 16 };
static lwa_page *own_pages, **pages;
static size_t page_count;

/* ---- Marks ---- */

const lwa_cause *lwa_cause_of(lwa_mark mark)
{
    return &causes[mark / 2];
}

static bool is_same(const lwa_cause *a, const lwa_cause *b)
{
    return a->stale == b->stale && a->at == b->at && a->len == b->len && a->wrote == b->wrote && a->missed == b->missed
        && a->why == b->why && a->clause == b->clause;
}

/* The mark of a cause. Where there are too many causes the byte counts as new. */
static lwa_mark mark_of(const lwa_cause *cause)
{
    for (size_t i = cause_count; i > 1; i--) {
        if (is_same(&causes[i - 1], cause)) {
            return (lwa_mark)(2 * (i - 1));
        }
    }
    if (cause_count == UINT16_MAX / 2) {
        lwa_tell_unseen("reads of more bytes are not seen: too many kernels wrote too many arrays");
        return 0;
    }
    causes = lwa_grown(causes, cause_count, &cause_room, sizeof *causes);
    causes[cause_count] = *cause;
    causes[cause_count].variable = lwa_keep_variable(cause->at, &causes[cause_count].element);
    return (lwa_mark)(2 * cause_count++);
}

/* A mark that was told is the same with 1 added. */
static bool is_untold(lwa_mark mark)
{
    return mark != 0 && mark % 2 == 0;
}

static lwa_mark untold(lwa_mark mark)
{
    return mark - mark % 2;
}

static bool is_unfilled(lwa_mark mark)
{
    return mark == never_filled || (mark != 0 && lwa_cause_of(mark)->stale == LWA_UNFILLED);
}

/* ---- Pages of the host's marks, by rising address ---- */

/* The place of the first page that ends behind an address. */
static size_t first_page(uintptr_t at)
{
    size_t low = 0, high = page_count;

    while (low < high) {
        const size_t middle = low + (high - low) / 2;

        if (pages[middle]->at + LWA_PAGE > at) {
            high = middle;
        } else {
            low = middle + 1;
        }
    }
    return low;
}

static size_t last_page;

lwa_page *lwa_page_of(uintptr_t at)
{
    if (last_page >= page_count || at - pages[last_page]->at >= LWA_PAGE) {
        last_page = first_page(at);
    }
    return last_page < page_count && at - pages[last_page]->at < LWA_PAGE ? pages[last_page] : NULL;
}

static void *own_memory(size_t size)
{
    void *at = mmap(NULL, size, PROT_READ | PROT_WRITE, MAP_PRIVATE | MAP_ANONYMOUS | MAP_NORESERVE, -1, 0);

    if (at == MAP_FAILED) {
        lwa_unserved("no memory for the pages of LAMWIEST_CHECK");
    }
    return at;
}

/* Where there are too many, all begin anew. */
static lwa_page *add_page(uintptr_t at)
{
    size_t i;

    if (pages == NULL) {
        pages = own_memory(MOST_PAGES * sizeof *pages);
        own_pages = own_memory(MOST_PAGES * sizeof *own_pages);
    }
    if (page_count == MOST_PAGES) {
        lwa_host_is_all_new();
        page_count = 0;
    }
    i = first_page(at);
    own_pages[page_count] = (lwa_page){.at = at / LWA_PAGE * LWA_PAGE};
    memmove(pages + i + 1, pages + i, (page_count - i) * sizeof *pages);
    pages[i] = &own_pages[page_count++];
    return pages[i];
}

void lwa_each_page(uintptr_t from, uintptr_t until, void (*act)(lwa_page *))
{
    for (size_t i = first_page(from); i < page_count && pages[i]->at < until; i++) {
        act(pages[i]);
    }
}

static lwa_mark host_mark(uintptr_t at)
{
    const lwa_page *page = lwa_page_of(at);

    return page != NULL ? page->marks[at - page->at] : 0;
}

static void set_mark(lwa_page *page, uintptr_t at, lwa_mark mark)
{
    lwa_mark *own = &page->marks[at - page->at];

    if (page->stale == 0) {
        page->access = LWA_UNKNOWN;
    }
    page->stale += (size_t)is_untold(mark) - is_untold(*own);
    page->marked += (size_t)(mark != 0) - (*own != 0);
    *own = mark;
}

static void set_host_mark(uintptr_t at, lwa_mark mark)
{
    lwa_page *page = lwa_page_of(at);

    if (page == NULL && mark != 0) {
        page = add_page(at);
    }
    if (page != NULL) {
        set_mark(page, at, mark);
    }
}

void lwa_host_is_new(uintptr_t at, size_t len)
{
    const uintptr_t end = len < UINTPTR_MAX - at ? at + len : UINTPTR_MAX;

    for (size_t i = first_page(at); i < page_count && pages[i]->at < end; i++) {
        lwa_page *page = pages[i];
        const uintptr_t until = end - page->at < LWA_PAGE ? end : page->at + LWA_PAGE;

        for (uintptr_t byte = at > page->at ? at : page->at; byte < until && page->marked != 0; byte++) {
            set_mark(page, byte, 0);
        }
    }
}

void lwa_host_is_all_new(void)
{
    lwa_host_is_new(0, UINTPTR_MAX);
}

/* ---- What the host reads ---- */

/* Whether some byte of an element is stale for the same reason and was not told, in the same block. */
static bool is_stale_element(const lwa_cause *of, uintptr_t at)
{
    for (uintptr_t byte = at; byte < at + of->element && byte < of->at + of->len; byte++) {
        const lwa_mark mark = host_mark(byte);

        if (is_untold(mark) && lwa_cause_of(mark)->at == of->at && lwa_cause_of(mark)->stale == of->stale) {
            return true;
        }
    }
    return false;
}

bool lwa_is_host_stale(uintptr_t at, size_t len)
{
    uintptr_t byte = at;

    while (byte < at + len && !is_untold(host_mark(byte))) {
        byte++;
    }
    return byte < at + len;
}

void lwa_host_gives_back(uintptr_t at, size_t len)
{
    const lwa_cause *cause;

    for (uintptr_t byte = at; byte < at + len; byte++) {
        if (is_untold(host_mark(byte))) {
            cause = lwa_cause_of(host_mark(byte));
            lwa_host_is_new(cause->at, cause->len);
        }
    }
}

bool lwa_read_by_host(uintptr_t at, size_t len, bool by_words, lwa_stale *found)
{
    const lwa_cause *cause;
    uintptr_t byte = at, until;
    lwa_page *page = lwa_page_of(at);

    while (byte < at + len && !is_untold(host_mark(byte))) {
        byte++;
    }
    if (byte == at + len) {
        return false;
    }
    found->mark = host_mark(byte);
    cause = lwa_cause_of(found->mark);
    if (by_words && (at < cause->at || !is_stale_element(cause, at - (at - cause->at) % cause->element))) {
        return false;
    }
    found->at = byte - (byte - cause->at) % cause->element;
    until = found->at + cause->element;
    while (found->at > cause->at && is_stale_element(cause, found->at - cause->element)) {
        found->at -= cause->element;
    }
    while (until < cause->at + cause->len && is_stale_element(cause, until)) {
        until += cause->element;
    }
    until = until < cause->at + cause->len ? until : cause->at + cause->len;
    found->len = until - found->at;
    for (byte = found->at; byte < until; byte++) {
        page = lwa_page_of(byte);
        if (page != NULL && is_untold(page->marks[byte - page->at])) {
            set_mark(page, byte, page->marks[byte - page->at] + 1);
        }
    }
    return true;
}

/* ---- Blocks ---- */

void lwa_behind_born(lwa_block *block, bool is_filled)
{
    lwa_known *known = lwa_memory(NULL, sizeof *known + block->len * (2 + sizeof *known->marks));

    known->marks = (lwa_mark *)(known + 1);
    known->device = (uint8_t *)(known->marks + block->len);
    known->host = known->device + block->len;
    known->unseen = block->open;
    known->kernels = kernels;
    memcpy(known->device, block->bytes, block->len);
    memcpy(known->host, lwa_is_memory(block->at, block->len) ? (const void *)block->at : block->bytes, block->len);
    for (size_t i = 0; i < block->len; i++) {
        known->marks[i] = is_filled ? 0 : never_filled;
    }
    block->known = known;
}

/* ---- Copies ---- */

static void copied_in(const lwa_block *block, size_t from, uintptr_t at, size_t len)
{
    lwa_known *known = block->known;

    for (size_t i = 0; i < len; i++) {
        known->marks[from + i] = untold(host_mark(at + i));
    }
    memcpy(known->device + from, (const void *)at, len);
    memcpy(known->host + from, (const void *)at, len);
}

/* The mark that a byte of the device brings to the host, which may have written a newer one. A kernel may have written
   the device's later, with the same value. */
static lwa_mark brought(const lwa_block *block, size_t i, uint8_t host)
{
    const lwa_mark mark = block->known->marks[i];
    lwa_cause cause = {.stale = LWA_OVERWRITTEN, .at = block->at, .len = block->len, .missed = lwa_check_from()};

    if (is_unfilled(mark)) {
        cause.stale = LWA_UNFILLED;
        return mark_of(&cause);
    }
    if (host == block->known->host[i]) {
        return mark;
    }
    return block->known->kernels == kernels && host != block->bytes[i] ? mark_of(&cause) : 0;
}

static bool has_mark(const lwa_mark *marks, size_t len)
{
    size_t i = 0;

    while (i < len && marks[i] == 0) {
        i++;
    }
    return i < len;
}

static void copied_out(const lwa_block *block, size_t from, uintptr_t at, size_t len)
{
    const uint8_t *host = (const uint8_t *)at;
    lwa_known *known = block->known;

    if (memcmp(host, known->host + from, len) == 0 && !has_mark(known->marks + from, len)) {
        lwa_host_is_new(at, len);
    } else {
        for (size_t i = 0; i < len; i++) {
            known->marks[from + i] = brought(block, from + i, host[i]);
            set_host_mark(at + i, known->marks[from + i]);
        }
    }
    memcpy(known->host + from, block->bytes + from, len);
}

/* What one device copies to the host is no write of the host for the others. */
static struct {
    unsigned device;
    const uint8_t *bytes;
    uintptr_t at;
    size_t len;
} out_of;

static void see_elsewhere(void)
{
    const lwa_block *block = lwa_on != out_of.device ? lwa_meets(out_of.at, out_of.len) : NULL;

    if (block != NULL && block->known != NULL) {
        const uintptr_t from = out_of.at > block->at ? out_of.at : block->at;
        const uintptr_t end = out_of.at + out_of.len, own_end = block->at + block->len;

        memcpy(block->known->host + (from - block->at), out_of.bytes + (from - out_of.at),
               (end < own_end ? end : own_end) - from);
    }
}

void lwa_behind_copied(const lwa_block *block, uintptr_t at, size_t len, bool out)
{
    const size_t from = at - block->at;

    if (block->known == NULL) {
        return;
    }
    if (len == block->len && !out) {
        block->known->kernels = kernels;
    }
    if (!out) {
        copied_in(block, from, at, len);
        return;
    }
    copied_out(block, from, at, len);
    out_of.device = lwa_on;
    out_of.bytes = block->bytes + from;
    out_of.at = at;
    out_of.len = len;
    lwa_each_device(see_elsewhere);
}

/* The mark for bytes of the host, with a cause of their own, of bytes of the device that lie elsewhere. */
static lwa_mark mark_elsewhere(lwa_mark mark, uintptr_t host, size_t len)
{
    const lwa_cause cause = {.stale = is_unfilled(mark) ? LWA_UNFILLED : LWA_OVERWRITTEN, .at = host, .len = len,
                             .missed = lwa_check_from()};

    return mark != 0 ? mark_of(&cause) : 0;
}

void lwa_behind_moved(uintptr_t host, uintptr_t device, size_t len, bool out)
{
    uintptr_t at;
    const lwa_block *block = lwa_on_device(device, &at);
    const size_t from = block != NULL ? at - block->at : 0;
    lwa_known *known = block != NULL ? block->known : NULL;

    for (size_t i = 0; known != NULL && i < len; i++) {
        if (out) {
            set_host_mark(host + i, mark_elsewhere(known->marks[from + i], host, len));
        } else {
            known->marks[from + i] = untold(host_mark(host + i));
        }
    }
    if (known != NULL && !out) {
        memcpy(known->device + from, block->bytes + from, len);
    }
}

/* ---- Kernels ---- */

/* Fewer bytes that are as in a new block may have been written so. */
enum { LEAST_UNFILLED = 4 };

static void fill_few(const lwa_block *block)
{
    lwa_mark *marks = block->known->marks;

    for (size_t i = 0, end; i < block->len; i = end) {
        for (end = i; end < block->len && is_unfilled(marks[end]); end++) {
        }
        if (end - i < LEAST_UNFILLED) {
            memset(marks + i, 0, (end - i) * sizeof *marks);
        }
        end += end == i;
    }
}

/* The kernel has left other bytes from one place to another, in which no pointer is attached. */
static void see_written(const lwa_block *block, size_t from, size_t end)
{
    const lwa_cause written = {.stale = LWA_BEHIND, .at = block->at, .len = block->len, .wrote = lwa_from()};
    const uint8_t *host = (const uint8_t *)block->at;
    lwa_known *known = block->known;
    lwa_mark mark = 0;

    for (size_t i = from; i < end; i++) {
        if (known->device[i] == block->bytes[i]) {
            continue;
        }
        mark = mark != 0 ? mark : mark_of(&written);
        if (!is_unfilled(host_mark(block->at + i))) {
            set_host_mark(block->at + i, host[i] != block->bytes[i] ? mark : 0);
        }
        known->marks[i] = 0;
        known->host[i] = host[i];
    }
}

static void see_block(const lwa_block *block, bool is_kernel)
{
    lwa_known *known = block->known;
    size_t from = 0;

    if (known == NULL) {
        return;
    }
    if (is_kernel && known->unseen) {
        memset(known->marks, 0, block->len * sizeof *known->marks);
    } else if (is_kernel && memcmp(known->device, block->bytes, block->len) != 0
               && lwa_is_memory(block->at, block->len)) {
        for (size_t i = 0; i < block->pointer_count; i++) {
            const size_t pointer = block->pointers[i].at - block->at;

            see_written(block, from, pointer);
            from = pointer + LWA_POINTER;
        }
        see_written(block, from, block->len);
        fill_few(block);
    }
    known->unseen = !is_kernel && block->root->open;
    memcpy(known->device, block->bytes, block->len);
}

static void see_kernel(lwa_block *block)
{
    see_block(block, true);
}

static void see_runtime(lwa_block *block)
{
    see_block(block, false);
}

/* What the kernel does not get is as it was. */
void lwa_behind_lent(const lwa_block *block, uintptr_t at, size_t len)
{
    lwa_known *known = block->known;

    if (known != NULL && lwa_is_memory(at, len)) {
        memcpy(known->host + (at - block->at), (const void *)at, len);
        known->kernels = known->kernels >= kernels || len == block->len ? kernels + 1 : known->kernels;
    }
}

void lwa_behind_kernel(bool is_kernel)
{
    kernels += is_kernel;
    lwa_each_block(is_kernel ? see_kernel : see_runtime);
}

/* Whether the device's byte is stale, with LWA_NEW as no. */
static lwa_staleness stale_on_device(const lwa_block *block, size_t i)
{
    const lwa_known *known = block->known;
    const uint8_t host = ((const uint8_t *)block->at)[i];

    if (is_unfilled(known->marks[i])) {
        return LWA_UNFILLED;
    }
    return known->marks[i] != 0 || (host != known->host[i] && host != block->bytes[i]) ? LWA_BEHIND : LWA_NEW;
}

lwa_staleness lwa_stale_for_kernel(const lwa_block *block, uintptr_t *at, size_t *len)
{
    enum { NEAR = 8 };
    lwa_staleness stale = LWA_NEW;
    size_t from = 0, until;

    if (block->known == NULL || block->known->unseen || !lwa_is_memory(block->at, block->len)) {
        return LWA_NEW;
    }
    while (from < block->len && stale == LWA_NEW) {
        stale = stale_on_device(block, from++);
    }
    if (stale == LWA_NEW) {
        return LWA_NEW;
    }
    until = from--;
    for (size_t i = until; i < block->len && i < until + NEAR; i++) {
        until = stale_on_device(block, i) == stale ? i + 1 : until;
    }
    *at = block->at + from;
    *len = until - from;
    return stale;
}

/* ---- Ends ---- */

/* A directive left the section as it was, though it could have copied it to the host. */
void lwa_behind_left(const lwa_block *block, uintptr_t at, size_t len, uint32_t clause, lwa_why why)
{
    lwa_mark last = 0, now = 0;

    for (uintptr_t byte = at; byte < at + len; byte++) {
        const lwa_mark mark = host_mark(byte);

        if (mark != 0 && lwa_cause_of(mark)->stale == LWA_BEHIND && lwa_cause_of(mark)->at == block->at) {
            if (mark != last) {
                lwa_cause cause = *lwa_cause_of(mark);

                cause.clause = clause;
                cause.missed = lwa_check_from();
                cause.why = why;
                last = mark;
                now = mark_of(&cause) + mark % 2;
            }
            set_host_mark(byte, now);
        }
    }
}
