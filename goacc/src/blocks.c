/*
 * What is mapped: for each mapped range of the table where it lies in the program, in the table's host memory, and on
 * the device.
 *
 * Blocks do not overlap in the program's addresses, so a tree has them in order, and finds one that meets a section: if
 * it has not all of it, none has. What was found last stands at the top.
 *
 * Table addresses are taken when a section is to be mapped, and given back when it is mapped no more and none of its
 * copies waits. Behind each section lies an address that is never mapped, and so one lies before each.
 *
 * The device's addresses follow the program's: a window of the program's addresses has a window of the device's, in
 * which each byte lies as far behind the first. So what a program has at a multiple of its alignment the device has so.
 * And members of a structure lie as in the program, whichever of them are mapped, where one window has them.
 */
#define _GNU_SOURCE
#include <stdlib.h>
#include <string.h>
#include <sys/mman.h>

#include "inner.h"

/* The least that a window has before and behind the section that it is made for. */
#define MARGIN ((uintptr_t)1 << 29)

/* Pointers are told at a multiple of 8 where they are at one. */
#define ALIGNMENT 8

typedef struct window {
    uintptr_t at, device;
    size_t len;
} window;

/* Table addresses that are free: the first, and behind the last. By rising address, and with others between them. */
typedef struct range {
    uint64_t start, end;
} range;

/* What is kept beside one table. */
static struct {
    lwa_block *tree; /* by the program's addresses */

    window *windows;
    size_t window_count, window_room;

    range *free_ranges;
    size_t free_count, free_room, next_free;
    bool started;
} all[LWA_DEVICES];

#define OWN all[lwa_on]
size_t lwa_mapped[LWA_DEVICES];

/* ---- Finding ---- */

/* On which side of a block a section lies, or that it meets the block. */
enum { BEFORE, BEHIND, HERE };

static int side_of(const lwa_block *block, uintptr_t at, size_t len)
{
    return at + len <= block->at ? BEFORE : at >= block->at + block->len ? BEHIND : HERE;
}

/* A splay tree: the block that meets a section comes to the top, or else one beside it. What lies on the way down is
   hung into two trees, of what lies before the section and of what lies behind it. */
static lwa_block *bring_up(lwa_block *top, uintptr_t at, size_t len)
{
    lwa_block *beside[2] = {NULL, NULL}, **free_ends[2] = {&beside[BEFORE], &beside[BEHIND]};

    for (int side; top != NULL && (side = side_of(top, at, len)) != HERE && top->child[side] != NULL;) {
        lwa_block *child = top->child[side];

        if (side_of(child, at, len) == side) {
            top->child[side] = child->child[!side];
            child->child[!side] = top;
            top = child;
            if (top->child[side] == NULL) {
                break;
            }
        }
        *free_ends[!side] = top;
        free_ends[!side] = &top->child[side];
        top = top->child[side];
    }
    if (top != NULL) {
        *free_ends[BEFORE] = top->child[BEFORE];
        *free_ends[BEHIND] = top->child[BEHIND];
        top->child[BEFORE] = beside[BEFORE];
        top->child[BEHIND] = beside[BEHIND];
    }
    return top;
}

lwa_block *lwa_meets(uintptr_t at, size_t len)
{
    if (len == 0 || OWN.tree == NULL) {
        return NULL;
    }
    OWN.tree = bring_up(OWN.tree, at, len);
    return side_of(OWN.tree, at, len) == HERE ? OWN.tree : NULL;
}

bool lwa_has(const lwa_block *block, uintptr_t at, size_t len)
{
    return at >= block->at && at - block->at <= block->len && len <= block->len - (at - block->at);
}

lwa_block *lwa_inside(uintptr_t at, size_t len)
{
    lwa_block *met = lwa_meets(at, len);

    return met != NULL && lwa_has(met, at, len) ? met : NULL;
}

bool lwa_is_of_program(const lwa_block *block)
{
    return block != NULL && block->at != block->device;
}

/* ---- Table addresses ---- */

uint64_t lwa_outside(void)
{
    return LW_HOST_BASE + lwa_limits.host;
}

static uint64_t first_taken(uint64_t told)
{
    return told / ALIGNMENT * ALIGNMENT;
}

static uint64_t behind_taken(uint64_t told, size_t len)
{
    return first_taken(told + len) + ALIGNMENT;
}

/* The search goes on where the last one ended. */
uint64_t lwa_take_addresses(uintptr_t at, size_t len)
{
    if (!OWN.started) {
        OWN.started = true;
        OWN.next_free = OWN.free_count = 0;
        lwa_give_addresses(LWA_NOWHERE + 16, lwa_limits.host - 16 - ALIGNMENT);
    }
    for (size_t n = 0; len < lwa_limits.host && n < OWN.free_count; n++) {
        range *r = &OWN.free_ranges[OWN.next_free < OWN.free_count ? OWN.next_free : (OWN.next_free = 0)];
        const uint64_t told = r->start + at % ALIGNMENT;

        if (behind_taken(told, len) <= r->end) {
            r->start = behind_taken(told, len);
            return told;
        }
        OWN.next_free++;
    }
    lwa_unserved("there is no room for %zu bytes more: LAMWIEST_HOST is %zu", len, (size_t)lwa_limits.host);
}

void lwa_give_addresses(uint64_t told, size_t len)
{
    const uint64_t start = first_taken(told), end = behind_taken(told, len);
    size_t low = 0, high = OWN.free_count;

    while (low < high) {
        const size_t middle = low + (high - low) / 2;

        if (OWN.free_ranges[middle].start > start) {
            high = middle;
        } else {
            low = middle + 1;
        }
    }
    OWN.next_free = low != 0 && OWN.free_ranges[low - 1].end == start ? low - 1 : low;
    if (OWN.next_free == low) {
        OWN.free_ranges = lwa_grown(OWN.free_ranges, OWN.free_count, &OWN.free_room, sizeof *OWN.free_ranges);
        memmove(OWN.free_ranges + low + 1, OWN.free_ranges + low, (OWN.free_count++ - low) * sizeof *OWN.free_ranges);
        OWN.free_ranges[low++] = (range){start, end};
    }
    OWN.free_ranges[OWN.next_free].end = end;
    if (low < OWN.free_count && OWN.free_ranges[low].start == end) {
        OWN.free_ranges[OWN.next_free].end = OWN.free_ranges[low].end;
        memmove(OWN.free_ranges + low, OWN.free_ranges + low + 1, (--OWN.free_count - low) * sizeof *OWN.free_ranges);
    }
}

/* ---- Device addresses ---- */

/* A section that lies in no window gets one, which has all of it, and what lies beside it. */
static uintptr_t device_for(uintptr_t at, size_t len)
{
    window made = {at / MARGIN * MARGIN - MARGIN, 0, 3 * MARGIN};
    void *memory;

    for (size_t i = 0; i < OWN.window_count; i++) {
        const window *w = &OWN.windows[i];

        if (at - w->at < w->len && len <= w->len - (at - w->at)) {
            return w->device + (at - w->at);
        }
    }
    made.len += (at % MARGIN + len) / MARGIN * MARGIN;
    memory = mmap(NULL, made.len, PROT_READ | PROT_WRITE, MAP_PRIVATE | MAP_ANONYMOUS | MAP_NORESERVE, -1, 0);
    if (memory == MAP_FAILED) {
        lwa_unserved("no memory for the device's addresses");
    }
    made.device = (uintptr_t)memory;
    OWN.windows = lwa_grown(OWN.windows, OWN.window_count, &OWN.window_room, sizeof *OWN.windows);
    OWN.windows[OWN.window_count++] = made;
    return made.device + (at - made.at);
}

uintptr_t lwa_device_of(const lwa_block *block, uintptr_t at)
{
    return block->device + (at - block->at);
}

uint64_t lwa_place_of(const lwa_block *block, uintptr_t at)
{
    return block->place + (at - block->at);
}

/* The program's address for one of the runtime's device, whose places are its own; or that itself. */
static uintptr_t sought, found;

static void meet_device(lwa_block *block)
{
    if (block->device != 0 && sought - block->device < block->len) {
        found = block->at + (sought - block->device);
    }
}

static uintptr_t address_on_runtime(uintptr_t device)
{
    sought = found = device;
    lwa_each_block(meet_device);
    return found;
}

/* A device address in a window is that of the program's address as far behind the first; another is of acc_malloc, and
   its own. */
lwa_block *lwa_on_device(uintptr_t device, uintptr_t *at)
{
    lwa_block *block;

    *at = lwa_shadow ? address_on_runtime(device) : device;
    for (size_t i = 0; i < OWN.window_count; i++) {
        const window *w = &OWN.windows[i];

        *at = device - w->device < w->len ? w->at + (device - w->device) : *at;
    }
    block = lwa_meets(*at, 1);
    if (block == NULL || lwa_device_of(block, *at) != device) {
        return NULL;
    }
    for (lwa_block *part = block->parts; part != NULL; part = part->next) {
        block = part->mapped && device - part->device < part->len ? part : block;
    }
    *at = block->at + (device - block->device);
    return block;
}

/* ---- Births and ends ---- */

/* It meets none that is there. */
static void insert(lwa_block *block)
{
    lwa_block *top = bring_up(OWN.tree, block->at, block->len);

    if (top != NULL) {
        const int side = side_of(top, block->at, block->len);

        block->child[!side] = top;
        block->child[side] = top->child[side];
        top->child[side] = NULL;
    }
    OWN.tree = block;
    lwa_mapped[lwa_on]++;
}

static void take_out(const lwa_block *block)
{
    lwa_block *top = bring_up(OWN.tree, block->at, block->len), *before = top->child[BEFORE];

    OWN.tree = top->child[BEHIND];
    if (before != NULL) {
        before = bring_up(before, block->at, block->len);
        before->child[BEHIND] = OWN.tree;
        OWN.tree = before;
    }
    lwa_mapped[lwa_on]--;
}

lwa_block *lwa_born(const lwa_item *item, uintptr_t device)
{
    lwa_block *block = lwa_piece(sizeof *block);

    *block = (lwa_block){.at = item->at, .len = item->len, .told = item->told.start, .mapped = true};
    block->place = item->did.place;
    block->device = device != 0 || lwa_shadow ? device : device_for(item->at, item->len);
    block->bytes = lwa_shadow ? lwa_memory(NULL, block->len) : (uint8_t *)block->device;
    block->owns = lwa_shadow;
    block->root = block;
    block->from = lwa_from();
    insert(block);
    return block;
}

void lwa_map_part(lwa_block *root, uintptr_t at, size_t len, uintptr_t device)
{
    lwa_block *part = lwa_piece(sizeof *part);

    *part = (lwa_block){.at = at, .len = len, .told = root->told + (device - root->device), .device = device,
                        .bytes = root->bytes + (device - root->device), .mapped = true, .part = true, .root = root,
                        .place = root->place + (device - root->device), .next = root->parts, .from = lwa_from()};
    root->parts = part;
    LWA_CHECK(lwa_behind_born(part, true));
    insert(part);
}

static void drop(lwa_block *block)
{
    if (block->owns) {
        free(block->bytes);
    }
    free(block->pointers);
    free(block->before);
    free(block->known);
    rattle_dealloc(block);
}

/* A part is in the list of its root as long as it is kept, so that the root's end finds it. */
static void leave_root(lwa_block *part)
{
    lwa_block **at = &part->root->parts;

    while (*at != part) {
        at = &(*at)->next;
    }
    *at = part->next;
}

/* Its addresses can be taken again where nothing more is to be read or written there. */
static void drop_unused(lwa_block *block)
{
    if (block->mapped || block->waiting != 0 || block->regions != 0) {
        return;
    }
    if (block->root != block) {
        leave_root(block);
    } else if (!block->part) {
        lwa_give_addresses(block->told, block->len);
    }
    drop(block);
}

/* Another may be mapped at its device address, while its copies wait: so they have bytes of their own then. A part has
   those of its root, until that ends. */
static void end(lwa_block *block)
{
    if (block->mapped) {
        take_out(block);
        block->mapped = false;
    }
    if (block->root == block && block->waiting != 0 && !block->owns) {
        block->bytes = memcpy(lwa_memory(NULL, block->len), block->bytes, block->len);
        block->owns = true;
    }
    drop_unused(block);
}

void lwa_ended(lwa_block *block)
{
    while (block->parts != NULL) {
        lwa_block *part = block->parts;

        leave_root(part);
        part->root = part;
        end(part);
    }
    end(block);
}

void lwa_hold(lwa_block *block)
{
    if (block != NULL) {
        block->regions++;
    }
}

void lwa_let_go(lwa_block *block)
{
    if (block != NULL) {
        block->regions--;
        drop_unused(block);
    }
}

void lwa_made(lwa_block *block)
{
    if (--block->waiting == 0 && block->meets) {
        block->meets = false;
        block->root->open = true;
    }
    drop_unused(block);
}

/* What lies before a block comes above it, until nothing does. */
void lwa_each_block(void (*act)(lwa_block *))
{
    for (lwa_block **at = &OWN.tree; *at != NULL;) {
        lwa_block *block = *at, *before = block->child[BEFORE];

        if (before != NULL) {
            block->child[BEFORE] = before->child[BEHIND];
            before->child[BEHIND] = block;
            *at = before;
        } else {
            act(block);
            at = &block->child[BEHIND];
        }
    }
}

/* The windows stay, since a kernel may run while the program ends. */
void lwa_forget_blocks(void)
{
    while (OWN.tree != NULL) {
        lwa_block *block = OWN.tree;

        take_out(block);
        drop(block);
    }
    OWN.started = false;
}
