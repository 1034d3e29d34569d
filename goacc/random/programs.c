/*
 * Random programs: directives of one to six items over an area and several arrays, with queues, regions, pointers,
 * kernels and refusals, by the entry points that gcc calls. Beside each runs a model that is written from
 * docs/MODEL.md alone: the host's bytes, what is present, and the device's bytes as kernels see them.
 *
 * Usage: programs RUNS [FIRST]: so many runs of 200 directives, with the seeds from FIRST on.
 */
#include <openacc.h>
#include <stdalign.h>
#include <stdint.h>
#include <stdio.h>
#include <stdlib.h>
#include <string.h>
#include <sys/wait.h>
#include <unistd.h>

#ifdef __cplusplus
extern "C" {
#endif
void GOACC_enter_data(int, size_t, void **, size_t *, unsigned short *, int, int, ...);
void GOACC_exit_data(int, size_t, void **, size_t *, unsigned short *, int, int, ...);
void GOACC_update(int, size_t, void **, size_t *, unsigned short *, int, int, ...);
void GOACC_data_start(int, size_t, void **, size_t *, unsigned short *);
void GOACC_data_end(void);
void GOACC_parallel_keyed(int, void (*)(void *), size_t, void **, size_t *, unsigned short *, ...);
void GOACC_wait(int, int, ...);
#ifdef __cplusplus
}
#endif

enum { BYTES = 512, CELLS = 448, CELL_COUNT = 8, MOST_ITEMS = 6, MOST_MAPS = 2 * MOST_ITEMS, DIRECTIVES = 200 };
enum { MOST_COPIES = 64, MOST_REGIONS = 4, QUEUES = 5, NO_QUEUE = -1 };

typedef enum way { DATA, ENTER, EXIT, UPDATE, KERNEL } way;
typedef enum clause { COPY, COPYIN, COPYOUT, CREATE, PRESENT, NO_CREATE, DELETE, SELF, DEVICE, POINTER } clause;
typedef enum refusal { NONE = 0, PARTLY = 10, ABSENT = 11 } refusal;

/* ---- The model ---- */

typedef struct map map;

/* A pointer that is attached: how often, at which byte of which map and which place, and whether a kernel has left
   another value. */
typedef struct attachment {
    int count;
    map *target;
    int offset, place, other;
    long bias;
} attachment;

/* A mapping, or one that has ended, which copies and pointers may name still. */
struct map {
    int start, len, structured, dynamic, mapped, place;
    unsigned char bytes[BYTES];
    attachment cells[CELL_COUNT];
};

typedef struct item {
    clause clause;
    int start, len; /* of POINTER, start is that of the cell */
    int cell;       /* the cell of its pointer, or -1 */
    long bias;
} item;

/* What a region's item holds. */
typedef struct holding {
    item item;
    map *map, *pointer_map;
} holding;

typedef struct copy {
    map *map;
    int start, len, out;
} copy;

typedef struct region {
    holding at[MOST_MAPS];
    int count;
} region;

/* All arrays of the program stand in it: the area, three arrays, and the cells, which are pointers. */
alignas(64) static unsigned char host[BYTES], model[BYTES];
static const struct { int start, len; } arrays[] = {{0, 240}, {256, 64}, {336, 40}, {400, 1}, {CELLS, 8 * CELL_COUNT}};
static const int asyncs[QUEUES] = {0, 3, 19, 1000, 77777};

static map pool[DIRECTIVES * MOST_MAPS], *maps[BYTES];
static int pool_count, map_count;
static copy queues[QUEUES][MOST_COPIES];
static int queue_len[QUEUES];
static region regions[MOST_REGIONS];
static int region_count;

static unsigned long state;
static int wrong, directives;

static int number(int below)
{
    state = state * 6364136223846793005ul + 1442695040888963407ul;
    return (int)((state >> 33) % (unsigned long)below);
}

static void say_wrong(const char *what)
{
    if (wrong++ == 0) {
        printf("directive %d: %s\n", directives, what);
    }
}

/* Whether a section meets a mapping; whole: the one that has all of it. */
static int meets(int start, int len, map **whole)
{
    int some = 0;

    *whole = NULL;
    for (int i = 0; i < map_count; i++) {
        map *m = maps[i];

        if (m->start < start + len && start < m->start + m->len) {
            some = 1;
            *whole = m->start <= start && start + len <= m->start + m->len ? m : NULL;
        }
    }
    return some;
}

static map *whole(int start, int len)
{
    map *found;

    meets(start, len, &found);
    return found;
}

/* Whether a block is there still: a copy that waits keeps it. */
static int is_in_use(const map *m)
{
    int used = m->mapped;

    for (int q = 0; q < QUEUES; q++) {
        for (int i = 0; i < queue_len[q]; i++) {
            used |= queues[q][i].map == m;
        }
    }
    return used;
}

/* The least multiple of 16 at which a new block meets none. */
static int place_for(int len)
{
    int place = 0;

    for (int i = 0; i < pool_count; i++) {
        const map *m = &pool[i];

        if (is_in_use(m) && m->place < place + len && place < m->place + m->len) {
            place = (m->place + m->len + 15) / 16 * 16;
            i = -1;
        }
    }
    return place;
}

static map *born(int start, int len)
{
    const int place = place_for(len);
    map *m = &pool[pool_count++];

    *m = (map){.start = start, .len = len, .mapped = 1, .place = place};
    memset(m->bytes, 0xa5, sizeof m->bytes);
    maps[map_count++] = m;
    return m;
}

static void end(map *m)
{
    for (int i = 0; i < map_count; i++) {
        if (maps[i] == m) {
            maps[i] = maps[--map_count];
        }
    }
    m->mapped = 0;
}

/* Whether a byte is one of an attached pointer of the map. */
static int is_left_out(const map *m, int at)
{
    const int cell = (at - CELLS) / 8;

    return at >= CELLS && cell < CELL_COUNT && m->cells[cell].count != 0;
}

static void make(const copy *c)
{
    for (int i = c->start; i < c->start + c->len; i++) {
        unsigned char *there = &c->map->bytes[i - c->map->start];

        if (!is_left_out(c->map, i)) {
            *(c->out ? &model[i] : there) = c->out ? *there : model[i];
        }
    }
}

static void make_or_put(map *m, int start, int len, int out, int queue)
{
    const copy c = {m, start, len, out};

    if (queue == NO_QUEUE) {
        make(&c);
    } else {
        queues[queue][queue_len[queue]++] = c;
    }
}

static void make_next(int queue)
{
    const copy c = queues[queue][0];

    make(&c);
    memmove(queues[queue], queues[queue] + 1, --queue_len[queue] * sizeof c);
}

/* ---- Pointers ---- */

static uintptr_t value_of(int cell)
{
    uintptr_t value;

    memcpy(&value, model + CELLS + 8 * cell, 8);
    return value;
}

/* How far the device's bytes lie behind the program's. */
static long distance;

/* Answers the map in which the pointer was attached, or NULL. real: not where the directive is only tried. */
static map *attach(int cell, long bias, int real)
{
    map *m = cell >= 0 ? whole(CELLS + 8 * cell, 8) : NULL;
    const long at = cell >= 0 ? (long)(value_of(cell) + bias - (uintptr_t)host) : -1;
    map *target = at >= 0 && at < BYTES ? whole((int)at, 1) : NULL;
    attachment *a;
    uintptr_t address;
    int place;

    if (m == NULL || target == NULL || !real) {
        return NULL;
    }
    address = (uintptr_t)host + at + distance - bias;
    a = &m->cells[cell];
    place = target->place + (int)at - target->start;
    *a = (attachment){a->count != 0 && !a->other && a->place == place ? a->count + 1 : 1, target,
                      (int)at - target->start, place, 0, bias};
    memcpy(m->bytes + (CELLS + 8 * cell - m->start), &address, 8);
    return m;
}

static void detach(map *m, int cell, int all)
{
    if (m == NULL || !m->mapped || m->cells[cell].count == 0) {
        return;
    }
    m->cells[cell].count = all ? 0 : m->cells[cell].count - 1;
    if (m->cells[cell].count == 0) {
        memcpy(m->bytes + (CELLS + 8 * cell - m->start), model + CELLS + 8 * cell, 8);
    }
}

/* ---- Items ---- */

static refusal enter(const item *it, int structured, int queue, holding *held, int real)
{
    map *m = NULL;

    *held = (holding){*it, NULL, NULL};
    if (it->clause != POINTER) {
        const int some = meets(it->start, it->len, &m);

        if (some && m == NULL) {
            return PARTLY;
        }
        if (!some && it->clause == PRESENT) {
            return ABSENT;
        }
        if (!some && it->clause == NO_CREATE) {
            return NONE;
        }
        if (!some) {
            m = born(it->start, it->len);
            if (it->clause == COPY || it->clause == COPYIN) {
                make_or_put(m, it->start, it->len, 0, queue);
            }
        }
        *(structured ? &m->structured : &m->dynamic) += 1;
        held->map = m;
    }
    held->pointer_map = attach(it->cell, it->bias, real);
    return NONE;
}

static void undo(holding *held)
{
    map *m = held->map;
    const int out = held->item.clause == COPY || held->item.clause == COPYOUT;

    detach(held->pointer_map, held->item.cell, 0);
    if (m != NULL && --m->structured == 0 && m->dynamic == 0) {
        if (out) {
            make_or_put(m, held->item.start, held->item.len, 1, NO_QUEUE);
        }
        end(m);
    }
}

static refusal leave(const item *it, int finalize, int queue)
{
    map *m;

    if (it->clause == POINTER) {
        detach(whole(it->start, 8), it->cell, finalize);
        return NONE;
    }
    if (meets(it->start, it->len, &m) && m == NULL) {
        return PARTLY;
    }
    if (m == NULL || m->dynamic == 0) {
        return NONE;
    }
    if (it->cell >= 0) {
        detach(whole(CELLS + 8 * it->cell, 8), it->cell, finalize);
    }
    m->dynamic = finalize ? 0 : m->dynamic - 1;
    if (m->dynamic == 0 && m->structured == 0) {
        if (it->clause == COPYOUT) {
            make_or_put(m, it->start, it->len, 1, queue);
        }
        end(m);
    }
    return NONE;
}

static refusal move(const item *it, int if_present, int queue)
{
    map *m;

    if (meets(it->start, it->len, &m) && m == NULL) {
        return PARTLY;
    }
    if (m == NULL) {
        return if_present ? NONE : ABSENT;
    }
    make_or_put(m, it->start, it->len, it->clause == SELF, queue);
    return NONE;
}

/* ---- Directives ---- */

typedef struct directive {
    way way;
    item at[MOST_MAPS];
    int count, option, queue;
} directive;

/* What the model says of a directive, and does where it is real. refused: the item that is refused. */
static refusal act(const directive *d, int real, int *refused)
{
    region *r = &regions[region_count];
    refusal told = NONE;

    r->count = 0;
    for (int i = 0; i < d->count && told == NONE; i++) {
        holding held;

        *refused = i;
        switch (d->way) {
        case DATA:
        case KERNEL:
            told = enter(&d->at[i], 1, NO_QUEUE, &held, real);
            r->at[r->count++] = held;
            break;
        case ENTER: told = enter(&d->at[i], 0, d->queue, &held, real); break;
        case EXIT: told = leave(&d->at[i], d->option, d->queue); break;
        case UPDATE: told = move(&d->at[i], d->option, d->queue); break;
        }
    }
    return told;
}

static void end_region(void)
{
    region *r = &regions[--region_count];

    while (r->count != 0) {
        undo(&r->at[--r->count]);
    }
}

/* The maps that gcc would pass. */
static int maps_of(const directive *d, void **at, size_t *sizes, unsigned short *kinds)
{
    static const unsigned short of_region[] = {0x03, 0x01, 0x02, 0x00, 0x06, 0x0b};
    int n = 0;

    for (int i = 0; i < d->count; i++) {
        const item *it = &d->at[i];

        if (it->clause != POINTER) {
            at[n] = host + it->start;
            sizes[n] = (size_t)it->len;
            kinds[n++] = d->way == UPDATE ? (it->clause == SELF ? (d->option ? 0x02 : 0x82) : d->option ? 0x01 : 0x81)
                       : d->way != EXIT ? of_region[it->clause]
                       : it->clause == COPYOUT ? (d->option ? 0x82 : 0x02) : d->option ? 0x07 : 0x17;
        }
        if (it->cell >= 0) {
            at[n] = host + CELLS + 8 * it->cell;
            sizes[n] = (size_t)it->bias;
            kinds[n++] = d->way != EXIT ? 0x50 : d->option ? 0xd1 : 0x51;
        }
    }
    return n;
}

/* ---- Kernels ---- */

static const directive *kernel;

/* The bytes that an item has on the device are those of the model; then both are changed alike. A pointer is followed
   where it is attached to what is mapped still, and now and then it gets a value that is no device address. */
static void work_on(unsigned char *there, const item *it, map *m)
{
    unsigned char *bytes = m->bytes + (it->start - m->start);

    if (memcmp(there, bytes, (size_t)it->len) != 0) {
        say_wrong("a kernel finds other bytes");
    }
    for (int i = 0; i < it->len; i++) {
        if (!is_left_out(m, it->start + i)) {
            there[i] = bytes[i] += 3;
        }
    }
    for (int cell = 0; cell < CELL_COUNT; cell++) {
        const int at = CELLS + 8 * cell - it->start;
        attachment *a = &m->cells[cell];
        unsigned char *target;
        uintptr_t value;

        if (at < 0 || at + 8 > it->len || a->count == 0) {
            continue;
        }
        memcpy(&value, there + at, 8);
        if (!a->other && a->target->mapped) {
            target = (unsigned char *)(value + a->bias);
            if (*target != a->target->bytes[a->offset]) {
                say_wrong("a pointer leads to another byte");
            }
            if (!is_left_out(a->target, a->target->start + a->offset)) {
                *target = a->target->bytes[a->offset] += 5;
            }
        }
        if (number(6) == 0) {
            value = number(2) ? 0 : (uintptr_t)host + number(BYTES);
            memcpy(there + at, &value, 8);
            memcpy(bytes + at, &value, 8);
            a->other = 1;
        }
    }
}

static void run_kernel(void *maps)
{
    unsigned char **addresses = maps;

    for (int i = 0; i < kernel->count; i++) {
        const item *it = &kernel->at[i];
        map *m = it->clause != POINTER ? whole(it->start, it->len) : NULL;

        if (it->clause != POINTER
            && (uintptr_t)*addresses != (uintptr_t)host + it->start + (m != NULL ? distance : 0)) {
            say_wrong("a kernel has another address");
        } else if (m != NULL) {
            work_on(*addresses, it, m);
        }
        addresses += (it->clause != POINTER) + (it->cell >= 0);
    }
}

/* ---- The library beside the model ---- */

static void call(const directive *d)
{
    void *at[MOST_MAPS];
    size_t sizes[MOST_MAPS];
    unsigned short kinds[MOST_MAPS];
    const size_t n = (size_t)maps_of(d, at, sizes, kinds);
    const int async = d->queue == NO_QUEUE ? -2 : asyncs[d->queue];

    switch (d->way) {
    case DATA: GOACC_data_start(-1, n, at, sizes, kinds); break;
    case ENTER: GOACC_enter_data(-1, n, at, sizes, kinds, async, 0); break;
    case EXIT: GOACC_exit_data(-1, n, at, sizes, kinds, async, 0); break;
    case UPDATE: GOACC_update(-1, n, at, sizes, kinds, async, 0); break;
    case KERNEL: GOACC_parallel_keyed(-1, run_kernel, n, at, sizes, kinds, 2u << 28 | 0xffffu, async, 0); break;
    }
}

/* What the model says of a directive, which it does not do. */
static refusal judge(const directive *d, int *refused)
{
    static map saved[BYTES], *list[BYTES];
    static unsigned char bytes[BYTES];
    const int count = map_count, used = pool_count;
    directive tried = *d;
    refusal told;

    tried.queue = NO_QUEUE;
    memcpy(bytes, model, BYTES);
    for (int i = 0; i < count; i++) {
        saved[i] = *maps[i];
        list[i] = maps[i];
    }
    told = act(&tried, 0, refused);
    for (int i = 0; i < count; i++) {
        maps[i] = list[i];
        *maps[i] = saved[i];
    }
    map_count = count;
    pool_count = used;
    memcpy(model, bytes, BYTES);
    return told;
}

/* In a child of the program the directive ends it, and tells why. */
static void try_refused(const directive *d, refusal told, int item)
{
    char text[512] = "", wanted[64];
    int ends[2], status = 0;
    ssize_t len = 0, more = 1;
    pid_t child;

    fflush(stdout);
    if (pipe(ends) != 0 || (child = fork()) < 0) {
        say_wrong("no child");
        return;
    }
    if (child == 0) {
        dup2(ends[1], 2);
        call(d);
        _exit(0);
    }
    close(ends[1]);
    for (; more > 0; len += more) {
        more = read(ends[0], text + len, sizeof text - 1 - (size_t)len);
    }
    close(ends[0]);
    waitpid(child, &status, 0);
    snprintf(wanted, sizeof wanted, "%d %s item %d,", told, told == PARTLY ? "PartlyPresent" : "NotPresent", item);
    if (more < 0 || !WIFEXITED(status) || WEXITSTATUS(status) != 1 || strstr(text, wanted) == NULL) {
        say_wrong("another refusal, or none");
        printf("wanted %s told %s\n", wanted, text);
    }
}

static void wait_for(int queue)
{
    GOACC_wait(-2, 1, asyncs[queue]);
    while (queue_len[queue] != 0) {
        make_next(queue);
    }
}

static void ask_for(int queue)
{
    const int done = acc_async_test(asyncs[queue]);

    if (queue_len[queue] != 0) {
        make_next(queue);
    }
    if (done != (queue_len[queue] == 0)) {
        say_wrong("acc_async_test answers otherwise");
    }
}

static void direct(const directive *d)
{
    int refused = 0;
    const refusal told = judge(d, &refused);

    if (told != NONE) {
        if (number(8) == 0) {
            try_refused(d, told, refused);
        }
        return;
    }
    if (d->way != KERNEL) {
        call(d);
    }
    act(d, 1, &refused);
    if (d->way == KERNEL) {
        kernel = d;
        region_count++;
        call(d);
        end_region();
    }
    region_count += d->way == DATA;
}

/* ---- Chance ---- */

/* A section of one of the arrays, most often inside a mapping, and now and then all of one. */
static void draw_section(int *start, int *len)
{
    const map *in = map_count != 0 && number(3) != 0 ? maps[number(map_count)] : NULL;
    const int which = number(5);
    const int from = in != NULL ? in->start : arrays[which].start, all = in != NULL ? in->len : arrays[which].len;

    *start = from + (number(2) ? 0 : number(all));
    *len = number(3) == 0 ? from + all - *start : 1 + number(from + all - *start);
    if (in == NULL && *start < arrays[0].len && *len > 60) {
        *len = 1 + number(60);
    }
}

static int draw_item(const directive *d, item *it)
{
    static const clause of_exit[] = {COPYOUT, DELETE}, of_update[] = {SELF, DEVICE};
    const item *last = d->count != 0 ? &d->at[d->count - 1] : NULL;

    *it = (item){POINTER, 0, 0, -1, 0};
    if (d->way != UPDATE && number(5) == 0) {
        it->cell = number(CELL_COUNT);
        it->start = CELLS + 8 * it->cell;
        it->bias = 8 * number(3) - 8;
        return last == NULL || last->cell >= 0 || value_of(it->cell) + it->bias != (uintptr_t)host + last->start;
    }
    draw_section(&it->start, &it->len);
    it->clause = d->way == EXIT ? of_exit[number(2)] : d->way == UPDATE ? of_update[number(2)]
               : d->way == ENTER ? (number(2) ? COPYIN : CREATE) : (clause)number(6);
    if (d->way != UPDATE && number(6) == 0) {
        it->cell = number(CELL_COUNT);
        it->bias = (long)((uintptr_t)host + it->start - value_of(it->cell));
    }
    return 1;
}

static void draw(directive *d)
{
    *d = (directive){.way = (way)number(5), .option = number(4) == 0, .queue = number(3) ? NO_QUEUE : number(QUEUES)};
    if (d->way == DATA) {
        d->queue = NO_QUEUE;
    }
    if (d->queue != NO_QUEUE && (d->way == KERNEL || queue_len[d->queue] > MOST_COPIES - MOST_ITEMS)) {
        wait_for(d->queue); /* here, since it may change the pointers by which items are drawn */
    }
    for (int i = 1 + number(number(2) ? 2 : MOST_ITEMS); i > 0; i--) {
        d->count += draw_item(d, &d->at[d->count]);
    }
}

static void write_host(void)
{
    const int at = number(CELLS);

    host[at] = model[at] = (unsigned char)number(256);
    if (number(3) == 0) {
        const int cell = CELLS + 8 * number(CELL_COUNT);
        unsigned char *value = host + number(BYTES);

        memcpy(host + cell, &value, 8);
        memcpy(model + cell, &value, 8);
    }
}

static void step(void)
{
    directive d;
    int start, len;

    write_host();
    switch (number(8)) {
    case 0: wait_for(number(QUEUES)); break;
    case 1: ask_for(number(QUEUES)); break;
    case 2:
        if (region_count != 0) {
            GOACC_data_end();
            end_region();
        }
        break;
    default:
        draw(&d);
        if (d.way != DATA || region_count < MOST_REGIONS - 1) {
            direct(&d);
        }
    }
    if (memcmp(host, model, BYTES) != 0) {
        say_wrong("the host has other bytes");
    }
    draw_section(&start, &len);
    if (acc_is_present(host + start, (size_t)len) != (whole(start, len) != NULL)) {
        say_wrong("acc_is_present answers otherwise");
    }
}

/* All ends: regions, copies that wait, mappings. */
static void finish(void)
{
    for (; region_count != 0; end_region()) {
        GOACC_data_end();
    }
    for (int queue = 0; queue < QUEUES; queue++) {
        wait_for(queue);
    }
    if (memcmp(host, model, BYTES) != 0) {
        say_wrong("the host has other bytes at the end");
    }
    map_count = pool_count = 0;
    acc_shutdown(acc_device_default);
}

int main(int argc, char **argv)
{
    const unsigned long runs = argc > 1 ? strtoul(argv[1], NULL, 10) : 100;
    const unsigned long first = argc > 2 ? strtoul(argv[2], NULL, 10) : 1;
    unsigned long bad = 0;

    setenv("LAMWIEST_HOST", "4096", 1);
    setenv("LAMWIEST_DEVICE", "65536", 1);
    for (unsigned long run = first; run < first + runs; run++) {
        state = run;
        wrong = 0;
        distance = (long)((uintptr_t)acc_create(host, 1) - (uintptr_t)host);
        acc_delete(host, 1);
        for (directives = 0; directives < DIRECTIVES && wrong == 0; directives++) {
            step();
        }
        finish();
        if (wrong != 0) {
            printf("run %lu went wrong\n", run);
            bad++;
        }
    }
    printf("%lu runs, %lu wrong\n", runs, bad);
    return bad != 0;
}
