/*
 * What a table asks for and holds over a long run. In each life 128 of a kind are alive while some 100,000 others come
 * and go: in no order beside one that stays, or the oldest first. A first round has more of them at once, so that room
 * for them is made. From then on the library asks for memory only for the lists of events, for the bytes of blocks and
 * for folds, and it holds as much as before. Last, directives are refused for want of memory, and keep none for their
 * blocks.
 *
 * Usage: lives [ROUNDS]. Without the number there are 10 rounds. What it prints is the same with each number.
 */
#include "lamwiest.h"
#include "refusing.h"
#include <inttypes.h>
#include <stdio.h>
#include <stdlib.h>

enum {
    ALIVE = 128,     /* how many are alive between two steps */
    MOST = 2048,     /* how many may be alive in a first round */
    ROUNDS = 10,     /* how many rounds come behind it, where the program is not told */
    FOLDS = 20,      /* how often the trace is folded in a round */
    EVENTS = 2048,   /* how many events there are from one fold to the next at most */
    ITEMS = 64,      /* how many items a directive has at most */
    HOLDINGS = 8,    /* how many items an entry to a region has */
    HOLDING = 80,    /* how many bytes what it holds for an item takes */
    WAITING = 80,    /* a copy that waits takes 40 bytes, and a queue may have room for twice as many as wait */
    QUEUES = 16,     /* how many queues there are */
    BATCH = 512,     /* how many arrays come side by side of which few stay */
    STAY = 64,       /* the first of so many stays */
    REFUSALS = 100,  /* how many directives are refused at least in a round, whose births then never come */
    FEW_BYTES = 1024 /* more than one lease needs, and less than many do */
};

/* An array of 16 bytes that is mapped all the time, and where the others begin, which are as long. */
#define ARRAY LW_HOST_BASE
#define LEN UINT64_C(16)
#define OTHERS (LW_HOST_BASE + 4096)
#define APART UINT64_C(32)

/* Pointers to the array. There are more than come in one life. */
#define POINTERS OTHERS
#define POINTERS_LEN (UINT64_C(1) << 20)

/* Large arrays, 64 of which fill nearly all of device memory. */
#define LARGE_LEN (UINT64_C(1000) << 10)
#define MEMORY (UINT64_C(64) << 20)

/* A table, and what is alive on it: by its place, an address, or the number of a region or of a lease. */
typedef struct world {
    lw_table table;
    lw_fault fault;
    uint64_t region;
    uint64_t queue;
    uint64_t alive[MOST];
    uint64_t came;
} world;

/* What comes and goes. */
typedef struct life {
    const char *name;
    void (*begin)(world *world);               /* what is made before they come; NULL for nothing */
    void (*first)(world *world, size_t place); /* how they come in the first round */
    void (*come)(world *world, size_t place);
    void (*go)(world *world, size_t place);
    size_t (*next)(uint64_t step); /* the place of the one that goes, which the next one takes */
    size_t most;                   /* how many are alive at once in the first round */
    size_t steps;                  /* how many go and come in each round behind it */
    size_t growths;                /* how often memory is asked for where one goes and the next one comes */
} life;

/* Ends the program where something is not as it has to be. */
static void check(bool is_so, const char *name, const char *what)
{
    if (!is_so) {
        fprintf(stderr, "%s: %s\n", name, what);
        exit(EXIT_FAILURE);
    }
}

static void must(uint32_t status, const char *call)
{
    check(status == LW_DONE, call, "refused");
}

/* ---- Calls ---- */

static void enter_data(world *world, uint32_t clause, uint64_t start, uint64_t len)
{
    lw_item item = {.clause = clause, .start = start, .len = len};

    must(lw_enter_data(&world->table, 0, &item, 1, LW_ASYNC_SYNC, &world->fault), "enter data");
}

static void exit_data(world *world, uint32_t clause, uint64_t start)
{
    lw_item item = {.clause = clause, .start = start, .len = LEN};

    must(lw_exit_data(&world->table, 0, &item, 1, 0, LW_ASYNC_SYNC, &world->fault), "exit data");
}

/* Makes what is there the base of the trace, which has room for as many events as before. */
static void fold(world *world)
{
    uint64_t folded;

    must(lw_rebase(&world->table, &folded, &world->fault), "rebase");
}

/* A table on which the array is mapped, with room in its trace. */
static void make(world *world)
{
    lw_limits limits = LW_LIMITS;
    uint64_t made;

    *world = (struct world){.table = LW_NO_TABLE};
    limits.host = limits.device = MEMORY;
    limits.regions = MOST;
    must(lw_table_new(&world->table, &limits, &world->fault), "table");
    enter_data(world, LW_CREATE, ARRAY, LEN);
    for (size_t i = 1; i < EVENTS; i++) {
        must(lw_wait(&world->table, 0, LW_NO_QUEUE_GIVEN, &made, &world->fault), "wait");
    }
    fold(world);
}

/* ---- Regions ---- */

static void enter(world *world, size_t place)
{
    lw_item items[HOLDINGS];

    for (size_t i = 0; i < HOLDINGS; i++) {
        items[i] = (lw_item){.clause = LW_COPY, .start = ARRAY, .len = LEN};
    }
    must(lw_enter(&world->table, 0, items, HOLDINGS, &world->alive[place], &world->fault), "enter");
}

static void leave(world *world, size_t place)
{
    must(lw_exit(&world->table, world->alive[place], &world->fault), "exit");
}

/* ---- Blocks and their ranges ---- */

static void map(world *world, size_t place)
{
    world->alive[place] = OTHERS + APART * world->came++;
    enter_data(world, LW_CREATE, world->alive[place], LEN);
}

static void unmap(world *world, size_t place)
{
    exit_data(world, LW_DELETE, world->alive[place]);
}

/* Those of a batch alone that stay. */
static void map_few(world *world, size_t place)
{
    world->alive[place] = OTHERS + APART * world->came;
    world->came += BATCH;
    for (size_t i = 0; i < BATCH; i += STAY) {
        enter_data(world, LW_CREATE, world->alive[place] + APART * i, LEN);
    }
}

static void unmap_few(world *world, size_t place)
{
    for (size_t i = 0; i < BATCH; i += STAY) {
        exit_data(world, LW_DELETE, world->alive[place] + APART * i);
    }
}

/* A whole batch, of which those go at once that do not stay. */
static void map_batch(world *world, size_t place)
{
    uint64_t first = OTHERS + APART * world->came;

    world->alive[place] = first;
    world->came += BATCH;
    for (size_t i = 0; i < BATCH; i++) {
        enter_data(world, LW_CREATE, first + APART * i, LEN);
    }
    for (size_t i = 0; i < BATCH; i++) {
        if (i % STAY != 0) {
            exit_data(world, LW_DELETE, first + APART * i);
        }
    }
}

/* ---- Attached pointers ---- */

static void begin_pointers(world *world)
{
    static uint8_t bytes[POINTERS_LEN];

    for (size_t i = 0; i < POINTERS_LEN; i++) {
        bytes[i] = (uint8_t)(ARRAY >> 8 * (i % 8));
    }
    must(lw_host_write(&world->table, POINTERS, bytes, POINTERS_LEN, &world->fault), "write");
    enter_data(world, LW_COPYIN, POINTERS, POINTERS_LEN);
}

static void attach(world *world, size_t place)
{
    world->alive[place] = POINTERS + 8 * world->came++;
    enter_data(world, LW_ATTACH, world->alive[place], 0);
}

static void detach(world *world, size_t place)
{
    exit_data(world, LW_DETACH, world->alive[place]);
}

/* ---- Leases, each of a block of its place ---- */

static void begin_leases(world *world)
{
    for (size_t place = 0; place < MOST; place++) {
        map(world, place);
    }
    must(lw_enter(&world->table, 0, NULL, 0, &world->region, &world->fault), "enter");
}

static void lend(world *world, size_t place)
{
    uint64_t start = OTHERS + APART * place;

    must(lw_lend(&world->table, world->region, start, LEN, &world->alive[place], &world->fault), "lend");
}

static void gather(world *world, size_t place)
{
    must(lw_gather(&world->table, world->alive[place], &world->fault), "gather");
}

/* ---- Lives ---- */

/* In no order, but that of the first place stays. */
static size_t any(uint64_t step)
{
    return 1 + (step * UINT64_C(0x9E3779B97F4A7C15) >> 32) % (ALIVE - 1);
}

static size_t oldest(uint64_t step)
{
    return step % ALIVE;
}

/* Places of those that are gone are at most as many as the others. Rows of ranges or of pointers are a quarter full or
   more, taken together. Of ranges that thin out 1,024 stay, and 512 more are there for a while: so 6,144 come first. A
   region takes memory for its items, for what it holds, and for what each item did, also at its exit; a block takes
   memory for its bytes. */
static const life LIVES[] = {
    {
        .name = "regions",
        .first = enter,
        .come = enter,
        .go = leave,
        .next = any,
        .most = 2 * ALIVE,
        .steps = 10000,
        .growths = 4,
    },
    {
        .name = "regions, the oldest first",
        .first = enter,
        .come = enter,
        .go = leave,
        .next = oldest,
        .most = 2 * ALIVE,
        .steps = 10000,
        .growths = 4,
    },
    {
        .name = "blocks and ranges",
        .first = map,
        .come = map,
        .go = unmap,
        .next = any,
        .most = 4 * ALIVE,
        .steps = 10000,
        .growths = 1,
    },
    {
        .name = "ranges that thin out",
        .first = map_few,
        .come = map_batch,
        .go = unmap_few,
        .next = any,
        .most = 6 * ALIVE,
        .steps = 20,
        .growths = BATCH,
    },
    {
        .name = "attached pointers",
        .begin = begin_pointers,
        .first = attach,
        .come = attach,
        .go = detach,
        .next = any,
        .most = 4 * ALIVE,
        .steps = 10000,
        .growths = 0,
    },
    {
        .name = "leases",
        .begin = begin_leases,
        .first = lend,
        .come = lend,
        .go = gather,
        .next = any,
        .most = 2 * ALIVE,
        .steps = 10000,
        .growths = 0,
    },
};

static void step(world *world, const life *life, size_t place)
{
    life->go(world, place);
    life->come(world, place);
}

/* Many are alive at once, and as many as live on are left. */
static void play_first(world *world, const life *life)
{
    if (life->begin != NULL) {
        life->begin(world);
    }
    for (size_t place = 0; place < life->most; place++) {
        life->first(world, place);
    }
    for (size_t place = ALIVE; place < life->most; place++) {
        life->go(world, place);
    }
    fold(world);
}

static void play_round(world *world, const life *life, uint64_t round)
{
    for (size_t i = 0; i < life->steps; i++) {
        step(world, life, life->next(round * life->steps + i));
        if ((i + 1) % (life->steps / FOLDS) == 0) {
            fold(world);
        }
    }
}

/* How often a fold asks for memory. */
static size_t growths_of_fold(world *world)
{
    refuse_growth(0);
    fold(world);
    return growths_made();
}

static void play(const life *life, uint64_t rounds)
{
    world world;
    size_t growths;
    size_t held;

    make(&world);
    play_first(&world, life);
    growths = life->steps * life->growths + FOLDS * growths_of_fold(&world);
    held = bytes_held();
    for (uint64_t round = 0; round < rounds; round++) {
        refuse_growth(0);
        play_round(&world, life, round);
        check(growths_made() == growths, life->name, "a round asks for memory that its events do not need");
        check(bytes_held() == held, life->name, "a round leaves more or less memory held than there was");
    }
    lw_table_end(&world.table);
    printf("%s: %zu steps a round\n", life->name, life->steps);
}

/* One lease needs no room for many: itself, its loan and its event. */
static void lend_one(void)
{
    world world;
    size_t held;

    make(&world);
    begin_leases(&world);
    fold(&world);
    held = bytes_held();
    lend(&world, 0);
    fold(&world);
    check(bytes_held() <= held + FEW_BYTES, "one lease", "it holds room for many");
    lw_table_end(&world.table);
    printf("one lease: at most %d bytes\n", FEW_BYTES);
}

/* ---- Births that never come ---- */

/* How the large arrays are entered, and how what was entered ends. */
typedef struct entry {
    const char *name;
    uint32_t clause;
    uint32_t (*begin)(world *world, const lw_item *items);
    void (*end)(world *world, lw_item *items);
} entry;

static void name_large(lw_item *items, uint32_t clause)
{
    for (size_t i = 0; i < ITEMS; i++) {
        items[i] = (lw_item){.clause = clause, .start = OTHERS + LARGE_LEN * i, .len = LARGE_LEN};
    }
}

static uint32_t begin_region(world *world, const lw_item *items)
{
    return lw_enter(&world->table, 0, items, ITEMS, &world->region, &world->fault);
}

static void end_region(world *world, lw_item *items)
{
    (void)items;
    must(lw_exit(&world->table, world->region, &world->fault), "exit");
}

static uint32_t begin_queued(world *world, const lw_item *items)
{
    return lw_enter_data(&world->table, 0, items, ITEMS, lw_queue((int64_t)world->queue), &world->fault);
}

static void end_queued(world *world, lw_item *items)
{
    uint64_t made;

    must(lw_wait(&world->table, 0, world->queue, &made, &world->fault), "wait");
    check(made == ITEMS, "queue", "other copies waited than those of the entry");
    name_large(items, LW_DELETE);
    must(lw_exit_data(&world->table, 0, items, ITEMS, 0, LW_ASYNC_SYNC, &world->fault), "exit data");
}

static const entry REGION = {
    .name = "births in a region",
    .clause = LW_CREATE,
    .begin = begin_region,
    .end = end_region,
};

static const entry QUEUED = {
    .name = "births through a queue",
    .clause = LW_COPYIN,
    .begin = begin_queued,
    .end = end_queued,
};

/* Enters the large arrays, where the growth of a number is refused; 0 stands for none. Tells whether they were entered,
   which then ended again: there was no such growth. */
static bool enter_large(world *world, const entry *entry, size_t growth)
{
    lw_item items[ITEMS];
    uint32_t status;

    name_large(items, entry->clause);
    refuse_growth(growth);
    status = entry->begin(world, items);
    if (status == LW_MEMORY) {
        check(was_growth_refused(), entry->name, "they are refused though there is memory");
        refuse_growth(0);
        return false;
    }
    check(!was_growth_refused(), entry->name, "they are entered though a growth was refused");
    refuse_growth(0);
    must(status, entry->name);
    entry->end(world, items);
    fold(world);
    return true;
}

/* A directive without a birth. */
static void update(world *world)
{
    lw_item item = {.clause = LW_DEVICE, .start = ARRAY, .len = LEN};

    must(lw_update(&world->table, 0, &item, 1, 0, LW_ASYNC_SYNC, &world->fault), "update");
    fold(world);
}

/* Refuses each growth of an entry in its turn, until there is none left, and tells how many there were. What was made
   for births is given back at once, and the next directive brings none of it back. */
static size_t refuse_each(world *world, const entry *entry, size_t most)
{
    size_t refusals = 0;

    while (!enter_large(world, entry, refusals + 1)) {
        check(bytes_held() <= most, entry->name, "what was made for those that never came is held");
        update(world);
        check(bytes_held() <= most, entry->name, "more is held behind the next directive");
        refusals++;
    }
    check(refusals > 0, entry->name, "they need no memory");
    check(bytes_held() <= most, entry->name, "more is held behind their end");
    return refusals;
}

/* A table on which the large arrays were once, so that it has room for as many. */
static void make_for_large(world *world)
{
    make(world);
    (void)enter_large(world, &REGION, 0);
    update(world);
}

/* The room for what a region holds may stay for the next one. */
static void refuse_in_region(uint64_t rounds)
{
    world world;
    size_t refusals = 0;
    size_t held;

    make_for_large(&world);
    held = bytes_held();
    while (refusals < rounds * REFUSALS) {
        refusals += refuse_each(&world, &REGION, held + ITEMS * HOLDING);
    }
    lw_table_end(&world.table);
    printf("%s that never come: %d refusals a round at least\n", REGION.name, REFUSALS);
}

/* The first entry through each queue makes room in it, which may stay. The second one finds it there. */
static void refuse_queued(void)
{
    world world;

    make_for_large(&world);
    for (world.queue = 0; world.queue < QUEUES; world.queue++) {
        size_t held = bytes_held();

        refuse_each(&world, &QUEUED, held + ITEMS * WAITING);
        check(bytes_held() > held, QUEUED.name, "no room was made in the queue");
        refuse_each(&world, &QUEUED, bytes_held());
    }
    lw_table_end(&world.table);
    printf("%s that never come: %d queues\n", QUEUED.name, QUEUES);
}

int main(int count, char **words)
{
    uint64_t rounds = count > 1 ? strtoull(words[1], NULL, 10) : ROUNDS;

    check(rounds > 0, "rounds", "there is none");
    for (size_t i = 0; i < sizeof LIVES / sizeof *LIVES; i++) {
        play(&LIVES[i], rounds);
    }
    lend_one();
    refuse_in_region(rounds);
    refuse_queued();
    check(blocks_held() == 0, "tables", "they have memory behind their end");
    return EXIT_SUCCESS;
}
