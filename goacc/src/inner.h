/*
 * What the files of liblamwiest_acc.so share. All of it is used under the lock, which each entry point and each routine
 * takes once, by lwa_take. A kernel runs without it.
 *
 * The table is told some items at a time, of which no two name one block, and tells what each of them did. A directive
 * may be several directives of the table, in their order, and a region several.
 *
 * Four kinds of addresses: the program's own; table addresses, of the host memory that the table has; places, of the
 * table's device memory; and device addresses, of the memory of this process in which kernels find a block's bytes.
 */
#ifndef LWA_INNER_H
#define LWA_INNER_H

#include <acc_prof.h>
#include <stdarg.h>
#include <stdbool.h>
#include <stddef.h>
#include <stdint.h>
#include <stdio.h>

#include "lamwiest.h"

#define LWA_EXPORT __attribute__((visibility("default")))

/* Where the call of the program stands, in a function that it calls. */
#define LWA_FROM __builtin_return_address(0)

/* The bytes of a pointer, for the table as for the program. */
#define LWA_POINTER 8

/* The bytes of a name or of a place of the program at most. */
#define LWA_NAME 256

/* ---- What gcc passes, and what the table is told ---- */

/* The maps of a directive. */
typedef struct lwa_maps {
    size_t count;
    void **at;
    size_t *sizes;
    unsigned short *kinds;
} lwa_maps;

/* A pointer that is attached. On the device the table has a place in it, and a kernel finds a device address. */
typedef struct lwa_pointer {
    uintptr_t at;
    uint64_t place;
    uintptr_t device;
    bool other; /* the table was told that a kernel has left another value */
    bool open;  /* in shadow mode: a copy went over it, of which OpenACC leaves open what it leaves there */
} lwa_pointer;

/* A mapped range; or one that has ended, while copies of it wait or a region has it. */
typedef struct lwa_block {
    uintptr_t at; /* the program's address; of acc_malloc, the device address, since there is no other */
    size_t len;
    uint64_t told;    /* the table's address */
    uint64_t place;   /* the device address that the table has for it */
    uintptr_t device; /* the device address */
    uint8_t *bytes;   /* that the device has; at the device address while it is mapped, but for shadow mode */
    bool owns;        /* whether they are memory of its own */
    bool mapped;
    struct lwa_block *root, *parts, *next; /* a part that acc_map_data maps has another root, until that ends */
    struct lwa_block *child[2];            /* in the tree of all */
    bool part;
    size_t waiting; /* the copies that wait */
    size_t regions; /* the items of open regions that have it */
    size_t kernels; /* the kernels that have it; while there are some it is lent */
    uint64_t lease;
    uint64_t region;                    /* the region of a loan that the table is not told of */
    struct lwa_block *next_loan, **loan; /* and its place among those; no such: NULL */
    uint8_t *before;                     /* for the script: its bytes before the kernel */
    lwa_pointer *pointers; /* by rising address */
    size_t pointer_count, pointer_room;
    uint64_t queue; /* that a copy was put into last */
    bool meets;     /* another copy waits in another queue, or was made meanwhile */
    bool open;      /* of a root in shadow mode: the table does not know its bytes */
    bool given;     /* and the program has its device address by host_data, and may write there */
    bool apart;     /* the runtime differed in whether it is there */
    void *from;     /* the call that has mapped it */
    struct lwa_known *known; /* with LAMWIEST_CHECK: what is known of its bytes */
} lwa_block;

/* One item of a directive, in the program's addresses and as the table is told. */
typedef struct lwa_item {
    uint32_t clause;   /* LW_COPY and so on */
    uintptr_t at;      /* the program's address of the section; of attach and detach, of the pointer */
    size_t len;        /* its length in bytes */
    uintptr_t pointer; /* the program's address of the pointer to the section, or 0 */
    intptr_t bias;     /* how far behind the pointer's value the section begins */
    lw_item told;
    bool taken;       /* table addresses were taken for it, which are no block's yet */
    lwa_block *block; /* that has the section; of a region's item, until the region ends */
    uint64_t region;  /* the number of its region */
    bool back;        /* whether the region's end copies the section to the program, where it ends the mapping */
    lw_item_did did;  /* what the table did with it */
} lwa_item;

/* The items of a directive. */
typedef struct lwa_items {
    lwa_item *at;
    size_t count;
    size_t room;
} lwa_items;

typedef enum lwa_way { LWA_DATA, LWA_END_DATA, LWA_ENTER_DATA, LWA_EXIT_DATA, LWA_UPDATE } lwa_way;

/* A directive; at the end of a region, with the items of its start. */
typedef struct lwa_directive {
    lwa_way way;
    lwa_items items;
    bool option;      /* finalize of exit data, if_present of update */
    bool may_be_full; /* that there is no room on the device is an answer, and no refusal */
    uintptr_t device; /* of acc_malloc, the device address */
    uint64_t queue;   /* of enter data, exit data and update */
    void *from;       /* of a region: the call that has begun it */
} lwa_directive;

/* A data region of a thread; regions of one thread are nested. */
typedef struct lwa_region {
    struct lwa_region *below;
    unsigned device;
    bool in_table; /* no: the region is of host_data, or of a device that shares memory */
    lwa_directive directive;
} lwa_region;

/* ---- table.c: the lock, the tables, the refusals ---- */

/* Each device has a table, and each file has what it keeps beside one as often. This is the device that a thread is
   on. */
#define LWA_DEVICES 4
extern _Thread_local unsigned lwa_on;
extern lw_limits lwa_limits;
lw_table *lwa_table(void);

/* How often the lock was taken. */
extern uint64_t lwa_turn;

/* Takes the lock for a call of the program on the thread's device, and makes its table where there is none. event: what
   tools are told at its start, with the construct; the next one is told behind it. */
void lwa_take_for(const char *name, void *from, int event, int construct);
#define lwa_take(name, from) lwa_take_for(name, from, acc_ev_none, acc_construct_runtime_api)
void lwa_leave(void);

/* The same for a call that needs neither: where it is the first of the program it checks the environment. */
void lwa_check_first(const char *name, void *from);

/* Goes on with another device, whose table is made where there is none. */
void lwa_go_to(unsigned device);

/* Does something for each device that has a table. */
void lwa_each_device(void (*act)(void));

/* Whether this thread runs a kernel on the device. */
extern _Thread_local bool lwa_in_kernel;

/* Runs a compiled function of this thread with the lock free; on the device it may call acc_on_device alone. */
void lwa_run_free(void (*run)(void *), void *addresses, bool on_device);

/* Whether a call was refused since a block is lent; then the lock is given away until some block is brought back, and
   all is to be looked at again. */
bool lwa_is_lent(uint32_t status);

/* The innermost open region of this thread. */
lwa_region *lwa_innermost(void);
void lwa_set_innermost(lwa_region *region);

/* Ends the device's table, and forgets all that is kept beside it. */
void lwa_end_table(void);

/* Makes room for one more event. It stands before each call that may be one. */
void lwa_room(void);

/* The end of the program with status 1: for a refusal of the table, of what is told behind it or of "", and for what
   this library does not serve. */
_Noreturn void lwa_refuse(const lw_fault *fault, const char *of);
_Noreturn void lwa_unserved(const char *format, ...) __attribute__((format(printf, 1, 2)));

/* Writes what a refusal says, as "11 NotPresent item 0", with a zero at its end; a status that is none of a table's
   refusals as its number. */
#define LWA_REFUSAL 96
void lwa_refusal_text(const lw_fault *told, char text[LWA_REFUSAL]);

/* Where the call of the program returns to; and a place of the program as a text: its line, or where in its file. */
void *lwa_from(void);
void lwa_place_text(const void *from, char text[LWA_NAME]);

/* A line on standard error about the call of the program; and the end of the program with status 1 behind it. */
void lwa_say(const char *text);
_Noreturn void lwa_end_program(const char *text);

/* Goes on where the status is LW_DONE, and else refuses. */
void lwa_must(uint32_t status, const lw_fault *fault);

/* Memory of this library's own, as realloc has it; where there is none, the program ends. */
void *lwa_memory(void *old, size_t size);

/* The same of what is given back soon, by the second. */
void *lwa_piece(size_t size);
void rattle_dealloc(void *at);

/* Makes room for one more element of a list; room is how many it has room for. */
void *lwa_grown(void *list, size_t count, size_t *room, size_t size);

/* ---- names.c: the program's own words ---- */

/* The line of the program that a call returns to, as "main.c:12"; and the variable that has some bytes, with the
   section in elements where its type is known, as "a[2:4]". No, and an empty text: the program does not have them, or
   libdw was not there when this library was built. */
bool lwa_line_of(const void *from, char text[LWA_NAME]);
bool lwa_variable_at(uintptr_t at, size_t len, char text[LWA_NAME]);

/* The whole variable that has a byte: where it begins, its bytes and its name. */
bool lwa_object_at(uintptr_t at, uintptr_t *from, size_t *len, char name[LWA_NAME]);

/* The variable that has a byte, for later, and the bytes of one of its elements; 8 where they are not known. And a
   section of it as above. NULL: the program has none there. */
const void *lwa_keep_variable(uintptr_t at, size_t *element);
bool lwa_section_of(const void *variable, uintptr_t at, size_t len, char text[LWA_NAME]);

/* ---- environment.c: the variables of the environment ---- */

/* Ends the program where one has a word that it may not have, and tells of each that there is not. */
void lwa_check_environment(void);

/* Whether one has another word than 0; and its number, of which a text that is none is told as no `what`. */
bool lwa_is_on(const char *variable);
uint64_t lwa_number_of(const char *variable, const char *what, uint64_t otherwise);

/* ---- left.c: what a program leaves behind ---- */

/* Tells, for the device, of each mapping and of each copy that waits. */
void lwa_tell_left(void);

/* ---- devices.c ---- */

/* Whether the directives of this thread are for a table; else they are for the host, which shares its memory. */
bool lwa_is_for_table(void);

/* The type of device that ACC_DEVICE_TYPE names, acc_device_none where it names none; and the type that the devices of
   tables have, which is that one, for programs that ask for it by its name. */
acc_device_t lwa_named_type(void);
acc_device_t lwa_type_of_tables(void);

/* The device of a table that this thread has chosen. */
unsigned lwa_chosen_device(void);

/* The queue of a number of async as gcc and openacc.h have it, or LW_NO_QUEUE_GIVEN. */
#define LWA_QUEUES 16
uint64_t lwa_queue(int async);

/* The same of a wait: LW_NO_QUEUE_GIVEN also for a number that no async ever had, of which nothing waits. */
uint64_t lwa_queue_of(int async);

/* ---- blocks.c: what is mapped, and where ---- */

/* A mapped range that has a byte of a section, or NULL; and whether it has all of them. */
lwa_block *lwa_meets(uintptr_t at, size_t len);
bool lwa_has(const lwa_block *block, uintptr_t at, size_t len);

/* The block that has all of a section, or NULL. */
lwa_block *lwa_inside(uintptr_t at, size_t len);

/* A block of acc_malloc has no byte of the program: in place of the program's address it has the device's. */
bool lwa_is_of_program(const lwa_block *block);

/* Table addresses for a section that is to be mapped, with an address behind it that is never mapped. */
uint64_t lwa_take_addresses(uintptr_t at, size_t len);
void lwa_give_addresses(uint64_t told, size_t len);

/* Sixteen table addresses that are never mapped; and an address behind the table's host memory. */
#define LWA_NOWHERE LW_HOST_BASE
uint64_t lwa_outside(void);

/* An item's section that is mapped now, at table addresses that were taken for it. */
lwa_block *lwa_born(const lwa_item *item, uintptr_t device);

/* A part of a block of acc_malloc gets an address of the program. */
void lwa_map_part(lwa_block *root, uintptr_t at, size_t len, uintptr_t device);

/* It is mapped no more; and a copy of it waits no more. */
void lwa_ended(lwa_block *block);
void lwa_made(lwa_block *block);

/* An item of a region has a block, or NULL; and has it no more. */
void lwa_hold(lwa_block *block);
void lwa_let_go(lwa_block *block);

/* The device address of a byte of a block, and that of the table. */
uintptr_t lwa_device_of(const lwa_block *block, uintptr_t at);
uint64_t lwa_place_of(const lwa_block *block, uintptr_t at);

/* The block of a device address; at: the program's address of that byte. */
lwa_block *lwa_on_device(uintptr_t device, uintptr_t *at);

extern size_t lwa_mapped[LWA_DEVICES]; /* how many are mapped */
void lwa_each_block(void (*act)(lwa_block *));
void lwa_forget_blocks(void);

/* ---- mirror.c: bytes between the program and the device ---- */

/* Whether all addresses of a section can be read. */
bool lwa_is_memory(uintptr_t at, size_t len);

/* Makes a copy of a section of a block, in or out, which leaves attached pointers as they are. */
void lwa_copy(const lwa_block *block, uintptr_t at, size_t len, bool out);

/* One more copy that waits in a queue. */
void lwa_put_waiting(uint64_t queue, lwa_block *block, uintptr_t at, size_t len, bool out);

/* The device makes the next copy of a queue. No: none waits. Where its block is lent that is waited for. */
bool lwa_step(uint64_t queue);

/* Makes what waits in a queue, or in all. */
void lwa_wait(uint64_t queue);

/* Does something for each copy that waits. from: the call that has put it. */
void lwa_each_waiting(void (*act)(uint64_t queue, const void *from, uintptr_t at, size_t len, bool out));

size_t lwa_waiting(void); /* how many do */
void lwa_forget_waiting(void);

/* ---- pointers.c: pointers that were attached ---- */

/* What the table is told of the pointer of an item. */
uint64_t lwa_told_pointer(const lwa_item *item);

/* Before an item may attach its pointer: tells the table its target, and what a kernel has left there. After it: gives
   the device what it has then. */
void lwa_aim(const lwa_item *item);
void lwa_aimed(const lwa_item *item);

/* In shadow mode the device's address of the target is known behind the runtime's call alone. */
void lwa_aimed_late(const lwa_item *item);

/* The place of the first pointer of a block that ends behind an address. */
size_t lwa_first_pointer(const lwa_block *block, uintptr_t at);

/* ---- directives.c ---- */

bool lwa_is_pointer(const lwa_item *item);
bool lwa_copies_in(uint32_t clause);

/* enter data, exit data or update. What the items take is given back. No: there was no room on the device. */
bool lwa_direct(lwa_directive *directive);

/* The start of a data region, which keeps the items, and its end. */
lwa_region *lwa_enter(lwa_directive *directive);
void lwa_exit(lwa_region *region);

/* ---- items.c: what gcc passes, as items ---- */

void lwa_add_item(lwa_items *items, uint32_t clause, uintptr_t at, size_t len);

/* The items and the option of a directive of this kind. */
void lwa_read_maps(const lwa_maps *maps, lwa_way way, lwa_directive *directive);

/* Whether maps that say no more than that are of enter data, and not of exit data. */
bool lwa_is_entry(const lwa_maps *maps);

/* A section, and an item, in the program's words, or with its addresses: "a[2:4]", "copyin(a[2:4])". */
#define LWA_ITEM (2 * LWA_NAME + 32)
void lwa_section_text(uintptr_t at, size_t len, char text[LWA_NAME]);
void lwa_item_text(const lwa_item *item, char text[LWA_ITEM]);

/* ---- kernels.c ---- */

/* Runs a function in a region: one that was compiled, which gets the device addresses; or with what is given. */
void lwa_kernel(void (*run)(void *), void *given, const lwa_maps *maps, const lwa_region *region);

/* Tells the table of the loans that it was not told of. It stands where what is done next may meet one. */
void lwa_tell_loans(void);

/* Writes to the table what its device has of a pointer. */
void lwa_write_on_device(const lwa_block *block, uintptr_t at, uint64_t value);

/* In a child of the program no kernel runs: what was lent is brought back. */
void lwa_gather_all(void);

/* ---- script.c: what the program did as a script, and the report ---- */

void lwa_start_script(void);

/* A child of the program writes neither. */
extern bool lwa_is_child;
void lwa_forget_script(void);

/* The lines of a script: items that are done at once, or are the program's last; the pointer of an item at its target;
   and copies. */
void lwa_script_items(const lwa_directive *directive, size_t first, size_t end, bool done);
void lwa_script_point(const lwa_item *item, uintptr_t pointer, uintptr_t target);
void lwa_script_copies(const char *statement, uint64_t queue);

/* Around a kernel: the block keeps its bytes, so that the script has what the kernel changed. */
void lwa_script_lent(lwa_block *block);
void lwa_script_gathered(lwa_block *block);
bool lwa_has_script(void);

/* With LAMWIEST_REPORT: lets a signal ask for the reports; and writes them where one has asked. */
void lwa_start_report(void);
void lwa_report_if_asked(void);

/* Writes the report, and ends the script. */
void lwa_finish_script(void);

/* The name of a directive, and of a clause, as a script and the log have them. */
const char *lwa_name_of(lwa_way way);
const char *lwa_clause_name(uint32_t clause);

/* ---- arrays.c: the arrays of a script ---- */

/* The bytes of a script's host memory, which is as large as it may be. */
#define LWA_SCRIPT_HOST 67108864

/* The name and the offset of a section as "a[8", behind the line that declares its array where none had it. No: no
   array can have it. The other one is of bytes that the program does not have. */
#define LWA_ARRAY 64
#define LWA_NO_ARRAY "nowhere"
bool lwa_array_at(FILE *script, uintptr_t at, size_t len, char text[LWA_ARRAY]);
void lwa_no_array(FILE *script, uint64_t offset, char text[LWA_ARRAY]);
void lwa_forget_arrays(void);

/* ---- profile.c: what tools are told ---- */

/* Finds the tools, once. */
void lwa_find_tools(void);

/* Whether this thread is in a tool. A kernel's end tells tools its event before its blocks are brought back. */
extern _Thread_local bool lwa_in_tool;

/* Tells the tools an event, out of the lock; and notes one under it, of some bytes of a block or of none. */
void lwa_tell(int event, int construct);
void lwa_note(int event, const lwa_block *block, uintptr_t at, size_t len);
void lwa_tell_notes(int construct);

/* ---- log.c: a line on standard error for each thing done ---- */

extern bool lwa_logged;
void lwa_start_log(void);

/* The head line of a directive; of each of its items; and the region's line. */
void lwa_log_directive(const lwa_directive *directive);
void lwa_log_item(const lwa_directive *directive, size_t i);
void lwa_log_region(const lwa_directive *directive);

/* wait and step, and each copy that they made. */
void lwa_log_copies(const char *statement, uint64_t queue);
void lwa_log_made(uint64_t queue, const lwa_block *block, uintptr_t at, size_t len, bool out);

void lwa_log_loan(const char *what, const lwa_block *block);
void lwa_log_refused(const lw_fault *fault);
void lwa_finish_log(void);

/* ---- shadow.c: the same calls on the runtime that the program is linked with (LAMWIEST_SHADOW) ---- */

extern bool lwa_shadow;
void lwa_start_shadow(void);
void lwa_finish_shadow(void);

/* Whether this thread is in a function of the runtime, which calls some of its own by their names. */
extern _Thread_local bool lwa_in_runtime;

/* The runtime's function of a name; and the end of one here which the runtime alone has to answer. */
void *lwa_next(const char *name);
#define LWA_NEXT(name) \
    ({ \
        static void *_Atomic next; \
\
        if (next == NULL) { \
            next = lwa_next(#name); \
        } \
        (__typeof__(&name))next; \
    })
#define LWA_LIST(...) __VA_ARGS__
#define LWA_PASS(when, name, ...) \
    if (when) { \
        lwa_check_first(#name, LWA_FROM); \
        return LWA_NEXT(name)(__VA_ARGS__); \
    }

/* The end of each call of the program: behind the table the runtime makes it, and both are compared. */
#define LWA_LEAVE(call) \
    do { \
        if (lwa_shadow) { \
            lwa_in_runtime = true; \
            call; \
            lwa_compare(); \
        } \
        lwa_leave(); \
    } while (0)
void lwa_compare(void);

/* The runtime's answer, which the program gets; it is compared with the table's. */
uintptr_t lwa_answer(uintptr_t own, uintptr_t came);

/* Whether a refusal is one that the runtime has to tell, too, and may be passed over here. */
bool lwa_may_refuse(const lw_fault *fault);
bool lwa_has_refused(void);

/* The words of LAMWIEST_STRICT, with NULL at their end. */
extern const char *const lwa_open_names[];

/* Whether the runtime has another device than the host, as was asked just now. */
bool lwa_has_device(bool has);

/* What OpenACC leaves open; yes where shadow mode passes it over. */
typedef enum lwa_open { LWA_OPEN_FILL, LWA_OPEN_PLACES, LWA_OPEN_QUEUES, LWA_OPEN_POINTERS, LWA_OPEN } lwa_open;
bool lwa_is_open(lwa_open what);

/* Before an item acts, or a copy that waited: what is to be compared. */
void lwa_watch_item(const lwa_directive *directive, size_t i);
void lwa_watch_copy(uint64_t queue, const lwa_block *block, uintptr_t at, size_t len, bool out);
void lwa_watch_block(lwa_block *block);

/* Host bytes that the runtime is about to write: those that the table has, or none where they are open. And what a
   section of a block has in from the host, behind those. */
void lwa_expect(uintptr_t at, size_t len, const uint8_t *bytes);
void lwa_read_expected(const lwa_block *block, uintptr_t at, size_t len, uint8_t *to);

/* Around a kernel, which may write wherever it has a pointer to. */
void lwa_kernel_starts(void);
void lwa_kernel_ended(void);

/* ---- check.c: reads of stale bytes (LAMWIEST_CHECK) ---- */

extern bool lwa_checked;
#define LWA_CHECK(call) \
    do { \
        if (__builtin_expect(lwa_checked, false)) { \
            call; \
        } \
    } while (0)
void lwa_start_check(void);

/* An item has acted: whether it left what the device has newer. And a kernel is about to run that has a section of a
   block, or all of it where its length is 0. */
void lwa_check_item(const lwa_directive *directive, const lwa_item *item);
void lwa_check_kernel(const lwa_block *block, uintptr_t at, size_t len);

/* The host is about to read some bytes. What is stale of them is a finding, which is told later. by_words: where the
   code reads words, it may look at bytes around those that it needs. context: of the signal, as a handler has it. */
void lwa_check_read(uintptr_t at, size_t len, bool by_words, void *context);

/* Whether the instruction of a signal's context is of `free`. */
bool lwa_is_in_free(const void *context);

/* Tells what was found since the last time; and once that reads are not seen, and why. Neither in a signal handler that
   may have interrupted malloc. */
void lwa_tell_findings(void);
void lwa_tell_unseen(const char *why);

/* The call that a directive stands in: at the end of a region that of its start. */
void lwa_check_region(void *from);
void *lwa_check_from(void);

/* Each call of the program begins so; and its end. Whether the program has to end with status 1 then. */
void lwa_check_call(void);
bool lwa_finish_check(void);

/* ---- behind.c: which bytes are stale ---- */

typedef enum lwa_staleness { LWA_NEW, LWA_BEHIND, LWA_OVERWRITTEN, LWA_UNFILLED } lwa_staleness;
typedef enum lwa_why { LWA_MAPPED, LWA_HELD, LWA_DELETED, LWA_REGION_ENDED } lwa_why;

/* Why a byte is not new; and the place of a cause in their list, twice, and 1 more behind a finding. */
typedef struct lwa_cause {
    lwa_staleness stale;
    uintptr_t at; /* the mapped section that has the byte */
    size_t len;
    const void *wrote;  /* the kernel that wrote a newer one */
    const void *missed; /* the directive that did not copy it, or that copied it though it was stale */
    lwa_why why;
    uint32_t clause; /* that the directive had */
    const void *variable;
    size_t element;
} lwa_cause;
typedef uint16_t lwa_mark;
typedef struct lwa_known lwa_known;
const lwa_cause *lwa_cause_of(lwa_mark mark);

/* A page with stale bytes of the host. */
#define LWA_PAGE 4096
typedef struct lwa_page {
    uintptr_t at;
    size_t stale;         /* how many are to be told when they are read */
    size_t marked;        /* and how many there are, with those that were told */
    size_t touches;       /* beside them */
    uintptr_t next_write; /* behind the last byte that was written, and how many writes were in a row */
    size_t row;
    enum { LWA_UNKNOWN, LWA_WRITABLE, LWA_OTHER } access; /* what the program may do there, as it was asked last */
    bool kept;
    lwa_mark marks[LWA_PAGE];
} lwa_page;
lwa_page *lwa_page_of(uintptr_t at);
void lwa_each_page(uintptr_t from, uintptr_t until, void (*act)(lwa_page *));

/* The host wrote a section, or may have; and all. */
void lwa_host_is_new(uintptr_t at, size_t len);
void lwa_host_is_all_new(void);

/* The host gives the memory back that some stale bytes are in. */
void lwa_host_gives_back(uintptr_t at, size_t len);

/* A section that is stale for one reason, of what the host reads; it is passed over from now on. No: all is new. */
typedef struct lwa_stale {
    lwa_mark mark;
    uintptr_t at;
    size_t len;
} lwa_stale;
bool lwa_is_host_stale(uintptr_t at, size_t len);
bool lwa_read_by_host(uintptr_t at, size_t len, bool by_words, lwa_stale *found);

/* The same of the device's bytes of a block, for which a kernel gives no reason. */
lwa_staleness lwa_stale_for_kernel(const lwa_block *block, uintptr_t *at, size_t *len);

/* A block is mapped, with its bytes; is_filled: whether somebody may have filled them. */
void lwa_behind_born(lwa_block *block, bool is_filled);

/* Before a copy; behind acc_memcpy_to_device or the other; before a kernel that has a block, behind a kernel, or in
   shadow mode behind another call; and behind a directive that did not copy a section. */
void lwa_behind_copied(const lwa_block *block, uintptr_t at, size_t len, bool out);
void lwa_behind_moved(uintptr_t host, uintptr_t device, size_t len, bool out);
void lwa_behind_lent(const lwa_block *block, uintptr_t at, size_t len);
void lwa_behind_kernel(bool is_kernel);
void lwa_behind_left(const lwa_block *block, uintptr_t at, size_t len, uint32_t clause, lwa_why why);

/* ---- instructions.c: what an instruction reads and writes ---- */

/* Whether Zydis was there when this library was built, which reads them. */
extern const bool lwa_reads_instructions;

/* What the instruction of a signal's context reads and writes; of each repetition that is counted, all. by_words: it is
   of the C library, which reads whole words around the bytes that it needs. touched: the address that was refused. */
typedef struct lwa_reach {
    uintptr_t at;
    size_t len;
    bool reads, writes, by_words;
} lwa_reach;
enum { LWA_REACHES = 4 };
size_t lwa_reaches(const void *context, uintptr_t touched, lwa_reach list[LWA_REACHES]);

/* Whether code is of the C library. */
bool lwa_is_of_libc(uintptr_t ip);

/* ---- system_calls.c: what system calls read and write ---- */

/* Whether the program has to make a call itself, since it is about its signals, its threads or its place. */
bool lwa_is_call_of_program(long number);

/* Before a call of these arguments, and behind it. */
void lwa_before_call(long number, const long arguments[6], void *context);
void lwa_behind_call(long number, const long arguments[6], long answer);

/* ---- pages.c: reads and writes of the host in pages with stale bytes ---- */

/* Keeps these pages from being read and written unseen; and lets this library, or a kernel, read and write them. */
void lwa_keep_pages(void);
void lwa_open_pages(void);

#endif
