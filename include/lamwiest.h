/*
 * Lamwiest: the data environment of an OpenACC 3.3 runtime, for C and C++.
 *
 * A table is host memory and the memories of one to four devices, all simulated, with what is mapped between them. A
 * call does what a directive of OpenACC 3.3 asks, or is refused and changes nothing. Behind each of these functions
 * stands one that is proved to do what its call of the library does; docs/C.md tells how to build and link it, and
 * docs/MODEL.md what each directive does.
 *
 * Host addresses are those of the simulated host memory, which begins at LW_HOST_BASE. They are no pointers of C.
 * lw_array hands them out.
 *
 * What a caller owes, since nothing can check it:
 *   - A pointer to a table or a place for an answer is not NULL, and points to such an object. One to a fault or to
 *     limits may be NULL. One to an array may be NULL where its length is 0; else it points to as many elements.
 *   - A handle begins as LW_NO_TABLE. It is not copied, and nothing but these functions reads or writes it.
 *   - No two of the objects that one call is given overlap, and no other thread writes one of them meanwhile.
 *   - A table is used by one thread at a time, by queries too, which write the handle. It is not used in a signal
 *     handler, nor in the child that a process with threads forks. Its thread is not cancelled in a call.
 *   - Through an address of lw_lease_bytes only the bytes of its lease are read and written. No thread does so while
 *     one is in a call on the table. Nor does any once the lease is spent, or the table has ended or begun anew.
 *   - A thread has 256 KiB of stack for a call.
 * All else that is wrong is told: as a status, with no change. So is a call that the program's own memory functions
 * make on the same handle: it is LW_ENDED. They make none on a handle into which a table is made or copied.
 */
#ifndef LAMWIEST_H
#define LAMWIEST_H

#include <stddef.h>
#include <stdint.h>

#ifdef __cplusplus
extern "C" {
#endif

/* ---- Versions ---- */

/* The version of this header, 0.2.5: a million times the first number, a thousand times the second, and the third. A
   library with the same first two numbers, and this third one or a greater one, takes programs that were compiled with
   this header. One with a lesser third takes those that make no call which came since. */
#define LW_VERSION 2005

/* The version of the library that the program is linked with. */
uint32_t lw_version(void);

/* ---- Statuses ---- */

/* What a call answers: LW_DONE, or why it was refused. A refused call fills in its fault, and changes nothing else.
   But lw_run keeps what it did before, and lw_script writes what the lines before a fault print. */
enum {
    LW_DONE = 0,           /* it is done */
    LW_MEMORY = 1,         /* no memory could be had. For one more lease, or for a list of more than one item, it is
                              told before all that a table refuses; else it is told last of all */
    LW_BAD_CONFIG = 2,     /* a limit is out of its bounds */
    LW_NO_TICKETS = 3,     /* there are as many events as there may be, and lw_rebase brings none back; value: how many
                              are left, 0 */
    LW_NO_ALLOWANCE = 4,   /* there are as many open data regions as there may be; value: how many are left, 0 */
    LW_TOO_MANY_ITEMS = 5, /* a directive has more than 64 items; value: how many it has */
    LW_TRACE_FULL = 6,     /* there is no room in the trace (lw_rebase makes some); value: how many events it has */
    LW_OUT_OF_HOST = 7,    /* a section, or a pointer's eight bytes, are not in host memory; item */
    LW_MISALIGNED = 8,     /* the address of a pointer is no multiple of 8; item */
    LW_NO_QUEUE = 9,       /* there is no such queue; value: its number */
    LW_PARTLY_PRESENT = 10,/* some addresses of a section are mapped, but no one mapped range has them all; item */
    LW_NOT_PRESENT = 11,   /* a section has to be present and is not; item */
    LW_COUNTER_FULL = 12,  /* a reference or attachment counter is at its limit; item */
    LW_LENT = 13,          /* a block is lent to a kernel; value: its number */
    LW_DEVICE_FULL = 14,   /* no free part of device memory is large enough; item, value: how many bytes it needs */
    LW_QUEUE_FULL = 15,    /* a queue has no room for one more transfer; value: its number */
    LW_NO_REGION = 16,     /* no data region of that number is open; value: the number */
    LW_NO_LEASE = 17,      /* no lease of that number is out: there was none, or it was spent; value: the number */
    LW_SCRIPT = 19,        /* a line of a script is at fault; item: what is wrong with it, as told below; value:
                              its number, from 1 on */
    LW_NO_DEVICE = 22,     /* there is no such device; value: its number */
    LW_ENDED = 32,         /* the handle has no table: none was made, or it was ended */
    LW_BAD_CLAUSE = 33,    /* the clause number of an item is none of the directive's; item. It is told before all else
                              that a table refuses */
    LW_BAD_LENGTH = 34,    /* a buffer is too short, or not as long as a lease or the bytes of an event;
                              value: the length that is wanted */
    LW_ABSENT = 35,        /* there is no such thing: nothing is mapped there, or there is no such lease, event or
                              item */
    LW_BAD_VERSION = 36    /* the limits are those of another header than the library knows: compile the program again;
                              value: the version of the library */
};

/* What is wrong with a line of a script. */
enum {
    LW_LINE_TOO_LONG = 1,       /* it has more than 4,096 bytes */
    LW_LINE_NOT_TEXT = 2,       /* a byte before any comment is no printable ASCII character, blank or tab */
    LW_LINE_SYNTAX = 3,         /* a token does not fit, is missing, or is one too many */
    LW_LINE_NUMBER = 4,         /* a number is out of its bounds */
    LW_LINE_UNKNOWN_NAME = 5,   /* no earlier line declared the name */
    LW_LINE_NAME_TAKEN = 6,     /* the name is declared already */
    LW_LINE_HOST_FULL = 7,      /* the array does not end within host memory */
    LW_LINE_NO_OPEN_REGION = 8, /* no data region is open */
    LW_LINE_UNCLOSED = 9        /* the script ends with an open data region; the line is the one behind its last */
};

/* The name of a status, as "DeviceFull"; "Done" of LW_DONE, and "" of what is none. */
const char *lw_status_name(uint32_t status);

/* Why a call was refused. A call that is done sets all three to 0. Where a call is given NULL for its fault, the status
   alone tells it. */
typedef struct lw_fault {
    uint32_t status; /* what the call answered */
    uint64_t item;   /* the place of the item in its array, counted from 0, or LW_LINE_TOO_LONG to LW_LINE_UNCLOSED of
                        LW_SCRIPT; 0 where the refusal names none */
    uint64_t value;  /* the other number of the refusal, as told above; 0 where it has none */
} lw_fault;

/* How much room the text of each refusal has in a buffer, with the zero at its end. */
#define LW_FAULT_TEXT_SIZE 66

/* Writes what a refusal says, as "14 DeviceFull item 0 need 32", with a zero at its end, and returns the buffer. A
   buffer that is too short gets as much as there is room for. Where len is not NULL it gets the text's length, without
   the zero. The text is the name of the status alone where that is no refusal's, or there is no memory. */
const char *lw_fault_text(const lw_fault *told, char *buffer, size_t size, uint64_t *len);

/* ---- Tables ---- */

/* A handle of a table. What stands in it is the library's. */
typedef struct lw_table {
    void *at;
    uint64_t arrays;
} lw_table;

/* A handle that has no table. */
#define LW_NO_TABLE {0, 0}

/* Where host memory begins, where the memory of device 0 begins, and that of each device. */
#define LW_HOST_BASE UINT64_C(0x1000)
#define LW_DEVICE_BASE UINT64_C(0x100000000)
#define LW_DEVICE_BASE_OF(device) (((uint64_t)(device) + 1) * LW_DEVICE_BASE)

/* The limits of a table. They begin as LW_LIMITS, and a limit that is 0 then is as it is by default.

   Two of them end what a table does. Behind trace_cap stored events each call is LW_TRACE_FULL until lw_rebase makes
   room. Behind tickets events in all each call is LW_NO_TICKETS for good: by default that is 34 years of a thousand
   events a second. */
typedef struct lw_limits {
    uint32_t size;        /* how many bytes these limits have in the program's header */
    uint32_t version;     /* LW_VERSION of that header */
    uint64_t host;        /* the size of host memory in bytes: a multiple of 16 up to 67,108,864; by default 65,536 */
    uint64_t device;      /* the size of each device's memory, as that of the host */
    uint64_t regions;     /* how many data regions may be open at a time: up to 65,536; by default 64 */
    uint64_t tickets;     /* how many events there may be in all: up to 2^40; by default 2^40 */
    uint64_t counter_max; /* the greatest value of a counter: up to 4,294,967,295, as by default */
    uint64_t queue_cap;   /* how many transfers may wait in one queue: up to 4,096; by default 256 */
    uint64_t trace_cap;   /* how many events the stored trace may have: up to 16,777,216; by default 262,144 */
    uint64_t full;        /* 1 where the trace stores the bytes that calls bring, too; else 0 */
    uint64_t devices;     /* how many devices there are: up to 4; by default 1 */
} lw_limits;

/* How limits begin. A library with further limits takes the limits of this header, too. */
#define LW_LIMITS {sizeof(lw_limits), LW_VERSION, 0, 0, 0, 0, 0, 0, 0, 0, 0}

/* Puts a new table into a handle: nothing is mapped, no region is open, and host memory is zero. All limits are as by
   default where limits is NULL. What the handle had is ended. LW_BAD_VERSION, LW_BAD_CONFIG or LW_MEMORY, and the
   handle stays as it is. */
uint32_t lw_table_new(lw_table *table, const lw_limits *limits, lw_fault *fault);

/* Begins a table anew, with the limits that it has, as lw_table_new does. What it had is ended, with its leases.
   Numbers begin anew, so one of before may be another region's or lease's; lw_array begins at LW_HOST_BASE again. For a
   moment there is memory for both. LW_ENDED or LW_MEMORY, and the handle stays as it is. */
uint32_t lw_table_reset(lw_table *table, lw_fault *fault);

/* Ends a table with its leases, and gives back all of its memory. A handle without a table stays so. */
void lw_table_end(lw_table *table);

/* Puts a copy of a table into another handle. It has the limits, all memories, all that is on record and the stored
   trace, and lw_array goes on as there. What that handle had is ended, with its leases. Then each table goes its own
   way, with the same next numbers of regions and leases. It is no event. LW_ENDED where there is no table to copy.
   LW_LENT where leases of it are out, since none can be had twice; value: the block of the one of least number. Else
   LW_MEMORY. In these three cases the other handle stays as it is. */
uint32_t lw_table_copy(lw_table *from, lw_table *to, lw_fault *fault);

/* same: 1 where two tables have the same limits, the same bytes in all memories, and the same on record; else 0. That
   is blocks, mapped ranges with their counters, attached pointers, open regions, copies that wait, loans, and the
   numbers that come next. Their traces may differ, and so may the bytes of leases and what lw_array handed out. For a
   moment it takes memory for a copy of both. LW_ENDED where one of the two handles has no table, or LW_MEMORY. It is no
   event. */
uint32_t lw_table_same(lw_table *one, lw_table *other, uint64_t *same, lw_fault *fault);

/* Folds all events into a base, so that there is room in the trace again. Tickets do not come back. It is no event.
   folded: how many there were. */
uint32_t lw_rebase(lw_table *table, uint64_t *folded, lw_fault *fault);

/* Hands out the host addresses of an array of so many bytes: the first at LW_HOST_BASE, each other at the least
   multiple of 16 behind the one before it, as the arrays of a script. LW_OUT_OF_HOST where it does not end in host
   memory. No address comes back before the table ends or begins anew. It is no
   event. */
uint32_t lw_array(lw_table *table, uint64_t len, uint64_t *start, lw_fault *fault);

/* ---- Items of data clauses (OpenACC 3.3, sections 2.6 and 2.7) ---- */

/* The clauses, and the directives that have them. */
enum {
    LW_COPY = 1,         /* copy: of data */
    LW_COPYIN = 2,       /* copyin: of data, and of enter data */
    LW_COPYOUT = 3,      /* copyout: of data, and of exit data */
    LW_COPYOUT_ZERO = 4, /* copyout(zero:): of data */
    LW_CREATE = 5,       /* create: of data, and of enter data */
    LW_CREATE_ZERO = 6,  /* create(zero:): of data, and of enter data */
    LW_NO_CREATE = 7,    /* no_create: of data */
    LW_PRESENT = 8,      /* present: of data */
    LW_ATTACH = 9,       /* attach: of data, and of enter data */
    LW_DELETE = 10,      /* delete: of exit data */
    LW_DETACH = 11,      /* detach: of exit data */
    LW_SELF = 12,        /* self, which is also written host: of update */
    LW_DEVICE = 13       /* device: of update */
};

/* One item of a data clause. */
typedef struct lw_item {
    uint32_t clause;  /* the clause in which it stands */
    uint64_t start;   /* the first host address of its section; of attach and detach, the address of the pointer */
    uint64_t len;     /* the length of its section in bytes; of attach and detach it is not read */
    uint64_t pointer; /* the host address of the pointer to the section's data, which is attached on entry and detached
                         on exit (section 2.6.8); 0 for none */
} lw_item;

/* The argument of an async clause (section 2.16), in a type of its own, so that no other number stands in its place. */
typedef struct lw_async {
    int64_t number;
} lw_async;

/* async(number): the copies wait in the queue of that number, from 0 to 15. */
static inline lw_async lw_queue(int64_t number)
{
    lw_async async;

    async.number = number;
    return async;
}

/* No async clause, as acc_async_sync: the copies are made at once. And one without an argument, as acc_async_noval:
   they wait in queue 0. */
#define LW_ASYNC_SYNC lw_queue(-2)
#define LW_ASYNC_NOVAL lw_queue(-1)

/* In place of a queue: of lw_wait all queues, and of a stored event also none. */
#define LW_NO_QUEUE_GIVEN UINT64_MAX

/* ---- Directives ---- */

/* Each is on a device, whose number is from 0 on: LW_NO_DEVICE where the table has none of that number.

   Items act in their order. LW_BAD_CLAUSE tells the first one whose clause is none of the directive's. LW_LENT where a
   block is lent whose counter an item takes down, whose bytes it copies at once, or in which it attaches or detaches a
   pointer. */

/* The start of a data construct (section 2.6.5). region: the number by which lw_exit exits from it. */
uint32_t lw_enter(lw_table *table, uint64_t device, const lw_item *items, size_t count, uint64_t *region,
                  lw_fault *fault);

/* The end of a data construct (section 2.6.5). LW_LENT where a block is lent whose counter it takes down, or in which
   it detaches a pointer. */
uint32_t lw_exit(lw_table *table, uint64_t region, lw_fault *fault);

/* enter data (section 2.6.6). */
uint32_t lw_enter_data(lw_table *table, uint64_t device, const lw_item *items, size_t count, lw_async async,
                       lw_fault *fault);

/* exit data (section 2.6.6), without the finalize clause where that is 0, and else with it. */
uint32_t lw_exit_data(lw_table *table, uint64_t device, const lw_item *items, size_t count, uint32_t finalize,
                      lw_async async, lw_fault *fault);

/* update, without the if_present clause where that is 0, and else with it. */
uint32_t lw_update(lw_table *table, uint64_t device, const lw_item *items, size_t count, uint32_t if_present,
                   lw_async async, lw_fault *fault);

/* wait: all copies of a queue of the device are made, or those of all its queues. made: how many they were. LW_LENT
   where the block of one of them is lent. */
uint32_t lw_wait(lw_table *table, uint64_t device, uint64_t queue, uint64_t *made, lw_fault *fault);

/* The device makes the next copy of a queue. made: 1, or 0 where the queue was empty, which is no event. Where there is
   no ticket or no room in the trace, the step of an empty queue is refused too. LW_LENT where the copy's block is
   lent. */
uint32_t lw_step(lw_table *table, uint64_t device, uint64_t queue, uint64_t *made, lw_fault *fault);

/* ---- The bytes of the memories ---- */

/* The host writes bytes into its memory. The device's bytes stay. LW_OUT_OF_HOST where some byte is not there. */
uint32_t lw_host_write(lw_table *table, uint64_t start, const void *bytes, size_t len, lw_fault *fault);

/* Copies bytes of host memory. LW_OUT_OF_HOST where some byte is not there. It is no event. */
uint32_t lw_host_read(lw_table *table, uint64_t start, void *bytes, size_t len, lw_fault *fault);

/* Copies the bytes that a device has of host addresses. LW_ABSENT where these are not in one mapped range, or their
   block is lent; always where len is 0. It is no event. */
uint32_t lw_device_read(lw_table *table, uint64_t device, uint64_t start, void *bytes, size_t len, lw_fault *fault);

/* ---- Kernels: a loan of the device's bytes (section 2.5, compute constructs) ---- */

/* Lends the device's bytes of a section, which lies in one mapped range, in an open data region; the device is the
   region's. Where enter data alone has mapped it, lw_enter of the section as LW_PRESENT makes the region. lease: the
   number of the lease. Until lw_gather spends it, the calls of leases below alone reach these bytes. The whole block is
   lent: LW_LENT where it is already. */
uint32_t lw_lend(lw_table *table, uint64_t region, uint64_t start, uint64_t len, uint64_t *lease, lw_fault *fault);

/* Copies the bytes of a lease. LW_BAD_LENGTH where len is not the length of its section; LW_NO_LEASE is told before
   that. It is no event. */
uint32_t lw_lease_read(lw_table *table, uint64_t lease, void *bytes, size_t len, lw_fault *fault);

/* Writes the bytes of a lease, as the kernel leaves them. LW_BAD_LENGTH as above. It is no event. */
uint32_t lw_lease_write(lw_table *table, uint64_t lease, const void *bytes, size_t len, lw_fault *fault);

/* Where the bytes of a lease lie, and how many they are, so that a kernel reads and writes them there, and none is
   copied. LW_NO_LEASE where no lease of that number is out. The address may have any alignment. They do not move until
   lw_gather spends the lease: neither lw_rebase nor a refused lw_gather moves them. Then the address is nobody's, and
   so it is once the table has ended or begun anew. They are the caller's between calls: while any thread is in a call
   on the table no other one reads or writes them. It is no event. */
uint32_t lw_lease_bytes(lw_table *table, uint64_t lease, void **bytes, uint64_t *len, lw_fault *fault);

/* Brings a lease back: the device has its bytes again, as they were last written. A lease that is refused stays.
   LW_NO_LEASE is told before all else. */
uint32_t lw_gather(lw_table *table, uint64_t lease, lw_fault *fault);

/* ---- Queries ---- */

/* They answer LW_DONE, LW_ENDED, or LW_ABSENT where there is nothing to find. An answer is written only if it is
   LW_DONE. On a device that is not there nothing is mapped or waits. */

/* The two reference counters of a mapped range (section 2.6.7). */
typedef struct lw_counters_of {
    uint64_t structured; /* how often open data regions hold it */
    uint64_t dynamic;    /* how often enter data does */
} lw_counters_of;

/* A mapped range. */
typedef struct lw_mapped_range {
    uint64_t start;      /* its first host address */
    uint64_t len;        /* its length in bytes */
    uint64_t place;      /* the device address of its first byte */
    uint64_t structured; /* its structured reference counter */
    uint64_t dynamic;    /* its dynamic reference counter */
    uint64_t lent;       /* 1 while its block is lent, else 0 */
} lw_mapped_range;

/* present: 1 where the section is not empty and in one mapped range, else 0 (acc_is_present). */
uint32_t lw_is_present(lw_table *table, uint64_t device, uint64_t start, uint64_t len, uint64_t *present);

/* place: the device address of a host address (acc_deviceptr). LW_ABSENT where it is not mapped. */
uint32_t lw_device_address(lw_table *table, uint64_t device, uint64_t address, uint64_t *place);

/* The counters of the mapped range that a section is inside. LW_ABSENT where it is inside none. */
uint32_t lw_counters(lw_table *table, uint64_t device, uint64_t start, uint64_t len, lw_counters_of *counters);

/* count: how often a pointer is attached on the device (section 2.6.8). */
uint32_t lw_attachment(lw_table *table, uint64_t device, uint64_t pointer, uint64_t *count);

/* An attached pointer. */
typedef struct lw_attached_pointer {
    uint64_t pointer; /* its host address */
    uint64_t count;   /* how often it is attached */
    uint64_t block;   /* the number of the block that has its copy */
} lw_attached_pointer;

/* The attached pointer of least host address that begins in a section inside one mapped range. LW_ABSENT where there is
   none. */
uint32_t lw_attached(lw_table *table, uint64_t device, uint64_t start, uint64_t len, lw_attached_pointer *attached);

/* The mapped range of least start at or above a host address. LW_ABSENT where there is none. */
uint32_t lw_mapped(lw_table *table, uint64_t device, uint64_t from, lw_mapped_range *mapped);

/* The mapped range that a host address is in. LW_ABSENT where it is in none. */
uint32_t lw_range_at(lw_table *table, uint64_t device, uint64_t address, lw_mapped_range *mapped);

/* len: how many copies wait in a queue; 0 where there is no such queue. */
uint32_t lw_queue_len(lw_table *table, uint64_t device, uint64_t queue, uint64_t *len);

/* A copy that waits in a queue (section 2.16). */
typedef struct lw_waiting_copy {
    uint64_t block;  /* the number of the block */
    uint64_t offset; /* how far behind the block's first byte its bytes begin */
    uint64_t start;  /* the first host address of its section */
    uint64_t len;    /* how many bytes it copies */
    uint64_t way;    /* LW_IN to the device, or LW_OUT to the host */
} lw_waiting_copy;

/* A copy of a queue, counted from 0 for the one that is made next. LW_ABSENT where not as many wait in it. */
uint32_t lw_transfer(lw_table *table, uint64_t device, uint64_t queue, uint64_t place, lw_waiting_copy *copy);

/* A block whose mapping has ended, and which copies that wait keep (section 2.16). */
typedef struct lw_ended_mapping {
    uint64_t place; /* the device address of its first byte */
    uint64_t size;  /* how many bytes of device memory it takes */
    uint64_t pins;  /* how many copies that wait name it */
} lw_ended_mapping;

/* Such a block, that of least place at or above a device address. LW_ABSENT where there is none. */
uint32_t lw_ended_block(lw_table *table, uint64_t device, uint64_t from, lw_ended_mapping *ended);

/* Addresses of a device side by side that no block takes, as many as there are. */
typedef struct lw_free_range {
    uint64_t place; /* the device address of the first one */
    uint64_t size;  /* how many bytes they have */
} lw_free_range;

/* Such addresses, those of least place at or above a device address. LW_ABSENT where there are none. */
uint32_t lw_hole(lw_table *table, uint64_t device, uint64_t from, lw_free_range *hole);

/* A lease that is out. */
typedef struct lw_lent_lease {
    uint64_t lease;  /* its number */
    uint64_t device; /* the number of the device */
    uint64_t block;  /* the number of the block */
    uint64_t offset; /* the place in the block of the first byte that is lent */
    uint64_t len;    /* how many bytes are lent */
} lw_lent_lease;

/* Such a lease, that of least number at or above a number. LW_ABSENT where there is none. */
uint32_t lw_lease(lw_table *table, uint64_t from, lw_lent_lease *lent);

/* used: how many bytes of the device's memory all its blocks take. */
uint32_t lw_used(lw_table *table, uint64_t device, uint64_t *used);

/* regions: how many data regions are open, on all devices. */
uint32_t lw_regions(lw_table *table, uint64_t *regions);

/* region: the number of the open data region that was entered last, on whichever device. LW_ABSENT where none is
   open. */
uint32_t lw_innermost(lw_table *table, uint64_t *region);

/* What an item of an open data region holds: lw_exit undoes that and nothing else (sections 2.6.5, 2.6.7). */
typedef struct lw_held_item {
    lw_item item;     /* the item, as lw_enter named it */
    uint64_t block;   /* the number of the block whose structured counter it raised; 0 for none */
    uint64_t pointer; /* the host address of the pointer that it attached; 0 for none */
    uint64_t holder;  /* the number of the block that has the copy of that pointer; 0 for none */
} lw_held_item;

/* What an item of an open region holds, counted from 0 in the order in which lw_enter had the items. LW_ABSENT where no
   region of that number is open, or it has no such item. */
uint32_t lw_held(lw_table *table, uint64_t region, uint64_t item, lw_held_item *held);

/* The limits of a table: one that was 0 when the table began is told as it is by default. Limits begin as LW_LIMITS
   here too, and those are written which the program's header has. LW_BAD_VERSION, as of lw_table_new, is told before
   all else. */
uint32_t lw_limits_of(lw_table *table, lw_limits *limits);

/* What is left of two limits of a table. */
typedef struct lw_left_over {
    uint64_t tickets; /* how many more events there may be */
    uint64_t regions; /* how many more data regions may be open */
} lw_left_over;

/* left: how many more events and open data regions there may be, on all devices. */
uint32_t lw_left(lw_table *table, lw_left_over *left);

/* events: how many events there were in all. Each accepted directive, write, loan and gather is one, but for the step
   of an empty queue. */
uint32_t lw_events(lw_table *table, uint64_t *events);

/* What an item of a directive did to mappings, counters and bytes. */
enum {
    LW_COUNTED = 1,      /* a reference counter of a mapped range rose by one */
    LW_BORN = 2,         /* its section was mapped to a new block, with a counter of one */
    LW_DROPPED = 3,      /* a reference counter fell by one or was set to zero, and its range stays mapped */
    LW_ENDED_RANGE = 4,  /* the same, and both counters are zero now: the range is mapped no more */
    LW_MOVED = 5         /* an update copied its section, or put the copy into a queue */
};

/* What an item did to the pointer to its data (section 2.6.8). */
enum {
    LW_AIMED = 1,        /* it was aimed at another target: its attachment counter is one */
    LW_AIMED_AGAIN = 2,  /* it was aimed at the same target: its counter rose by one */
    LW_DETACHED = 3,     /* its counter fell by one; at zero it has the host's value again */
    LW_CLEARED = 4       /* it was detached at once: its counter is zero */
};

/* Which way an item copied its section, or put the copy into a queue. */
enum {
    LW_IN = 1,           /* to the device */
    LW_OUT = 2           /* to the host */
};

/* What one item did. All numbers that do not apply are 0. */
typedef struct lw_item_did {
    uint32_t step;    /* LW_COUNTED to LW_MOVED, or 0 where the item took no action */
    uint32_t aim;     /* LW_AIMED to LW_CLEARED, or 0 where no pointer was attached or detached */
    uint32_t way;     /* LW_IN, LW_OUT, or 0 where nothing is copied. The items of lw_exit, and the copy of lw_step,
                         have 0 in any case: what they copy is told of the items that asked for it */
    uint32_t back;    /* of lw_enter: 1 where lw_exit copies the section to the host, if that is LW_ENDED_RANGE */
    uint64_t len;     /* how many bytes are copied this way, if way is not 0 */
    uint64_t block;   /* the number of the block whose counter, mapping or bytes it was; from 1 on */
    uint64_t place;   /* of LW_BORN: the device address of the block's first byte */
    uint64_t pointer; /* the host address of the pointer */
    uint64_t holder;  /* the number of the block that has the pointer's copy */
    uint64_t target;  /* of LW_AIMED: the device address that the copy holds now */
    uint64_t times;   /* how often the pointer is attached behind the event, if aim is not 0 */
} lw_item_did;

/* What an item of the last event did, counted from 0 in the order in which the items were written; of lw_exit, in that
   of the entry. The copy of lw_step is one item, LW_MOVED. LW_ABSENT where the last event has no such item, and behind
   lw_rebase. lw_range_at tells its range and both counters. */
uint32_t lw_did(lw_table *table, uint64_t item, lw_item_did *did);

/* The same of the items from 0 on, as many as the array has elements. An element without an item stays as it was. */
uint32_t lw_dids(lw_table *table, lw_item_did *dids, size_t count);

/* ---- The stored trace ---- */

/* These calls answer as the queries do. lw_event_bytes fills in a fault, too. */

/* What an event is: the call that it came of. */
enum {
    LW_ENTERED = 1,      /* lw_enter */
    LW_EXITED = 2,       /* lw_exit */
    LW_ENTERED_DATA = 3, /* lw_enter_data */
    LW_EXITED_DATA = 4,  /* lw_exit_data */
    LW_UPDATED = 5,      /* lw_update */
    LW_WAITED = 6,       /* lw_wait */
    LW_STEPPED = 7,      /* lw_step */
    LW_WRITTEN = 8,      /* lw_host_write */
    LW_LENT_BLOCK = 9,   /* lw_lend */
    LW_GATHERED = 10     /* lw_gather */
};

/* An event of the stored trace. All numbers that do not apply are 0, but the queue. */
typedef struct lw_stored_event {
    uint32_t kind;   /* LW_ENTERED to LW_GATHERED */
    uint32_t option; /* 1 with the finalize or the if_present clause, else 0 */
    uint64_t device; /* the number of the device */
    uint64_t queue;  /* the queue; LW_NO_QUEUE_GIVEN where it has none, and of a wait for all queues. As an async clause
                        none is LW_ASYNC_SYNC */
    uint64_t region; /* of LW_ENTERED, LW_EXITED and LW_LENT_BLOCK: the number of the region */
    uint64_t lease;  /* of LW_LENT_BLOCK and LW_GATHERED: the number of the lease */
    uint64_t block;  /* of LW_STEPPED, LW_LENT_BLOCK and LW_GATHERED: the number of the block */
    uint64_t start;  /* of LW_WRITTEN and LW_LENT_BLOCK: the first host address */
    uint64_t len;    /* of these: how many bytes */
    uint64_t count;  /* how many items its call named; of LW_EXITED those of the entry; of LW_STEPPED 0; of LW_WAITED:
                        how many copies it made */
    uint64_t stored; /* of LW_WRITTEN and LW_GATHERED: how many bytes the trace has of it */
} lw_stored_event;

/* An event of the stored trace, counted from 0: the first since the table began, or since lw_rebase. LW_ABSENT where
   there are no so many. */
uint32_t lw_event(lw_table *table, uint64_t place, lw_stored_event *event);

/* An item as the call of an event named it, counted from 0; its pointer is 0 for none. LW_ABSENT where there is no such
   event, or no such item of it. LW_EXITED names none: its items are those of the LW_ENTERED of its region, which
   lw_rebase may have folded. */
uint32_t lw_event_item(lw_table *table, uint64_t place, uint64_t item, lw_item *named);

/* Copies the bytes that the trace has of an event, as many as lw_event tells in stored. With full traces they are those
   that lw_host_write wrote, or with which the section of a lease came back; else there are none. LW_ABSENT where there
   is no such event; then LW_BAD_LENGTH where len is not how many they are. */
uint32_t lw_event_bytes(lw_table *table, uint64_t place, void *bytes, size_t len, lw_fault *fault);

/* ---- Directives and writes by their events ---- */

/* Judges a directive, and does not carry it out: the status and the fault are those of its call, were that made now.
   Only a list of more than one item takes memory here, so LW_MEMORY of a table is not foretold. It is no event.

   asked: the directive, as lw_event tells one that was carried out. Its kind is LW_ENTERED to LW_STEPPED; LW_ABSENT
   where no directive is of the kind. Of LW_EXITED the region is read. Of the others it is the device, the queue and the
   option. The queue is LW_NO_QUEUE_GIVEN for LW_ASYNC_SYNC, and 0 for LW_ASYNC_NOVAL. items: those of its call; of
   LW_EXITED, LW_WAITED and LW_STEPPED they are not read. */
uint32_t lw_judge(lw_table *table, const lw_stored_event *asked, const lw_item *items, size_t count, lw_fault *fault);

/* Carries out a directive, as its call does. asked and items: as of lw_judge. number: of LW_ENTERED the number of the
   region; of LW_WAITED and LW_STEPPED how many copies were made; of the others 1. */
uint32_t lw_do(lw_table *table, const lw_stored_event *asked, const lw_item *items, size_t count, uint64_t *number,
               lw_fault *fault);

/* Makes what events tell, one after the other, and stops at the first that is refused. The status and the fault are
   that one's; LW_DONE where all are made. done: how many were made, in any case. These stay.

   So the directives and writes that lw_event tells of one table are run on another one. What a kernel does is no event
   that could be made again: LW_LENT_BLOCK and LW_GATHERED are LW_ABSENT. Regions get the numbers of this table. They
   are the same where the events of a new table are run on a new table.

   asked: directives, as of lw_do, and writes. Of LW_WRITTEN the start and the length are read. Another kind is
   LW_ABSENT. items: those of all directives, one after the other. count tells how many LW_ENTERED, LW_ENTERED_DATA,
   LW_EXITED_DATA and LW_UPDATED have; others have none there. bytes: those of all writes, one after the other, each as
   many as its event's len says. Traces that are not full have none. */
uint32_t lw_run(lw_table *table, const lw_stored_event *asked, size_t count, const lw_item *items, const void *bytes,
                uint64_t *done, lw_fault *fault);

/* ---- The report ---- */

/* Writes the report of a table, the text that accrun prints (docs/SCRIPTS.md), into a buffer, with a zero at its end.
   len: the text's length, without the zero, also where it is LW_BAD_LENGTH, since the buffer is too short: then nothing
   else is written, and fault->value is the size that is wanted. len may be NULL. */
uint32_t lw_report(lw_table *table, char *buffer, size_t size, uint64_t *len, lw_fault *fault);

/* ---- Scripts ---- */

/* Runs a script on a new table of these limits, as accrun does (docs/SCRIPTS.md). What it prints is written into a
   buffer, with a zero at its end. The table has ended then. Kernels run in this thread. All limits are as by default
   where limits is NULL. The script needs no zero behind its length.

   It is LW_DONE where it runs to its end, also where lines were refused: these print so. It is LW_SCRIPT at the first
   line that is at fault. The buffer has what the lines before it print.

   len: the text's length without the zero, of both; it may be NULL. Where the buffer is too short it is LW_BAD_LENGTH.
   Then len is told, nothing else is written, and fault->value is the size that is wanted. Run again, the script prints
   the same. Else it is LW_BAD_VERSION, LW_BAD_CONFIG or LW_MEMORY, and nothing but the fault is written. */
uint32_t lw_script(const lw_limits *limits, const char *script, size_t length, char *buffer, size_t size,
                   uint64_t *len, lw_fault *fault);

/* ---- Tables for several threads ---- */

/* A table with a lock. A thread takes the lock, makes calls on the table, and leaves. A kernel runs meanwhile without
   the lock, on bytes that its lease has had read. */
typedef struct lw_shared lw_shared;

/* A new table as of lw_table_new, with a lock that no thread has. */
uint32_t lw_shared_new(lw_shared **shared, const lw_limits *limits, lw_fault *fault);

/* Ends the table. No thread uses it then; it may be NULL. */
void lw_shared_end(lw_shared *shared);

/* Waits until no other thread has the lock, takes it, and returns the table. NULL where this thread has it already. The
   table is this thread's until lw_shared_leave or lw_shared_wait; it is not ended by lw_table_end, begun anew by
   lw_table_new or lw_table_reset, nor replaced by lw_table_copy. */
lw_table *lw_shared_take(lw_shared *shared);

/* Leaves the table to the others. */
void lw_shared_leave(lw_shared *shared);

/* Leaves it to them, and takes it again behind an event of another thread; or for no reason. So a call that is LW_LENT
   or LW_QUEUE_FULL is made again, when there may be what it waits for. */
void lw_shared_wait(lw_shared *shared);

#ifdef __cplusplus
}
#endif

#endif
