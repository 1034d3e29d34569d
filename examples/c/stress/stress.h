/*
 * Random calls of the library, right ones and wrong ones. Each is also said as a statement of a script, where a script
 * can say it, so that what the library answers can be compared with what accrun prints.
 */
#ifndef STRESS_H
#define STRESS_H

#include "lamwiest.h"
#include <stdbool.h>
#include <stdio.h>

/* The limits of accrun and of its scripts (docs/ACCRUN.md), and sizes of this program. */
enum {
    REGIONS_MAX = 64,      /* how many data regions may be open */
    EVENTS_MAX = 262144,   /* how many events the trace may have */
    ITEMS_MAX = 64,        /* how many items a directive may have */
    LINE_MAX_BYTES = 4096, /* how long a line may be */
    QUEUES = 16,
    ITEMS_DRAWN = 70,      /* how many items a directive is given at most */
    ARRAYS_MAX = 8,
    BYTES_MAX = 1 << 17,   /* how long a section may be whose bytes are read */
    REPORT_MAX = 1 << 16,  /* how long a report may be */
    STATUSES = LW_BAD_VERSION + 1
};

/* What is done in one turn. */
typedef enum kind {
    ENTER,
    LEAVE,
    ENTER_DATA,
    EXIT_DATA,
    UPDATE,
    WAIT,
    STEP,
    WRITE,
    POINT,
    KERNEL,
    ASK,
    NOTHING, /* a call with an empty array: NULL, and a length of 0 */
    UNSAID,  /* a call that no script can say */
    TURN,    /* to another device */
    KINDS
} kind;

/* What a run is about: the sizes of its memories, and what it does how often. */
typedef struct profile {
    const char *name;
    uint64_t host;    /* the size of host memory in bytes */
    uint64_t device;  /* the size of each device's memory in bytes */
    uint64_t devices; /* how many devices there are, if not one */
    uint32_t arrays;  /* how many arrays there are in host memory */
    uint32_t longest; /* how many bytes each of them has at most */
    uint32_t items;   /* how many items a directive has, but for a few */
    uint32_t wild;    /* one of so many statements names what it should not */
    uint32_t async;   /* one of so many directives has async */
    uint32_t queues;  /* in one of so many queues, but for a few */
    uint32_t weights[KINDS];
} profile;

/* An array of the script. Its name is the letter of its place in the list. */
typedef struct array {
    uint64_t start;
    uint64_t len;
} array;

/* One run: a table, and the script that says the same. */
typedef struct run {
    const profile *profile;
    uint64_t state; /* of the random numbers */
    lw_table table;
    uint64_t devices;
    uint64_t device; /* that of the calls */
    bool is_full;    /* the trace stores bytes */
    array arrays[ARRAYS_MAX];
    uint64_t regions[REGIONS_MAX]; /* the open regions, the innermost one last */
    uint64_t on[REGIONS_MAX];      /* the device of each */
    uint64_t entered[REGIONS_MAX]; /* how many items each was entered with */
    size_t depth;
    uint64_t left;   /* the region that was exited last, or 0 */
    lw_fault judged; /* what the next directive has to answer */
    bool is_judged;  /* whether it was judged */
    uint64_t spent;  /* the lease that was brought back last, or 0 */
    FILE *script; /* what accrun reads */
    FILE *wanted; /* what it has to print */
    uint64_t line; /* the number of the last line of the script */
    char text[LINE_MAX_BYTES];
    size_t len;                /* how much of the text the line has by now */
    uint64_t said[STATUSES];   /* how often each status was answered to what a script can say */
    uint64_t unsaid[STATUSES]; /* how often to what none can say */
} run;

/* Ends the program: the library answered what it must not. */
_Noreturn void fail(const run *run, const char *what, uint32_t status);

/* ---- draws.c: random numbers, and what a script names ---- */

/* A place in host memory, and its name. */
typedef struct place {
    uint64_t address;
    char name[24];
} place;

/* A section of host memory, and its name. */
typedef struct section {
    uint64_t start;
    uint64_t len;
    char name[40];
} section;

/* How a section or a pointer is chosen. */
typedef enum manner {
    WHOLE,  /* an array; the place of a pointer in one */
    MAPPED, /* a mapped range or a part of it; an array, where nothing is mapped */
    WILD    /* anything: what is partly mapped, not aligned, or outside of host memory */
} manner;

/* A number below another one. */
uint64_t draw(run *run, uint64_t below);

/* True in one of so many cases. */
bool is_drawn(run *run, uint64_t cases);

/* A byte of an array, or one somewhat behind its end. */
place draw_byte(run *run);

/* The place of a pointer. */
place draw_pointer(run *run, manner manner);

/* A section. */
section draw_section(run *run, manner manner);

/* A section of at most BYTES_MAX bytes, in any manner. */
section draw_readable(run *run);

/* This manner, or in some cases WILD. */
manner draw_manner(run *run, manner manner);

/* ---- statements.c: what a script can say ---- */

/* The async clause of a queue, or that of LW_NO_QUEUE_GIVEN. */
lw_async async_of(uint64_t queue);

/* Makes a call of this kind, and says it in the script. */
void say_statement(run *run, kind kind);

/* The exit from the innermost region. */
void say_end_data(run *run);

/* The arrays, with which the script begins. */
void say_arrays(run *run);

/* The report, which is compared with what the queries answer too. */
void say_report(run *run);

/* ---- reports.c ---- */

/* Puts the report of the table into a buffer of REPORT_MAX bytes, as a string, and answers its length. */
size_t report_of(run *run, char *report);

/* Ends the program where the report does not say what the queries answer. */
void check_report(run *run, const char *report, size_t len);

/* ---- events.c ---- */

/* Ends the program where the last stored event is not this one, but for its block, with these items and bytes. */
void want_event(run *run, lw_stored_event wanted, const lw_item *items, const void *bytes);

/* ---- foretold.c ---- */

/* Judges a directive that is made next. */
void judge(run *run, lw_stored_event asked, const lw_item *items, size_t count);

/* Ends the program where the directive that was judged last answers otherwise. */
void want_judged(run *run, const lw_fault *fault);

/* Ends the program where a region that was entered last does not hold what its items did. */
void want_held(run *run, uint64_t region, const lw_item *items, size_t count);

/* ---- unsaid.c: what no script can say ---- */

/* Makes such a call. What it answers is known before, and the report stays as it is. */
void make_unsaid(run *run);

/* Makes those that a lent block has refused: of the section that is lent, and the number of its lease. */
void make_unsaid_of_lent(run *run, const section *lent, uint64_t lease);

#endif
