/*
 * The proved calls behind those of lamwiest.h, as crates/lamwiest_c exports them. No pointer of these may be NULL, but
 * one to an array of length 0. Those calls of lamwiest.h that are not here are exported as they stand there.
 */
#ifndef PROVED_H
#define PROVED_H

#include "lamwiest.h"

/* The limits as the library has them, without what they begin with in a program. */
typedef struct limit_fields {
    uint64_t host;
    uint64_t device;
    uint64_t regions;
    uint64_t tickets;
    uint64_t counter_max;
    uint64_t queue_cap;
    uint64_t trace_cap;
    uint64_t full;
    uint64_t devices;
} limit_fields;

uint32_t lamwiest_table_new(lw_table *table, const limit_fields *limits, lw_fault *fault);
uint32_t lamwiest_table_copy(lw_table *from, lw_table *to, lw_fault *fault);
uint32_t lamwiest_table_same(lw_table *one, lw_table *other, uint64_t *same, lw_fault *fault);
uint32_t lamwiest_limits_of(lw_table *table, limit_fields *limits);
uint32_t lamwiest_rebase(lw_table *table, uint64_t *folded, lw_fault *fault);
uint32_t lamwiest_array(lw_table *table, uint64_t used, uint64_t len, uint64_t *start, lw_fault *fault);

/* The number of an async clause stands for itself, as a queue's, in 64 bits without a sign. */
uint32_t lamwiest_enter(lw_table *table, uint64_t device, const lw_item *items, size_t count, uint64_t *region,
                        lw_fault *fault);
uint32_t lamwiest_exit(lw_table *table, uint64_t region, lw_fault *fault);
uint32_t lamwiest_enter_data(lw_table *table, uint64_t device, const lw_item *items, size_t count, uint64_t async,
                             lw_fault *fault);
uint32_t lamwiest_exit_data(lw_table *table, uint64_t device, const lw_item *items, size_t count, uint32_t finalize,
                            uint64_t async, lw_fault *fault);
uint32_t lamwiest_update(lw_table *table, uint64_t device, const lw_item *items, size_t count, uint32_t if_present,
                         uint64_t async, lw_fault *fault);
uint32_t lamwiest_wait(lw_table *table, uint64_t device, uint64_t queue, uint64_t *made, lw_fault *fault);
uint32_t lamwiest_step(lw_table *table, uint64_t device, uint64_t queue, uint64_t *made, lw_fault *fault);

uint32_t lamwiest_judge(lw_table *table, const lw_stored_event *asked, const lw_item *items, size_t count,
                        lw_fault *fault);
uint32_t lamwiest_do(lw_table *table, const lw_stored_event *asked, const lw_item *items, size_t count,
                     uint64_t *number, lw_fault *fault);

uint32_t lamwiest_host_write(lw_table *table, uint64_t start, const uint8_t *bytes, size_t len, lw_fault *fault);
uint32_t lamwiest_host_read(lw_table *table, uint64_t start, uint8_t *bytes, size_t len, lw_fault *fault);
uint32_t lamwiest_device_read(lw_table *table, uint64_t device, uint64_t start, uint8_t *bytes, size_t len,
                              lw_fault *fault);

uint32_t lamwiest_lend(lw_table *table, uint64_t region, uint64_t start, uint64_t len, uint64_t *lease,
                       lw_fault *fault);
uint32_t lamwiest_lease_read(lw_table *table, uint64_t lease, uint8_t *bytes, size_t len, lw_fault *fault);
uint32_t lamwiest_lease_write(lw_table *table, uint64_t lease, const uint8_t *bytes, size_t len, lw_fault *fault);

/* Where the bytes of a lease lie: from a place of its block on. */
typedef struct lease_place {
    uint8_t *block;
    uint64_t offset;
    uint64_t len;
} lease_place;

uint32_t lamwiest_lease_place(lw_table *table, uint64_t lease, lease_place *place, lw_fault *fault);
uint32_t lamwiest_gather(lw_table *table, uint64_t lease, lw_fault *fault);

uint32_t lamwiest_event_bytes(lw_table *table, uint64_t place, uint8_t *bytes, size_t len, lw_fault *fault);

/* Texts have no zero at their end. Where a buffer is too short, fault->value is the length of the text. */
uint32_t lamwiest_report(lw_table *table, uint8_t *buffer, size_t size, uint64_t *len, lw_fault *fault);
uint32_t lamwiest_script(const limit_fields *limits, const uint8_t *script, size_t length, uint8_t *buffer,
                         size_t size, uint64_t *len, lw_fault *fault);
uint32_t lamwiest_fault_text(const lw_fault *told, uint8_t *buffer, size_t size, uint64_t *len, lw_fault *fault);

#endif
