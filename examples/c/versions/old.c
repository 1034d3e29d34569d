/* A program that was compiled with the header of 0.1.0: what it declares stood there. */
#include <stdint.h>
#include <stdio.h>

typedef struct lw_fault {
    uint32_t status;
    uint64_t item;
    uint64_t value;
} lw_fault;

typedef struct lw_table {
    void *at;
} lw_table;

typedef struct lw_limits {
    uint64_t host, device, regions, tickets, counter_max, queue_cap, trace_cap, full;
} lw_limits;

uint32_t lw_version(void);
void lw_limits_default(lw_limits *limits);
uint32_t lw_table_new(lw_table *table, const lw_limits *limits, lw_fault *fault);
uint32_t lw_fault_text(const lw_fault *told, uint8_t *buffer, size_t size, uint64_t *len, lw_fault *fault);

/* What stands before and behind a handle stays as it is. */
static struct {
    uint64_t before;
    lw_table table;
    uint64_t behind;
} kept = {77, {0}, 88};

static void begin(const char *how, const lw_limits *limits)
{
    uint8_t text[65];
    uint64_t len = 0;
    lw_fault fault = {0, 0, 0}, other;

    if (lw_table_new(&kept.table, limits, &fault) != 0) {
        lw_fault_text(&fault, text, sizeof text, &len, &other);
        printf("%s: refused %.*s\n", how, (int)len, (const char *)text);
    }
    if (kept.before != 77 || kept.table.at != NULL || kept.behind != 88) {
        printf("%s: something was written\n", how);
    }
}

int main(void)
{
    lw_limits limits = {65536, 65536, 64, 1048576, 4294967295, 256, 262144, 0};

    begin("all limits", &limits);
    lw_limits_default(&limits);
    begin("limits as by default", &limits);
    limits.host = 67108864;
    begin("another limit", &limits);
    printf("compiled with 1000, library %s\n", lw_version() == 1000 ? "the same" : "another");
    return 0;
}
