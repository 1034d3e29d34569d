/* What a program leaves behind at its end: mappings, and copies that wait, which nobody makes any more. Each has a line
   on standard error, up to a number of lines. */
#include <inttypes.h>
#include <stdio.h>

#include "inner.h"

enum { MOST = 10 };

/* How many there are of a kind. */
static size_t count;

/* What is left, up to its place: a section, with its bytes where it has a name. */
static void tell(const char *what, const char *which, uintptr_t at, size_t len)
{
    char name[LWA_NAME];

    fflush(stdout);
    fprintf(stderr, "lamwiest: left %s: %s", what, which);
    if (lwa_variable_at(at, len, name)) {
        fprintf(stderr, "%s, %zu bytes at %#" PRIxPTR, name, len, at);
    } else {
        fprintf(stderr, "%#" PRIxPTR ":%zu", at, len);
    }
}

static void tell_place(const char *what, const void *from)
{
    char place[LWA_NAME];

    lwa_place_text(from, place);
    fprintf(stderr, "%s%s\n", place[0] != '\0' ? what : "", place);
}

static void tell_block(lwa_block *block)
{
    if (count++ < MOST) {
        tell("mapped", lwa_is_of_program(block) ? "" : "acc_malloc ", block->at, block->len);
        tell_place(", mapped by ", block->from);
    }
}

static void tell_copy(uint64_t queue, const void *from, uintptr_t at, size_t len, bool out)
{
    if (count++ < MOST) {
        tell("waiting", out ? "copy out of " : "copy in of ", at, len);
        fprintf(stderr, " in queue %" PRIu64, queue);
        tell_place(", put by ", from);
    }
}

static void tell_more(const char *what)
{
    if (count > MOST) {
        fprintf(stderr, "lamwiest: left %s: %zu more\n", what, count - MOST);
    }
    count = 0;
}

void lwa_tell_left(void)
{
    if (!lwa_is_child) {
        lwa_each_block(tell_block);
        tell_more("mapped");
        lwa_each_waiting(tell_copy);
        tell_more("waiting");
    }
}
