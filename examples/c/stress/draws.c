/* Random numbers, and what a script names: the same on every machine. */
#include "stress.h"
#include <inttypes.h>

/* The greatest number that a script can write. */
#define NUMBER_MAX UINT64_C(4294967295)

/* xorshift64* */
uint64_t draw(run *run, uint64_t below)
{
    run->state ^= run->state >> 12;
    run->state ^= run->state << 25;
    run->state ^= run->state >> 27;
    return (run->state * UINT64_C(2685821657736338717) >> 32) % below;
}

bool is_drawn(run *run, uint64_t cases)
{
    return draw(run, cases) == 0;
}

static uint32_t draw_array(run *run)
{
    return (uint32_t)draw(run, run->profile->arrays);
}

/* The name of an array. */
static char name_of(uint32_t array)
{
    return (char)('a' + array);
}

static place place_at(const run *run, uint32_t array, uint64_t offset)
{
    place place = {.address = run->arrays[array].start + offset};

    snprintf(place.name, sizeof place.name, "%c[%" PRIu64 "]", name_of(array), offset);
    return place;
}

place draw_byte(run *run)
{
    uint32_t array = draw_array(run);

    return place_at(run, array, draw(run, run->arrays[array].len + 8));
}

place draw_pointer(run *run, manner manner)
{
    uint32_t array = draw_array(run);
    uint64_t offset = 8 * draw(run, run->arrays[array].len / 8 + 1);

    switch (manner == WILD ? draw(run, 10) : 9) {
    case 0:
        return place_at(run, array, offset + 1 + draw(run, 7));
    case 1:
        return place_at(run, array, run->profile->host + offset);
    case 2:
        return place_at(run, array, NUMBER_MAX - 7);
    default:
        return place_at(run, array, offset);
    }
}

static section part_of(const run *run, uint32_t array, uint64_t from, uint64_t len)
{
    section part = {.start = run->arrays[array].start + from, .len = len};

    snprintf(part.name, sizeof part.name, "%c[%" PRIu64 ":%" PRIu64 "]", name_of(array), from, len);
    return part;
}

static section whole_of(const run *run, uint32_t array)
{
    section whole = {.start = run->arrays[array].start, .len = run->arrays[array].len};

    snprintf(whole.name, sizeof whole.name, "%c", name_of(array));
    return whole;
}

/* The next mapped range from some address on, or a part of it. Its name counts from the first array, where host memory
   begins. */
static section mapped_of(run *run, uint32_t array)
{
    lw_mapped_range range;
    uint64_t from = 0;
    uint64_t len;

    if (lw_mapped(&run->table, run->device, run->arrays[array].start, &range) != LW_DONE &&
        lw_mapped(&run->table, run->device, 0, &range) != LW_DONE) {
        return whole_of(run, array);
    }
    len = range.len;
    if (is_drawn(run, 3)) {
        from = draw(run, len);
        len = 1 + draw(run, len - from);
    }
    return part_of(run, 0, range.start - LW_HOST_BASE + from, len);
}

/* Anything. What lies outside of host memory is as long as this. */
static section wild_of(run *run, uint32_t array, uint64_t far)
{
    uint64_t len = run->arrays[array].len;
    uint64_t from = draw(run, len);

    switch (draw(run, 8)) {
    case 0: /* out of this array, and maybe into the next ones */
        return part_of(run, array, from, len + draw(run, 2 * (uint64_t)run->profile->longest));
    case 1:
        return part_of(run, array, from, 0);
    case 2:
        return part_of(run, array, from, far);
    case 3:
        return part_of(run, array, run->profile->host + from, draw(run, 2));
    case 4:
    case 5:
        return part_of(run, array, from, 1 + draw(run, len - from));
    default:
        return whole_of(run, array);
    }
}

static section draw_as_far(run *run, manner manner, uint64_t far)
{
    uint32_t array = draw_array(run);

    switch (manner) {
    case WHOLE:
        return whole_of(run, array);
    case MAPPED:
        return mapped_of(run, array);
    default:
        return wild_of(run, array, far);
    }
}

section draw_section(run *run, manner manner)
{
    return draw_as_far(run, manner, is_drawn(run, 2) ? NUMBER_MAX : run->profile->host);
}

section draw_readable(run *run)
{
    return draw_as_far(run, draw_manner(run, is_drawn(run, 2) ? WHOLE : MAPPED), run->profile->host);
}

manner draw_manner(run *run, manner manner)
{
    return is_drawn(run, run->profile->wild) ? WILD : manner;
}
