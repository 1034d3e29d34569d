/* A region keeps what was mapped when it began. Where its end ends the mapping it copies that, though acc_unmap_data was
   called in it, and other memory was mapped. */
#include "show.h"

static int tens[4] = {10, 20, 30, 40}, *there;

int main(void)
{
    int b[4] = {1, 2, 3, 4}, c[2] = {5, 6}, *other = acc_malloc(sizeof c);

    there = acc_malloc(sizeof b);
    acc_memcpy_to_device(there, tens, sizeof tens);
    acc_map_data(b, there, sizeof b);
#pragma acc data copy(b)
    {
#pragma acc exit data delete(b) finalize
        acc_unmap_data(b);
        acc_map_data(c, other, sizeof c);
    }
    numbers("host", b, 4);
    printf("present: %d %d\n", acc_is_present(b, sizeof b), acc_is_present(c, sizeof c));
    acc_unmap_data(c);
    acc_free(other);
    return 0;
}
