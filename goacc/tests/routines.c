/* The routines of section 3.2 that no other test names, each with what OpenACC says of it, and the host. */
#include "show.h"

#include <string.h>

static int checks, wrong;

#define CHECK(e) check((e), #e)

static int a[16], b[16], *pointer = b;

static void check(int so, const char *text)
{
    checks++;
    if (!so) {
        wrong++;
        printf("not so: %s\n", text);
    }
}

static void devices(void)
{
    int (*volatile on_device)(acc_device_t) = acc_on_device;

    CHECK(acc_get_num_devices(acc_device_not_host) == 4);
    CHECK(acc_get_num_devices(acc_device_host) == 1);
    CHECK(acc_get_num_devices(acc_device_none) == 0);
    acc_init(acc_device_not_host);
    CHECK(acc_get_device_num(acc_device_not_host) == 0);
    CHECK(acc_get_device_type() == acc_device_not_host);
    CHECK(on_device(acc_device_host) == 1);
    CHECK(on_device(acc_device_not_host) == 0);
    CHECK(acc_get_property(0, acc_device_not_host, acc_property_memory) > 0);
    CHECK(acc_get_property(0, acc_device_not_host, acc_property_free_memory) > 0);
    CHECK(acc_get_property_string(0, acc_device_not_host, acc_property_name) != NULL);
    CHECK(acc_get_property_string(0, acc_device_host, acc_property_vendor) != NULL);
}

static void mappings(void)
{
    void *there = acc_create(a, sizeof a);

    CHECK(there == acc_deviceptr(a) && acc_is_present(a, sizeof a));
    a[7] = 7;
    acc_update_device(a, sizeof a);
    memset(a, 0, sizeof a);
    acc_update_self(a, sizeof a);
    CHECK(a[7] == 7);
    CHECK(acc_present_or_create(a, sizeof a) == there && acc_pcreate(a, sizeof a) == there);
    CHECK(acc_present_or_copyin(a, sizeof a) == there && acc_pcopyin(a + 4, 4) == (char *)there + 16);
    acc_delete(a, sizeof a);
    CHECK(acc_is_present(a, 4));
    acc_copyout(a, sizeof a);
    CHECK(acc_is_present(a, 4));
    a[7] = 100;
    acc_copyout_finalize(a, sizeof a);
    CHECK(!acc_is_present(a, 4) && a[7] == 7);
    acc_copyin(a, sizeof a);
    acc_copyin(a, sizeof a);
    acc_delete_finalize(a, sizeof a);
    CHECK(!acc_is_present(a, 4));
}

/* A copy that waits has the bytes of the time when it is made. */
static void queues(void)
{
    acc_create_async(a, sizeof a, 1);
    acc_copyin_async(a, sizeof a, 1);
    a[7] = 70;
    acc_update_device_async(a, sizeof a, 1);
    a[7] = 71;
    acc_wait(1);
    acc_delete_async(a, sizeof a, 1);
    CHECK(acc_is_present(a, sizeof a));
    a[7] = 0;
    acc_copyout_finalize_async(a, sizeof a, 1);
    CHECK(!acc_is_present(a, sizeof a) && a[7] == 0);
    acc_wait(1);
    CHECK(a[7] == 71);
    acc_copyin(a, sizeof a);
    acc_copyin(a, sizeof a);
    acc_delete_finalize_async(a, sizeof a, 1);
    CHECK(!acc_is_present(a, sizeof a));
}

static void pointers(void)
{
    int got = -1;

    acc_copyin(b, sizeof b);
    acc_copyin(&pointer, sizeof pointer);
    acc_attach_async((void **)&pointer, 2);
    acc_wait(2);
    b[3] = 33;
    acc_update_device(b, sizeof b);
#pragma acc parallel present(pointer) copyout(got)
    got = pointer[3];
    CHECK(got == 33);
    acc_detach_async((void **)&pointer, 2);
    acc_attach((void **)&pointer);
    acc_detach_finalize_async((void **)&pointer, 2);
    acc_wait_all();
    acc_update_self(&pointer, sizeof pointer);
    CHECK(pointer == b);
    acc_delete(&pointer, sizeof pointer);
}

static void copies(void)
{
    int *there = acc_deviceptr(b), x[4] = {1, 2, 3, 4}, y[4] = {0};

    acc_memcpy_to_device_async(there + 2, x, sizeof x, 3);
    acc_memcpy_from_device_async(y, there + 2, sizeof y, 3);
    acc_async_wait(3);
    CHECK(y[3] == 4);
    acc_async_wait_all();
    acc_wait_all_async(4);
    acc_wait_async(3, 4);
    CHECK(acc_async_test_all());
    acc_update_self(b, sizeof b);
    CHECK(b[5] == 4);
    acc_delete(b, sizeof b);
    acc_shutdown(acc_device_not_host);
    CHECK(!acc_is_present(b, 4));
}

static void host(void)
{
    void *memory;

    acc_init(acc_device_host);
    CHECK(acc_get_device_type() == acc_device_host && acc_get_device_num(acc_device_host) == 0);
    CHECK(acc_is_present(b, 4) && acc_copyin(b, 8) == b && acc_deviceptr(b) == b && acc_hostptr(b) == b);
#pragma acc parallel copy(b)
    b[2] = 2;
    CHECK(b[2] == 2);
    memory = acc_malloc(8);
    acc_memcpy_to_device(memory, b, 8);
    acc_memcpy_from_device(b + 4, memory, 8);
    CHECK(memory != NULL && b[4] == b[0]);
    acc_free(memory);
    acc_set_device_type(acc_device_not_host);
    CHECK(!acc_is_present(b, 4));
    acc_set_device_num(0, acc_device_host);
    CHECK(acc_is_present(b, 4));
}

int main(void)
{
    devices();
    mappings();
    queues();
    pointers();
    copies();
    host();
    printf("%d checks, %d not so\n", checks, wrong);
    return 0;
}
