/* A device for libgomp of GCC 12 whose memory is its own, so that data directives do on it what they do on a discrete
   accelerator. The runtime is libgomp's, with its table, counters and queues. This file gives it memory, and copies
   bytes. Kernels run on the host, with device addresses. README.md says how it is used.

   The functions GOMP_OFFLOAD_* are those that libgomp asks of a plugin; the declarations are those of GCC 12. */
#define _GNU_SOURCE
#include <pthread.h>
#include <stdbool.h>
#include <stddef.h>
#include <stdint.h>
#include <stdio.h>
#include <stdlib.h>
#include <string.h>
#include <sys/mman.h>

/* What libgomp names, in its own words. */
enum { CAN_RUN_HOST_CODE = 1 << 1, CAN_OPENACC = 1 << 3, TYPE_NVIDIA = 5, PROPERTY_IS_TEXT = 0x10000, VERSION = 1 };

struct addr_pair {
    uintptr_t start, end;
};

union goacc_property_value {
    const char *text;
    size_t number;
};

/* ---- Device memory: units of 16 bytes, given out at the least address. A unit that nothing has filled has the byte
   0xa5, and one that was given back 0x5a. */

enum { UNIT = 16, NEW = 0xa5, OLD = 0x5a, FREE = 0, FIRST, MORE };

/* Where the memory begins, if the system has room there. */
#define FIRST_ADDRESS 0x100000000ul

static unsigned char *memory;
static size_t units;
static unsigned char *use; /* of each unit: FREE, or the FIRST or one MORE of a block */
static size_t least_free;
static pthread_mutex_t of_memory = PTHREAD_MUTEX_INITIALIZER;
static bool is_eager, has_totals;
static size_t births, ends, copies_in, copies_out, units_used;

static bool make_memory(void)
{
    const char *bytes = getenv("DEVICE_MEMORY");
    void *at;
    units = (bytes ? strtoul(bytes, NULL, 10) : 64ul << 20) / UNIT;
    use = calloc(units, sizeof *use);
    at = mmap((void *)FIRST_ADDRESS, units * UNIT, PROT_READ | PROT_WRITE, MAP_PRIVATE | MAP_ANONYMOUS, -1, 0);
    if (use == NULL || at == MAP_FAILED)
        return false;
    memory = at;
    return true;
}

static void *take(size_t wanted)
{
    size_t found = 0, unit = least_free;
    while (unit < units && found < wanted) {
        found = use[unit] == FREE ? found + 1 : 0;
        unit++;
    }
    if (found < wanted)
        return NULL;
    unit -= wanted;
    memset(use + unit, MORE, wanted);
    use[unit] = FIRST;
    if (unit == least_free)
        least_free = unit + wanted;
    memset(memory + unit * UNIT, NEW, wanted * UNIT);
    births++;
    units_used += wanted;
    return memory + unit * UNIT;
}

static bool give_back(size_t unit)
{
    if (unit >= units || use[unit] != FIRST)
        return false;
    if (unit < least_free)
        least_free = unit;
    do {
        use[unit] = FREE;
        memset(memory + unit * UNIT, OLD, UNIT);
        units_used--;
        unit++;
    } while (unit < units && use[unit] == MORE);
    ends++;
    return true;
}

void *GOMP_OFFLOAD_alloc(int device, size_t size)
{
    void *block;
    (void)device;
    pthread_mutex_lock(&of_memory);
    block = take(size == 0 ? 1 : (size - 1) / UNIT + 1);
    pthread_mutex_unlock(&of_memory);
    return block;
}

bool GOMP_OFFLOAD_free(int device, void *block)
{
    bool is_block;
    (void)device;
    if (block == NULL)
        return true;
    pthread_mutex_lock(&of_memory);
    is_block = give_back((size_t)((unsigned char *)block - memory) / UNIT);
    pthread_mutex_unlock(&of_memory);
    return is_block;
}

/* ---- The device */

static void tell_totals(void)
{
    fprintf(stderr, "device: blocks %zu given back %zu copies in %zu out %zu bytes left %zu\n", births, ends, copies_in,
            copies_out, units_used * UNIT);
}

/* libgomp finds the plugin under a name that it knows, and asks for the same name here. */
const char *GOMP_OFFLOAD_get_name(void)
{
    return "nvptx";
}

unsigned GOMP_OFFLOAD_get_caps(void)
{
    return CAN_RUN_HOST_CODE | CAN_OPENACC;
}

int GOMP_OFFLOAD_get_type(void)
{
    return TYPE_NVIDIA;
}

int GOMP_OFFLOAD_get_num_devices(void)
{
    return 1;
}

unsigned GOMP_OFFLOAD_version(void)
{
    return VERSION;
}

bool GOMP_OFFLOAD_init_device(int device)
{
    const char *queues = getenv("DEVICE_QUEUES");
    bool is_made;
    (void)device;
    is_eager = queues != NULL && strcmp(queues, "eager") == 0;
    has_totals = getenv("DEVICE_TOTALS") != NULL;
    if (queues != NULL && !is_eager && strcmp(queues, "late") != 0) {
        fprintf(stderr, "device: DEVICE_QUEUES is '%s', and neither 'eager' nor 'late'\n", queues);
        return false;
    }
    if (has_totals)
        atexit(tell_totals);
    /* libgomp has a lock of its own here, which no sanitizer sees. */
    pthread_mutex_lock(&of_memory);
    is_made = make_memory();
    pthread_mutex_unlock(&of_memory);
    return is_made;
}

bool GOMP_OFFLOAD_fini_device(int device)
{
    (void)device;
    munmap(memory, units * UNIT);
    free(use);
    least_free = 0;
    return true;
}

int GOMP_OFFLOAD_load_image(int device, unsigned version, const void *image, struct addr_pair **table)
{
    (void)device;
    (void)version;
    (void)image;
    *table = NULL;
    return 0;
}

bool GOMP_OFFLOAD_unload_image(int device, unsigned version, const void *image)
{
    (void)device;
    (void)version;
    (void)image;
    return true;
}

union goacc_property_value GOMP_OFFLOAD_openacc_get_property(int device, int property)
{
    union goacc_property_value value = {.number = 0};
    (void)device;
    if (property & PROPERTY_IS_TEXT)
        value.text = "a device with memory of its own";
    return value;
}

void *GOMP_OFFLOAD_openacc_create_thread_data(int device)
{
    (void)device;
    return malloc(1);
}

void GOMP_OFFLOAD_openacc_destroy_thread_data(void *data)
{
    free(data);
}

/* ---- Copies and kernels that are done at once */

bool GOMP_OFFLOAD_host2dev(int device, void *to, const void *from, size_t size)
{
    (void)device;
    copies_in++;
    memcpy(to, from, size);
    return true;
}

bool GOMP_OFFLOAD_dev2host(int device, void *to, const void *from, size_t size)
{
    (void)device;
    copies_out++;
    memcpy(to, from, size);
    return true;
}

bool GOMP_OFFLOAD_dev2dev(int device, void *to, const void *from, size_t size)
{
    (void)device;
    memmove(to, from, size);
    return true;
}

void GOMP_OFFLOAD_openacc_exec(void (*kernel)(void *), size_t count, void **host, void **addresses, unsigned *sizes,
                               void *variables)
{
    (void)count;
    (void)host;
    (void)sizes;
    (void)variables;
    kernel(addresses);
}

/* ---- Queues: a list of what waits. Eager queues do it when it comes. Late ones do it when somebody waits, and then in
   order. Both are what OpenACC allows, and a program that agrees with both does not lean on the time of a copy. */

struct task {
    struct task *next;
    void (*run)(void *);
    void *argument; /* of `run`; a list of addresses that is freed if the task is a kernel */
    bool is_kernel;
    void *to; /* a copy, where there is no `run` */
    const void *from;
    size_t size;
};

struct goacc_asyncqueue {
    struct task *first, **end;
};

static bool do_all(struct goacc_asyncqueue *queue)
{
    while (queue->first != NULL) {
        struct task *task = queue->first;
        queue->first = task->next;
        if (queue->first == NULL)
            queue->end = &queue->first;
        if (task->run != NULL)
            task->run(task->argument);
        else
            memcpy(task->to, task->from, task->size);
        if (task->is_kernel)
            free(task->argument);
        free(task);
    }
    return true;
}

static bool put(struct goacc_asyncqueue *queue, struct task task)
{
    struct task *kept = malloc(sizeof *kept);
    if (kept == NULL)
        return false;
    *kept = task;
    kept->next = NULL;
    *queue->end = kept;
    queue->end = &kept->next;
    return is_eager ? do_all(queue) : true;
}

struct goacc_asyncqueue *GOMP_OFFLOAD_openacc_async_construct(int device)
{
    struct goacc_asyncqueue *queue = malloc(sizeof *queue);
    (void)device;
    if (queue != NULL) {
        queue->first = NULL;
        queue->end = &queue->first;
    }
    return queue;
}

bool GOMP_OFFLOAD_openacc_async_destruct(struct goacc_asyncqueue *queue)
{
    do_all(queue);
    free(queue);
    return true;
}

int GOMP_OFFLOAD_openacc_async_test(struct goacc_asyncqueue *queue)
{
    return queue->first == NULL;
}

bool GOMP_OFFLOAD_openacc_async_synchronize(struct goacc_asyncqueue *queue)
{
    return do_all(queue);
}

/* What `after` gets from now on comes behind what `before` has. */
bool GOMP_OFFLOAD_openacc_async_serialize(struct goacc_asyncqueue *before, struct goacc_asyncqueue *after)
{
    (void)after;
    return do_all(before);
}

void GOMP_OFFLOAD_openacc_async_queue_callback(struct goacc_asyncqueue *queue, void (*run)(void *), void *argument)
{
    if (!put(queue, (struct task){.run = run, .argument = argument}))
        abort();
}

void GOMP_OFFLOAD_openacc_async_exec(void (*kernel)(void *), size_t count, void **host, void **addresses,
                                     unsigned *sizes, void *variables, struct goacc_asyncqueue *queue)
{
    void **kept = malloc(count * sizeof *kept + 1);
    (void)host;
    (void)sizes;
    (void)variables;
    if (kept == NULL)
        abort();
    memcpy(kept, addresses, count * sizeof *kept);
    if (!put(queue, (struct task){.run = kernel, .argument = kept, .is_kernel = true}))
        abort();
}

bool GOMP_OFFLOAD_openacc_async_host2dev(int device, void *to, const void *from, size_t size,
                                         struct goacc_asyncqueue *queue)
{
    (void)device;
    copies_in++;
    return put(queue, (struct task){.to = to, .from = from, .size = size});
}

bool GOMP_OFFLOAD_openacc_async_dev2host(int device, void *to, const void *from, size_t size,
                                         struct goacc_asyncqueue *queue)
{
    (void)device;
    copies_out++;
    return put(queue, (struct task){.to = to, .from = from, .size = size});
}
