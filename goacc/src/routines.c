/* The routines that are directives of one item (OpenACC 3.3, section 3.2), as GCC 12's openacc.h declares them. */
#include "inner.h"

/* One directive of one item, under the lock. Answers the device address of its section, where that is mapped then. */
static void *one_item(const char *name, void *from, lwa_way way, bool finalize, uint32_t clause, void *at, size_t len,
                      int async)
{
    lwa_directive directive = {.way = way, .option = finalize};
    void *found = at;
    lwa_block *block;

    lwa_take(name, from);
    if (lwa_is_for_table()) {
        if (at == NULL && way == LWA_ENTER_DATA) {
            lwa_unserved("the address is a null pointer");
        }
        directive.queue = lwa_queue(async);
        lwa_add_item(&directive.items, clause, (uintptr_t)at, at != NULL ? len : 0);
        lwa_direct(&directive);
        block = len != 0 && way == LWA_ENTER_DATA ? lwa_meets((uintptr_t)at, 1) : NULL;
        found = NULL;
        if (block != NULL) {
            found = (void *)lwa_device_of(block, (uintptr_t)at);
        }
    }
    return found;
}

/* A routine of no answer, with its parameters and its arguments. */
#define ONE_ITEM(name, parameters, arguments, way, finalize, clause, at, len, async) \
    LWA_EXPORT void name parameters \
    { \
        LWA_PASS(lwa_in_runtime, name, LWA_LIST arguments) \
        one_item(#name, LWA_FROM, way, finalize, clause, at, len, async); \
        LWA_LEAVE(LWA_NEXT(name) arguments); \
    }

#define ENTRY(name, clause) \
    LWA_EXPORT void *name(void *at, size_t len) \
    { \
        void *found; \
\
        LWA_PASS(lwa_in_runtime, name, at, len) \
        found = one_item(#name, LWA_FROM, LWA_ENTER_DATA, false, clause, at, len, acc_async_sync); \
        LWA_LEAVE(found = LWA_NEXT(name)(at, len)); \
        return found; \
    }
#define ENTRY_ASYNC(name, clause) \
    ONE_ITEM(name, (void *at, size_t len, int async), (at, len, async), LWA_ENTER_DATA, false, clause, at, len, async)
#define ROUTINE(name, way, finalize, clause) \
    ONE_ITEM(name, (void *at, size_t len), (at, len), way, finalize, clause, at, len, acc_async_sync) \
    ONE_ITEM(name##_async, (void *at, size_t len, int async), (at, len, async), way, finalize, clause, at, len, async)
#define POINTER_ROUTINE(name, way, finalize, clause) \
    ONE_ITEM(name, (void **at), (at), way, finalize, clause, at, 0, acc_async_sync) \
    ONE_ITEM(name##_async, (void **at, int async), (at, async), way, finalize, clause, at, 0, async)

ENTRY(acc_copyin, LW_COPYIN)
ENTRY(acc_present_or_copyin, LW_COPYIN)
ENTRY(acc_pcopyin, LW_COPYIN)
ENTRY(acc_create, LW_CREATE)
ENTRY(acc_present_or_create, LW_CREATE)
ENTRY(acc_pcreate, LW_CREATE)
ENTRY_ASYNC(acc_copyin_async, LW_COPYIN)
ENTRY_ASYNC(acc_create_async, LW_CREATE)
ROUTINE(acc_copyout, LWA_EXIT_DATA, false, LW_COPYOUT)
ROUTINE(acc_copyout_finalize, LWA_EXIT_DATA, true, LW_COPYOUT)
ROUTINE(acc_delete, LWA_EXIT_DATA, false, LW_DELETE)
ROUTINE(acc_delete_finalize, LWA_EXIT_DATA, true, LW_DELETE)
ROUTINE(acc_update_device, LWA_UPDATE, false, LW_DEVICE)
ROUTINE(acc_update_self, LWA_UPDATE, false, LW_SELF)
POINTER_ROUTINE(acc_attach, LWA_ENTER_DATA, false, LW_ATTACH)
POINTER_ROUTINE(acc_detach, LWA_EXIT_DATA, false, LW_DETACH)
POINTER_ROUTINE(acc_detach_finalize, LWA_EXIT_DATA, true, LW_DETACH)

LWA_EXPORT int acc_is_present(void *at, size_t len)
{
    const lwa_block *block;
    const size_t asked = len + (len == 0);
    uint64_t present = 1;

    LWA_PASS(lwa_in_runtime, acc_is_present, at, len)
    lwa_take("acc_is_present", LWA_FROM);
    if (lwa_is_for_table()) {
        block = lwa_inside((uintptr_t)at, asked);
        present = 0;
        if (lwa_is_of_program(block)) {
            lw_is_present(lwa_table(), 0, block->told + ((uintptr_t)at - block->at), asked, &present);
        }
    }
    LWA_LEAVE(present = lwa_answer(present, LWA_NEXT(acc_is_present)(at, len) != 0));
    return present != 0;
}
