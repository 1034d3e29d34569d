/* Chapter 5: tools are told the events of directives, kernels, memory, copies and waits, in their order. One that asks
   for another device at an event is told those behind it all the same. */
#include "show.h"

#include <acc_prof.h>

static const char *const names[acc_ev_last] = {
    "none", "init start", "init end", "shutdown start", "shutdown end", "runtime shutdown", "create", "delete", "alloc",
    "free", "enter start", "enter end", "exit start", "exit end", "update start", "update end", "compute start",
    "compute end", "launch start", "launch end", "upload start", "upload end", "download start", "download end",
    "wait start", "wait end",
};
static int a[4], counts[acc_ev_last];

static void tell(acc_prof_info *info, acc_event_info *event, acc_api_info *api)
{
    const acc_event_t type = info->event_type;
    const int is_data = (type >= acc_ev_create && type <= acc_ev_free)
        || (type >= acc_ev_enqueue_upload_start && type <= acc_ev_enqueue_download_end);

    printf("  %s", names[type]);
    if (is_data && event->data_event.host_ptr == a && event->data_event.device_ptr != a) {
        printf(" of a: %d", (int)event->data_event.bytes);
    }
    if (is_data || type == acc_ev_enqueue_launch_start) {
        acc_get_property(1, acc_device_not_host, acc_property_memory);
    }
    printf("%s\n", event->event_type == type && api->device_type == acc_device_not_host ? "" : ", wrong");
}

static void count(acc_prof_info *info, acc_event_info *event, acc_api_info *api)
{
    counts[info->event_type] += acc_is_present(a, sizeof a) + 1;
}

/* The runtime calls it before the first event. */
void acc_register_library(acc_prof_reg reg, acc_prof_reg unreg, acc_prof_lookup_func lookup)
{
    printf("tool: %d\n", lookup("none") == NULL);
    for (acc_event_t event = acc_ev_device_init_start; event < acc_ev_last; event = (acc_event_t)(event + 1)) {
        reg(event, tell, acc_reg);
    }
    reg(acc_ev_runtime_shutdown, tell, acc_reg);
    unreg(acc_ev_runtime_shutdown, tell, acc_reg);
}

int main(void)
{
    printf("enter data\n");
#pragma acc enter data copyin(a)
    printf("update\n");
#pragma acc update self(a[0:2])
    printf("parallel\n");
#pragma acc parallel present(a)
    a[1] = 2;
    printf("exit data\n");
#pragma acc exit data copyout(a) async(1)
    printf("wait\n");
#pragma acc wait(1)
    acc_prof_unregister(acc_ev_none, NULL, acc_toggle);
    printf("off\n");
#pragma acc enter data copyin(a)
    acc_prof_register(acc_ev_none, NULL, acc_toggle);
    acc_prof_register(acc_ev_exit_data_start, count, acc_reg);
    acc_prof_unregister(acc_ev_exit_data_start, tell, acc_toggle);
    printf("exit data, counted\n");
#pragma acc exit data delete(a)
    acc_prof_unregister(acc_ev_none, NULL, acc_toggle_per_thread);
#pragma acc exit data delete(a)
    printf("%d %d\n", counts[acc_ev_exit_data_start], acc_prof_lookup("none") == NULL);
    return 0;
}
