/* Chapter 5: a tool calls routines where it is found, and gets no events of them, but those of what comes behind. */
#include "show.h"

#include <acc_prof.h>

static int a[4];

static void tell(acc_prof_info *info, acc_event_info *event, acc_api_info *api)
{
    printf("  enter %s\n", info->event_type == acc_ev_enter_data_start ? "start" : "end");
}

void acc_register_library(acc_prof_reg reg, acc_prof_reg unreg, acc_prof_lookup_func lookup)
{
    reg(acc_ev_enter_data_start, tell, acc_reg);
    reg(acc_ev_enter_data_end, tell, acc_reg);
    acc_copyin(a, sizeof a);
    printf("tool: device %d, present %d\n", acc_get_device_num(acc_device_default), acc_is_present(a, sizeof a));
    acc_delete(a, sizeof a);
}

int main(void)
{
    printf("enter data\n");
#pragma acc enter data copyin(a)
    printf("exit data\n");
#pragma acc exit data delete(a)
    return 0;
}
