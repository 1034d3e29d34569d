/* A tool needs a block of the kernel at whose launch it is called. */
#include <acc_prof.h>
#include <openacc.h>

static int a[4];

static void update(acc_prof_info *info, acc_event_info *event, acc_api_info *api)
{
    acc_update_self(a, sizeof a);
}

void acc_register_library(acc_prof_reg reg, acc_prof_reg unreg, acc_prof_lookup_func lookup)
{
    reg(acc_ev_enqueue_launch_start, update, acc_reg);
}

int main(void)
{
#pragma acc parallel copy(a)
    a[0] = 1;
    return 0;
}
