/* The entry points of compilers before GCC 12, as these call them. */
#include "show.h"

#ifdef __cplusplus
extern "C" {
#endif
void GOACC_enter_exit_data(int, size_t, void **, size_t *, unsigned short *, int, int, ...);
int GOACC_get_num_threads(void);
int GOACC_get_thread_num(void);
void GOACC_parallel(int, void (*)(void *), size_t, void **, size_t *, unsigned short *, int, int, int, int, int, ...);
#ifdef __cplusplus
}
#endif

static int a[4] = {1, 2, 3, 4}, *array = a;

static void run(void *addresses)
{
    printf("%d\n", ***(int ***)addresses);
}

int main(void)
{
    void *at[] = {a};
    size_t sizes[] = {sizeof a};
    unsigned short in[] = {0x201}, out[] = {0x202}, gone[] = {0x217};

    GOACC_enter_exit_data(-1, 1, at, sizes, in, -2, 0);
    GOACC_enter_exit_data(-1, 1, at, sizes, in, -2, 0);
    a[0] = 7;
    GOACC_enter_exit_data(-1, 1, at, sizes, gone, -2, 0);
    printf("%d\n", acc_is_present(a, sizeof a));
    GOACC_enter_exit_data(-1, 1, at, sizes, out, -2, 0);
    printf("%d %d\n", acc_is_present(a, sizeof a), a[0]);
    printf("%d %d\n", GOACC_get_num_threads(), GOACC_get_thread_num());
    at[0] = &array;
    GOACC_parallel(-1, run, 1, at, sizes, in, 1, 1, 1, -2, 0);
    return 0;
}
