/* The host reads and writes what lies on the same page as stale bytes, beside them. The C library reads whole words. */
#include <stdio.h>
#include <string.h>

static struct {
    char before[12];
    int stale[6];
    char behind[40];
} page;
static volatile int sum;
static size_t (*volatile length)(const char *) = strlen;

int main(void)
{
#pragma acc enter data copyin(page.stale)
#pragma acc parallel loop present(page.stale)
    for (int i = 1; i < 5; i++) {
        page.stale[i] = i;
    }
    strcpy(page.before, "before it");
    strcpy(page.behind, page.before);
    memcpy(page.behind + 10, "behind it", 10);
    for (int i = 0; i < 1000; i++) {
        sum += page.before[i % 12] + page.behind[i % 40] + page.stale[0] + page.stale[5];
    }
    printf("%s, %s, %zu\n", page.behind, page.behind + 10, length(page.before));
    page.stale[2] = 3;
    printf("%d\n", page.stale[2]);
#pragma acc exit data delete(page.stale)
    return 0;
}
