/* System calls read from pages with stale bytes and write there, also without the C library: they do as they do without
   a check. What they write is new, also where it is the same. One writes stale bytes into a file. */
#define _GNU_SOURCE
#include <errno.h>
#include <stdio.h>
#include <string.h>
#include <sys/stat.h>
#include <sys/syscall.h>
#include <sys/uio.h>
#include <unistd.h>

enum { N = 3000 };

static struct {
    int stale[N];
    char text[16];
    struct stat about;
} all;

static void make_stale(void)
{
#pragma acc parallel loop present(all.stale)
    for (int i = 0; i < N; i++) {
        all.stale[i] += 1;
    }
}

int main(void)
{
    static const char zeros[16];
    char *volatile nowhere = (char *)8;
    struct iovec list[2] = {{all.text, 4}, {&all.stale[20], 8}};
    int pipes[2];

    if (pipe(pipes) != 0) {
        return 1;
    }
#pragma acc enter data create(all.stale)
    memset(all.stale, 0, sizeof all.stale);
#pragma acc update device(all.stale)
    make_stale();
    strcpy(all.text, "abcdefgh");
    printf("write %zd\n", write(pipes[1], all.text, 8));
    printf("read %zd\n", read(pipes[0], &all.stale[1], 8));
    printf("%.8s\n", (char *)&all.stale[1]);
    printf("raw write %ld\n", syscall(SYS_write, pipes[1], zeros, 16));
    printf("raw read %ld\n", syscall(SYS_read, pipes[0], &all.stale[1500], 16));
    printf("%d %d\n", all.stale[1500], all.stale[1503]);
    printf("write %zd\n", write(pipes[1], "1234567890ab", 12));
    printf("readv %zd\n", readv(pipes[0], list, 2));
    printf("%.4s %.8s\n", all.text, (char *)&all.stale[20]);
    printf("fstat %d", fstat(pipes[0], &all.about));
    printf(" %d\n", S_ISFIFO(all.about.st_mode));
    printf("no file %d\n", (int)write(-1, all.text, 4) == -1 && errno == EBADF);
    printf("no memory %d\n", (int)write(pipes[1], nowhere, 4) == -1 && errno == EFAULT);
    printf("write %zd\n", write(pipes[1], &all.stale[100], 40));
    printf("read %zd\n", read(pipes[0], all.stale, 40));
    printf("%d\n", all.stale[9]);
    make_stale();
    printf("writev %zd\n", writev(pipes[1], list, 2));
#pragma acc exit data delete(all.stale)
    return 0;
}
