/* What system calls read of the program's memory, and what they write there. */
#define _GNU_SOURCE
#include <limits.h>
#include <sys/mman.h>
#include <sys/syscall.h>
#include <sys/uio.h>

#include "inner.h"

/* Those that run in the program. */
bool lwa_is_call_of_program(long number)
{
    switch (number) {
    case SYS_rt_sigaction: case SYS_rt_sigprocmask: case SYS_rt_sigreturn: case SYS_sigaltstack:
    case SYS_clone: case SYS_clone3: case SYS_fork: case SYS_vfork: case SYS_execve: case SYS_execveat:
    case SYS_exit: case SYS_exit_group: case SYS_kill: case SYS_tkill: case SYS_tgkill: case SYS_prctl:
    case SYS_recvmsg: case SYS_recvmmsg: case SYS_process_vm_readv: case SYS_io_getevents: case SYS_io_uring_enter:
    case SYS_shmat: case SYS_shmdt:
        return true;
    default:
        return false;
    }
}

/* Memory that the program gives back, or gets anew. */
static void forget_memory(long number, const long a[6])
{
    enum { HEAP = 1 << 30 };

    switch (number) {
    case SYS_munmap: case SYS_mremap: case SYS_madvise: case SYS_mprotect: case SYS_pkey_mprotect:
        lwa_host_is_new((uintptr_t)a[0], (size_t)a[1]);
        break;
    case SYS_mmap:
        if ((a[3] & MAP_FIXED) != 0) {
            lwa_host_is_new((uintptr_t)a[0], (size_t)a[1]);
        }
        break;
    case SYS_brk:
        if (a[0] != 0) {
            lwa_host_is_new((uintptr_t)a[0], HEAP);
        }
        break;
    default:
        break;
    }
}

/* Which argument has bytes that a call reads, or writes, and how many: an argument, what the call answers, or a number.
   The bytes of a vector stand in a list. */
static const struct {
    long number;
    enum { READS, WRITES, READS_LIST, WRITES_LIST, NOTHING } what;
    int at, len;
} known_calls[] = {
    {SYS_write, READS, 1, 2}, {SYS_pwrite64, READS, 1, 2}, {SYS_sendto, READS, 1, 2},
    {SYS_writev, READS_LIST, 1, 2}, {SYS_pwritev, READS_LIST, 1, 2}, {SYS_pwritev2, READS_LIST, 1, 2},
    {SYS_read, WRITES, 1, -1}, {SYS_pread64, WRITES, 1, -1}, {SYS_recvfrom, WRITES, 1, -1},
    {SYS_readv, WRITES_LIST, 1, 2}, {SYS_preadv, WRITES_LIST, 1, 2}, {SYS_preadv2, WRITES_LIST, 1, 2},
    {SYS_getrandom, WRITES, 0, -1}, {SYS_getdents64, WRITES, 1, -1}, {SYS_getcwd, WRITES, 0, -1},
    {SYS_readlink, WRITES, 1, -1}, {SYS_readlinkat, WRITES, 2, -1},
    {SYS_fstat, WRITES, 1, 144}, {SYS_stat, WRITES, 1, 144}, {SYS_lstat, WRITES, 1, 144},
    {SYS_newfstatat, WRITES, 2, 144}, {SYS_clock_gettime, WRITES, 1, 16}, {SYS_gettimeofday, WRITES, 0, 16},
    {SYS_clock_nanosleep, WRITES, 3, 16}, {SYS_nanosleep, WRITES, 1, 16}, {SYS_ioctl, WRITES, 2, 64},
    {SYS_open, NOTHING, 0, 0}, {SYS_openat, NOTHING, 0, 0}, {SYS_close, NOTHING, 0, 0}, {SYS_lseek, NOTHING, 0, 0},
    {SYS_unlink, NOTHING, 0, 0}, {SYS_access, NOTHING, 0, 0}, {SYS_faccessat, NOTHING, 0, 0},
    {SYS_futex, NOTHING, 0, 0}, {SYS_msync, NOTHING, 0, 0}, {SYS_munmap, NOTHING, 0, 0}, {SYS_mmap, NOTHING, 0, 0},
    {SYS_mremap, NOTHING, 0, 0}, {SYS_mprotect, NOTHING, 0, 0}, {SYS_madvise, NOTHING, 0, 0}, {SYS_brk, NOTHING, 0, 0}
};

/* Any other call may have written so much where an argument points to. */
enum { UNKNOWN = 512 };

static void judge_list(bool reads, const struct iovec *list, long count, size_t len, void *context)
{
    const uintptr_t from = (uintptr_t)list / LWA_PAGE * LWA_PAGE;

    if (count > IOV_MAX || msync((void *)from, (uintptr_t)(list + count) - from, MS_ASYNC) != 0) {
        return;
    }
    for (long i = 0; i < count && len != 0; i++) {
        const size_t part = list[i].iov_len < len ? list[i].iov_len : len;

        if (reads) {
            lwa_check_read((uintptr_t)list[i].iov_base, part, false, context);
        } else {
            lwa_host_is_new((uintptr_t)list[i].iov_base, part);
        }
        len -= part;
    }
}

static void judge(long number, const long a[6], bool is_done, long answer, void *context)
{
    for (size_t i = 0; i < sizeof known_calls / sizeof *known_calls; i++) {
        const int what = known_calls[i].what, at = known_calls[i].at, len = known_calls[i].len;

        if (known_calls[i].number != number) {
            continue;
        }
        if (what == READS && !is_done) {
            lwa_check_read((uintptr_t)a[at], (size_t)a[len], false, context);
        } else if (what == READS_LIST && !is_done) {
            judge_list(true, (const struct iovec *)a[at], a[len], SIZE_MAX, context);
        } else if (what == WRITES && is_done && answer >= 0) {
            lwa_host_is_new((uintptr_t)a[at], len < 0 ? (size_t)answer : (size_t)len);
        } else if (what == WRITES_LIST && is_done && answer > 0) {
            judge_list(false, (const struct iovec *)a[at], a[len], (size_t)answer, context);
        }
        return;
    }
    for (int i = 0; i < 6 && is_done; i++) {
        lwa_host_is_new((uintptr_t)a[i], UNKNOWN);
    }
}

void lwa_before_call(long number, const long a[6], void *context)
{
    judge(number, a, false, 0, context);
    forget_memory(number, a);
}

void lwa_behind_call(long number, const long a[6], long answer)
{
    judge(number, a, true, answer, NULL);
}
