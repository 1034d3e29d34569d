/* Loaded before a program, it refuses one growth of memory, or one start of a thread: that of the number that the
   variable REFUSE_GROWTH or REFUSE_THREAD gives, counted from 1. Where it did, it leaves an empty file of the name that
   REFUSE_REPORT gives. Each call of a function below counts, also one that asks for less memory than before.

   With REFUSE_READ or REFUSE_WRITE each call moves one byte of standard input or to standard output. The read of that
   number fails, and so do the writes from that number on; with REFUSE_ONCE that write alone. REFUSE_ERROR is the number
   of the error. Where that is 0 nothing is moved. */
#define _GNU_SOURCE
#include <dlfcn.h>
#include <errno.h>
#include <fcntl.h>
#include <malloc.h>
#include <pthread.h>
#include <stdatomic.h>
#include <stdbool.h>
#include <stdlib.h>
#include <unistd.h>

static atomic_long growths;
static atomic_long threads;
static atomic_long moves;

/* Counts one call more, and tells whether it is the one that a variable names, or one behind it where all fail then. */
static bool is_refused(atomic_long *counter, const char *variable, bool all)
{
    const char *number = getenv(variable);
    const char *report = getenv("REFUSE_REPORT");
    const long behind = number ? atomic_fetch_add(counter, 1) + 1 - atol(number) : -1;
    int file;

    if (behind < 0 || (behind > 0 && !all))
        return false;
    file = report ? open(report, O_CREAT | O_WRONLY, 0666) : -1;
    if (file >= 0)
        close(file);
    return true;
}

/* A function of the C library: `answer` is what it answers where it is refused. `dlsym` asks for no memory where it
   finds a name. The others that give memory, such as reallocarray, have it of these. */
#define REFUSING(counter, variable, answer, type, name, parameters, arguments)                                         \
    type name parameters                                                                                               \
    {                                                                                                                  \
        if (is_refused(&counter, variable, false)) {                                                                   \
            errno = ENOMEM;                                                                                            \
            return answer;                                                                                             \
        }                                                                                                              \
        return ((type(*) parameters)dlsym(RTLD_NEXT, #name)) arguments;                                                \
    }
#define GROWING(answer, type, name, parameters, arguments)                                                             \
    REFUSING(growths, "REFUSE_GROWTH", answer, type, name, parameters, arguments)

GROWING(NULL, void *, malloc, (size_t size), (size))
GROWING(NULL, void *, calloc, (size_t count, size_t size), (count, size))
GROWING(NULL, void *, realloc, (void *at, size_t size), (at, size))
GROWING(NULL, void *, aligned_alloc, (size_t align, size_t size), (align, size))
GROWING(NULL, void *, memalign, (size_t align, size_t size), (align, size))
GROWING(NULL, void *, valloc, (size_t size), (size))
GROWING(NULL, void *, pvalloc, (size_t size), (size))
GROWING(ENOMEM, int, posix_memalign, (void **at, size_t align, size_t size), (at, align, size))
REFUSING(threads, "REFUSE_THREAD", EAGAIN, int, pthread_create,
         (pthread_t *thread, const pthread_attr_t *attributes, void *(*start)(void *), void *argument),
         (thread, attributes, start, argument))

/* A call that moves bytes of a stream, which is refused by a variable. */
#define MOVING(stream, variable, all, name, bytes)                                                                     \
    ssize_t name(int file, bytes at, size_t len)                                                                       \
    {                                                                                                                  \
        const bool is_meant = file == stream && getenv(variable) != NULL;                                              \
        const char *error = getenv("REFUSE_ERROR");                                                                    \
        if (is_meant && is_refused(&moves, variable, (all) && getenv("REFUSE_ONCE") == NULL)) {                        \
            errno = error ? atoi(error) : 0;                                                                           \
            return errno != 0 ? -1 : 0;                                                                                \
        }                                                                                                              \
        return ((ssize_t(*)(int, bytes, size_t))dlsym(RTLD_NEXT, #name))(file, at, is_meant && len > 1 ? 1 : len);     \
    }

MOVING(STDIN_FILENO, "REFUSE_READ", false, read, void *)
MOVING(STDOUT_FILENO, "REFUSE_WRITE", true, write, const void *)
