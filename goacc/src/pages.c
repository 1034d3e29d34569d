/*
 * Pages with stale bytes of the host are kept: nothing can be read or written there. So a touch raises SIGSEGV. What it
 * reads is judged, what it writes is new, and then the page is open for that instruction, by the trap flag and SIGTRAP.
 *
 * A system call would fail in such a page. While some are kept each raises SIGSYS (PR_SET_SYSCALL_USER_DISPATCH), but
 * those from the gate below, and is made there with all pages open. A call that changes signals, memory or threads runs
 * in the program, behind an end of all this, until this library is called next; what was stale is forgotten then.
 *
 * The handlers are here only while pages are kept, on a stack of their own, since the program's may be kept. A signal
 * that is none of these ends all in the same way, and the program gets it when its instruction runs again.
 */
#define _GNU_SOURCE
#include <dlfcn.h>
#include <errno.h>
#include <signal.h>
#include <stdlib.h>
#include <string.h>
#include <sys/mman.h>
#include <sys/prctl.h>
#include <sys/single_threaded.h>
#include <sys/stat.h>
#include <sys/syscall.h>
#include <ucontext.h>

#include "inner.h"

#ifndef PR_SET_SYSCALL_USER_DISPATCH
#define PR_SET_SYSCALL_USER_DISPATCH 59
#endif
enum { NO_DISPATCH, DISPATCH };
enum { ALLOW, BLOCK };
#define TRAP_FLAG 0x100
static const uint64_t all_signals = UINT64_MAX;

/* ---- The gate: system calls from here are always made ---- */

long lwa_gate(long number, long a, long b, long c, long d, long e, long f);
void lwa_gate_back(void);
void lwa_gate_end(void);

/* A system call by which this library asks the handler, since the stack that it runs on may be kept. */
enum { KEEP, OPEN };
void lwa_ask(long what);
void lwa_asked(void);

/* The way back from a handler has no unwind data, and the bytes by which an unwinder knows it. */
__asm__(".pushsection .text\n"
        ".globl lwa_gate, lwa_gate_back, lwa_gate_end, lwa_ask, lwa_asked\n"
        ".hidden lwa_gate, lwa_gate_back, lwa_gate_end, lwa_ask, lwa_asked\n"
        "lwa_gate:\n"
        "    mov %rdi, %rax\n"
        "    mov %rsi, %rdi\n"
        "    mov %rdx, %rsi\n"
        "    mov %rcx, %rdx\n"
        "    mov %r8, %r10\n"
        "    mov %r9, %r8\n"
        "    mov 8(%rsp), %r9\n"
        "    syscall\n"
        "    ret\n"
        "    nop\n"
        "lwa_gate_back:\n"
        "    mov $15, %rax\n"
        "    syscall\n"
        "    nop\n"
        "lwa_gate_end:\n"
        "    nop\n"
        "lwa_ask:\n"
        "    mov $110, %eax\n"
        "    syscall\n"
        "lwa_asked:\n"
        "    ret\n"
        ".popsection\n");

#define CALL3(number, a, b, c) lwa_gate(number, (long)(a), (long)(b), (long)(c), 0, 0, 0)
#define CALL4(number, a, b, c, d) lwa_gate(number, (long)(a), (long)(b), (long)(c), (long)(d), 0, 0)

/* ---- State ---- */

/* A signal's action, as the system call has it. */
typedef struct action {
    void (*handler)(int, siginfo_t *, void *);
    unsigned long flags;
    void (*restorer)(void);
    uint64_t mask;
} action;
#define SA_RESTORER 0x04000000

/* The signals that an instruction raises. */
static const int own_signals[] = {SIGSEGV, SIGBUS, SIGFPE, SIGILL, SIGTRAP, SIGSYS};
enum { OWN_SIGNALS = sizeof own_signals / sizeof *own_signals, MOST_SIGNALS = 64 };

static volatile char selector = ALLOW;
static bool keeping;                 /* the handlers are here */
static _Thread_local bool is_keeper; /* and this thread has its system calls dispatched */
static action theirs[MOST_SIGNALS + 1];
static bool is_taken[MOST_SIGNALS + 1];
static stack_t their_stack, own_stack;
static const char *reason; /* why some pages are not kept, to be told */

/* The instruction that runs now with some pages open. */
enum { MOST_PAGES = 8 };
static struct {
    bool runs;
    lwa_page *opened[MOST_PAGES];
    size_t count;
    uint64_t mask;
} step;

/* ---- Pages ---- */

/* A run of pages that get the same access. */
static struct {
    uintptr_t from, until;
    int access;
} run;

static void end_run(void)
{
    if (run.from != run.until) {
        if (CALL3(SYS_mprotect, run.from, run.until - run.from, run.access) != 0) {
            reason = "reads of some pages are not seen: the system does not keep them";
        }
    }
    run.from = run.until = 0;
}

static void add_to_run(uintptr_t page, int access)
{
    if (page != run.until || access != run.access) {
        end_run();
        run.from = page;
        run.access = access;
    }
    run.until = page + LWA_PAGE;
}

static void keep_page(lwa_page *page)
{
    if (page->stale != 0 && page->access == LWA_WRITABLE) {
        add_to_run(page->at, PROT_NONE);
        page->kept = true;
    }
}

static void open_page(lwa_page *page)
{
    if (page->kept) {
        add_to_run(page->at, PROT_READ | PROT_WRITE);
        page->kept = false;
    }
}

static void keep_all(void)
{
    lwa_each_page(0, UINTPTR_MAX, keep_page);
    end_run();
}

static void open_all(void)
{
    lwa_each_page(0, UINTPTR_MAX, open_page);
    end_run();
}

/* ---- The signals and their stack ---- */

/* The signals that are blocked; the system has no more than these in a handler's context. */
static uint64_t *mask_of(ucontext_t *context)
{
    return (uint64_t *)&context->uc_sigmask;
}

static uint64_t own_mask(void)
{
    uint64_t mask = 0;

    for (int i = 0; i < OWN_SIGNALS; i++) {
        mask |= UINT64_C(1) << (own_signals[i] - 1);
    }
    return mask;
}

static void on_fault(int signal, siginfo_t *info, void *context);
static void on_step(int signal, siginfo_t *info, void *context);
static void on_call(int signal, siginfo_t *info, void *context);

/* What a signal does while pages are kept. The program's own handlers run on the other stack, too, and let those through
   that an instruction raises. */
static bool set_action(int signal, action *a)
{
    if ((own_mask() >> (signal - 1) & 1) != 0) {
        *a = (action){on_fault, SA_SIGINFO | SA_ONSTACK | SA_RESTORER, lwa_gate_back, all_signals};
        a->handler = signal == SIGTRAP ? on_step : signal == SIGSYS ? on_call : on_fault;
        return true;
    }
    a->flags |= SA_ONSTACK;
    a->mask &= ~own_mask();
    return (uintptr_t)a->handler > (uintptr_t)SIG_IGN;
}

static void take_signals(void)
{
    enum { STACK = 1 << 18 };
    const unsigned AUTODISARM = 1u << 31; /* a handler may set another stack */

    if (own_stack.ss_sp == NULL) {
        own_stack.ss_sp = mmap(NULL, STACK, PROT_READ | PROT_WRITE, MAP_PRIVATE | MAP_ANONYMOUS, -1, 0);
        own_stack.ss_size = STACK;
        own_stack.ss_flags = (int)AUTODISARM;
    }
    CALL3(SYS_sigaltstack, &own_stack, &their_stack, 0);
    for (int signal = 1; signal <= MOST_SIGNALS; signal++) {
        action a;

        is_taken[signal] = false;
        if (CALL4(SYS_rt_sigaction, signal, NULL, &theirs[signal], sizeof a.mask) == 0) {
            a = theirs[signal];
            is_taken[signal] = set_action(signal, &a) && CALL4(SYS_rt_sigaction, signal, &a, NULL, sizeof a.mask) == 0;
        }
    }
    keeping = true;
    step.runs = false;
    step.count = 0;
}

static void give_signals_back(ucontext_t *context)
{
    for (int signal = 1; signal <= MOST_SIGNALS; signal++) {
        if (is_taken[signal]) {
            CALL4(SYS_rt_sigaction, signal, &theirs[signal], NULL, sizeof theirs[signal].mask);
        }
    }
    keeping = false;
    selector = ALLOW;
    if (is_keeper) {
        context->uc_stack = their_stack;
    }
}

/* All is as the program has it, and it goes on; what it does then is not seen. In a handler. */
static void stand_aside(ucontext_t *context)
{
    open_all();
    lwa_host_is_all_new();
    if (keeping) {
        give_signals_back(context);
    }
    step.count = 0;
    if (step.runs) {
        step.runs = false;
        *mask_of(context) = step.mask;
        context->uc_mcontext.gregs[REG_EFL] &= ~TRAP_FLAG;
    }
}

/* ---- A touch ---- */

/* Opens a page for this instruction. stale: how many of its bytes were stale before it. */
static void open_for_step(lwa_page *page, size_t stale)
{
    enum { MOST_TOUCHES = 100000 };

    if (page == NULL || !page->kept) {
        return;
    }
    if (page->stale == stale && page->touches++ >= MOST_TOUCHES) {
        lwa_host_is_new(page->at, LWA_PAGE);
        reason = "reads of a page are not seen: what lies beside the stale bytes is used too often";
    }
    open_page(page);
    end_run();
    if (page->stale != 0 && step.count < MOST_PAGES) {
        step.opened[step.count++] = page;
    }
}

static void start_step(ucontext_t *context)
{
    if (step.count == 0 || step.runs) {
        return;
    }
    step.runs = true;
    step.mask = *mask_of(context);
    *mask_of(context) = ~own_mask();
    context->uc_mcontext.gregs[REG_EFL] |= TRAP_FLAG;
}

static void tell(bool may)
{
    const int error = errno;

    if (may && reason != NULL) {
        lwa_tell_unseen(reason);
        reason = NULL;
    }
    if (may) {
        lwa_tell_findings();
    }
    errno = error;
}

/* Many writes in a row write all of a page, and the next one, too, most likely. So it counts as written. */
static void see_write(lwa_page *page, const lwa_reach *written)
{
    enum { MANY = 32, FEW = 4 };
    static uintptr_t next_page;

    page->row = written->at == page->next_write ? page->row + 1 : 1;
    page->next_write = written->at + written->len;
    if (page->row >= (page->at == next_page ? FEW : MANY)) {
        lwa_host_is_new(page->at, LWA_PAGE);
        next_page = page->at + LWA_PAGE;
    }
}

static void touch(ucontext_t *context, uintptr_t touched)
{
    enum { WORD = 8 };
    const bool is_in_libc = lwa_is_of_libc((uintptr_t)context->uc_mcontext.gregs[REG_RIP]);
    lwa_reach list[LWA_REACHES];
    const size_t count = lwa_reaches(context, touched, list);
    lwa_page *page = lwa_page_of(touched);
    const size_t stale = page->stale;

    for (size_t i = 0; i < count; i++) {
        if (is_in_libc && list[i].len <= WORD && lwa_is_host_stale(list[i].at, list[i].len)) {
            open_all();
            if (lwa_is_in_free(context)) {
                lwa_host_gives_back(list[i].at, list[i].len);
            }
            keep_all();
        }
        if (list[i].reads && lwa_is_host_stale(list[i].at, list[i].len)) {
            open_all();
            lwa_check_read(list[i].at, list[i].len, list[i].by_words, context);
            tell(!is_in_libc);
            keep_all();
        }
    }
    for (size_t i = 0; i < count; i++) {
        if (list[i].writes) {
            lwa_host_is_new(list[i].at, list[i].len);
            see_write(page, &list[i]);
        }
    }
    open_for_step(page, stale);
    start_step(context);
}

static void on_fault(int signal, siginfo_t *info, void *given)
{
    lwa_page *page = is_keeper && signal == SIGSEGV && info->si_code == SEGV_ACCERR
                   ? lwa_page_of((uintptr_t)info->si_addr) : NULL;

    if (page != NULL && page->kept) {
        selector = ALLOW;
        touch(given, (uintptr_t)info->si_addr);
        selector = BLOCK;
    } else {
        stand_aside(given);
    }
}

/* A flag that the program has saved while it was set is of no use to it. */
static void on_step(int signal, siginfo_t *info, void *given)
{
    ucontext_t *context = given;

    (void)signal;
    if (info->si_code != TRAP_TRACE) {
        stand_aside(context);
        return;
    }
    context->uc_mcontext.gregs[REG_EFL] &= ~TRAP_FLAG;
    if (step.runs) {
        step.runs = false;
        *mask_of(context) = step.mask;
        for (size_t i = 0; i < step.count; i++) {
            keep_page(step.opened[i]);
        }
        step.count = 0;
        end_run();
    }
}

/* What was found is told at once, but where the C library may be in malloc; then before the program writes or ends. */
static bool may_tell(long number)
{
    return number == SYS_write || number == SYS_writev || number == SYS_exit_group || number == SYS_tgkill
        || number == SYS_kill || (number == SYS_rt_sigprocmask && __libc_single_threaded);
}

/* What this library asks for. */
static void change(long what, ucontext_t *context)
{
    if (what == KEEP) {
        keep_all();
        return;
    }
    open_all();
    give_signals_back(context);
}

/* A handler of the program goes back by the gate. */
static bool is_on_own_stack(uintptr_t at)
{
    return at - (uintptr_t)own_stack.ss_sp < own_stack.ss_size;
}

static void on_call(int signal, siginfo_t *info, void *given)
{
    ucontext_t *context = given;
    greg_t *saved = context->uc_mcontext.gregs;
    const long number = info->si_syscall;
    const long a[6] = {saved[REG_RDI], saved[REG_RSI], saved[REG_RDX], saved[REG_R10], saved[REG_R8], saved[REG_R9]};
    enum { CALL_LENGTH = 2 };

    (void)signal;
    if (info->si_call_addr == (void *)lwa_asked) {
        change(a[0], context);
        return;
    }
    if (number == SYS_rt_sigreturn && is_on_own_stack((uintptr_t)saved[REG_RSP])) {
        saved[REG_RIP] = (greg_t)lwa_gate_back;
        return;
    }
    open_all();
    selector = ALLOW;
    lwa_before_call(number, a, context);
    tell(may_tell(number));
    if (lwa_is_call_of_program(number)) {
        stand_aside(context);
        saved[REG_RAX] = number;
        saved[REG_RIP] -= CALL_LENGTH;
        return;
    }
    CALL4(SYS_rt_sigprocmask, SIG_SETMASK, mask_of(context), NULL, sizeof(uint64_t));
    saved[REG_RAX] = lwa_gate(number, a[0], a[1], a[2], a[3], a[4], a[5]);
    CALL4(SYS_rt_sigprocmask, SIG_SETMASK, &all_signals, NULL, sizeof all_signals);
    lwa_behind_call(number, a, saved[REG_RAX]);
    if (keeping) {
        selector = BLOCK;
        keep_all();
    }
}

/* ---- Whether pages can be kept ---- */

/* What the program may do with its pages. */
static bool has_unknown;
static int found_access;

static void see_unknown(lwa_page *page)
{
    has_unknown |= page->stale != 0 && page->access == LWA_UNKNOWN;
}

static void set_access(lwa_page *page)
{
    page->access = found_access;
}

static void read_memory(void)
{
    FILE *maps;
    char line[512], access[5];
    uintptr_t from, until;

    has_unknown = false;
    lwa_each_page(0, UINTPTR_MAX, see_unknown);
    if (!has_unknown || (maps = fopen("/proc/self/maps", "r")) == NULL) {
        return;
    }
    while (fgets(line, sizeof line, maps) != NULL) {
        if (sscanf(line, "%lx-%lx %4s", &from, &until, access) == 3) {
            found_access = strncmp(access, "rw-", 3) == 0 ? LWA_WRITABLE : LWA_OTHER;
            lwa_each_page(from, until, set_access);
        }
    }
    fclose(maps);
}

/* How many threads there are: a folder has a link for each, and two of its own. */
static size_t threads(void)
{
    struct stat tasks;

    return stat("/proc/self/task", &tasks) == 0 ? (size_t)tasks.st_nlink - 2 : SIZE_MAX;
}

static const char *why_not(void)
{
    uint64_t blocked = 0;
    stack_t now;

    CALL4(SYS_rt_sigprocmask, SIG_BLOCK, NULL, &blocked, sizeof blocked);
    CALL3(SYS_sigaltstack, NULL, &now, 0);
    if (!lwa_reads_instructions) {
        return "what the host reads is not seen: this library was built without Zydis";
    }
    if (dlsym(RTLD_DEFAULT, "__tsan_init") != NULL) {
        return "what the host reads is not seen: the sanitizer of threads has the signals";
    }
    if (threads() != 1) {
        return "what the host reads is not seen: the program has several threads";
    }
    if ((blocked & own_mask()) != 0) {
        return "what the host reads is not seen: the program blocks a signal that tells of them";
    }
    if ((now.ss_flags & SS_ONSTACK) != 0) {
        return "what the host reads is not seen: a handler of the program runs on another stack";
    }
    if (!is_keeper
        && prctl(PR_SET_SYSCALL_USER_DISPATCH, DISPATCH, (unsigned long)lwa_gate,
                 (unsigned long)lwa_gate_end + 1 - (unsigned long)lwa_gate, &selector) != 0) {
        return "what the host reads is not seen: the system has no dispatch of system calls to their program";
    }
    is_keeper = true;
    return NULL;
}

static bool some_stale;

static void see_stale(lwa_page *page)
{
    some_stale |= page->stale != 0;
}

/* Bytes below the frames of the program are no variable's; and the stack may grow below a page that is kept. */
void lwa_keep_pages(void)
{
    enum { DEAD = 1 << 26 };
    volatile char below[2 * LWA_PAGE];
    const char *why;

    below[0] = 0;
    (void)below[0];
    lwa_host_is_new((uintptr_t)__builtin_frame_address(0) - DEAD, DEAD);
    some_stale = false;
    lwa_each_page(0, UINTPTR_MAX, see_stale);
    if (!some_stale || lwa_is_child) {
        return;
    }
    why = why_not();
    if (why != NULL) {
        lwa_host_is_all_new();
        lwa_tell_unseen(why);
        return;
    }
    read_memory();
    lwa_is_of_libc(0); /* a handler cannot find it */
    take_signals();
    selector = BLOCK;
    lwa_ask(KEEP);
}

void lwa_open_pages(void)
{
    if (!keeping) {
        return;
    }
    selector = BLOCK;
    lwa_ask(OPEN);
}
