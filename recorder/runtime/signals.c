/* Signals: no handler runs inside a hook.  One that comes there is blocked, sent again, and comes after it.
   What a handler does is recorded as its thread's own. */
#include "runtime.h"
#include <ucontext.h>

static struct sigaction handlers[NSIG];
enum { HANDLER_HOOKS = 1000 };         /* before a handler gives the turn up: an access may lie under it */

static int from_the_code_itself(int signal) {
    return signal == SIGSEGV || signal == SIGBUS || signal == SIGFPE || signal == SIGILL || signal == SIGTRAP
        || signal == SIGABRT;
}

/* It is called, as it were, from the instruction that it comes before. */
static RARE void call_in_frame(thread *t, int signal, siginfo_t *info, void *context) {
    uint64_t next = ((ucontext_t *)context)->uc_mcontext.gregs[REG_RIP];
    interrupted before = push_frame(t, next + 1, (uint64_t)call_in_frame + 1);
    if (others) note(OP_WAIT, &handlers[signal], next + 1);
    handlers[signal].sa_sigaction(signal, info, context);
    pop_frame(t, &before);
}

static void handle(int signal, siginfo_t *info, void *context) {
    thread *t = self;
    int saved = errno;
    if (t && t->inside && !from_the_code_itself(signal)) {
        sigset_t *mask = &((ucontext_t *)context)->uc_sigmask;
        if (!t->deferred) t->mask = *mask;
        t->deferred = 1;
        sigaddset(mask, signal);
        syscall(SYS_rt_tgsigqueueinfo, getpid(), t->system_id, signal, info);
    } else {
        if (t && t->quantum < HANDLER_HOOKS) t->quantum += HANDLER_HOOKS;
        if (t) call_in_frame(t, signal, info, context);
        else handlers[signal].sa_sigaction(signal, info, context);
    }
    errno = saved;
}

/* ---- a signal that ends the program where its code made it: that is recorded, and it comes again ---- */
static void crash(int signal, siginfo_t *info, void *context) {
    uint64_t next = ((ucontext_t *)context)->uc_mcontext.gregs[REG_RIP] + 1;
    int has_address = info->si_code > 0 && info->si_code != SI_KERNEL
        && (signal == SIGSEGV || signal == SIGBUS);
    if (self && next > (uint64_t)__start_atomics && next <= (uint64_t)__stop_atomics) end_hook(self);
    /* not where the fault is in a hook but for an atomic operation */
    thread *t = self ? enter(NEVER_YIELD) : 0;
    if (t) {
        put(t, OP_CRASH, has_address ? info->si_addr : 0, signal | (has_address ? HAS_ADDRESS : 0), next);
        leave(t);
        close_recording();
    }
    REAL(sigaction)(signal, &(struct sigaction){.sa_handler = SIG_DFL}, 0);
    syscall(SYS_rt_tgsigqueueinfo, getpid(), syscall(SYS_gettid), signal, info);
}

/* What a program asks for where it asks for the default. */
static struct sigaction default_of(int signal) {
    if (!from_the_code_itself(signal)) return (struct sigaction){.sa_handler = SIG_DFL};
    return (struct sigaction){.sa_sigaction = crash, .sa_flags = SA_SIGINFO | SA_ONSTACK};
}

void watch_crashes(void) {
    for (int signal = 1; signal < NSIG; signal++) {
        struct sigaction now, ours = default_of(signal);
        if (!from_the_code_itself(signal) || REAL(sigaction)(signal, 0, &now) || now.sa_handler != SIG_DFL)
            continue;
        REAL(sigaction)(signal, &ours, 0);
    }
}

PUBLIC int sigaction(int signal, const struct sigaction *new, struct sigaction *old) {
    int direct = new && new->sa_flags & SA_RESETHAND;       /* sent again it would meet no handler */
    if (!self || signal <= 0 || signal >= NSIG) return REAL(sigaction)(signal, new, old);
    if (new && others) note(OP_POST, &handlers[signal], CALLER);
    struct sigaction before = handlers[signal], ours;
    if (new && !direct && new->sa_handler != SIG_DFL && new->sa_handler != SIG_IGN) {
        handlers[signal] = ours = *new;
        ours.sa_sigaction = handle;
        ours.sa_flags |= SA_SIGINFO;
        new = &ours;
    } else if (new && new->sa_handler == SIG_DFL && from_the_code_itself(signal)) {
        ours = default_of(signal);
        new = &ours;
    }
    int error = REAL(sigaction)(signal, new, old);
    if (error) handlers[signal] = before;
    else if (old && old->sa_sigaction == handle) *old = before;
    else if (old && old->sa_sigaction == crash) *old = (struct sigaction){.sa_handler = SIG_DFL};
    return error;
}

PUBLIC void (*signal(int number, void (*handler)(int)))(int) {
    struct sigaction new = {.sa_handler = handler, .sa_flags = SA_RESTART}, old;
    return sigaction(number, &new, &old) ? SIG_ERR : old.sa_handler;
}
