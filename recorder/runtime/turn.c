/* The order of the record.

   One thread at a time has the *turn*.  A hook takes it, writes its record and returns with the turn, so the
   access that follows is done before any other thread writes a record.  A thread loses the turn only
     (a) at a later hook of its own, when it is no longer in the access before: it *gives* it, to a waiter or
     to nobody;
     (b) around a call that may block: it gives it likewise;
     (c) to a waiter that sees it asleep inside a system call: between a hook and its access there is none;
     (d) to a waiter that sees that it has computed for 20 ms since its last hook: no access takes so long but
     those of long ranges.
   Not while it `works` on the record, where it may sleep for room: it says so before it asks whether it has
   the turn. In (c) and (d) the waiter *takes it over*.  The word `turn` has the holder and a count that each
   hook raises.  The waiter reads the word, then looks at the holder, then swaps itself in if the word is
   still the same: so there was no hook since, and it looked at a thread past its access.  The holder finds
   another one in the word at its next hook.

   All other changes of hands are made under `guard`.  A waiter stands in `waiting` from its first step in
   take_turn to its last, put in and taken out by itself; after a slice, from when it gave the turn.  To be
   given the turn is no more than to be named in the word: until the waiter has accepted, by a swap like the
   one above, another may take the turn over, and then it just waits on. In a replay the list of replay.c says
   to whom the turn is given, and who alone may take it over.

   To raise the count takes longer than all else in a hook, and is of use only while a waiter looks. So no
   hook raises it while `quick_holder` names its thread: from when that has accepted the turn until it gives
   it or a waiter *doubts*.  A waiter doubts before it looks: it takes the name away, and has all threads that
   run pass a barrier (membarrier).  After that each hook raises the count, but for one that had begun; and
   only then the waiter reads the word.  It begins to doubt where the word was the same for a whole patience,
   and doubts as long as it is. tests/model.py searches all interleavings of this. */
#include "runtime.h"
#include <linux/membarrier.h>

#define NOBODY 0
#define HOLDER(word) ((uint32_t)((word) >> 48))
#define NAME(t) ((t)->number + 1)
#define COMPUTES_TICKS 2               /* of 10 ms, */
#define BYTES_OF_TICK (4 << 20)        /* and one more for each so many bytes that it accesses */
/* for the tests: turns are taken over sooner, and others run in between */
#ifdef HASTY
#define PATIENCE_NS 10000
#define TEST_YIELD() syscall(SYS_sched_yield)
#else
/* then a lone waiter looks at the holder; one of several after ten times it, */
#define PATIENCE_NS 300000
#define TEST_YIELD() (void)0
#endif
#define LOOKERS 16                     /* if it is one of the first */
#define SLEEP_NS 500000000             /* then the others see whether they are */
/* 1 in tests: no waiter looks, so who blocks has to give the turn up */
#ifndef IS_PATIENT
#define IS_PATIENT 0
#endif
/* the longest wait for a new thread: on a busy machine it begins late */
#define START_SECONDS 1
/* without SHB_SLICE slices begin with 1, 2, 4 or 8 hooks, on average, */
#define FIRST_SLICES 4
#define SLICES_OF_A_SCALE 64           /* are twice as long after so many, and end with */
#define LEAST_LAST_SLICE 100           /* 100, 200 or 400: to hand the turn over costs some 50 hooks */
#define LAST_SLICES 3
/* 1 << this take as much of a long slice as another one: no other thread has use of them */
#define LOG_QUICK_HOOKS 4
#define MOST_STARTS 64                 /* the first threads with which they begin anew */
#define SLICES_HELD 4                  /* on average */
#define MOST_LOOKS 4                   /* at threads that may be coming; one is waited for so long */
#define ARRIVAL_NS 500000
#define MOST_IN_VAIN 1000              /* of such looks, where a wait is so many: */
#define LOOKS_OF_A_WAIT 16

__thread thread *self;
/* In a page of its own: a process made by fork begins with an empty one, so handlers of fork that come before
   ours write nothing into the parent's record. */
enum { PAGE = 4096 };
static struct { int recording; char rest[PAGE - sizeof(int)]; } wiped __attribute__((aligned(PAGE), used));
extern volatile int recording __attribute__((alias("wiped")));
int was_recording;

static _Atomic uint64_t turn;
static _Atomic int guard;
static thread *waiting[THREAD_NUMBERS];
static volatile int waiters;
static volatile int is_awaited;        /* the holder sleeps until there is a waiter */
static thread *threads[THREAD_NUMBERS];
static uint32_t thread_count, serials;
static uint32_t free_numbers[THREAD_NUMBERS], free_count;   /* to be used again; with the turn */
static uint64_t random_state = 88172645463325252ull;
static int slice, last_slice, slices, given_slice;
static thread *held;                   /* one of the waiters, or nobody; under the guard */
thread *volatile quick_holder = NOBODY_IS_QUICK;             /* changed under the guard */
static thread *holder;                 /* who accepted the turn and has it still; under the guard */
static int doubters;                   /* under the guard */
static int has_barrier;                /* of the system, for all threads; else no hook is quick */
static thread *leaving;                /* detached ones in their last destructors, or gone; with the turn */

static uint64_t draw(void) {           /* xorshift; with the turn or the guard */
    random_state ^= random_state << 13;
    random_state ^= random_state >> 7;
    random_state ^= random_state << 17;
    return random_state;
}

/* ---- who has the turn ---- */
static void lock_guard(void) {
    for (int n = 0; atomic_exchange_explicit(&guard, 1, memory_order_acquire); n++)
        if (n > 50) syscall(SYS_sched_yield);
        else __builtin_ia32_pause();
}

static void unlock_guard(void) { atomic_store_explicit(&guard, 0, memory_order_release); }

/* The word after this one, with t as the holder. */
static uint64_t next_word(thread *t, uint64_t word) {
    return (uint64_t)(t ? NAME(t) : NOBODY) << 48 | ((word + 1) & LOW_48_BITS);
}

static int swap_in(thread *t, uint64_t seen) {
    return atomic_compare_exchange_strong(&turn, &seen, next_word(t, seen));
}

static void wake(thread *t) {
    atomic_fetch_add(&t->wakes, 1);
    syscall(SYS_futex, &t->wakes, FUTEX_WAKE_PRIVATE, 1, 0, 0, 0);
}

/* Has t the turn still?  Raises the count if somebody doubts it: no waiter that looked before may take it. */
int keep_turn(thread *t) {
    uint64_t word = atomic_load_explicit(&turn, memory_order_relaxed);
    if (t != quick_holder && (HOLDER(word) != NAME(t) || !swap_in(t, word))) return 0;
    end_quick(t);
    t->asks = 0;
    t->kept = t->steps;
    return 1;
}

/* Under the guard. */
static void name_quick_holder(void) {
    quick_holder = holder && recording && !doubters && has_barrier ? holder : NOBODY_IS_QUICK;
}

static int ask_for_barrier(int command) { return !syscall(SYS_membarrier, command, 0, 0); }

static void add_doubters(int count) {
    lock_guard();
    doubters += count;
    name_quick_holder();
    unlock_guard();
}

static void doubt(void) {
    add_doubters(1);
    if (has_barrier) has_barrier = ask_for_barrier(MEMBARRIER_CMD_PRIVATE_EXPEDITED);
}

static int are_slices_short(void) { return slice < last_slice; }

static void begin_slices(void) {
    slice = given_slice ? given_slice : 1 << draw() % FIRST_SLICES;
    last_slice = given_slice ? given_slice : LEAST_LAST_SLICE << draw() % LAST_SLICES;
    slices = 0;
}

/* A slice's length in hooks; with the turn. */
static int draw_slice(void) {
    if (are_slices_short() && ++slices % SLICES_OF_A_SCALE == 0) slice *= 2;
    return 1 + draw() % (2 * slice);
}

static thread *due_waiter(void) {
    uint32_t due = due_thread();
    for (int i = 0; i < waiters; i++)
        if (waiting[i]->number == due) return waiting[i];
    return 0;
}

/* Who is next: the held thread only where no other waits. */
static thread *draw_waiter(void) {
    if (is_replaying) return due_waiter();
    if (!waiters) return 0;
    int i = draw() % waiters;
    return waiting[waiting[i] == held ? (i + 1) % waiters : i];
}

static void start_waiting(thread *t) {
    t->place = waiters;
    waiting[waiters++] = t;
}

/* Gives the turn away; at the end of a slice not to the held thread. Who comes back for it is among the
   waiters at once: the next one may be done before the system lets this one go on. Does t wait now? */
enum way_to_give { LEAVES_IT, COMES_BACK, AT_SLICE_END };
static int hand_over(thread *t, enum way_to_give way) {
    thread *next = 0;
    int waits = 0;
    lock_guard();
    uint64_t word = atomic_load(&turn);
    if (HOLDER(word) == NAME(t)) {
        end_quick(t);
        end_turn(t);
        if (held && draw() % SLICES_HELD == 0) held = 0;
        next = draw_waiter();
        if (way == AT_SLICE_END && next && next == held && !is_replaying) {
            next = 0;
            t->quantum = draw_slice();
        } else {
            holder = 0;
            name_quick_holder();
            waits = way != LEAVES_IT;
            if (waits) start_waiting(t);
            atomic_store(&turn, next_word(next, word));
        }
    }
    unlock_guard();
    TEST_YIELD();
    if (next) wake(next);
    t->steps++;
    return waits;
}

void give_turn(thread *t) { hand_over(t, LEAVES_IT); }

static void stop_waiting(thread *t) {
    thread *last = waiting[--waiters];
    if (held == t) held = 0;
    waiting[t->place] = last;
    last->place = t->place;
}

static thread *holder_of(uint64_t word) { return HOLDER(word) == NOBODY ? 0 : threads[HOLDER(word) - 1]; }

/* Under the guard: takes the turn that others have given, or lost. */
static int get_turn(thread *t, uint64_t seen) {
    if (!may_get_turn(t, holder_of(seen)) || !swap_in(t, seen)) return 0;
    if (holder) end_quick(holder);     /* it is past its access, and may have begun a hook */
    begin_turn(t);
    t->asks = 0;
    holder = t;
    name_quick_holder();
    return 1;
}

/* Takes the turn if nobody has it, else is among the waiters, at its first hook perhaps as the held one. */
static int take_free(thread *t) {
    int is_first = !t->began;
    lock_guard();
    uint64_t word = atomic_load(&turn);
    int done = !recording || (HOLDER(word) == NOBODY && get_turn(t, word));
    if (!done) start_waiting(t);
    if (is_first) held = !held && !done && t->may_be_held ? t : 0;
    unlock_guard();
    atomic_thread_fence(memory_order_seq_cst);
    if (is_awaited) syscall(SYS_futex, &waiters, FUTEX_WAKE_PRIVATE, 1, 0, 0, 0);
    if (!is_first) return done;
    atomic_store(&t->began, 1);
    syscall(SYS_futex, &t->began, FUTEX_WAKE_PRIVATE, 1, 0, 0, 0);
    return done;
}

/* Waits until a new thread is at its first hook.  It may sleep: so it works, or a waiter would take the turn
   over. */
void wait_for_start(thread *t, thread *child) {
    int saved = errno;
    t->works = 1;
    if (recording && are_slices_short())
        syscall(SYS_futex, &child->began, FUTEX_WAIT_PRIVATE, 0, &(struct timespec){START_SECONDS, 0}, 0, 0);
    t->works = 0;
    errno = saved;
}

/* Some of them, from any one on; with the turn. */
static int is_another_coming(const thread *t) {
    char text[64];
    uint32_t first = draw() % thread_count, looks = 0;
    for (uint32_t i = 0; i < thread_count && looks < MOST_LOOKS; i++) {
        const thread *u = threads[(first + i) % thread_count];
        if (u == t || u->is_over || !u->began) continue;
        looks++;
        if (read_task_file(u->system_id, "syscall", text, sizeof text) > 0 && text[0] == 'r') return 1;
    }
    return 0;
}

/* Where slices are short one that was woken is waited for: to come takes it longer than many of them. */
static int in_vain;
static RARE int wait_for_another(thread *t) {
    int saved = errno, is_coming;
    if (HOLDER(atomic_load(&turn)) != NAME(t)) return 0;
    t->quantum = draw_slice();
    t->works = 1;
    is_coming = is_another_coming(t);
    if (is_coming) {
        is_awaited = 1;
        syscall(SYS_futex, &waiters, FUTEX_WAIT_PRIVATE, 0, &(struct timespec){0, ARRIVAL_NS}, 0, 0);
        is_awaited = 0;
    }
    if (!waiters) in_vain += is_coming ? LOOKS_OF_A_WAIT : 1;
    t->works = 0;
    errno = saved;
    return waiters;
}

/* At the end of a slice: is there a waiter? */
static int is_wanted(thread *t) {
    int may_come = !waiters && others && are_slices_short() && in_vain <= MOST_IN_VAIN;
    return may_come ? wait_for_another(t) : waiters;
}

/* The waiter's last step, and the end of its doubt: takes the turn if its word is still the one seen; also
   where the recording has ended. */
static int accept(thread *t, uint64_t seen, int doubts) {
    TEST_YIELD();
    lock_guard();
    int done = !recording || get_turn(t, seen);
    if (done) {
        stop_waiting(t);
        doubters -= doubts;
        name_quick_holder();
    }
    unlock_guard();
    return done;
}

/* ---- a waiter looks at the holder ---- */
/* The processor time that a thread has spent outside the system, in ticks: 11 words after its state. */
static long user_ticks(const char *state) {
    const char *p = state;
    for (int i = 0; i < 11 && p; i++) p = strchr(p + 1, ' ');
    return p ? strtol(p, 0, 10) : 0;
}

static int is_gone(pid_t system_id) { return syscall(SYS_tgkill, getpid(), system_id, 0) && errno == ESRCH; }

/* Is the thread gone, or asleep inside a system call?  A page fault is no system call.  *ticks gets its time.
   Where nobody can say, the recording ends. */
static int gone_or_asleep(pid_t system_id, long *ticks) {
    char text[512];
    if (!system_id || is_gone(system_id)) return 1; /* the number was used again, by one that is to come */
    int n = read_task_file(system_id, "stat", text, sizeof text);
    char *p = n > 0 ? strrchr(text, ')') : 0;
    if (!p || !p[1]) {
        if (is_gone(system_id)) return 1;
        stop_recording("a thread's state cannot be read in /proc");
        return 0;
    }
    char state = p[2];
    *ticks = user_ticks(p + 2);
    if (state == 'Z' || state == 'X') return 1;
    if (state != 'S' && state != 'D') return 0;
    n = read_task_file(system_id, "syscall", text, sizeof text);
    if (n <= 0) return state == 'S';   /* it gave up its rights: a page fault is waited for in state D */
    return text[0] >= '0' && text[0] <= '9';
}

/* While a waiter doubts: the turn's word, the holder's time at the first look if it didn't work, and when. */
struct watch { int doubts; uint64_t word; long ticks; time_t since; };

/* The word, which is doubted where it was the same for a whole patience. */
static uint64_t doubted_word(struct watch *watch) {
    uint64_t word = atomic_load(&turn);
    int is_same = word == watch->word;
    if (watch->doubts && is_same) return word;
    if (watch->doubts) add_doubters(-1);
    if (is_same) doubt();
    *watch = (struct watch){.doubts = is_same, .word = atomic_load(&turn), .ticks = -1};
    return watch->word;
}

/* May the turn, whose word was read before this look at the holder, be taken over? */
static int past_its_access(uint64_t word, struct watch *watch) {
    long ticks = watch->ticks;
    if (HOLDER(word) == NOBODY) return 1;
    if (!watch->doubts) return 0;
    const thread *seen = holder_of(word);
    /* read before the look: if not, it has ended that, or the word is another one by now */
    int works = seen->works;
    if (gone_or_asleep(seen->system_id, &ticks) && (!works || is_gone(seen->system_id))) return 1;
    if (!watch->since) watch->since = seconds_now();
    if (watch->ticks < 0 && !works) watch->ticks = ticks;
    if (seconds_now() - watch->since > stall_seconds)
        stop_recording("one thread neither slept, computed nor came to a hook for SHB_STALL seconds");
    return !works && ticks >= watch->ticks + COMPUTES_TICKS + (long)(seen->range / BYTES_OF_TICK);
}

/* ---- a replay that doesn't fit: the list alone says who gets the turn, and that thread doesn't come ---- */
enum { LOOK_SECONDS = 1, LATE_SECONDS = 5 };
struct lateness { uint64_t word; time_t since; };            /* as a waiter saw it */

/* Why t gives the replay up after so many seconds, or 0.  Not where the thread that is due is on its way to
   its next hook, nor where it sleeps as long as t would. */
static const char *reason_to_leave(const thread *t, uint64_t word, time_t seconds) {
    uint32_t number = due_thread();
    const thread *next = HOLDER(word) ? holder_of(word) : number < thread_count ? threads[number] : 0;
    long ticks = 0;
    if (!next || (next->system_id && is_gone(next->system_id))) return "the thread that is due is gone";
    int is_patient = t->idles || !gone_or_asleep(next->system_id, &ticks);
    return seconds < (is_patient ? stall_seconds : LATE_SECONDS) ? 0 : "the thread that is due does not come";
}

static void leave_late_replay(const thread *t, uint64_t word, struct lateness *late) {
    if (word != late->word) *late = (struct lateness){word, seconds_now()};
    time_t seconds = seconds_now() - late->since;
    const char *reason = seconds < LOOK_SECONDS ? 0 : reason_to_leave(t, word, seconds);
    if (!reason) return;
    thread *next = 0;
    lock_guard();
    if (is_replaying && atomic_load(&turn) == word) {
        end_replay(reason);
        if (HOLDER(word) == NOBODY) next = draw_waiter();
        if (next) atomic_store(&turn, next_word(next, word));
    }
    unlock_guard();
    if (next) wake(next);
}

/* In a replay one thread alone may take the turn over, so that is to be among those that look. */
static void have_next_look(const thread *holder) {
    lock_guard();
    uint32_t number = next_thread(holder);
    thread *next = number < thread_count ? threads[number] : 0, *first = waiting[0];
    int is_late = next && next->place >= LOOKERS && next->place < waiters && waiting[next->place] == next;
    if (is_late) {
        waiting[first->place = next->place] = first;
        waiting[next->place = 0] = next;
    }
    unlock_guard();
    if (is_late) wake(next);
}

/* Among the waiters, until it has the turn. */
static void wait_for_turn(thread *t) {
    struct watch watch = {.word = atomic_load(&turn)};
    struct lateness late = {0, 0};
    int look = 0;
    for (;;) {
        int wakes = atomic_load(&t->wakes);                  /* before the turn: a later wake changes it */
        uint64_t word = look ? doubted_word(&watch) : atomic_load(&turn);
        if (!recording || HOLDER(word) == NAME(t)
            || (look && !IS_PATIENT && may_get_turn(t, holder_of(word)) && past_its_access(word, &watch)))
            if (accept(t, word, watch.doubts)) break;
        if (look && is_replaying) {
            have_next_look(holder_of(word));
            leave_late_replay(t, word, &late);
        }
        int may_look = t->place < LOOKERS;
        long patience = !may_look ? SLEEP_NS : waiters > 1 ? 10 * PATIENCE_NS : PATIENCE_NS;
        look = syscall(SYS_futex, &t->wakes, FUTEX_WAIT_PRIVATE, wakes, &(struct timespec){0, patience}, 0, 0)
            && errno == ETIMEDOUT && may_look;
    }
}

static void take_or_wait(thread *t, int waits) {
    int saved = errno;
    extend_list();
    if (waits || !take_free(t)) wait_for_turn(t);
    t->quantum = is_replaying ? steps_to_go(t) + 1 : draw_slice();
    errno = saved;
}

void take_turn(thread *t) { take_or_wait(t, 0); }

/* Lets another thread run a slice, which may give back the lock that t wants: who slept in the system for it
   would mostly be late.  Not where nobody wants the turn, nor where slices are long: to sleep costs less */
int let_another_run(thread *t) {
    if (!recording) return 0;
    int gives = is_replaying ? --t->quantum <= 0 : waiters && are_slices_short();
    if (gives) take_or_wait(t, hand_over(t, COMES_BACK));
    else t->steps++;
    return gives;
}

/* After a call with the turn that may have slept: a step, so a replay can give it up where it was lost. */
void keep_turn_after_call(thread *t) {
    if (is_replaying && --t->quantum <= 0) give_turn(t);
    else t->steps++;
    if (!keep_turn(t)) take_turn(t);
}

/* ---- what hangs on microseconds, and not on the order of turns ---- */
int note_unusual(thread *t) {
    lock_guard();
    if (HOLDER(atomic_load(&turn)) == NAME(t)) add_unusual(t);
    unlock_guard();
    return 1;
}

int was_unusual(thread *t) {
    if (!is_replaying) return 0;
    lock_guard();
    int was = next_is_unusual(t);
    unlock_guard();
    return was && note_unusual(t);
}

uint64_t same_value(thread *t, uint64_t value) {
    lock_guard();
    if (HOLDER(atomic_load(&turn)) == NAME(t)) {
        value = next_value(t, value);
        add_value(t, value);
    }
    unlock_guard();
    return value;
}

int waits_for_list(thread *t) {
    if (!is_replaying) return 0;
    t->idles = 1;
    give_turn(t);
    take_turn(t);
    t->idles = 0;
    return is_replaying;
}

/* ---- hooks ---- */
/* How many quick ones take as much of the slice as another one; by its logarithm, as divisions are slow. */
static int log_share(void) { return is_replaying || given_slice || are_slices_short() ? 0 : LOG_QUICK_HOOKS; }

/* Where a hook begins: afterwards its step is no quick one. */
static void count_quick(thread *t) {
    t->quantum -= (t->steps - t->quick_from) >> log_share();
    t->quick_from = t->steps;
    if (t->limit) t->kept = t->steps;
    KEEP_ORDER();
    t->asks = 1;
    KEEP_ORDER();
}

/* Nothing ends the thread in a hook: it may have the guard, or stand among the waiters. */
void begin_inside(thread *t) {
    t->inside = 1;
    KEEP_ORDER();
    if (t->is_cancelled_anywhere) pthread_setcancelstate(PTHREAD_CANCEL_DISABLE, &t->cancel_state);
}

void end_inside(thread *t) {
    end_hook(t);
    if (t->is_cancelled_anywhere) pthread_setcancelstate(t->cancel_state, 0);
}

/* At the end of a hook: the next ones may be quick until the slice ends or, if nobody waits, for a while. */
static void let_be_quick(thread *t) {
    uint64_t most = t->is_cancelled_anywhere ? 0 : begin_quick(t),
        left = t->quantum > 1 ? (uint64_t)(t->quantum - 1) << log_share() : 0;
    if (!left && !waiters && !is_replaying) left = LEAST_LAST_SLICE;
    if (left > most) left = most;
    t->limit = left ? t->steps + left : 0;
}

static RARE void end_slice(thread *t) {
    if (hand_over(t, AT_SLICE_END)) take_or_wait(t, 1);
}

/* Without the turn: put asks for it. */
thread *enter_access(enum yields yields) {
    thread *t = self;
    if (!t || !recording || t->inside) return 0;
    begin_inside(t);
    count_quick(t);
    if (--t->quantum <= 0 && (is_replaying ? yields : yields == MAY_YIELD && is_wanted(t))) end_slice(t);
    else t->steps++;
    if (segment_records && yields && is_segment_full()) next_segment(t);
    return t;
}

thread *enter(enum yields yields) {
    thread *t = enter_access(yields);
    if (t && !keep_turn(t)) take_turn(t);
    return t;
}

void deliver_deferred(thread *t) {     /* it is pending: it comes when the mask lets it */
    t->deferred = 0;
    pthread_sigmask(SIG_SETMASK, &t->mask, 0);
}

void leave(thread *t) {
    TEST_YIELD();
    if (t == quick_holder) let_be_quick(t);
    t->quick_from = t->steps;
    end_inside(t);
}

/* A loop that makes one read again and again, or an update that leaves the value as it is, waits for another
   thread: that one shall run. */
void note_spin(thread *t, uint64_t last) {
    if (t->last != last) {
        t->last = last;
        t->spins = 0;
    } else if (++t->spins > 3) {
        t->spins = 0;
        if (!is_replaying) t->quantum = 0;
    }
}

/* ---- begin and end ---- */
void begin_turns(int slice_, uint64_t seed) {
    given_slice = slice_;
    random_state ^= seed * 0x9E3779B97F4A7C15ull;
    if (!random_state) random_state = 1;
    for (int i = 0; i < 8; i++) draw();
    begin_slices();
    has_barrier = ask_for_barrier(MEMBARRIER_CMD_REGISTER_PRIVATE_EXPEDITED);
    madvise(&wiped, sizeof wiped, MADV_WIPEONFORK);
    recording = was_recording = 1;
}

void restart_turns(thread *t) {
    waiters = is_awaited = doubters = 0;
    held = leaving = 0;
    thread_count = free_count = 0;
    leave_list(t);
    number_thread(t);
    t->system_id = syscall(SYS_gettid);
    t->quantum = 1;
    atomic_store(&turn, next_word(t, atomic_load(&turn)));
    atomic_store(&guard, 0);
    has_barrier = ask_for_barrier(MEMBARRIER_CMD_REGISTER_PRIVATE_EXPEDITED);
    recording = was_recording = 1;
    holder = t;
    name_quick_holder();
}

int end_turns(void) {
    lock_guard();
    int was = recording;
    recording = was_recording = 0;
    name_quick_holder();
    if (holder) end_quick(holder);
    for (int i = 0; i < waiters; i++) wake(waiting[i]);
    if (was) close_list();
    unlock_guard();
    return was;
}

/* ---- the memory of threads: used again when one is over, for a waiter may still look into it ---- */
static thread *ended;                  /* a list; with the turn */

/* With the turn, so no word of the turn names it from here on. */
void end_thread(thread *t) {
    t->is_over = 1;
    free_numbers[free_count++] = t->number;
    t->next_ended = ended;
    ended = t;
}

/* With the turn. Its handle may be another one's as soon as it is gone. */
void come_to_end(thread *t, enum way_to_end way) {
    t->ends |= way;
    if (t->ends != (IS_DETACHED | LEAVES)) return;
    t->handle = 0;
    t->next_ended = leaving;
    leaving = t;
}

static void end_those_gone(void) {
    for (thread **at = &leaving, *t; (t = *at);)
        if (is_gone(t->system_id)) {
            *at = t->next_ended;
            end_thread(t);
        } else at = &t->next_ended;
}

thread *new_thread(void) {             /* with the turn; it may sleep in the system */
    end_those_gone();
    thread *t = ended;
    if (t) {
        ended = t->next_ended;
        memset(t, 0, sizeof *t);
    } else {
        t = mmap(0, sizeof *t + MOST_FRAMES * sizeof *t->frames, PROT_READ | PROT_WRITE, NEW_MEMORY, -1, 0);
        if (t == MAP_FAILED) return 0;
    }
    t->frames = t->own_frames;
    return t;
}

int number_thread(thread *t) {         /* with the turn */
    if (thread_count == THREAD_NUMBERS && !free_count) return 0;
    if (thread_count <= MOST_STARTS) begin_slices();
    t->may_be_held = are_slices_short() && draw() & 1;
    t->serial = ++serials;
    t->told = context_at(t, 0);
    set_depth(t, t->depth);
    t->number = thread_count < THREAD_NUMBERS ? thread_count++ : free_numbers[--free_count];
    threads[t->number] = t;
    t->reader = reader_of(t->serial, t->number);
    return 1;
}

thread *thread_of(pthread_t handle) {  /* asked before a join: a handle is used again after it */
    for (uint32_t i = thread_count; i-- > 0;)
        if (threads[i]->handle == handle && !threads[i]->is_over) return threads[i];
    return 0;
}

thread *newest_with(void *argument) {  /* of what it runs; with the turn */
    thread *newest = 0;
    for (uint32_t i = 0; i < thread_count; i++)
        if (threads[i]->argument == argument && !threads[i]->is_over
            && (!newest || threads[i]->serial > newest->serial)) newest = threads[i];
    return newest;
}

void for_all_threads(void (*step)(thread *t)) {
    for (uint32_t i = 0; i < thread_count; i++)
        if (!threads[i]->is_over && threads[i]->began && !is_gone(threads[i]->system_id)) step(threads[i]);
}
