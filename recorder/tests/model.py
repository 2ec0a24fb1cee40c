"""The protocol of turn.c as a model, and a search through all interleavings of small programs.

A program is a word for each thread; its letters are
  h  a hook of either kind and the access after it  s  a system call that sleeps, not wrapped
  q  the same, and a quick one where it may be      c  a computation of more than 20 ms without a hook
  b  a wrapped blocking call, recorded after it     x  the end of the recording
Properties, in every state:
  window    no thread is between its record and its access while another writes a record or makes an access
  record    no access without its record while the recording is on
  wake      no thread sleeps on its futex while the turn names it, nobody has it, or the recording has ended,
            unless some thread is on its way to wake it: no hand-over needs a timeout
  listed    a thread stands among the waiters once from its first step in take_turn to its last, or from when
            it gave the turn at the end of its slice, else never
  due       while a list of turns is followed nobody has the turn but the thread of its next entry
  turn      by the list of turns that is written each record is made in the turn in which it was made, and a
            turn by a list that is followed ends after as many steps as that says
  quick     nobody is named as the quick holder but who has the turn
  end       from every state the end of all threads can be reached
The steps are those at which threads meet: each load, store and swap of the turn and of a thread's wakes, the
guard's lock, the futex calls, the look at the holder. The count in the turn's word is not stored: a thread's
view of the word is fresh until the word changes and never again, for counts don't return; likewise its view
of its wakes. A look may say yes wherever the holder isn't between the swap in enter, put or take_turn and its
access: more often than turn.c says it.

A hook of the quick holder raises no count. A waiter doubts in two steps: it takes the name away, which that
thread may see at once or not; and makes a barrier, after which it does. At a later look it goes on doubting
or ends it: at more looks than turn.c.

A replay has a list of turns too: pairs of a thread and the number of steps (hooks, and calls that may block)
after which it loses the turn. A waiter may leave it at each of its looks: sooner than turn.c does.
"""

import typing

NONE = -1
PROGRAMS = ["hqsh h", "hhh hhh", "hbh hsh", "hch hbh", "hsb hcb", "hxh hbh", "h h h", "h s b"]
REPLAYS = [("hh hhh", ((0, 1), (1, 2), (0, 3), (1, 4))), ("hb hbh", ((1, 1), (0, 2), (1, 2), (0, 3), (1, 4))),
           ("hsh hc", ((0, 1), (1, 1), (0, 3), (1, 2))), ("hxh hb", ((0, 2), (1, 2))),
           ("hqhh h", ((0, 3), (1, 1), (0, 4))),
           # the last two don't fit
           ("hh hb", ((1, 3), (0, 1), (1, 9))), ("hb hh", ((0, 1), (0, 2), (1, 0), (0, 9)))]
LONG_REPLAYS = [("hhh hhh", ((0, 1), (1, 2), (0, 4), (1, 4))), ("h b h", ((2, 2), (1, 1), (0, 2), (1, 2)))]
LONG_PROGRAMS = ["hh b h", "hhhh hhhh", "hbhsh hchbh", "hsxh hbch", "hh hh h", "hs hb h", "hx hb h",
                 "hc hh b", "hb hs hh", "hh hh hh"]

# Bugs to plant, and the property that each breaks.
PUT_DOES_NOT_ASK = "put does not ask for the turn again"
PUT_SKIPS = "put skips the record where the turn is lost"
NO_COUNT = "a hook does not raise the count"
TAKES_BLINDLY = "a waiter takes the turn over though its word has changed"
WORD_FIRST = "a waiter reads the word before its wakes"
UNLISTED = "the giver takes the next holder off the waiters"
NAMED_RUNS = "a thread runs when it is named, without accepting"
NO_DOUBT = "a waiter looks without a doubt"
NO_BARRIER = "a waiter that doubts makes no barrier"
NO_GUARD = "a waiter doubts without the guard"
ENDS_EARLY = "a waiter ends its doubt before it takes the turn over"
ONE_DOUBTER = "the end of a doubt names the holder while another waiter doubts"
STAYS_NAMED = "who gives the turn stays the quick holder"
LEAVES_HOLDER = "who takes the turn over leaves the holder as it was"
EARLY_STEP = "a hook counts its step before it tells that the quick ones have ended"
ONLY_KEPT = "who takes the turn over counts no quick hook"
LOST_IN_GROW = "a waiter takes the turn over from a thread that sleeps for room"
ANY_STEP = "a holder that is about to ask for the turn has reached the end of its turn"
NOT_DUE = "a waiter that isn't due takes a turn that nobody has"
LEAVES_IT_TO_NOBODY = "who leaves the list gives nobody the turn that nobody has"
BUGS_OF_REPLAYS = {NOT_DUE, LEAVES_IT_TO_NOBODY, ANY_STEP}
BUGS = {PUT_DOES_NOT_ASK: "window", PUT_SKIPS: "record", NO_COUNT: "window", TAKES_BLINDLY: "window",
        WORD_FIRST: "wake", UNLISTED: "wake", NAMED_RUNS: "record", NOT_DUE: "due",
        LEAVES_IT_TO_NOBODY: "wake",
        NO_DOUBT: "window", NO_BARRIER: "window", NO_GUARD: "window", ENDS_EARLY: "window",
        ONE_DOUBTER: "window",
        STAYS_NAMED: "quick", LEAVES_HOLDER: "quick", EARLY_STEP: "turn", ONLY_KEPT: "turn",
        LOST_IN_GROW: "turn", ANY_STEP: "turn"}


NO_LIMIT, ENDED, MAY_BE_QUICK = range(3)  # may its hooks be quick?


class Thread(typing.NamedTuple):
    at: int = 0  # in its program
    step: str = "next"
    after: str = ""  # the step after take_turn or give_turn
    word: bool = False  # is its view of the turn's word fresh?
    wakes: bool = False  # is its view of its wakes fresh?
    look: bool = False  # its sleep ended by the timeout: it looks at the holder
    target: int = 0  # whom it wakes
    steps: int = 0  # so far
    kept: int = 0  # those that were in its turns, but for quick hooks since
    made: int = 0  # those whose record is made
    limit: int = NO_LIMIT
    doubts: bool = False
    sees_name: bool = False  # it may see itself as the quick holder, though the name was taken away


class State(typing.NamedTuple):
    threads: tuple
    holder: int = NONE
    guard: int = NONE
    waiting: frozenset = frozenset()
    on: bool = True  # is the recording on?
    window: int = NONE  # who is between its record and its access
    accepted: int = NONE  # who has accepted the turn, and has neither given nor lost it
    quick: int = NONE  # the quick holder
    doubters: int = 0
    runs: int = NONE  # who got the turn last
    turns: tuple = ()  # the turns to come, and the one that has begun, while they are followed


class Broken(Exception):
    """A property that doesn't hold, and where."""


WAITING_STEPS = {"read_wakes", "read_word", "doubt", "take_name", "count_doubt", "barrier", "end_doubt",
                 "name_again", "look_at_holder",
                 "accept", "swap_in", "leave", "leaving", "wait", "sleep"}
WAKING_STEPS = {"raise_wakes", "wake"}
COMES_BACK = {"keep", "put"}  # after the end of a slice: among the waiters from when it gave the turn
IN_ITS_ACCESS = {"check", "record", "grow", "access"}


class Step:
    """One step of one thread: the method of its name gives the states that may follow."""

    def __init__(self, state, number, program, bug):
        self.state, self.number, self.program, self.bug = state, number, program, bug
        self.thread = state.threads[number]
        self.first_of_wait = "read_word" if bug == WORD_FIRST else "read_wakes"

    def to(self, step, threads=None, changed=False, shared=(), **own):
        """The state in which this thread is at `step`; `changed`: the turn's word, so that all views of
        it are old."""
        threads = list(threads or self.state.threads)
        if changed:
            threads = [thread._replace(word=False) for thread in threads]
            own["word"] = False
        threads[self.number] = self.thread._replace(step=step, **own)
        return self.state._replace(threads=tuple(threads), **dict(shared))

    def locked(self, step):
        if self.state.guard == NONE:
            yield self.to(step, shared={"guard": self.number})

    def has_turn(self):
        return self.state.holder == self.number

    def name(self, accepted, doubters, on=True):
        """What name_quick_holder changes."""
        return {"accepted": accepted, "doubters": doubters, "quick": NONE if doubters or not on else accepted}

    def got(self):
        """The turn, by this thread."""
        leaves = self.bug == LEAVES_HOLDER and self.state.accepted != NONE
        return self.without_doubt(self.state.accepted if leaves else self.number)

    # the list of turns
    def steps_in_turns(self, number):
        thread = self.state.threads[number]
        return thread.steps if thread.limit == MAY_BE_QUICK and self.bug != ONLY_KEPT else thread.kept

    def has_ended(self, number):
        return (self.state.threads[number].steps if self.bug == ANY_STEP
                else self.steps_in_turns(number)) >= self.state.turns[0][1]

    def is_due_to_give(self):
        return bool(self.state.turns) and self.thread.steps >= self.state.turns[0][1]

    def may_get(self):
        turns, holder = self.state.turns, self.state.holder
        if not turns or holder == self.number or holder == NONE and self.bug == NOT_DUE:
            return True
        if holder == NONE:
            return turns[0][0] == self.number
        return self.has_ended(holder) and len(turns) > 1 and turns[1][0] == self.number

    def begun(self):
        """What changes in the lists when this thread has got the turn."""
        turns, runs = self.state.turns, self.state.runs
        # other bugs are to be found by a worse effect
        if runs not in (NONE, self.number) and BUGS.get(self.bug, "turn") == "turn":
            self.check_entry(runs)
        return {"runs": self.number, "turns": turns[1:] if turns and turns[0][0] != self.number else turns}

    def check_entry(self, number):
        """The one that is written, where another thread has got the turn."""
        thread, steps, turns = self.state.threads[number], self.steps_in_turns(number), self.state.turns
        if steps != thread.made:
            raise Broken(f"turn: thread {number} has made {thread.made} records, its turn ends after {steps}")
        if turns and turns[0][0] == number and turns[0][1] != steps:
            raise Broken(f"turn: thread {number} has had the turn for {steps} steps, it was to end after "
                         f"{turns[0][1]}")

    def given(self):
        """The list when it has given the turn."""
        return self.state.turns[1:] if self.is_due_to_give() else self.state.turns

    def slow(self):
        """What changes where a hook begins that isn't quick, but for its step."""
        if self.thread.limit != MAY_BE_QUICK or self.bug == EARLY_STEP:
            return {}
        return {"kept": self.thread.steps, "limit": ENDED}

    def with_turn(self):
        """What changes in a thread that has the turn, in a hook that isn't quick."""
        return {"limit": NO_LIMIT, "kept": self.thread.steps}

    # between two hooks
    def next(self):
        program = self.program[self.number]
        if self.thread.at == len(program):
            yield self.to("give", after="gone")
            return
        letter = program[self.thread.at]
        if letter == "q" and self.may_be_quick():
            yield self.in_window(steps=self.thread.steps + 1)
        if letter in "hq" and not (letter == "q" and self.is_named()):
            yield from self.hook()
        if letter in "bxsc":
            step, after = {"b": ("give", "blocked"), "x": ("stop", ""), "s": ("away", ""),
                           "c": ("away", "")}[letter]
            yield self.to(step, after=after, **self.slow())

    def is_named(self):
        return self.may_be_quick() and self.state.quick == self.number

    def may_be_quick(self):
        """Perhaps by what it saw."""
        is_named = self.state.quick == self.number or self.thread.sees_name
        return is_named and self.thread.limit == MAY_BE_QUICK and not self.is_due_to_give()

    def hook(self):
        for step in ("keep", "put"):  # enter; enter_access
            if not self.is_due_to_give():
                yield self.to(step, **{**self.slow(), "steps": self.thread.steps + 1})
            if self.is_due_to_give() or not self.state.turns and self.state.waiting:  # its quantum is used up
                yield self.to("give", after=step, **self.slow())

    def away(self):
        yield self.to("next", at=self.thread.at + 1)

    def blocked(self):
        yield self.to("take", after="check")

    # keep_turn, in enter, or where that has none (enter_access) in put; where both have it the second
    # changes nothing
    def keep(self):
        yield from self.ask("check")

    def put(self):
        if self.bug == PUT_DOES_NOT_ASK:
            yield self.to("check", after="")
        elif self.bug in (PUT_SKIPS, NAMED_RUNS) and not self.has_turn():
            yield self.to("access_unrecorded", after="")
        else:
            yield from self.ask("check")

    def ask(self, after):
        is_quick = self.state.quick == self.number
        if is_quick or self.thread.sees_name:
            yield self.to(after, after="", **self.with_turn())
        if not is_quick:
            yield (self.to("raise_count", after=after, word=True) if self.has_turn()
                   else self.to("take", after=after))

    def raise_count(self):
        if self.thread.word:
            yield self.to(self.thread.after, after="", word=False, changed=self.bug != NO_COUNT,
                          **self.with_turn())
        else:
            yield self.to("take")

    # put: the record, then the access after the hook
    def check(self):
        if not self.state.on:
            yield self.to("next", at=self.thread.at + 1)
            return
        yield self.to("record")
        yield self.to("grow")

    def grow(self):  # asleep inside the hook, for disk space
        yield self.to("put" if self.bug == LOST_IN_GROW else "record")

    def record(self):
        """Afterwards its hooks may be quick, if it is the quick holder or sees itself so."""
        if self.state.quick == self.number or self.thread.sees_name:
            yield self.in_window(limit=MAY_BE_QUICK)
        if self.state.quick != self.number:
            yield self.in_window()

    def in_window(self, **own):
        if self.state.window != NONE:
            raise Broken(f"window: thread {self.number} records, thread {self.state.window} has yet to make "
                         "its access")
        return self.to("access", made=own.get("steps", self.thread.steps), shared={"window": self.number},
                       **own)

    def access(self):
        if self.state.window != self.number:
            raise Broken(f"window: thread {self.number}")
        yield self.to("next", at=self.thread.at + 1, shared={"window": NONE})

    def access_unrecorded(self):
        if self.state.on:
            raise Broken(f"record: thread {self.number} makes an access without one")
        yield self.to("next", at=self.thread.at + 1)

    # give_turn
    def give(self):
        yield from self.locked("hand_over")

    def hand_over(self):
        waiting, after, steps = self.state.waiting, self.thread.after, self.thread.steps + 1
        if not self.has_turn():
            yield self.to(after, after="", shared={"guard": NONE}, steps=steps)
            return
        own = {**self.with_turn(), "steps": steps, "sees_name": False}
        turns = self.given()
        candidates = waiting & {turns[0][0]} if turns else waiting
        given = {"guard": NONE, "turns": turns,
                 **({} if self.bug == STAYS_NAMED else self.name(NONE, self.state.doubters))}
        comes = {self.number} if after in COMES_BACK else set()
        if not candidates:
            step, later = self.after_hand_over()
            yield self.to(step, after=later, changed=True,
                          shared={**given, "holder": NONE, "waiting": waiting | comes}, **own)
        for next in candidates:
            left = (waiting - {next} if self.bug in (UNLISTED, NAMED_RUNS) else waiting) | comes
            yield self.to("raise_wakes", changed=True, target=next,
                          shared={**given, "holder": next, "waiting": left}, **own)

    def raise_wakes(self):
        threads = list(self.state.threads)
        threads[self.thread.target] = threads[self.thread.target]._replace(wakes=False)
        yield self.to("wake", threads)

    def wake(self):
        threads = list(self.state.threads)
        if threads[self.thread.target].step == "sleep":
            threads[self.thread.target] = self.woken(threads[self.thread.target])
        step, after = self.after_hand_over()
        yield self.to(step, threads, after=after, target=0)

    def after_hand_over(self):
        after = self.thread.after
        return (self.first_of_wait, "check") if after in COMES_BACK else (after, "")

    def woken(self, thread):
        if self.bug == NAMED_RUNS:
            return thread._replace(step=thread.after, after="", word=False, wakes=False, look=False,
                                   doubts=False)
        return thread._replace(step=self.first_of_wait, look=False)

    # take_turn
    def take(self):
        yield from self.locked("take_free")

    def done(self, changed=False, **shared):
        return self.to(self.thread.after, changed=changed, shared={"guard": NONE, **shared},
                       after="", word=False, wakes=False, look=False, doubts=False, **self.with_turn())

    def without_doubt(self, accepted, on=True):
        """What is left where this thread doubts no more, if it did."""
        left = self.state.doubters - self.thread.doubts
        return {**self.name(accepted, 0 if self.bug == ONE_DOUBTER else left, on), "doubters": left}

    def take_free(self):
        if not self.state.on:
            yield self.done()
        elif self.state.holder == NONE and self.may_get():
            yield self.done(changed=True, holder=self.number, **self.begun(), **self.got())
        else:
            waiting = self.state.waiting | {self.number}
            yield self.to(self.first_of_wait, shared={"guard": NONE, "waiting": waiting})

    def read_wakes(self):
        yield self.to("wait" if self.bug == WORD_FIRST else "read_word", wakes=True)

    def read_word(self):
        if not self.state.on or self.has_turn():
            yield self.to("accept", word=True)
        elif not self.thread.look:
            yield self.to(self.before_sleep(), word=True)
        elif self.thread.doubts or self.state.holder == NONE or self.bug == NO_DOUBT:
            yield self.to("look_at_holder", word=True)
            if self.thread.doubts:
                yield self.to("end_doubt", word=True)
        else:
            yield self.to("take_name" if self.bug == NO_GUARD else "doubt")
            yield self.to(self.before_sleep(), word=True)  # the word is another one than at its last look

    def doubt(self):
        yield from self.locked("take_name")

    def take_name(self):
        threads = list(self.state.threads)
        if self.state.quick != NONE:
            threads[self.state.quick] = threads[self.state.quick]._replace(sees_name=True)
        if self.bug == NO_GUARD:
            yield self.to("count_doubt", threads, shared={"quick": NONE})
        else:
            yield self.to("barrier", threads, doubts=True,
                          shared={"guard": NONE, "quick": NONE, "doubters": self.state.doubters + 1})

    def count_doubt(self):  # where it is a step of its own
        yield self.to("barrier", doubts=True, shared={"doubters": self.state.doubters + 1})

    def barrier(self):
        threads = (self.state.threads if self.bug == NO_BARRIER
                   else [thread._replace(sees_name=False) for thread in self.state.threads])
        yield self.to("look_at_holder", threads, word=True)

    def end_doubt(self):
        yield from self.locked("name_again")

    def name_again(self):
        after = "accept" if self.bug == ENDS_EARLY else self.before_sleep()
        yield self.to(after, doubts=False,
                      shared={"guard": NONE, **self.without_doubt(self.state.accepted, self.state.on)})

    def before_sleep(self):
        return "read_wakes" if self.bug == WORD_FIRST else "wait"

    def look_at_holder(self):
        yield self.to(self.before_sleep())
        if self.state.turns:
            yield self.to("leave")
        holder = self.state.holder
        hidden = IN_ITS_ACCESS - {"grow"} if self.bug == LOST_IN_GROW else IN_ITS_ACCESS
        if not self.thread.word or holder == NONE or self.state.threads[holder].step not in hidden:
            yield self.to("end_doubt" if self.bug == ENDS_EARLY and self.thread.doubts else "accept")

    def accept(self):
        yield from self.locked("swap_in")

    def swap_in(self):
        waiting = self.state.waiting - {self.number}
        if not self.state.on:
            yield self.done(waiting=waiting, **self.without_doubt(self.state.accepted, False))
        elif (self.thread.word or self.bug == TAKES_BLINDLY) and self.may_get():
            yield self.done(changed=True, waiting=waiting, holder=self.number, **self.begun(), **self.got())
        else:
            yield self.to(self.before_sleep(), shared={"guard": NONE})

    # leave_late_replay
    def leave(self):
        yield from self.locked("leaving")

    def leaving(self):
        left = {"guard": NONE, "turns": ()}
        if not self.thread.word:
            yield self.to(self.before_sleep(), shared={"guard": NONE})
        elif self.state.holder != NONE or self.bug == LEAVES_IT_TO_NOBODY:
            yield self.to(self.before_sleep(), shared=left)
        else:
            for next in self.state.waiting:
                own = {"wakes": False} if next == self.number else {}
                yield self.to(self.before_sleep(), self.with_woken(next), changed=True,
                              shared={**left, "holder": next}, **own)

    def with_woken(self, *waiters):
        threads = list(self.state.threads)
        for waiter in waiters:
            threads[waiter] = threads[waiter]._replace(wakes=False)
            if threads[waiter].step == "sleep":
                threads[waiter] = self.woken(threads[waiter])
        return threads

    def wait(self):  # the futex sleeps only if the wakes are as they were seen
        yield self.to("sleep") if self.thread.wakes else self.to(self.first_of_wait, look=False)

    def sleep(self):
        yield self.to(self.first_of_wait, look=True)

    # end_turns
    def stop(self):
        yield from self.locked("stopping")

    def stopping(self):
        yield self.to("next", self.with_woken(*self.state.waiting), at=self.thread.at + 1,
                      shared={"guard": NONE, "on": False, "quick": NONE})

    def gone(self):
        return ()


def check(state, bug):
    """Raises Broken where a property of single states doesn't hold."""
    waking = {thread.target for thread in state.threads if thread.step in WAKING_STEPS}
    if state.quick not in (NONE, state.holder):
        raise Broken(f"quick: thread {state.quick} is named, thread {state.holder} has the turn")
    if state.turns and state.holder not in (NONE, state.turns[0][0]):
        raise Broken(f"due: thread {state.holder} has the turn of thread {state.turns[0][0]}")
    for number, thread in enumerate(state.threads):
        is_free = state.holder == NONE and (not state.turns or state.turns[0][0] == number)
        if (thread.step == "sleep" and number not in waking
            and (state.holder == number or is_free or not state.on)):
            raise Broken(f"wake: thread {number} sleeps and only a timeout wakes it")
        waits = thread.step in WAITING_STEPS or thread.step in WAKING_STEPS and thread.after in COMES_BACK
        if (number in state.waiting) != waits and bug != UNLISTED:
            raise Broken(f"listed: thread {number} at {thread.step}")


def search(program, bug="", turns=()):
    """Searches all states of a program, and gives their number; raises Broken at the first that
    breaks a property."""
    start = State(tuple(Thread() for _ in program), turns=turns)
    numbers, before, todo, ends = {start: 0}, [[]], [start], []
    while todo:
        state = todo.pop()
        if all(thread.step == "gone" for thread in state.threads):
            ends.append(numbers[state])
        for number, thread in enumerate(state.threads):
            for after in getattr(Step(state, number, program, bug), thread.step)():
                if after not in numbers:
                    if bug != NAMED_RUNS:  # that one is to be found by its worst effect
                        check(after, bug)
                    numbers[after] = len(numbers)
                    before.append([])
                    todo.append(after)
                before[numbers[after]].append(numbers[state])
    without_end = len(numbers) - count_leading_to(ends, before)
    if without_end:
        raise Broken(f"end: {without_end} states from which not all threads can end")
    return len(numbers)


def count_leading_to(ends, before):
    """How many states lead to one of `ends`."""
    reached, todo = set(ends), list(ends)
    while todo:
        for state in before[todo.pop()]:
            if state not in reached:
                reached.add(state)
                todo.append(state)
    return len(reached)


def faults(bug):
    """What breaks in the programs where the bug is planted."""
    for program, turns in REPLAYS if bug in BUGS_OF_REPLAYS else [(program, ()) for program in PROGRAMS]:
        try:
            search(program.split(), bug, turns)
        except Broken as broken:
            yield str(broken)


if __name__ == "__main__":  # the longer search, by hand
    for words in PROGRAMS + LONG_PROGRAMS:
        print(f"{words}: {search(words.split())} states", flush=True)
    for words, turns in REPLAYS + LONG_REPLAYS:
        print(f"{words} by {turns}: {search(words.split(), turns=turns)} states", flush=True)
    for planted in BUGS:
        print(f"{planted}: {next(faults(planted))}", flush=True)
