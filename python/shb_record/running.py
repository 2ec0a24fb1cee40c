"""Runs of the program: one after the other, or at once, each by a process of its own, which has no other
child."""

import collections
import contextlib
import io
import itertools
import os
import select
import shlex
import shutil
import signal
import stat
import time

from shb_common.children import adopt_orphans
from shb_common.standard import tell
from shb_common.stops import STOPS
from shb_common.words import Refused, counted, printable
from shb_record.modules import is_behind, told
from shb_record.parts import LIBRARY, files_in, say

SEGMENT = 1 << 20  # records, with --live
WATCHED = STOPS | {signal.SIGCHLD}
IGNORED = signal.SIGPIPE, signal.SIGXFSZ   # by Python itself, which the program isn't to inherit
POLL = 0.2  # seconds: so often it is looked whether a segment is closed
PRELOADED = "libtsan.so.2"      # of our folder, as gcc's own is called
REPLAYED = "replayed.turns"  # in the folder of work: the list that is followed


def environment(options, number, folder):
    """Our library stands before gcc's own, under its name: so what was built for ThreadSanitizer is recorded
    as it is. Where it would come too late the program, and none that this one starts, has it loaded first;
    SHB_PRELOAD is what these have."""
    paths = [LIBRARY] + [path for path in [os.environ.get("LD_LIBRARY_PATH")] if path]
    replay = {"SHB_REPLAY": f"{folder}/{REPLAYED}"} if options.replay else {}
    segments = {"SHB_SEGMENT": os.environ.get("SHB_SEGMENT") or str(SEGMENT)} if options.live else {}
    variables = dict(os.environ, SHB_RECORD=f"{folder}/run{number}.%p{'.%s' * options.live}.rec",
                     SHB_SEED=str(options.seed + number - 1),
                     LD_LIBRARY_PATH=":".join(paths), **replay, **segments)
    if is_behind(shutil.which(options.program), variables):
        before = os.environ.get("LD_PRELOAD", "")
        variables.update(LD_PRELOAD=f"{PRELOADED} {before}", SHB_PRELOAD=before)
    return variables


class CannotRun(Refused):
    """The system can't start the program."""


def interpreter(program):
    """What is said of a script whose interpreter isn't there: the system names the script alone."""
    path = shutil.which(program) or program
    with contextlib.suppress(OSError), open(path, "rb") as file:
        first = file.readline(256)
        name = first[2:].split()[0] if first.startswith(b"#!") and first[2:].split() else b""
        if name and not os.path.exists(name):
            return f" (its interpreter {printable(name)})"
    return ""


def started(words, variables, blocked):
    """Starts the program, with its environment and the signals that are blocked in it. Returns its number."""
    try:
        return os.posix_spawnp(words[0], words, variables, setsigmask=blocked, setsigdef=IGNORED)
    except OSError as fault:
        raise CannotRun(f"{words[0]}: can't be run: {fault.strerror}{interpreter(words[0])}") from None


@contextlib.contextmanager
def watching():
    """Blocks the signals that are waited for. Gives those that were blocked before."""
    before = signal.pthread_sigmask(signal.SIG_BLOCK, WATCHED)
    try:
        yield before
    finally:
        signal.pthread_sigmask(signal.SIG_SETMASK, before)


class Run:
    """A run of the program, in which these signals are blocked. A signal that would end this command is
    passed on to the program and to what it leaves behind; what they did is shown all the same. While it runs
    `look` looks at what there is of it, and says whether it did."""

    def __init__(self, options, number, folder, look=None, blocked=None):
        # `stop` is the last signal to end it, `stopped` when the first came, `end` when it is killed, `own`
        # its status in a shell once it has ended
        self.wait, self.stop, self.stopped, self.end, self.own = options.wait, None, None, None, None
        with watching() as before:
            self.program = started(options.words, environment(options, number, folder),
                                   before if blocked is None else blocked)
            while not self.has_ended():
                pauses = [0 if look() else POLL] if look else []
                pauses += [self.end - time.monotonic()] if self.end else []
                self.take_signal(WATCHED, min(pauses, default=None))
            self.wait_for_orphans()

    def has_ended(self):
        ended, status = os.waitpid(self.program, os.WNOHANG)
        if ended:
            self.own = 128 + os.WTERMSIG(status) if os.WIFSIGNALED(status) else os.WEXITSTATUS(status)
        return ended != 0

    def take_signal(self, watched, seconds):
        """Waits for a signal, passes it on, and kills what was told to end and is still there. The terminal
        has told all by itself."""
        took = (signal.sigwaitinfo(watched) if seconds is None
                else signal.sigtimedwait(watched, max(seconds, 0)))
        if took and took.si_signo in STOPS:
            self.stop, self.stopped = took.si_signo, self.stopped or time.monotonic()
            if took.si_code <= 0:  # from a process, not from the terminal
                self.end = self.end or time.monotonic() + self.wait
                self.tell(self.stop)
        if self.end and time.monotonic() >= self.end:
            self.tell(signal.SIGKILL)

    def tell(self, number):
        """Sends a signal to the program, or to what it left behind."""
        for child in [self.program] if self.own is None else children():
            with contextlib.suppress(ProcessLookupError):
                os.kill(child, number)

    def wait_for_orphans(self):
        """Processes whose parent is gone are ours: their records end when they do. They are told to end where
        the program was."""
        if self.end:
            self.tell(self.stop)
        end = time.monotonic() + self.wait
        while True:
            try:
                ended, _ = os.waitpid(-1, os.WNOHANG)
            except ChildProcessError:
                return
            if ended:
                continue
            if time.monotonic() >= end:
                break
            self.take_signal(STOPS, 0.01)
        if self.end:
            self.tell(signal.SIGKILL)
        else:
            say(f"processes that the program started still run after {counted(self.wait, 'second')}; they "
                "are shown up to here")


def children():
    """The processes that are ours now."""
    try:
        with open(f"/proc/self/task/{os.getpid()}/children", "rb") as file:
            return list(map(int, file.read().split()))
    except OSError:
        return []


def jobs_of(options):
    most = options.jobs or (1 if is_input_given() else len(os.sched_getaffinity(0)))
    return 1 if options.live or options.replay else min(most, options.runs)


def is_input_given():
    """Does standard input have something, or may it get that? A terminal counts as none."""
    waiting = select.poll()
    waiting.register(0, select.POLLIN)
    return not stat.S_ISCHR(os.fstat(0).st_mode) and waiting.poll(0) != [(0, select.POLLHUP)]


class Worker:
    """The process that makes a run. What it and the program write is in files until it is this run's turn."""

    def __init__(self, options, number, folder):
        import tempfile  # takes its time, as `pickle` below, and one run does without
        new = lambda: tempfile.TemporaryFile(dir=folder)
        self.number, self.answer, out = number, new(), new()
        self.written = {1: out, 2: out if os.path.sameopenfile(1, 2) else new()}
        with watching() as before:
            self.process = os.fork()
            if not self.process:
                self.work(options, folder, before)

    def work(self, options, folder, blocked):
        """Makes the run, writes what became of it and what is to be said, and ends the process."""
        try:
            for descriptor, file in self.written.items():
                os.dup2(file.fileno(), descriptor)
            adopt_orphans()
            with contextlib.redirect_stderr(io.StringIO()) as said:
                try:
                    answer = Run(options, self.number, folder, blocked=blocked)
                except (Refused, OSError) as fault:
                    answer = fault
            import pickle  # takes its time, and one run does without
            pickle.dump((answer, said.getvalue()), self.answer)
            self.answer.flush()
        finally:
            os._exit(0)

    def run(self):
        """The run, which has ended. What was written is passed on."""
        for file in (self.answer, *self.written.values()):
            file.seek(0)
        for descriptor, file in self.written.items():
            with contextlib.suppress(OSError), open(descriptor, "wb", closefd=False) as to:
                shutil.copyfileobj(file, to)
        import pickle  # the same
        try:
            answer, said = pickle.load(self.answer)
        except EOFError:
            raise Refused(f"run {self.number}: the process that recorded it was killed") from None
        for line in said.splitlines():
            tell(line)
        if isinstance(answer, Exception):
            raise answer
        return answer


def runs(options, folder, look):
    """The runs that have ended, in their order. Those that are not asked for are ended, and leave nothing."""
    workers, numbers = collections.deque(), iter(range(1, options.runs + 1))
    try:
        for number in numbers if options.jobs == 1 else ():
            yield Run(options, number, folder, look)
        while True:
            for number in itertools.islice(numbers, options.jobs - len(workers)):
                workers.append(Worker(options, number, folder))
            if not workers:
                return
            stop, stopped = wait_for_first(workers)
            run = workers.popleft().run()
            if not run.stop:
                run.stop, run.stopped = stop, stopped
            yield run
    finally:
        end(workers)
        for path in (path for worker in workers for path in files_in(folder, f"run{worker.number}.")):
            os.unlink(path)


def wait_for_first(workers):
    """Waits until the first has ended, and passes on signals. Returns the last, and when one came first."""
    stop = stopped = None
    with watching():
        while os.waitpid(workers[0].process, os.WNOHANG) == (0, 0):
            took = signal.sigwaitinfo(WATCHED)
            if took.si_signo in STOPS:
                stop, stopped = took.si_signo, stopped or time.monotonic()
                for worker in workers if took.si_code <= 0 else ():
                    os.kill(worker.process, stop)
    return stop, stopped


def end(workers):
    """Ends them with all that they started: as soon as a process has ended its children are ours."""
    others = set(children()) - {worker.process for worker in workers}
    for child in iter(lambda: next(iter(set(children()) - others), None), None):
        os.kill(child, signal.SIGKILL)
        os.waitpid(child, 0)


MARKS = {b"Go build ID": "Go", b"/rustc/": "Rust"}  # that compilers leave in a program


def preloading(*words):
    """The command that records a program which loads our library first."""
    return shlex.join(["shb-record", "env", f"LD_PRELOAD={PRELOADED}", *words])


def cause(program):
    """Why the program left no record, as its file tells, in sentences."""
    path = shutil.which(program)
    with open(path, "rb") as file:
        content = file.read()
    if not content.startswith(b"\x7fELF"):
        return "No program that it started was compiled with -fsanitize=thread."
    has_library = b"libtsan.so" in content
    languages = [language for mark, language in MARKS.items() if mark in content]
    kind = told(os.fsencode(os.path.realpath(path)), "kind")
    if kind and b"program" not in kind:
        return "It is statically linked: link it dynamically, without -static."
    if any(name == b"libc.so" or name.startswith(b"libc.musl") for name in kind[b"library"]):
        return "It is linked with musl: the recorder needs glibc."
    if b"__asan_init" in content:
        return "It is built for AddressSanitizer: build it with -fsanitize=thread alone."
    if b"__tsan_init" not in content:
        return ("Was it compiled and linked with -fsanitize=thread? If only a plug-in was, run "
                f"`{preloading(program)}`. If it starts such a program, it must pass on SHB_RECORD and "
                "LD_LIBRARY_PATH.")
    if not has_library and languages:
        return (f"It has code in {languages[0]}, whose compiler links ThreadSanitizer's own library. C and "
                "C++ programs are recorded.")
    if not has_library:
        return ("ThreadSanitizer's own library is linked into it (by clang, or by gcc with -static-libtsan). "
                f"With clang link with -fno-sanitize-link-runtime -L{LIBRARY} -ltsan.")
    if not os.path.isdir("/proc/self"):
        return "There is no /proc here: mount it."
    return ("The recorder's library couldn't write (then it said so above), or it wasn't loaded: the program "
            "has rights of another user, or a search path of its own.")
