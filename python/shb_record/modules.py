"""The modules of the recorded programs: which have no hooks, and which no debug information."""

import collections
import functools
import itertools
import os
import subprocess

from shb_common.locations import bare
from shb_common.words import counted, printable
from shb_record.parts import LIBRARY, READER

# The C library's own, whose functions the recorder stands for, the loader, the C++ library, whose templates
# have the hooks, and what compilers add, which orders nothing but by the C library.
OF_THE_SYSTEM = {b"lib" + name for name in b"c m dl rt pthread resolv util gcc_s tsan stdc++ c++ c++abi "
                                           b"gfortran quadmath ubsan asan".split()}
LOADERS = b"linux-vdso", b"linux-gate", b"ld-linux", b"ld-musl"
# what of it isn't recorded is known by the calls, so it may stand in call stacks
STOOD_FOR = (b"libgomp.so",)
ORDERS_NOTHING = b"omp_get_"
COMPILED = b"compiled with hooks", b"compiled without hooks"    # gcc's files of modules with hooks
MOST_NAMED = 6
MOST_TOLD = 64 << 20    # bytes of what is told of a module
LOADER = "/lib64/ld-linux-x86-64.so.2"


class Modules:
    """What is known of the modules of all processes that had a second thread."""

    def __init__(self):
        self.kinds = {}     # by path: what is told of its kind
        # modules and files that stand in call stacks: they call the program, or start its threads
        self.callers = set()

    def add(self, paths):
        for path in paths:
            name = os.path.basename(path)
            is_of_the_system = (name.startswith(LOADERS)
                                or name.replace(b"-", b".").partition(b".")[0] in OF_THE_SYSTEM)
            if b"/" in path and not is_of_the_system and not path.startswith(os.fsencode(LIBRARY)):
                self.kinds[path] = told(path, "kind")

    def those(self, kind, paths=None):
        """The modules of a kind, of all or of these."""
        return [path for path in self.kinds if kind in self.kinds[path] and (paths is None or path in paths)]

    def names(self, what, paths):
        """All that is told of this in modules."""
        return {name for path in paths for name in self.kinds[path][what]}

    def has_no_hooks(self):
        """Whether there is code, and none of it has hooks."""
        return 0 < len(self.kinds) == len(self.those(b"bare"))

    def lines(self):
        """A line on each kind of code of which less is seen. Modules that recorded code calls, or that call
        it, come first."""
        without, rust, nameless = map(self.those, (b"bare", b"rust", b"nameless"))
        called = self.names(b"library", self.those(b"hooked"))
        called |= {name for file, name in self.stand_for(self.kinds) if file in self.callers}
        without = [path for path in without if not os.path.basename(path).startswith(STOOD_FOR)]
        if without:
            yield (f"Code without -fsanitize=thread isn't seen: {named(without, called)}. Its POSIX and C++ "
                   "locks are; what its own atomics or futexes order may be a false race. Build it with the "
                   "flag.")
        with_hooks, bare_files = (sum((its[what] for its in self.kinds.values()), []) for what in COMPILED)
        if bare_files:
            yield (f"Compiled without -fsanitize=thread, so not seen: {named(bare_files, ())} "
                   f"({len(bare_files):,} of {counted(len(with_hooks + bare_files), 'file')}).")
        if rust:
            yield (f"Rust's own library in {named(rust, called)} has no hooks: what its locks, channels and "
                   "scopes order isn't seen, and races of that are false. Build it with the program "
                   "(-Zbuild-std).")
        if nameless:
            yield f"Without debug information (-g) locations are addresses: {named(nameless, called)}."

    def calls(self, paths):
        """By the name of a function of these modules the modules without hooks that it calls, but for calls
        that are recorded; and by what stands in call stacks for a module without hooks, that."""
        found, hooked = collections.defaultdict(set), self.those(b"hooked", paths)
        for name, module in self.stand_for(paths):
            if not module.startswith(STOOD_FOR):
                found[name].add(module)
        needed = self.names(b"library", hooked)
        of_module = {function: os.path.basename(path) for path in self.those(b"bare", paths)
                     if os.path.basename(path) in needed for function in told(path, "calls")[b"export"]
                     if not function.startswith(ORDERS_NOTHING)}
        if of_module:
            for function in told(f"{LIBRARY}/libtsan.so", "calls")[b"export"]:
                of_module.pop(function, None)
        for calls in [told(path, "calls") for path in hooked] if of_module else ():
            for function, called in zip(calls[b"caller"], calls[b"called"]):
                if called in of_module:
                    found[bare(function)].add(of_module[called])
        return found

    def stand_for(self, paths):
        """What stands in locations for modules without hooks: these, and source files of theirs alone."""
        others = self.names(b"file", self.those(b"hooked", paths))
        return {(file, name) for path in self.those(b"bare", paths) for name in [os.path.basename(path)]
                for file in {name, *self.names(b"file", [path]) - others}}


def named(paths, called):
    """The names of modules, those that are called first."""
    names = sorted({os.path.basename(path) for path in paths}, key=lambda name: (name not in called, name))
    names = list(map(printable, names))
    more = [f"{len(names) - MOST_NAMED} more"] if len(names) > MOST_NAMED else []
    return ", ".join([*names[:MOST_NAMED], *more])


@functools.lru_cache(maxsize=None)
def told(path, question):
    """What the reader of modules tells of one, names by what they are; nothing of what it can't read."""
    found = collections.defaultdict(list)
    try:
        with subprocess.Popen([READER, path, question], stdin=subprocess.DEVNULL, stdout=subprocess.PIPE,
                              stderr=subprocess.DEVNULL, start_new_session=True) as ran:
            *texts, _ = ran.stdout.read(MOST_TOLD).split(b"\0")
    except (OSError, ValueError):
        return found
    for what, name in zip(texts[::2], texts[1::2]):
        found[what].append(name)
    return found


def is_behind(program, variables):
    """Whether the loader, which has this environment, would put the recorder's library behind the C library:
    then no thread would be seen. So it is where a library of a program without hooks has them. Or behind one
    that is preloaded, perhaps an allocator: then no block would be seen."""
    kind = told(os.fsencode(os.path.realpath(program)), "kind")
    if b"program" not in kind or is_first(kind[b"library"]):
        return any(map(is_library, kind[b"library"])) and bool(variables.get("LD_PRELOAD"))
    try:
        listed = subprocess.run([LOADER, "--list", program], env=variables, stdout=subprocess.PIPE,
                                stderr=subprocess.DEVNULL).stdout
    except OSError:
        return False
    names = [os.path.basename(line.split()[0]) for line in listed.splitlines() if line.strip()]
    return not is_first(names) and any(map(is_library, names))


def is_first(names):
    """Whether the recorder's library, or gcc's own that it stands for, comes before the C library."""
    return any(map(is_library, itertools.takewhile(lambda name: name != b"libc.so.6", names)))


def is_library(name):
    return name.startswith(b"libtsan.so")
