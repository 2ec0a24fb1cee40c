"""Libraries without hooks whose locks and queues are recorded as they are called: what these order is no
race, and a planted one is found."""

import html
import json
import os
import shutil
import subprocess

import recorder

LIBRARIES = recorder.HERE / "libraries"
RUNS = 3
# An allocator with the C library's own names, as some have; a block has its size before it.
ALLOCATOR = """#include <stddef.h>
#include <string.h>
static char room[1 << 26];
static size_t used;
void *__libc_memalign(size_t a, size_t n) {
    size_t end = __atomic_add_fetch(&used, n + 2 * (a < 16 ? a = 16 : a), __ATOMIC_RELAXED) & -a;
    char *p = room + (end - n & -a);
    ((size_t *)p)[-1] = n << 40;       /* the C library's own would take it for an address far away */
    return p;
}
void *__libc_malloc(size_t n) { return __libc_memalign(16, n); }
void *__libc_calloc(size_t k, size_t n) { return __libc_memalign(16, k * n); }
void __libc_free(void *p) { if (p) ((size_t *)p)[-1] = 0; }
size_t malloc_usable_size(void *p) { return ((size_t *)p)[-1] >> 40; }
void *__libc_realloc(void *p, size_t n) {
    void *new = __libc_malloc(n);
    if (p) memcpy(new, p, n < malloc_usable_size(p) ? n : malloc_usable_size(p));
    return new;
}
void *malloc(size_t n) { return __libc_malloc(n); }
void *calloc(size_t k, size_t n) { return __libc_calloc(k, n); }
void *realloc(void *p, size_t n) { return __libc_realloc(p, n); }
void free(void *p) { __libc_free(p); }
"""
ALLOCATES = """#include <pthread.h>
#include <stdlib.h>
static void *work(void *p) { return free(p), malloc(100); }
int main(void) {
    pthread_t t;
    void *p = malloc(5000);
    free(malloc(3000));
    pthread_create(&t, 0, work, p);
    pthread_join(t, &p);
    free((void *)p);
    return 0;
}
"""
# To be preloaded: it gives one block again and again. The program uses that in two threads, without order.
ONE_BLOCK = """#include <stddef.h>
void *__libc_malloc(size_t), __libc_free(void *);
static long block[1000];
void *malloc(size_t n) { return n == sizeof block ? block : __libc_malloc(n); }
void free(void *p) { if (p != block) __libc_free(p); }
"""
USES_ONE_BLOCK = """#include <pthread.h>
#include <stdlib.h>
#include <unistd.h>
static void use(void) {
    volatile long *p = malloc(8000);
    p[1] = 1;
    free((void *)p);
}
static void *work(void *unused) {
    use();
    return unused;
}
int main(void) {
    pthread_t t;
    pthread_create(&t, 0, work, 0);
    usleep(20000);
    use();
    return pthread_join(t, 0);
}
"""
# Its handlers of fork come before the recorder's.
FORK_HANDLERS = """#include <pthread.h>
static pthread_mutex_t locks[4];
static void take(void) { for (int k = 0; k < 4; k++) pthread_mutex_lock(locks + k); }
static void give(void) { for (int k = 0; k < 4; k++) pthread_mutex_unlock(locks + k); }
__attribute__((constructor)) static void begin(void) { pthread_atfork(take, give, give); }
void use(void) { take(), give(); }
"""
FORKS = """#include <pthread.h>
#include <sys/wait.h>
#include <unistd.h>
void use(void);
static pthread_mutex_t door = PTHREAD_MUTEX_INITIALIZER;
static int slots[64];
static void *count(void *seed_) {
    unsigned seed = (long)seed_;
    for (int k = 0; k < 3000; k++) {
        seed = seed * 1103515245 + 12345;
        pthread_mutex_lock(&door);
        slots[seed >> 20 & 63]++;
        pthread_mutex_unlock(&door);
    }
    return 0;
}
int main(void) {
    pthread_t t[4];
    use();
    for (long k = 0; k < 4; k++) pthread_create(t + k, 0, count, (void *)(k + 1));
    for (int k = 0; k < 5; k++) {
        int child = fork();
        if (!child) _exit(0);
        waitpid(child, 0, 0);
    }
    for (int k = 0; k < 4; k++) pthread_join(t[k], 0);
    return 0;
}
"""
# Its thread is begun past the recorder, as an allocator's own may be, takes its locks, and calls the program
# if it is asked to.
OWN_THREAD = """#define _GNU_SOURCE
#include <dlfcn.h>
#include <pthread.h>
#include <stdlib.h>
#include <unistd.h>
typedef int creator(pthread_t *, const pthread_attr_t *, void *(*)(void *), void *);
static pthread_mutex_t lock = PTHREAD_MUTEX_INITIALIZER;
static pthread_cond_t changed = PTHREAD_COND_INITIALIZER;
static pthread_once_t once = PTHREAD_ONCE_INIT;
static int rounds;
static void begin(void) { rounds = 1; }
static void *tidy(void *call) {
    pthread_once(&once, begin);
    for (int k = 0; k < 100; k++) {
        pthread_mutex_lock(&lock);
        rounds++;
        pthread_cond_signal(&changed);
        pthread_mutex_unlock(&lock);
        free(malloc(100));
        usleep(1);
    }
    if (call) ((void (*)(void))call)();
    return call;
}
void tidies(void (*call)(void)) {
    pthread_t t;
    ((creator *)dlsym(dlopen("libc.so.6", RTLD_NOW), "pthread_create"))(&t, 0, tidy, call);
    pthread_mutex_lock(&lock);
    while (rounds < 50) pthread_cond_wait(&changed, &lock);
    pthread_mutex_unlock(&lock);
    if (call) ((int (*)(pthread_t, void **))dlsym(dlopen("libc.so.6", RTLD_NOW), "pthread_join"))(t, 0);
}
"""
TIDIED = """#include <pthread.h>
void tidies(void (*)(void));
static int own, calls;
static void call(void) { calls++; }
static void *work(void *unused) {
    own++;
    return unused;
}
int main(int argc, char **argv) {
    pthread_t t;
    tidies(argc > 1 ? call : 0);
    pthread_create(&t, 0, work, 0);
    return pthread_join(t, 0) || calls != argc - 1;
}
"""

# Its constructor and destructor use what all threads share, one after the other by the loader's own lock.
PLUGIN = """extern int loads;
static int value;
__attribute__((constructor)) static void begin(void) { value = ++loads; }
__attribute__((destructor)) static void end(void) { value = --loads; }
int get(void) { return value; }
"""
LOADS = """#include <dlfcn.h>
#include <pthread.h>
#include <stdlib.h>
int loads;
static void *work(void *path) {
    for (int k = 0; k < 10; k++) {
        void *plugin = dlopen(path, RTLD_NOW);
        if (!plugin) exit(2);
        ((int (*)(void))dlsym(plugin, "get"))();
        dlclose(plugin);
    }
    return 0;
}
int main(void) {
    pthread_t t[3];
    if (!dlopen("one.so", RTLD_NOW)) exit(3);                /* by the program's own path of libraries */
    for (int k = 0; k < 3; k++) pthread_create(&t[k], 0, work, k % 2 ? "./one.so" : "./two.so");
    for (int k = 0; k < 3; k++) pthread_join(t[k], 0);
    return loads != 1;
}
"""
# What each of Debian's allocators is linked as; Fedora's have the same names.
ALLOCATORS = "libjemalloc.so.2", "libtcmalloc_minimal.so.4", "libmimalloc.so.2"


def flags(package):
    """What a program is compiled with that uses a library, or None where its headers aren't installed."""
    if not shutil.which("pkg-config"):
        return None
    asked = subprocess.run(["pkg-config", "--cflags", "--libs", package], stdout=subprocess.PIPE,
                           stderr=subprocess.DEVNULL)
    return None if asked.returncode else asked.stdout.decode().split()


class Libraries(recorder.Case):
    def one(self, name, package):
        """In each of some runs nothing races but the lines with the comment RACE; in some run each
        of these does."""
        more = flags(package)
        if more is None:
            self.skipTest(f"{package} isn't installed (pkg-config)")
        source, program, found = LIBRARIES / name, self.folder / "program", set()
        compiler = ["g++", "-std=c++17", "-fPIC"] if source.suffix == ".cc" else ["gcc"]
        recorder.must(recorder.call(*compiler, "-w", "-g", "-O1", "-fsanitize=thread", "-pthread", source,
                                    "-o", program, *more))
        planted = {f"{name}:{number}" for number, line in enumerate(source.read_text().splitlines(), 1)
                   if "RACE" in line}
        for seed in range(1, RUNS + 1):
            record = self.folder / f"{seed}.rec"
            how = {**recorder.settings(record, seed, recorder.OWN_SLICES),
                   "LD_LIBRARY_PATH": str(recorder.BUILT / "lib")}
            ran = recorder.call(program, env=how)
            self.assertEqual((ran.returncode, ran.stderr), (0, b""))
            found |= {place for pair, _ in recorder.listed(record, self.folder / f"{seed}.std")
                      for place in pair}
        self.assertEqual(found, planted)

    def test_qt_5(self):
        self.one("qt.cc", "Qt5Core")

    def test_qt_6(self):
        self.one("qt.cc", "Qt6Core")

    def test_glib(self):
        self.one("glib.c", "glib-2.0")

    def test_liburcu(self):
        self.one("urcu.c", "liburcu")

    def test_library_that_comes_by_dlopen(self):
        """Its functions aren't behind the recorder's in the loader's order, and are found nevertheless."""
        texts = {"library.c": "int g_mutex_trylock(int *m) { return !__atomic_exchange_n(m, 1, "
                              "__ATOMIC_ACQUIRE); }\nvoid g_mutex_lock(int *m) { while (!g_mutex_trylock(m)) "
                              "{} }\nvoid g_mutex_unlock(int *m) { __atomic_store_n(m, 0, __ATOMIC_RELEASE); "
                              "}\n",
                 "plugin.c": "void g_mutex_lock(int *), g_mutex_unlock(int *);\nint lock, counter;\n"
                             "void *use(void *u) { g_mutex_lock(&lock); counter++; g_mutex_unlock(&lock); "
                             "return u; }\n",
                 "host.c": "#include <dlfcn.h>\n#include <pthread.h>\nint main(void) {\n    pthread_t t;\n"
                           "    void *(*use)(void *) = (void *(*)(void *))dlsym(dlopen(\"./plugin.so\", "
                           "RTLD_NOW), \"use\");\n    pthread_create(&t, 0, use, 0);\n    use(0);\n    "
                           "return pthread_join(t, 0);\n}\n"}
        for name, text in texts.items():
            (self.folder / name).write_text(text)
        for words in (["-shared", "-fPIC", "library.c", "-o", "library.so"],
                      ["-fsanitize=thread", f"-B{recorder.BUILT}/lib/", "-shared", "-fPIC", "plugin.c",
                       "./library.so", "-o", "plugin.so"],
                      ["-fsanitize=thread", f"-B{recorder.BUILT}/lib/", "host.c", "-o", "host", "-ldl",
                       "-pthread"]):
            recorder.must(recorder.call("gcc", "-g", "-O1", *words, cwd=self.folder))
        record = self.folder / "host.rec"
        recorder.must(recorder.call("./host", cwd=self.folder,
                                    env={**recorder.settings(record), "LD_LIBRARY_PATH": "."}))
        trace = recorder.must(recorder.convert(record)).stdout
        self.assertEqual(recorder.places(trace), set())
        self.assertRegex(trace, rb"\nT1\|acq\(.*\nT1\|r\(.*\nT1\|w\(.*\nT1\|rel\(")

    def test_locks_of_code_without_the_flag(self):
        """They are POSIX's, and are seen. gcc's OpenMP isn't named, for what it orders is recorded."""
        texts = {"locked.c": "#include <pthread.h>\nstatic pthread_mutex_t m = PTHREAD_MUTEX_INITIALIZER;\n"
                             "void enter(void) { pthread_mutex_lock(&m); }\n"
                             "void leave(void) { pthread_mutex_unlock(&m); }\n",
                 "count.c": "void enter(void), leave(void);\nlong count, sum;\nint main(void) {\n"
                            "#pragma omp parallel for reduction(+:sum) num_threads(3)\n"
                            "    for (int k = 0; k < 30; k++) {\n        enter();\n        count++;\n"
                            "        leave();\n        sum += k;\n    }\n    return sum != 435;\n}\n"}
        for name, text in texts.items():
            (self.folder / name).write_text(text)
        for words in (["-shared", "-fPIC", "locked.c", "-o", "liblocked.so"],
                      ["-fsanitize=thread", "-fopenmp", "count.c", "./liblocked.so", "-o", "count"]):
            recorder.must(recorder.call("gcc", "-g", "-O1", *words, cwd=self.folder))
        ran = recorder.call(recorder.COMMAND, "--runs", "3", "./count", cwd=self.folder,
                            env={**os.environ, "SHB": str(recorder.SHB)})
        said = ran.stderr.decode()
        self.assertEqual((ran.returncode, "isn't seen: liblocked.so. Its POSIX and C++ locks are;" in said,
                          "libgomp" in said), (0, True, False), said)

    def right(self, library, program, runs, **more):
        """A right program of a library without the flag is found to be right."""
        (self.folder / "library.c").write_text(library)
        (self.folder / "program.c").write_text(program)
        for words in (["-shared", "-fPIC", "-fno-builtin", "library.c", "-o", "liblibrary.so"],
                      ["-fsanitize=thread", "program.c", "./liblibrary.so", "-o", "program"]):
            recorder.must(recorder.call("gcc", "-w", "-g", "-O1", *words, cwd=self.folder))
        ran = recorder.call(recorder.COMMAND, "--runs", runs, "./program", cwd=self.folder,
                            env={**os.environ, "SHB": str(recorder.SHB), **more})
        self.assertEqual(ran.returncode, 0, ran.stderr.decode())

    def test_constructors_of_libraries_that_threads_load(self):
        for name, text in ("plugin.c", PLUGIN), ("host.c", LOADS):
            (self.folder / name).write_text(text)
        for words in (*(["-shared", "-fPIC", "plugin.c", "-o", f"{name}.so"] for name in ("one", "two")),
                      ["host.c", "-rdynamic", f"-Wl,--enable-new-dtags,-rpath,{self.folder}", "-ldl",
                       "-pthread", "-o", "host"]):
            recorder.must(recorder.call("gcc", "-g", "-O1", "-fsanitize=thread", *words, cwd=self.folder))
        ran = recorder.call(recorder.COMMAND, "--runs", "4", "./host", cwd=self.folder,
                            env={**os.environ, "SHB": str(recorder.SHB)})
        self.assertEqual(ran.returncode, 0, ran.stderr.decode())

    def allocated_by(self, library):
        """A program that allocates in threads and forks is found to be right, linked with it and with it
        preloaded."""
        if b"/" not in recorder.must(recorder.call("gcc", f"-print-file-name={library}")).stdout:
            self.skipTest(f"{library} isn't installed")
        for name, text in ("heap.c", ALLOCATES), ("forks.c", FORKS.replace("void use(void);", "").replace(
                "    use();\n", "")):
            (self.folder / name).write_text(text)
            for linked, preloaded in ([f"-Wl,--no-as-needed,-l:{library}"], ""), ([], library):
                recorder.must(recorder.call("gcc", "-w", "-g", "-O1", "-fsanitize=thread", name, *linked,
                                            "-pthread", "-o", "program", cwd=self.folder))
                ran = recorder.call(recorder.COMMAND, "--runs", "12", "./program", cwd=self.folder,
                                    env={**os.environ, "SHB": str(recorder.SHB),
                                         **({"LD_PRELOAD": preloaded} if preloaded else {})})
                self.assertEqual(ran.returncode, 0, f"{name} {linked} {preloaded}\n{ran.stderr.decode()}")

    def test_jemalloc(self):
        self.allocated_by(ALLOCATORS[0])

    def test_tcmalloc(self):
        self.allocated_by(ALLOCATORS[1])

    def test_mimalloc(self):
        self.allocated_by(ALLOCATORS[2])

    def test_an_allocator_with_the_c_librarys_names(self):
        self.right(ALLOCATOR, ALLOCATES, 2)

    def test_an_allocator_that_is_preloaded(self):
        self.right(ONE_BLOCK, USES_ONE_BLOCK, 2, LD_PRELOAD=str(self.folder / "liblibrary.so"))

    def test_handlers_of_fork_that_come_before_the_recorders(self):
        """A process made by fork writes nothing into its parent's record."""
        self.right(FORK_HANDLERS, FORKS, 8)

    def test_a_librarys_own_thread(self):
        """Code without hooks may begin it unseen. The recording is incomplete if it comes to code that has
        some."""
        self.right(OWN_THREAD, TIDIED, 4)
        ran = recorder.call(recorder.COMMAND, "./program", "call", cwd=self.folder,
                            env={**os.environ, "SHB": str(recorder.SHB)})
        self.assertEqual(ran.returncode, 124, ran.stderr.decode())
        self.assertIn(b"is not the whole run: threads ran whose begin isn't seen", ran.stderr)

    def test_perhaps_ordered(self):
        """A library without hooks hands a block on, and both sides call it: the race is marked. One of a
        thread that doesn't call it isn't."""
        said = self.perhaps_ordered(
            "static void *_Atomic held;\nvoid box_put(void *p) { held = p; }\nvoid *box_get(void) { void *p; "
            "while (!(p = held)) {} return p; }\n",
            "#include <pthread.h>\n#include <stdlib.h>\nvoid box_put(void *), *box_get(void);\nstatic long "
            "other;\nstatic void *give(void *u) {\n    long *p = malloc(sizeof *p);\n    *p = 5;\n    "
            "box_put(p);\n    return u;\n}\nstatic void *count(void *u) {\n    other++;\n    return u;\n}\n"
            "int main(void) {\n    pthread_t t, u;\n    pthread_create(&t, 0, give, 0);\n    "
            "pthread_create(&u, 0, count, 0);\n    long *p = box_get();\n    int bad = *p != 5;\n    "
            "other++;\n    pthread_join(t, 0);\n    return pthread_join(u, 0) || bad;\n}\n",
            {"use.c:6": ["libbox.so"], "other": None})
        [page] = (self.folder / "out").glob("run*.html")
        for shown in (said, html.unescape(page.read_text())):
            self.assertEqual(shown.count("Perhaps ordered: code of both sides calls, or is called by, "
                                         "libbox.so, whose own atomics and futexes aren't seen."), 1)
        self.assertEqual(page.read_text().count('class="tag perhaps"'), 1)

    def test_perhaps_ordered_in_a_class(self):
        """What calls the library is a constructor, and a function of a template."""
        self.perhaps_ordered(
            "static void *_Atomic held;\nvoid box_put(void *p) { held = p; }\nvoid *box_get(void) { void *p; "
            "while (!(p = held)) {} return p; }\n",
            "#include <pthread.h>\n#define APART [[gnu::noinline]]\nextern \"C\" void box_put(void *);\n"
            "extern \"C\" void *box_get();\nstatic long block, other;\nstruct giver { giver(); };\nAPART "
            "giver::giver() {\n    block = 5;\n    box_put(&block);\n}\ntemplate <class T> APART T taken(T "
            "bad) {\n    return *static_cast<T *>(box_get()) != bad;\n}\nstatic void *give(void *u) {\n    "
            "giver one;\n    return u;\n}\nstatic void *count(void *u) {\n    other++;\n    return u;\n}\n"
            "int main() {\n    pthread_t t, u;\n    pthread_create(&t, 0, give, 0);\n    pthread_create(&u, "
            "0, count, 0);\n    long bad = taken(5l);\n    other++;\n    pthread_join(t, 0);\n    return "
            "pthread_join(u, 0) || bad;\n}\n",
            {"block": ["libbox.so"], "other": None}, compiler="g++")

    def test_what_a_sanitizer_adds_orders_nothing(self):
        """A race isn't doubted because both sides have calls of libubsan."""
        words = ["-g", "-Og", "-fsanitize=thread,undefined",
                 recorder.HERE.parents[1] / "examples" / "account.c", "-o", "account"]
        recorder.must(recorder.call("gcc", *words, cwd=self.folder))
        ran = recorder.call(recorder.COMMAND, "./account", cwd=self.folder,
                            env={**os.environ, "SHB": str(recorder.SHB)})
        said = ran.stderr.decode()
        self.assertEqual((ran.returncode, "1. balance: " in said, "Perhaps" in said, "libubsan" in said),
                         (66, True, False, False), said)

    def test_perhaps_ordered_as_callbacks(self):
        """A library without hooks starts the threads that call the program back, one at a time; the program's
        own threads aren't its. With its names and debug information or without, it is known in call
        stacks."""
        for kept in (["-s"], ["-g"]):
            with self.subTest(kept=kept):
                self.called_back(kept)

    def called_back(self, kept):
        said = self.perhaps_ordered(
            "#include <pthread.h>\nstatic pthread_t threads[2];\nstatic _Atomic int turn;\nstatic void "
            "(*job)(void);\nstatic void *run(void *p) { while (turn != (p != 0)) {} job(); turn++; return 0; "
            "}\nvoid pool_start(void (*f)(void)) { job = f; for (int k = 0; k < 2; k++) "
            "pthread_create(threads + k, 0, run, k ? threads : 0); }\nvoid pool_end(void) { for (int k = 0; "
            "k < 2; k++) pthread_join(threads[k], 0); }\n",
            "#include <pthread.h>\nvoid pool_start(void (*)(void)), pool_end(void);\nstatic long total, "
            "other;\nstatic void step(void) { total++; }\nstatic void *count(void *u) {\n    other++;\n    "
            "return u;\n}\nint main(void) {\n    pthread_t t, u;\n    pool_start(step);\n    "
            "pthread_create(&t, 0, count, 0);\n    pthread_create(&u, 0, count, 0);\n    pool_end();\n    "
            "pthread_join(t, 0);\n    return pthread_join(u, 0);\n}\n",
            {"total": ["libbox.so"], "other": None}, kept)
        self.assertIn("Code without -fsanitize=thread isn't seen: libbox.so.", said)

    def perhaps_ordered(self, library, program, wanted, kept=("-s",), compiler="gcc"):
        """Records a program of a library without hooks and what is `kept` of it, and compares which variables
        are marked; gives what is said."""
        source = {"gcc": "use.c", "g++": "use.cc"}[compiler]
        (self.folder / "box.c").write_text(library)
        (self.folder / source).write_text(program)
        for words in (["gcc", *kept, "-shared", "-fPIC", "box.c", "-o", "libbox.so"],
                      [compiler, "-fsanitize=thread", source, "-o", "use", "./libbox.so"]):
            recorder.must(recorder.call(*words, "-g", "-O1", "-pthread", cwd=self.folder))
        shutil.rmtree(self.folder / "out", ignore_errors=True)
        ran = recorder.call(recorder.COMMAND, "-o", "out", "./use", cwd=self.folder,
                            env={**os.environ, "SHB": str(recorder.SHB)})
        found = json.loads((self.folder / "out" / "places.json").read_text())
        by = {
            place["variables"][0]["name"].partition("#")[0]: found["groups"][place["group"] - 1].get(
                "perhaps_ordered_by") for place in found["places"]}
        self.assertEqual(by, wanted, ran.stderr)
        return ran.stderr.decode()
