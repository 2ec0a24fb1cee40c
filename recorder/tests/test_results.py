"""What stands around the races: names that stay, messages that stay, and where all is written."""

import json
import os
import re
import shutil

import recorder

RACE = """#include <pthread.h>
#include <unistd.h>
static long hits;
static void *work(void *u) {
    hits++;
    return u;
}
int main(void) {
    pthread_t a, b;
    pthread_create(&a, 0, work, 0);
    pthread_create(&b, 0, work, 0);
    pthread_join(a, 0);
    return pthread_join(b, 0);
}
"""
# Both processes have the race of line 6 with itself; the child has line 7, too.
SHARED = """#include <pthread.h>
#include <sys/wait.h>
#include <unistd.h>
static volatile long hits;
static void *work(void *is_child) {
    hits = 1;
    if (is_child) hits = 2;
    return 0;
}
int main(void) {
    pid_t child = fork();
    pthread_t a, b;
    pthread_create(&a, 0, work, child ? 0 : &a);
    pthread_create(&b, 0, work, child ? 0 : &a);
    pthread_join(a, 0);
    pthread_join(b, 0);
    return child && wait(0) != child;
}
"""
# As a daemon reads its configuration and forks: the block was allocated before.
DAEMON = """#include <pthread.h>
#include <stdlib.h>
#include <sys/wait.h>
#include <unistd.h>
struct config { long a, level; } *config;
static void *reader(void *u) { return config->level == 9 ? u : 0; }
int main(void) {
    config = calloc(1, sizeof *config);
    if (fork() == 0) {
        pthread_t t;
        pthread_create(&t, 0, reader, 0);
        config->level = 3;
        pthread_join(t, 0);
        _exit(0);
    }
    wait(0);
    return 0;
}
"""
# Own allocators map as much.
MAPPED = """#include <pthread.h>
#include <sys/mman.h>
struct page { char flags[4096]; } *page;
static void *work(void *u) { page[5].flags[7]++; return u; }
int main(void) {
    pthread_t a, b;
    page = mmap(0, 5ul << 30, PROT_READ | PROT_WRITE, MAP_PRIVATE | MAP_ANONYMOUS | MAP_NORESERVE, -1, 0);
    pthread_create(&a, 0, work, 0);
    pthread_create(&b, 0, work, 0);
    pthread_join(a, 0);
    return pthread_join(b, 0);
}
"""
# Each use but one holds the lock; that one is ordered by the join.
ALMOST_LOCKED = """#include <pthread.h>
static long hits;
static pthread_mutex_t door = PTHREAD_MUTEX_INITIALIZER;
static void *work(void *u) {
    pthread_mutex_lock(&door);
""" + "    hits++;\n" * 6 + """    pthread_mutex_unlock(&door);
    return u;
}
int main(void) {
    pthread_t a, b;
    pthread_create(&a, 0, work, 0);
    pthread_create(&b, 0, work, 0);
    pthread_join(a, 0);
    pthread_join(b, 0);
    hits = 0;
    return 0;
}
"""


class Results(recorder.Case):
    def build(self, text, name="app", folder="."):
        source = self.folder / folder / f"{name}.c"
        source.parent.mkdir(parents=True, exist_ok=True)
        source.write_text(text)
        recorder.must(recorder.call("gcc", "-w", "-g", "-O1", "-fsanitize=thread", "-pthread", source, "-o",
                                    self.folder / name))
        return self.folder / name

    def record(self, *words, folder=None):
        how = {**os.environ, "SHB": str(recorder.SHB)}
        ran = recorder.call(recorder.COMMAND, *words, env=how, cwd=folder or self.folder)
        return ran.returncode, ran.stderr.decode()

    def test_memory_without_a_name_is_known_in_the_next_run(self):
        for name, text in (("daemon", DAEMON), ("mapped", MAPPED)):
            with self.subTest(name):
                program = self.build(text, name)
                self.assertEqual(self.record("-o", "first", program)[0], 66)
                known = self.folder / f"{name}.known"
                shutil.copy(self.folder / "first" / "unknown.places", known)
                status, said = self.record("-o", "second", "--known", known, program)
                self.assertEqual(status, 0, said)
                self.assertNotIn("no race matched", said)

    def test_a_log(self):
        program = self.build(RACE.replace("return pthread_join(b, 0);", 'write(2, "own", 3); return '
                                          'pthread_join(b, 0);'))
        log = self.folder / "log"
        self.assertEqual(self.record("--log", log, program), (66, "own"))
        self.assertIn("\n1. hits: app.c:5 writes without a lock (1 place)\n", log.read_text())
        self.assertIn("shb-record: 1 place with races; ", log.read_text())

    def test_notes_are_said_once_behind_the_races(self):
        said = self.record("--runs", "2", self.build(RACE))[1]
        note = "cover the whole run, without repeated accesses"
        self.assertEqual(said.count(note), 1, said)
        self.assertLess(said.index("1. hits: "), said.index(note))

    def test_an_index_has_a_name_that_stays(self):
        self.record("-o", "out", self.build(RACE))
        text, [page] = ((self.folder / "out" / "index.html").read_text(),
                        (self.folder / "out").glob("run*.html"))
        self.assertIn("1 bug in 1 file: 1 place with races", text)
        self.assertIn(f'<code><a href="{page.name}#group-1">hits</a></code></td>'
                      "<td>app.c:5 writes without a lock<br>", text)
        self.assertIn("prefers-color-scheme: dark", text)   # it has the page's style

    def test_what_is_said_of_a_group_names_it(self):
        """The headline has lines of other variables of the group."""
        source = RACE.replace("long hits", "struct { long hits, misses; } all").replace(
            "    hits++;", "    all.hits++;\n    all.misses++;")
        self.record("-o", "out", self.build(source))
        said = "app.c:5 and app.c:6 write without a lock"
        out = self.folder / "out"
        self.assertIn(f">all (2 variables)</a></code></td><td>{said}<br>", (out / "index.html").read_text())
        [log] = json.loads((out / "places.sarif").read_text())["runs"]
        self.assertEqual([result["message"]["text"].partition(". ")[2] for result in log["results"]],
                         [f"all: {said}. Remedy: hold one lock at app.c:5 and app.c:6."] * 2)

    def test_a_place_of_two_processes_is_in_the_groups_of_both(self):
        status, said = self.record("-o", "out", self.build(SHARED))
        words = "\nshb-record: Verified: every race on the pages has a schedule"
        self.assertEqual((status, said.count(words)), (66, 1), said)
        self.assertTrue(said.endswith(f" and 1 more; the bugs of all: {self.folder}/out/index.html\n"), said)
        document = json.loads((self.folder / "out" / "places.json").read_text())
        parent, child = sorted(document["groups"], key=lambda group: len(group["pairs"]))
        six, seven = "app.c:6", "app.c:7"
        self.assertEqual([sorted(map(sorted, group["pairs"])) for group in (parent, child)],
                         [[[six, six]], [[six, six], [six, seven], [seven, seven]]])
        self.assertEqual(
            {tuple(access["in_trace"] for access in place["accesses"]): set(place["processes"])
             for place in document["places"]},
                         {(six, six): {parent["process"], child["process"]}, (six, seven): {child["process"]},
                          (seven, seven): {child["process"]}})

    def test_a_place_whose_names_and_paths_have_different_orders(self):
        alpha = self.folder / "b" / "alpha.c"
        alpha.parent.mkdir()
        alpha.write_text("extern long hits;\nvoid *work(void *u) { hits++; return u; }\n")
        zoo = self.folder / "a" / "zoo.c"
        zoo.parent.mkdir()
        zoo.write_text("#include <pthread.h>\nlong hits;\nvoid *work(void *);\nint main(void) {\n    "
                       "pthread_t a;\n    pthread_create(&a, 0, work, 0);\n    hits = 1;\n    return "
                       "pthread_join(a, 0);\n}\n")
        recorder.must(recorder.call("gcc", "-w", "-g", "-O1", "-fsanitize=thread", "-pthread", alpha, zoo,
                                    "-o", self.folder / "app"))
        self.assertEqual(self.record("-o", "out", self.folder / "app")[0], 66)
        [place] = json.loads((self.folder / "out" / "places.json").read_text())["places"]
        self.assertEqual([access["in_trace"] for access in place["accesses"]], ["alpha.c:2", "zoo.c:7"])
        self.assertEqual(len(place["processes"]), 1)

    def test_a_stale_line_has_its_own_status_and_last_line(self):
        program, known = self.build(RACE), self.folder / "known"
        for text, words, wanted in (("a.c:1\ta.c:1\t*\n*\t*\thits\n", [], 0),
                                    ("a.c:1\ta.c:1\t*\n*\t*\thits\n", ["--fail-on-stale"], 67),
                                    ("a.c:1\ta.c:1\t*\n", ["--fail-on-stale"], 66),
                                    ("*\t*\thits\n", ["--fail-on-stale"], 0)):
            known.write_text(text)
            status, said = self.record("--known", known, *words, program)
            self.assertEqual(status, wanted, said)
            self.assertEqual(said.splitlines()[-1] == f"shb-record: status 67: 1 line of {known} matched no "
                             "race of this run; --runs N with a greater N may find one", wanted == 67, said)

    def test_code_review_has_paths_calls_and_messages_that_stay(self):
        program = self.build(RACE, folder="source/lib")
        (self.folder / ".git").mkdir()
        texts = []
        for name, folder in (("one", self.folder), ("two", self.folder / "source")):
            self.record("-o", self.folder / name, program, folder=folder)
            [run] = json.loads((self.folder / name / "places.sarif").read_text())["runs"]
            [result] = run["results"]
            self.assertEqual(result["locations"][0]["physicalLocation"]["artifactLocation"],
                             {"uri": "source/lib/app.c", "uriBaseId": "SRCROOT"})
            self.assertEqual(result["message"]["text"],
                             "Data race on `hits` between app.c:5 and [app.c:5](1). app.c:5 writes without a "
                             "lock. Remedy: make it atomic if it is a flag or a counter; else hold one lock "
                             "at app.c:5.")
            flows = result["codeFlows"][0]["threadFlows"]
            self.assertEqual(
                [step["location"]["physicalLocation"]["region"]["startLine"] for flow in flows
                 for step in flow["locations"]], [5, 5])
            self.assertTrue(run["tool"]["driver"]["version"])
            texts.append(re.sub(r"process \d+", "",
                                json.dumps([result["message"], result["partialFingerprints"]])))
        self.assertEqual(*texts)

    def test_one_recording_joined_stays_what_it_is(self):
        """Its places, its known places and its alerts, all but the names of processes."""
        (self.folder / ".git").mkdir()
        self.record("-o", "out", self.build(RACE, folder="source/lib"))
        self.assertEqual(self.record("--join", "-o", "joined", "out/places.json")[0], 66)
        texts = [{path.name: path.read_text() for path in (self.folder / name).glob("*places*")}
                 for name in ("out", "joined")]
        self.assertIn('"codeFlows"', texts[0]["places.sarif"])
        for name in ("unknown.places", "places.tsv", "places.sarif"):
            self.assertEqual(texts[1][name].replace("out, run 1", "run 1"), texts[0][name])

    def test_code_review_shows_an_alert_at_the_line_to_mend(self):
        program = self.build((recorder.SOURCES.parent / "examples" / "account.c").read_text())
        self.assertEqual(self.record("-o", "out", program)[0], 66)
        [result] = json.loads((self.folder / "out" / "places.sarif").read_text())["runs"][0]["results"]
        lines = [one[0]["physicalLocation"]["region"]["startLine"]
                 for one in (result["locations"], result["relatedLocations"])]
        self.assertEqual(lines, [8, 10])
        self.assertIn("between app.c:8 and [app.c:10](1). app.c:8 reads without door",
                      result["message"]["text"])
        [place] = json.loads((self.folder / "out" / "places.json").read_text())["places"]
        self.assertEqual((place["blamed"]["in_trace"], place["blamed"]["functions"]), ("app.c:8", ["pay"]))

    def test_an_alert_at_an_atomic(self):
        """It is neither of the two lines that race, and has both as related ones."""
        source = recorder.HERE / "blamed" / "flag_store.c"
        program = self.build(source.read_text())
        self.assertEqual(self.record("--until-found", "10", "-o", "out", program)[0], 66)
        [result] = json.loads((self.folder / "out" / "places.sarif").read_text())["runs"][0]["results"]
        lines = [one["physicalLocation"]["region"]["startLine"]
                 for one in (*result["locations"], *result["relatedLocations"])]
        self.assertEqual(lines, [8, 12, 7])
        self.assertIn("between [app.c:12](1) and [app.c:7](2). app.c:8 writes ready without release",
                      result["message"]["text"])
        [place] = json.loads((self.folder / "out" / "places.json").read_text())["places"]
        self.assertEqual((place["blamed"]["in_trace"], os.path.basename(place["blamed"]["file"])),
                         ("app.c:8", "app.c"))

    def test_what_did_not_race_is_not_said(self):
        """There are no suspicions: no word, no file, no option, and nothing of them in the sources."""
        program = self.build(ALMOST_LOCKED)
        status, said = self.record("-o", "out", program)
        document = json.loads((self.folder / "out" / "places.json").read_text())
        self.assertEqual((status, document["places"], document["groups"]), (0, [], []))
        files = {path.name: path.read_text(errors="replace") for path in (self.folder / "out").iterdir()}
        self.assertEqual(
            [name for name, text in files.items() if "hits" in text + name or "uspici" in text + name], [])
        self.assertNotRegex(said, "hits|uspici")
        status, said = self.record("--fail-on-suspicion", program)
        self.assertEqual((status, "unrecognized arguments: --fail-on-suspicion" in said), (125, True))
        paths = [path for folder in ("recorder", "python")
                 for path in (recorder.HERE.parents[1] / folder).rglob("*")]
        sources = [path for path in paths if path.suffix in (".c", ".h", ".py", ".js")
                   and "tests" not in path.parts]
        self.assertGreater(len(sources), 100)
        self.assertEqual([path for path in sources if b"uspici" in path.read_bytes()], [])
