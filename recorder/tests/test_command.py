"""shb-record: one command from a program to its races, for programs that gcc built for its own library."""

import json
import os
import pathlib
import re
import shutil
import signal
import subprocess
import time

import recorder
from test_open import planted

PLACE = ("status.c:9", "status.c:9")
UNKNOWN = "# status.c:9\tstatus.c:9\nstatus.c:work()\tstatus.c:work()\tshared\n"
TABLES = ["index.html", "places.json", "places.sarif", "places.tsv"]
ONE = "shb-record: One interleaving of many was seen; ten: shb-record --runs 10 "
LIST = "made-by-shb-record.txt"


def text_of(path):
    return path.read_text()


def is_running(number):
    """Whether there is such a process, other than one that has ended and that nobody has asked of."""
    try:
        return not re.search(r"\) Z ", pathlib.Path(f"/proc/{number}/stat").read_text())
    except (FileNotFoundError, ProcessLookupError):
        return False


class Command(recorder.Case):
    def program(self, name="status.c", *words, compiler="gcc", sanitized=("-fsanitize=thread",)):
        out = self.folder / pathlib.Path(name).stem
        recorder.must(recorder.call(compiler, "-w", "-g", "-O1", *sanitized, "-pthread",
                                    recorder.PROGRAMS / name, "-o", out, *words))
        return out

    def record(self, *words, command=None, **more):
        """The command's status, the program's output, and what the command said."""
        how = {**os.environ, "SHB": str(recorder.SHB), **more}
        ran = recorder.call(command or recorder.COMMAND, *words, cwd=self.folder, env=how)
        return ran.returncode, ran.stdout.decode(), ran.stderr.decode()

    def known(self, text):
        path = self.folder / "known"
        path.write_text(text)
        return path

    def names(self, folder="status.shb"):
        """The files of the results, but for the list of them."""
        names = {path.name for path in (self.folder / folder).iterdir()}
        self.assertIn(LIST, names)
        return sorted(re.sub(r"\d{2,}", "N", name) for name in names - {LIST})

    def test_a_race(self):
        status, out, said = self.record(self.program(), "0", "race")
        self.assertEqual((status, out), (66, "said by the program\n"))
        self.assertRegex(said, r"(?m)^shb-record: run 1, process \d+ \(\S+/status 0 race\): .*; 1 place with "
                               r"races$")
        self.assertIn("status.c:9", said)
        page, = (self.folder / "status.shb").glob("run*.html")
        self.assertEqual([said.splitlines()[-5], *said.splitlines()[-2:]],
                         ["shb-record: 1 place with races; the program's own status: 0; files in "
                          f"{self.folder}/status.shb", f"{ONE}{self.folder}/status 0 race",
                          f"shb-record: page: {page}"])
        self.assertRegex(text_of(page), r"<title>\S+/status 0 race \(run 1, process \d+, \d{4}-\d\d-\d\d "
                                        r"\d\d:\d\d\): 1 place with races, ")
        self.assertEqual(self.names(),
                         [*TABLES, "run1.N.html", "run1.N.places", "run1.N.stacks", "run1.N.std",
                          "run1.N.turns", "run1.N.uses",
                                        "unknown.places"])
        self.assertIn("     | shared = 1; /* RACE */\n", said)  # by the debug information
        self.assertIn('"    shared = 1; /* RACE */"', text_of(page))
        self.assertEqual(text_of(self.folder / "status.shb" / "unknown.places"), UNKNOWN)
        # main forks both, then each writes
        self.assertRegex(text_of(self.folder / "status.shb" / "places.tsv"),
                         r"\nstatus.c:9\tstatus.c:9\tshared\tunknown\t\d+\t\d+\trun 1, process "
                         r"\d+\trun1\.\d+\.std\n$")

    def host(self, *words):
        """A program without hooks; its first word is run before it calls a library with hooks, which
        has a race."""
        library = self.folder / "libraces.so"
        recorder.must(recorder.call("gcc", "-w", "-g", "-O1", "-fsanitize=thread", "-shared", "-fPIC",
                                    "-Dmain=races",
                                    recorder.PROGRAMS / "counter_race.c", "-o", library))
        code, program = self.folder / "host.c", self.folder / "host"
        code.write_text("""#include <dlfcn.h>
#include <stdlib.h>
__attribute__((weak)) int races(void);
int main(int count, char **words) {
    if (count > 1 && system(words[1])) return 1;
    return races ? races() : ((int (*)(void))dlsym(dlopen(words[2], RTLD_NOW), "races"))();
}
""")
        recorder.must(recorder.call("gcc", "-w", code, *words, f"-Wl,-rpath,{self.folder}", "-o", program))
        return program, library

    def test_a_library_with_hooks_of_a_program_without(self):
        """The recorder's library comes first in the program, and in nothing that it starts."""
        program, _ = self.host(f"-L{self.folder}", "-Wl,--no-as-needed", "-lraces")
        for preloaded in ("", "libm.so.6"):
            more = {"LD_PRELOAD": preloaded} if preloaded else {}
            status, _, said = self.record(program, f'test "$LD_PRELOAD" = "{preloaded}" -a -z "$SHB_PRELOAD"',
                                          **more)
            self.assertEqual((status, "Code without -fsanitize=thread isn't seen: host." in said), (66, True),
                             said)
            self.assertIn("counter_race.c:8\t", text_of(self.folder / "host.shb" / "places.tsv"))

    def test_a_program_that_is_only_linked_with_the_flag(self):
        """That nothing was found says nothing: no access was seen. One with a thread alone is as before."""
        recorder.must(recorder.call("gcc", "-w", "-g", "-c", recorder.PROGRAMS / "status.c", cwd=self.folder))
        recorder.must(recorder.call("gcc", "-fsanitize=thread", "status.o", "-o", "app", cwd=self.folder))
        for more, wanted in ((), 125), (("--runs", "2"), 125), (("--live",), 125):
            status, _, said = self.record(*more, "./app", "0", "race")
            self.assertEqual((status, said.count("none of the recorded code was compiled with "
                                                 "-fsanitize=thread, so no access was seen")), (wanted, 1),
                             said)

    def test_a_module_with_hooks_that_a_program_opens(self):
        """No file tells that before; the command that records it is named."""
        program, library = self.host()
        status, _, said = self.record(program, "true", library)
        again = f"shb-record env LD_PRELOAD=libtsan.so.2 {program} true {library}"
        self.assertEqual((status, "nothing of the run was recorded; for a module with hooks that the "
                                  f"program loads later run `{again}`\n" in said),
                         (125, True), said)
        status, _, said = self.record(*again.split()[1:])
        self.assertEqual(status, 66, said)

    def test_programs_that_the_loader_does_not_load(self):
        """They run once, as what they are."""
        script, linked = self.folder / "script", self.folder / "linked"
        script.write_text("#!/bin/sh\necho said >> out\n")
        script.chmod(0o755)
        recorder.must(recorder.call("gcc", "-xc", "-static", "-", "-o", linked, input=b'int main(void) { '
                                    b'return puts("said") < 0; }'))
        for program, out in ((script, ""), (linked, "said\n")):
            status, said, told = self.record(program)
            self.assertEqual((status, said, "left no record" in told), (125, out, True), told)
        self.assertEqual(text_of(self.folder / "out"), "said\n")

    def test_code_where_the_sources_were_moved(self):
        """The debug information has the old paths."""
        sources, program = self.folder / "src", self.folder / "program"
        recorder.must(recorder.call("gcc", "-w", "-g", "-O1", "-fsanitize=thread", "-pthread",
                                    *recorder.two_of_one_name(sources), "-o", program))
        sources.rename(self.folder / "moved")
        for words, has_code in (((), False), (("--source", self.folder / "moved"), True)):
            status, _, said = self.record(*words, program)
            page, = (self.folder / "program.shb").glob("run*.html")
            self.assertEqual((status, "     | void *a(void *x) { one = 2; return 0; }\n" in said,
                              '"void *a(void *x) { one = 2; return 0; }"' in text_of(page)),
                             (66, has_code, has_code), said)

    def test_one_word_for_one_thing(self):
        """Two lines that race are a place, places that share a variable a group; where nothing is locked that
        is said of the access."""
        _, _, said = self.record(self.program(), "0", "race")
        page, = (self.folder / "status.shb").glob("run*.html")
        for shown in said, text_of(page):
            self.assertIn("1 place with races, in 1 group", shown)
            self.assertIn("no lock held", shown)
            self.assertNotRegex(shown, "(?i)pairs? of (lines|locations)|location pair|lock in the trace")

    def test_a_pair_that_races_in_both_orders_is_shown(self):
        """x is written by one thread first, and then by the other; y by the other first."""
        status, _, said = self.record(self.program("both_orders.c"))
        self.assertEqual(status, 66)
        places, page = (next((self.folder / "both_orders.shb").glob(f"run1.*.{kind}"))
                        for kind in ("places", "html"))
        [there, back] = re.findall(r"(?m)^at (.*)\nand (.*)$", text_of(places))
        self.assertEqual(there, back[::-1])
        for shown in said, text_of(page):
            self.assertRegex(shown, r"1 place with races, in \d group")
        numbers = re.findall(r"In the run the accesses are events ([\d,]+) and ([\d,]+)\.", text_of(page))
        races = re.findall(r"(?m)^race \d+: (\d+) (\d+)$", text_of(places))
        self.assertTrue(numbers
                        and {tuple(number.replace(",", "") for number in pair)
                             for pair in numbers} <= set(races), (numbers, races))
        self.assertIn(f"races with {there[1]}\n", said)
        self.assertIn("shb-record: 1 place with races;", said)
        self.assertNotIn("can't judge it", said)

    def test_it_is_said_where_sets_of_locks_are_not_told_apart(self):
        source = self.folder / "sets.c"
        for locks, is_said in (24, False), (300, True):
            with self.subTest(locks):
                source.write_text(text_of(recorder.PROGRAMS / "many_sets.c").replace("= 24", f"= {locks}"))
                recorder.build(source, "-O1", self.folder / "sets")
                status, _, said = self.record(self.folder / "sets")
                self.assertEqual((status, "Threads held more than 64 sets of locks." in said), (66, is_said))

    def test_a_thread_whose_name_is_hostile(self):
        _, _, said = self.record(self.program("thread_names.c"))
        page = text_of(next((self.folder / "thread_names.shb").glob("run1.*.html")))
        self.assertIn("T8.___<b>__1>_2&\"", said)
        self.assertIn(r'T8.___\u003cb>__1>_2&\"', page)
        self.assertNotIn("<b>", page)

    def test_a_known_place_hides_no_place_of_another_file_of_that_name(self):
        sources, program = recorder.two_of_one_name(self.folder), self.folder / "program"
        recorder.must(recorder.call("gcc", "-w", "-g", "-O1", "-fsanitize=thread", "-pthread", *sources, "-o",
                                    program))
        self.assertEqual(self.record("-o", "first", program, "a alone")[0], 66)
        status, _, said = self.record("-o", "both", "--known", "first/unknown.places", program)
        self.assertEqual((status, "1 unknown place with races, 1 known one skipped" in said,
                          "b/util.c:3" in said), (66, True, True), said)

    def test_a_long_run(self):
        """The first and the last step of the program race."""
        status, _, said = self.record(self.program("long_race.c"))
        events = int(re.search(r"([\d,]+) events; 2 places with races", said)[1].replace(",", ""))
        rows = [line.split("\t")
                for line in text_of(self.folder / "long_race.shb" / "places.tsv").splitlines()[1:]]
        marked = sorted(f"long_race.c:{number}"
                        for number, line in enumerate(text_of(recorder.PROGRAMS / "long_race.c").splitlines(),
                                                      1) if "RACE" in line)
        self.assertEqual((status, sorted(row[0] for row in rows)), (66, marked))
        numbers = sorted([int(number) for number in row[4:6]] for row in rows)
        self.assertLess(numbers[0][1], 100)
        self.assertGreater(numbers[1][0], events - 100)

    def test_a_race_that_no_page_has(self):
        """Where its trace has room for a part alone."""
        program = self.program("far_apart.c")
        status, _, said = self.record("--window", "400", program)
        self.assertEqual(status, 66)
        head = ("shb-record: 1 place of the run without a page, since their accesses don't fit:\nshb-record: "
                "  far: ")
        self.assertIn(head, said)
        rows = [line.split("\t")
                for line in text_of(self.folder / "far_apart.shb" / "places.tsv").splitlines()[1:]]
        self.assertEqual(len([row for row in rows if row[2] == "far"]), 1)
        for known, wanted in (("far_apart.c:*()\tfar_apart.c:*()\tcell\n", 66),
                              ("*\t*\tcell\n*\t*\tfar\n", 0)):
            status, _, said = self.record("--window", "400", "--known", self.known(known), program)
            self.assertEqual((status, "1 unknown place with races" in said), (wanted, wanted == 66), said)

    def test_how_often_shb_runs(self):
        """Once for all places, and with a race for its schedule, and to judge that; once more
        to try remedies."""
        fake, log = self.folder / "shb", self.folder / "log"
        fake.write_text(f'#!/bin/sh\necho "$@" >> {log}\nexec {recorder.SHB} "$@"\n')
        fake.chmod(0o755)
        for words in ("0", "race"), ("0",):
            self.record(self.program(), *words, SHB=str(fake))
        listed = "places --list --variables\n"
        self.assertRegex(text_of(log), rf"\A{listed}places --variables\ncheck /dev/fd/\d+\n{listed}\Z")
        self.record("--until-found", "10", self.program("../blamed/flag_store.c"), SHB=str(fake))
        self.assertRegex(text_of(log), rf"{listed}places --variables\ncheck /dev/fd/\d+\n{listed}\Z")

    def test_a_list_that_fails(self):
        fake = self.folder / "shb"
        for answer, wanted in (("exit 4", "`shb places --list` ended with status 4: "),
                               ("echo shb-report 2", "`shb places --list` wrote no whole report: line 2 of "
                                                     "the report is missing"),
                               ("kill -KILL $$", "`shb places --list` ended with status -9: ")):
            fake.write_text(f'#!/bin/sh\n[ "$1 $2" = "places --list" ] || exec {recorder.SHB} '
                            f'"$@"\n{answer}\n')
            fake.chmod(0o755)
            status, _, said = self.record(self.program(), "0", "race", SHB=str(fake))
            self.assertEqual((status, wanted in said), (125, True), said)
            self.assertIn("not all could be looked at", said)

    def test_a_disk_without_room(self):
        """For a page's trace of 16 events, of 64 bytes each."""
        command, program = self.folder / "command", self.program()
        for free, wanted in ((1023, 125), (1024, 66)):
            command.write_text("#!/usr/bin/env python3\nimport runpy, shutil\nuse = shutil.disk_usage('/')\n"
                               f"shutil.disk_usage = lambda path: use._replace(free={free})\n"
                               f"runpy.run_path({str(recorder.COMMAND)!r}, run_name='__main__')\n")
            command.chmod(0o755)
            status, _, said = self.record("--window", "16", program, "0", "race", command=command)
            self.assertEqual(status, wanted, said)
            sentence = (f"process N: its page may take about 1,024 bytes of the disk, and {free:,} are free; "
                        "--window makes a smaller one\n")
            self.assertEqual(sentence in re.sub(r"process \d+", "process N", said), wanted == 125, said)
            self.assertEqual(any(name.endswith(".std") for name in self.names()), wanted == 66)

    def test_a_publication_without_release(self):
        """The trace doesn't have the atomic, which orders nothing; the text names it."""
        status, _, said = self.record(self.program("publication.c"))
        self.assertEqual(status, 66, said)
        self.assertIn("T2.produce and T1.consume hand this on by the atomic slot: publication.c:10 writes it "
                      "relaxed after the first access, and publication.c:15 reads it with acquire before the "
                      "second. Without release that orders nothing.\n", said)

    def test_an_early_free(self):
        status, _, said = self.record(self.program("early_free.c"))
        self.assertEqual(status, 66, said)
        self.assertRegex(said, r"(?m)^1\. .*: early_free.c:11 writes used without release, and "
                               r"early_free.c:19 reads it without acquire \(")
        self.assertIn("   early_free.c:20: frees by main\n", said)

    def test_a_late_use(self):
        """The recorded order tells that the use came after the free."""
        status, _, said = self.record(self.program("late_use.c"))
        self.assertEqual(status, 66, said)
        self.assertRegex(said, r"(?m)^1\. .*: used at late_use.c:9 after it was freed at late_use.c:17 \(")
        self.assertIn("The use at late_use.c:9 came after the free here: a use after free.\n", said)

    def test_a_folder_whose_name_is_not_utf8(self):
        folder = os.fsencode(self.folder) + b"/r\xff"
        how = {**os.environ, "SHB": str(recorder.SHB)}
        ran = subprocess.run([str(recorder.COMMAND), "-o", folder, str(self.program()), "0", "race"], env=how,
                             capture_output=True,
                             timeout=recorder.SECONDS)
        self.assertEqual((ran.returncode, b"1 place with races" in ran.stderr), (66, True), ran.stderr)

    def test_statuses_without_a_race(self):
        program = self.program()
        for word, wanted in (("0", 0), ("5", 5), ("signal", 143)):
            status, _, said = self.record(program, word)
            self.assertEqual(status, wanted, said)
            self.assertIn(f"shb-record: 0 places with races; the program's own status: {wanted};", said)
            self.assertEqual(self.names(), [*TABLES, "unknown.places"])

    def test_a_race_wins_over_the_own_status(self):
        program = self.program()
        for word, own in (("5", 5), ("signal", 143)):
            status, _, said = self.record(program, word, "race")
            self.assertEqual(status, 66)
            self.assertIn(f"the program's own status: {own};", said)

    def test_what_cannot_be_run(self):
        (self.folder / "text").write_text("no program")
        (self.folder / "script").write_text("#!/none/sh -e\n")
        (self.folder / "script").chmod(0o755)
        for words, wanted, reason in (((self.folder / "none",), 127, "not found"),
                                      ((self.folder / "text",), 126, "can't be run: Permission denied"),
                                      ((), 125, "no program is named"),
                                      (("--runs", "0", "true"), 125, "--runs: it takes a number from 1"),
                                      (("--no",), 125, "unrecognized arguments: --no"),
                                      (("--run", "3", "true"), 125, "--run (did you mean --runs?)"),
                                      (("--suppressions=x", "true"), 125, "(did you mean --known?)"),
                                      (("X=1", "true"), 127, "shb-record env X=1 PROGRAM"),
                                      ((self.folder / "script",), 126, "(its interpreter /none/sh)"),
                                      (("--known", "none", "true"), 125, "none: No such file or directory")):
            status, _, said = self.record(*words)
            self.assertEqual((status, reason in said), (wanted, True), said)

    def test_a_program_of_this_folder_is_named(self):
        self.program()
        said = "shb-record: status: not on the PATH; ./status names the one in this folder\n"
        self.assertEqual(self.record("status"), (127, "", said))

    def test_wrong_values_are_refused_before_the_program_runs(self):
        """And before results of an earlier call are deleted."""
        program = self.program()
        self.record(program, "0", "race")
        names = self.names()
        words = ((("--window", "0"), "--window: it takes a number from 1"),
                 (("--source", "sorce"), "--source: sorce isn't a folder"),
                 (("--strip", "sorce"), "--strip: sorce isn't a folder"),
                 (("--replay", program), "is no list of turns"))
        settings = (("SHB_RECORDS", "abc", "it takes a number from 1"),
                    ("SHB_CELLS", "O", "it takes a number from 0"),
                    ("SHB_SLICE", "0", "it takes a number from 1"),
                    ("SHB_STALL", "0", "it takes a number from 1"),
                    ("SHB_SEGMENT", "x", "it takes a number from 1"),
                    ("SHB_SEED", "abc", "it takes a number from 0"),
                    ("SHB_STACKS", "2", "it takes 0 or 1"))
        calls = [(options, {}, why) for options, why in words]
        calls += [((), {name: value}, f"shb-record: {name}: {why}, not `{value}`\n")
                  for name, value, why in settings]
        for options, more, why in calls:
            status, out, said = self.record(*options, program, "0", **more)
            self.assertEqual((status, out, why in said, self.names()), (125, "", True, names),
                             (options, more, said))
        self.assertEqual(self.record("--strip", "/of/another/machine", program, "0")[0], 0)

    def test_options_of_thread_sanitizer(self):
        status, _, said = self.record("true", TSAN_OPTIONS="verbosity=1:suppressions=halt_on_error.txt")
        self.assertIn("shb-record: TSAN_OPTIONS isn't read: what it calls suppressions is --known\n", said)
        self.assertEqual(said.count("TSAN_OPTIONS"), 1)

    def test_standard_error_that_is_closed_or_full(self):
        """The status says what was found, and the results are there."""
        for words in ("2>&-", "2>/dev/full", "2>/dev/full >&- <&-"):
            status, _, _ = self.record("-c", f'"$@" {words}', "sh", recorder.COMMAND, self.program(), "0",
                                       "race", command="sh")
            self.assertEqual((status, "places.json" in self.names()), (66, True), words)
            shutil.rmtree(self.folder / "status.shb")

    def test_what_the_system_cannot_start_leaves_no_results(self):
        text = self.folder / "text"
        text.write_text("no program")
        text.chmod(0o755)
        for path, why in ((text, "Exec format error"), (self.folder, "Is a directory")):
            self.assertEqual(self.record(path), (126, "", f"shb-record: {path}: can't be run: {why}\n"))
        self.assertEqual(list(self.folder.iterdir()), [text])

    def test_results_that_cannot_be_put_anywhere(self):
        (self.folder / "file").touch()
        said = (f"shb-record: the results can't be put into {self.folder}/file: it is a file; name another "
                "folder with -o\n")
        self.assertEqual(self.record("-o", "file", "true"), (125, "", said))

    def test_what_leaves_no_record_leaves_no_results(self):
        """Files of others in the folder stay."""
        others = self.folder / "r" / "others"
        others.parent.mkdir()
        others.touch()
        status, _, said = self.record("-o", "r", shutil.which("true"))
        self.assertEqual((status, said.splitlines()[-1]),
                         (125, "shb-record: nothing was recorded; the program's own status: 0"))
        self.assertEqual((list(self.folder.iterdir()), list(others.parent.iterdir())),
                         ([others.parent], [others]))

    def test_a_list_that_somebody_prepared_deletes_no_folder(self):
        mine = self.folder / "r" / "work-mine" / "mine"
        mine.parent.mkdir(parents=True)
        mine.touch()
        (self.folder / "r" / LIST).write_text("# What shb-record made in this folder on 2026-01-02 03:04:05, "
                                              "for: true\nwork-mine\n")
        self.assertEqual(self.record("-o", "r", self.program(), "0", "race")[0], 66)
        self.assertTrue(mine.exists())

    def test_an_escape_of_a_path_is_escaped(self):
        folder = self.folder / "red\033[31m"
        folder.mkdir()
        program = self.program(sanitized=("-fsanitize=thread", "-g0"))
        program.rename(folder / "a")
        status, _, said = self.record("-o", "r", folder / "a", "0", "race")
        self.assertEqual((status, "\033" in said, "red\\x1b[31m/a" in said), (66, False, True), said)

    def test_the_program_has_the_descriptors_that_are_passed_on(self):
        path = self.folder / "passed on"
        with open(path, "wb") as file:
            script = f"echo there > /proc/self/fd/{file.fileno()}; exec {self.program()} 0"
            ran = recorder.call(recorder.COMMAND, "sh", "-c", script, cwd=self.folder,
                                env={**os.environ, "SHB": str(recorder.SHB)}, pass_fds=[file.fileno()])
        self.assertEqual((ran.returncode, path.read_bytes()), (0, b"there\n"), ran.stderr)

    def test_words_of_the_program_are_its_own(self):
        status, out, _ = self.record("-o", "r", "--", shutil.which("echo"), "--runs", "--", "-h")
        self.assertEqual((status, out), (125, "--runs -- -h\n"))

    def test_known_places(self):
        program = self.program("atomic_plain.c")  # its place has two lines: RACE
        first, second = [f"atomic_plain.c:{number}" for number, line in enumerate(
            (recorder.PROGRAMS / "atomic_plain.c").read_text().splitlines(), 1) if "RACE" in line]
        for text, wanted in ((f"# a comment\n\n{first}\t{second}\n", 0), (f"{second}\t{first}\n", 0),
                             ("*plain.c:*\tatomic*\n", 0),
                             ("atomic_plain.c:reads()\tatomic_plain.c:writes()\r\n", 0),
                             (f"{first}\tatomic_plain.c:reads()\n", 0),
                             ("atomic_plain.c:reads()\tatomic_plain.c:reads()\n", 66),
                             ("reads()\twrites()\n", 66),
                             (f"#{first}\t{second}\n", 66), (f"{first}\t{first}\n", 66),
                             ("atomic_plain?c:*\t*\n", 66)):
            status, _, said = self.record("--known", self.known(text), program)
            self.assertEqual(status, wanted, text)
            self.assertIn("1 unknown place with races;" if wanted else
                          "0 unknown places with races, 1 known one skipped;", said)

    STATS = ("#include <pthread.h>\nint hits, balance;\npthread_mutex_t m = PTHREAD_MUTEX_INITIALIZER;\n"
             "void *serve(void *p) {\n    hits++;\n    LOCK balance++; UNLOCK\n    return p;\n}\nint "
             "main(void) {\n    pthread_t t, u;\n    pthread_create(&t, 0, serve, 0);\n    "
             "pthread_create(&u, 0, serve, 0);\n    pthread_join(t, 0);\n    return pthread_join(u, 0);\n}\n")

    def build_stats(self, folder, locked, line=False):
        """A program whose function has a race of `hits`, and where it isn't locked one of `balance`, maybe at
        the same line."""
        (self.folder / folder).mkdir(exist_ok=True)
        text = self.STATS.replace("LOCK", "pthread_mutex_lock(&m);" * locked,
                                  1).replace("UNLOCK", "pthread_mutex_unlock(&m);" * locked)
        (self.folder / folder / "stats.c").write_text(
            text.replace("hits++;\n   ", "hits++;") if line else text)
        out = self.folder / folder / "stats"
        recorder.must(recorder.call("gcc", "-w", "-g", "-O1", "-fsanitize=thread", "-pthread",
                                    self.folder / folder / "stats.c", "-o", out))
        return out

    def test_a_known_place_names_its_variable(self):
        """A race of `hits` is accepted; then the lock round another variable of the same function
        is taken away."""
        self.assertEqual(self.record("-o", "first", self.build_stats("one", True))[0], 66)
        unknown = text_of(self.folder / "first" / "unknown.places")
        self.assertEqual(unknown, "# stats.c:5\tstats.c:5\nstats.c:serve()\tstats.c:serve()\thits\n")
        known = self.known(unknown)
        for line in False, True:
            status, _, said = self.record("-o", "locked", "--known", known,
                                          self.build_stats("one", True, line))
            self.assertEqual((status, "0 unknown places with races, 1 known one skipped" in said), (0, True),
                             said)
            status, _, said = self.record("-o", "open", "--known", known,
                                          self.build_stats("one", False, line))
            self.assertEqual((status, "1 unknown place with races" in said), (66, True), said)
            self.assertIn(". balance: ", said) if not line else self.assertIn("balance", said)
            self.assertIn("\tbalance\n", text_of(self.folder / "open" / "unknown.places"))
            self.assertNotIn("\thits\n", text_of(self.folder / "open" / "unknown.places"))

    def test_two_fields_are_read_and_said(self):
        known = self.known("stats.c:serve()\tstats.c:serve()\n")
        status, _, said = self.record("--known", known, self.build_stats("one", False))
        self.assertEqual((status, f"shb-record: {known}, line 1: no variable is named, so every variable "
                                  "there is known" in said), (0, True), said)

    def test_stale_lines_of_known_places(self):
        program = self.build_stats("one", True)
        known = self.known("stats.c:serve()\tstats.c:serve()\thits\nstats.c:9999\tstats.c:8888\t*\n")
        for words, wanted in ((), 0), (("--fail-on-stale",), 67):
            status, _, said = self.record(*words, "--known", known, program)
            self.assertEqual((status, f"shb-record: {known}, line 2: no race matched "
                                      "`stats.c:9999\\tstats.c:8888\\t*`\n" in said), (wanted, True), said)
            self.assertNotIn("line 1: no race", said)
        self.assertEqual(json.loads(text_of(self.folder / "stats.shb" / "places.json"))["stale"],
                         [{"line": 2, "text": "stats.c:9999\tstats.c:8888\t*"}])

    def test_files_of_one_name_in_two_programs_are_two(self):
        """The race of the second isn't hidden by that of the first, with a known place of it or without."""
        for name, function, variable in (("one", "known_stats", "counter"), ("two", "pay", "balance")):
            (self.folder / name).mkdir()
            (self.folder / name / "w.c").write_text(
                f"#include <pthread.h>\nstatic int {variable};\nstatic void *{function}(void *p) {{\n    /* "
                f"a race */\n    {variable}++;\n    return p;\n}}\nint main(void) {{\n    pthread_t a, b;\n  "
                f"  pthread_create(&a, 0, {function}, 0); pthread_create(&b, 0, {function}, 0);\n    "
                "pthread_join(a, 0);\n    return pthread_join(b, 0);\n}\n")
            recorder.must(recorder.call("gcc", "-w", "-g", "-O1", "-fsanitize=thread", "-pthread",
                                        self.folder / name / "w.c", "-o", self.folder / f"prog-{name}"))
        both = ("sh", "-c", "./prog-one; ./prog-two")
        status, _, said = self.record("-o", "out", *both)
        self.assertEqual((status, "2 places with races" in said, "counter: " in said, "balance: " in said),
                         (66, True, True, True), said)
        rows = [line.split("\t")[:3] for line in text_of(self.folder / "out" / "places.tsv").splitlines()[1:]]
        self.assertEqual(rows,
                         [["one/w.c:5", "one/w.c:5", "counter"],
                          ["two/w.c:5", "two/w.c:5", "balance"]])
        self.assertEqual(self.record("-o", "one.out", "./prog-one")[0], 66)
        known = self.folder / "one.out" / "unknown.places"
        status, _, said = self.record("-o", "out", "--known", known, *both)
        self.assertEqual((status, "balance: " in said), (66, True), said)
        self.assertIn("w.c is the end of 2 source files' paths: one/w.c, two/w.c", said)
        known.write_text(text_of(known).replace("w.c:known_stats", "one/w.c:known_stats"))
        status, _, said = self.record("-o", "out", "--known", known, *both)
        self.assertEqual((status, "1 unknown place with races, 1 known one skipped" in said,
                          "counter: " in said), (66, True, False), said)
        # a longer end of the path
        self.assertEqual(self.record("-o", "out", "--known", known, "./prog-one")[0], 0)

    def test_results_for_programs(self):
        """Of what is shown they have what the page has; of what is known the rest."""
        program = self.build_stats("one", False)
        known = self.known("stats.c:serve()\tstats.c:serve()\thits\n")
        self.assertEqual(self.record("--known", known, program)[0], 66)
        folder = self.folder / "stats.shb"
        found, log = (json.loads(text_of(folder / f"places.{end}")) for end in ("json", "sarif"))
        self.assertEqual((found["form"], found["version"], found["command"]), ("shb-places", 2, "shb-record"))
        self.assertEqual(
            {name: found["summary"][name]
             for name in ("places", "unknown", "known", "stale", "status", "runs")},
                         {"places": 2, "unknown": 1, "known": 1, "stale": 0, "status": 66, "runs": 1})
        by_state = {place["state"]: place for place in found["places"]}
        place = by_state["unknown"]
        self.assertEqual([one["name"] for one in place["variables"]], ["balance"])
        self.assertEqual({access["operation"] for access in place["accesses"]} - {"read", "write"}, set())
        for access in place["accesses"]:
            self.assertEqual((access["location"], access["functions"], access["file"], access["code"]),
                             ("stats.c:6", ["serve"], str(self.folder / "one" / "stats.c"), "balance++;"))
            self.assertEqual((access["locks"], access["without_lock"] > 0, len(access["threads"])),
                             ([], True, 2))
            self.assertEqual(access["stacks"][0]["frames"][0], 
                             {"function": "serve", "location": "stats.c:6", "file": access["file"]})
        self.assertIn("no lock is held at any access", place["facts"][0])
        self.assertEqual([one["state"] for one in by_state["known"]["variables"]], ["known"])
        results = log["runs"][0]["results"]
        self.assertEqual([bool(result["suppressions"]) for result in results], [True, False])
        said = ("Data race on `balance` between stats.c:6 and [stats.c:6](1). "
                "stats.c:6 writes without a lock. Remedy: make it atomic if it is a flag or a counter; "
                "else hold one lock at stats.c:6.")
        self.assertTrue(results[1]["message"]["text"].startswith(said), results[1])

    def test_what_a_quiet_run_means(self):
        """Code without hooks, code without debug information, and that one interleaving was seen."""
        (self.folder / "bare.c").write_text("int bare(int x) { return x + 1; }\n")
        (self.folder / "nameless.c").write_text("int twice(int x) { return 2 * x; }\n")
        (self.folder / "main.c").write_text("#include <pthread.h>\nint bare(int), twice(int), x;\nvoid "
                                            "*work(void *p) { x = twice(bare(1)); return p; }\nint "
                                            "main(void) { pthread_t t; pthread_create(&t, 0, work, 0); "
                                            "return pthread_join(t, 0); }\n")
        for words in (("-shared", "-fPIC", "-g", "bare.c", "-o", "libbare.so"),
                      ("-shared", "-fPIC", "-fsanitize=thread", "nameless.c", "-o", "libnameless.so"),
                      ("-g", "-fsanitize=thread", "-pthread", "main.c", "-o", "app", "./libbare.so",
                       "./libnameless.so")):
            recorder.must(recorder.call("gcc", *words, cwd=self.folder))
        status, _, said = self.record("./app")
        self.assertEqual(status, 0, said)
        self.assertEqual(said.splitlines()[-3:], ["shb-record: Code without -fsanitize=thread isn't seen: "
                                                  "libbare.so. Its POSIX and C++ locks are; what its own "
                                                  "atomics or futexes order may be a false race. Build it "
                                                  "with the flag.",
                                                  "shb-record: Without debug information (-g) locations are "
                                                  "addresses: libnameless.so.", f"{ONE}./app"])
        status, _, said = self.record("--runs", "2", "./app")
        self.assertNotIn(ONE, said)
        self.assertRegex(said, "2 runs gave [12] different interleavings?")
        (self.folder / "main.c").write_text(
            text_of(self.folder / "main.c").replace("return pthread", "x = 1; return pthread"))
        recorder.must(recorder.call("gcc", "-g", "-fsanitize=thread", "-pthread", "main.c", "-o", "app",
                                    "./libbare.so", "./libnameless.so", cwd=self.folder))
        self.assertEqual(self.record("./app")[0], 66)
        page, = (self.folder / "app.shb").glob("run*.html")
        for line in ("Code without -fsanitize=thread isn&#x27;t seen: libbare.so. Its POSIX and C++ locks "
                     "are; ", "Without debug information (-g) locations are addresses: libnameless.so.",
                     "One interleaving of many was seen; ten: shb-record --runs 10 ./app"):
            self.assertIn(line, text_of(page))

    def test_debug_information_that_is_not_read_is_said_once(self):
        said = self.record(self.program("status.c", "-g1"), "0", "race")[2]
        self.assertEqual(said.count("its debug information has no types (-g1)"), 1, said)

    def test_the_file_of_unknown_places_is_one_of_known_places(self):
        program = self.program()
        self.record(program, "0", "race")
        status, _, _ = self.record("--known", "status.shb/unknown.places", "-o", "again", program, "0",
                                   "race")
        self.assertEqual(status, 0)

    def test_known_places_stay_known_when_lines_move(self):
        """What one call wrote as unknown is passed over after an edit above; another function of the
        same name isn't."""
        program = self.program()
        self.record(program, "0", "race")
        for text, folder, wanted in (("\n\nint more;\n", "status", 0), ("", "other", 66)):
            moved = self.folder / f"{folder}.c"
            moved.write_text(text + text_of(recorder.PROGRAMS / "status.c"))
            recorder.must(recorder.call("gcc", "-w", "-g", "-O1", "-fsanitize=thread", "-pthread", moved,
                                        "-o", program))
            status, _, said = self.record("--known", "status.shb/unknown.places", "-o", f"{folder}.results",
                                          program, "0", "race")
            self.assertEqual(status, wanted, said)
            ends = {path.suffix for path in (self.folder / f"{folder}.results").glob("run*")}
            self.assertEqual(ends,
                             {".std", ".stacks", ".places", ".uses", *[".html", ".turns"] * bool(wanted)})

    def test_a_file_of_known_places_with_a_line_that_is_none(self):
        status, _, said = self.record("--known", self.known("a.c:1\tb.c:2\na.c:1 b.c:2\n"), self.program(),
                                      "0")
        self.assertEqual(status, 125)
        self.assertIn("known, line 2: a place is two locations or functions and a variable, with tabs "
                      "between them", said)

    def test_runs_show_each_place_once(self):
        status, out, said = self.record("--runs", "3", self.program(), "0", "race")
        self.assertEqual((status, out), (66, "said by the program\n" * 3))
        self.assertEqual(len(re.findall(r"(?m)^shb-record: run [123], process ", said)), 3)
        # the view's first line
        self.assertEqual(len(re.findall("^.*race .run 1, .*: 1 place with races, in ", said, re.M)), 1)
        self.assertNotRegex(said, "(?m)^.*race .run [23]")
        self.assertIn("shb-record: 1 place with races;", said)

    def test_until_a_race_is_found(self):
        """A known one isn't; where there is none all runs are made."""
        program, log = self.program(), self.folder / "log"
        script = f'echo >> {log}; [ $(wc -l < {log}) -lt 3 ] && exec {program} 0; exec {program} 0 race'
        status, _, said = self.record("--until-found", "5", "--jobs", "1", "-o", "out", "sh", "-c", script)
        self.assertEqual((status, len(text_of(log))), (66, 3), said)
        self.assertIn("shb-record: run 3 of at most 5 is the first with a place with races; its seed is 3\n",
                      said)
        known = self.known(text_of(self.folder / "out" / "unknown.places"))
        log.unlink()
        status, _, said = self.record("--until-found", "5", "--jobs", "1", "--known", known, "-o", "out",
                                      "sh", "-c", script)
        self.assertEqual((status, len(text_of(log)), "is the first" in said), (0, 5, False), said)
        for words in (("--until-found", "0"), ("--until-found", "2", "--runs", "2"), ("--until-found", "x")):
            self.assertEqual(self.record(*words, program)[:2], (125, ""))

    def test_runs_say_how_many_interleavings_they_gave(self):
        # in each run the addresses differ
        for name, counts in ("in_turn.c", [1]), ("short_threads.c", [2, 3]):
            _, _, said = self.record("--runs", "3", self.program(name))
            count = int(re.search(r"(?m)^shb-record: 3 runs gave (\d) different interleavings?$", said)[1])
            self.assertIn(count, counts)

    def test_no_record_has_a_likely_cause(self):
        for compiled, cause in (((), "/status left no record. Was it compiled and linked with "
                                     "-fsanitize=thread? If only a plug-in was, run"),
                                (("-static",), "/status left no record. It is statically linked: link it "
                                 "dynamically, without -static.\n"),
                                (("-fsanitize=address",), "It is built for AddressSanitizer: build it with "
                                 "-fsanitize=thread alone.\n"),
                                (("-fsanitize=thread", "-static-libtsan"), "ThreadSanitizer's own library is "
                                 "linked into it")):
            status, _, said = self.record(self.program(sanitized=compiled), "0")
            self.assertEqual(status, 125)
            self.assertIn(cause, said)
        library = self.folder / "libc.so"  # as musl's is named
        recorder.must(recorder.call("gcc", "-shared", "-Wl,-soname,libc.so", "-xc", "/dev/null", "-o",
                                    library))
        musl = self.program("status.c", "-Wl,--no-as-needed", library, f"-Wl,-rpath,{self.folder}",
                            sanitized=())
        self.assertIn("It is linked with musl: the recorder needs glibc.\n", self.record(musl, "0")[2])
        mark = self.folder / "mark.c"
        mark.write_text('__attribute__((used)) const char mark[] = "Go build ID: \\"x\\"";')
        status, _, said = self.record(self.program("status.c", mark,
                                                   sanitized=("-fsanitize=thread", "-static-libtsan")), "0")
        self.assertEqual(
            (status, "It has code in Go, whose compiler links ThreadSanitizer's own library" in said),
            (125, True), said)
        status, _, said = self.record("sh", "-c", "true")
        self.assertEqual((status, "run `shb-record env LD_PRELOAD=libtsan.so.2 sh`. If it starts such a "
                                  "program, it must pass on" in said), (125, True))

    def mount(self):
        if (os.getuid() or subprocess.run(["unshare", "--mount", "true"],
                                          stderr=subprocess.DEVNULL).returncode):
            self.skipTest("only who may mount folders can hide /proc, or fill a disk")

    def test_a_full_disk(self):
        """The table that can't be written is named, and none is there by half; so is the program's own
        status."""
        self.mount()
        disk = self.folder / "disk"
        disk.mkdir()
        for room in 4, 68:
            status, _, said = self.record("--mount", "sh", "-c",
                                          f'mount -t tmpfs -o size={room}k tmpfs {disk}; "$@"; s=$?; '
                                          f"ls -s --block-size=1 {disk}/r; exit $s", "sh", recorder.COMMAND,
                                          "-o", disk / "r", "sh", "-c", f"{self.program()} 0; exit 3",
                                          command="unshare")
            self.assertEqual(status, 125, said)
            for table in "places.json", "places.sarif", "index.html":
                self.assertIn(f"shb-record: {disk}/r/{table}: No space left on device\n", said)
            self.assertIn("; not all could be looked at; the program's own status: 3; files in ", said)

    def test_no_proc_is_the_cause_where_there_is_none(self):
        self.mount()
        status, _, said = self.record("--mount", "sh", "-c", 'mount -t tmpfs tmpfs /proc && exec "$@"', "sh",
                                      recorder.COMMAND,
                                      self.program(), "0", command="unshare")
        self.assertEqual((status, said.count("There is no /proc here: mount it."),
                          "rights of another user" in said), (125, 1, False), said)

    def test_clang_with_a_library_of_its_own(self):
        """What gcc takes, -B, has clang link ThreadSanitizer's library all the same."""
        if not shutil.which("clang"):
            self.skipTest("clang isn't installed")
        status, _, said = self.record(self.program("status.c", f"-B{recorder.BUILT}/lib/", compiler="clang"),
                                      "0")
        self.assertEqual((status, "ThreadSanitizer's own library is linked into it" in said), (125, True),
                         said)

    def flags_of_clang(self):
        if not shutil.which("clang"):
            self.skipTest("clang isn't installed")
        help = self.record("--help")[1]
        return re.search(r"LDFLAGS = -fsanitize=thread (-fno.+ -L\S+ -ltsan)\n", help)[1].split()

    def test_clang_in_one_step(self):
        status, _, said = self.record(self.program("status.c", *self.flags_of_clang(), compiler="clang"), "0",
                                      "race")
        self.assertEqual(status, 66, said)

    def check_options(self, *options, compiler):
        """A program that is built with further options calls further names of the library."""
        for option in options:
            status, _, said = self.record(self.program("status.c", *option, compiler=compiler), "0", "race")
            self.assertEqual(status, 66, said)

    def test_further_options_of_gcc(self):
        self.check_options(["-fsanitize-coverage=trace-cmp"], ["-fsanitize=undefined"], compiler="gcc")

    def test_further_options_of_clang(self):
        flags, coverage = (self.flags_of_clang(),
                           "trace-pc-guard,trace-cmp,trace-div,trace-gep,indirect-calls,stack-depth")
        self.check_options([f"-fsanitize-coverage={coverage}", *flags],
                           ["-mllvm", "-tsan-distinguish-volatile", *flags],
                           compiler="clang")

    def test_every_process(self):
        program = self.program()
        status, _, said = self.record("sh", "-c", f"{program} 1 race; {program} 0; exec {program} 2 race")
        self.assertEqual(status, 66)
        found = re.findall(
            r"(?m)^shb-record: run 1, process \d+ \(\S+/status (.*)\): .*; 1 place with races$", said)
        self.assertEqual(sorted(found), ["1 race", "2 race"])
        self.assertIn("1 place with races; the program's own status: 2;", said)

    def test_a_pipeline(self):
        """Its processes run at one time, and none takes the record of another."""
        program = self.program()
        status, _, said = self.record("sh", "-c", f"{program} 1 race | {program} 2 race")
        self.assertEqual(status, 66)
        found = re.findall(
            r"(?m)^shb-record: run 1, process \d+ \(\S+/status (.*)\): .*; 1 place with races$", said)
        self.assertEqual(sorted(found), ["1 race", "2 race"])

    def test_make_check(self):
        """A make that runs test programs side by side: each is a process of its own with its command line."""
        self.program()
        self.program("atomic_plain.c")
        (self.folder / "Makefile").write_text("check: one two three\none:\n\t./status 0 race\n"
                                              "two:\n\t./status 0\nthree:\n\t./atomic_plain\n")
        status, out, said = self.record("make", "-j2", "check")
        self.assertEqual((status, out.count("said by the program")), (66, 2), said)
        found = re.findall(r"(?m)^shb-record: run 1, process \d+ \((.*)\): .*; (\d+) places? with races$",
                           said)
        self.assertEqual(sorted(found), [("./atomic_plain", "1"), ("./status 0 race", "1")])
        self.assertIn("shb-record: 2 places with races; the program's own status: 0;", said)
        self.assertEqual(self.names("make.shb"), [*TABLES, *["run1.N.html"] * 2, *["run1.N.places"] * 2,
                                                  *["run1.N.stacks"] * 2, *["run1.N.std"] * 2,
                                                  *["run1.N.turns"] * 2, *["run1.N.uses"] * 2,
                                                  "unknown.places"])

    def test_a_daemon_is_waited_for(self):
        status, out, said = self.record(self.program("daemon.c"))
        self.assertEqual((status, out), (66, "done\n"), said)

    def test_a_process_that_goes_on(self):
        self.addCleanup(self.stop)
        program = self.program("deadlock.c")
        status, _, said = self.record("--wait", "0", "sh", "-c",
                                      f"mkfifo pipe; {program} > pipe 2> errors & echo $! > number; head -c "
                                      "2 pipe")
        self.assertEqual(status, 66)
        self.assertIn("processes that the program started still run after 0 seconds", said)
        self.assertIn("deadlock.c:9", said)

    def stop(self):
        os.kill(int((self.folder / "number").read_text()), signal.SIGKILL)

    def test_results_of_an_earlier_call_are_replaced(self):
        program = self.program()
        self.record("--keep", program, "0", "race")
        self.assertEqual(self.names(),
                         [*TABLES, "run1.N.html", "run1.N.places", "run1.N.rec", "run1.N.stacks",
                                        "run1.N.std", "run1.N.turns", "run1.N.uses", "unknown.places"])
        _, _, said = self.record(program, "0")
        self.assertRegex(said, rf"(?m)^shb-record: replacing the results in {self.folder}/status.shb, made "
                               rf"on \S+ \S+, for: {program} 0 race$")
        self.assertEqual(self.names(), [*TABLES, "unknown.places"])

    def test_files_that_it_did_not_make_stay(self):
        """Whatever their names; and none is written over."""
        program, folder = self.program(), self.folder / "mine"
        folder.mkdir()
        mine = {folder / name for name in ("run1.2-notes.std", "run1.1.std", "run3.1.windows")}
        for path in mine:
            path.write_text("mine")
        for _ in range(2):
            self.assertEqual(self.record("-o", folder, program, "0", "race")[0], 66)
        self.assertEqual({path.read_text() for path in mine}, {"mine"})
        for name in ("places.tsv", LIST):
            other = self.folder / f"other-{name}"
            other.mkdir()
            (other / name).write_text("mine")
            status, out, said = self.record("-o", other, program, "0", "race")
            self.assertEqual((status, out, f"{name} is there, and shb-record didn't make it" in said),
                             (125, "", True), said)
            self.assertEqual(text_of(other / name), "mine")

    def test_calls_at_one_time(self):
        """Each has a folder of its own, and ends as one alone."""
        program, how = self.program(), {**os.environ, "SHB": str(recorder.SHB)}
        script = (f"touch here.$$; while [ $(ls here.* | wc -l) -lt 4 ]; do sleep 0.01; done; exec {program} "
                  "0 race")
        words = [str(recorder.COMMAND), "sh", "-c", script]
        ran = [subprocess.Popen(words, cwd=self.folder, env=how, stdout=subprocess.PIPE,
                                stderr=subprocess.PIPE) for _ in range(4)]
        said = [call.communicate(timeout=recorder.SECONDS)[1].decode() for call in ran]
        self.assertEqual([call.returncode for call in ran], [66] * 4, said)
        folders = [re.search(r"files in (.*)", text)[1] for text in said]
        self.assertEqual(sorted(folders), [f"{self.folder}/sh.shb{end}" for end in ("", "-2", "-3", "-4")])
        for folder in folders:
            self.assertEqual(self.names(folder),
                             [*TABLES, "run1.N.html", "run1.N.places", "run1.N.stacks", "run1.N.std",
                              "run1.N.turns", "run1.N.uses",
                                                  "unknown.places"])

    def test_a_part_of_a_run_is_called_one(self):
        status, _, said = self.record(self.program("mutex_ok.c"), SHB_RECORDS="1000")
        self.assertEqual(status, 124)
        self.assertIn("the recording is not the whole run: SHB_RECORDS is reached", said)
        self.assertIn("0 places with races; not the whole of the run was seen;", said)

    def test_the_page_and_the_text_of_a_part_of_a_run_begin_with_why(self):
        """The recording ends between the program's two races."""
        program, why = (self.program("long_race.c"),
                        "The recording is not the whole run: SHB_RECORDS is reached.")
        status, _, said = self.record(program, SHB_RECORDS="1000")
        self.assertEqual(status, 66, said)
        self.assertIn("shb-record: 1 place with races; not the whole", said)
        # below the view's first line
        self.assertRegex(said, rf"(?m)^.*run 1, .*: .* with races, in .*\n{re.escape(why)}$")
        page, = (self.folder / "long_race.shb").glob("run*.html")
        self.assertRegex(text_of(page), rf"<h1>[^<]*</h1><p class=\"verdict bad\">{re.escape(why)}</p>")
        _, _, said = self.record(program)
        self.assertNotIn("not the whole run", said)
        page, = (self.folder / "long_race.shb").glob("run*.html")
        self.assertNotIn("not the whole run", text_of(page))

    def test_a_run_of_which_nothing_was_recorded(self):
        refuse, path = self.folder / "refuse.so", recorder.HERE / "refuse_space.c"
        recorder.must(recorder.call("gcc", "-O1", "-fno-builtin", "-fPIC", "-shared", path, "-o", refuse))
        program = self.program("mutex_ok.c")
        status, _, said = self.record("env", f"LD_PRELOAD={refuse}", "REFUSE_SPACE=2", program)
        self.assertEqual((status, "nothing of the run was recorded" in said), (125, True), said)

    def test_a_wrong_command_line(self):
        """Of every command: 3, but 125 where a program is run, whose own status may be 3."""
        top = recorder.PYTHON
        commands = [recorder.SHB, recorder.COMMAND, top / "shb-view", top / "shb-farm",
                    recorder.BUILT / "shb-std"]
        for command in commands:
            wanted = 125 if command.name == "shb-record" else 3
            answer = recorder.call(command, "--nonsense", cwd=self.folder)
            self.assertEqual((answer.returncode, answer.stdout), (wanted, b""), command)
            self.assertTrue(answer.stderr, command)

    def test_wrong_words_of_the_converter(self):
        for words, why in (("", "no RECORD is named"), ("a b", "b is one word too many"),
                           ("--nonsense a", "--nonsense isn't an option, or has no value"),
                           ("-n 0 a", "0 isn't a number of events"), ("--uses u a", "--uses needs --only"),
                           ("--page p a", "--page needs --only"),
                           ("--list --only r a", "--list with --only needs --page"),
                           ("--finer 1 a", "--finer needs --list and --page")):
            answer = recorder.call(recorder.BUILT / "shb-std", *words.split(), cwd=self.folder)
            self.assertEqual((answer.returncode, answer.stdout), (3, b""), words)
            self.assertEqual(answer.stderr.decode(), f"shb-std: {why}; shb-std --help says more\n")

    def test_versions(self):
        """Of every command but shb, whose words are fixed."""
        top = recorder.PYTHON
        for command in (recorder.COMMAND, top / "shb-view", top / "shb-farm", top / "shb-fix",
                        recorder.BUILT / "shb-std"):
            answer = recorder.call(command, "--version", cwd=self.folder)
            self.assertEqual((answer.returncode, answer.stderr), (0, b""))
            self.assertRegex(answer.stdout.decode(),
                             rf"^{command.name} (of a "
                             rf"checkout|\d{{4}}\.\d\d\.\d\d-[0-9a-f]{{12}}(-changed)?)\n$")

    def test_an_analyser_that_fails(self):
        status, _, said = self.record(self.program(), "0", "race", SHB=shutil.which("false"))
        self.assertEqual((status, "ended with status 1" in said), (125, True), said)

    def test_a_report_that_is_not_whole(self):
        """The analyser ends with 0, and its report lacks the end, or all."""
        fake = self.folder / "shb"
        for end in ('"$@" | sed "\\$d"', '"$@" > out'):
            fake.write_text(f"#!/bin/sh\n{recorder.SHB} {end}\n")
            fake.chmod(0o755)
            status, _, said = self.record(self.program(), "0", "race", SHB=str(fake))
            self.assertEqual((status, "`shb places --list` wrote no whole report: line " in said),
                             (125, True), said)

    def command_alone(self):
        """A command without its converter, which is to be put beside it."""
        home = self.folder / "recorder"
        home.mkdir()
        shutil.copy(recorder.BUILT / "module-reader", home)
        (home / "lib").symlink_to(recorder.BUILT / "lib")
        return recorder.put_commands(self.folder)

    def with_converter(self, script):
        """A command with this script of a shell in place of its converter."""
        command = self.command_alone()
        converter = self.folder / "recorder" / "shb-std"
        converter.write_text(f"#!/bin/sh\n{script}\n")
        converter.chmod(0o755)
        return command

    def test_a_converter_that_is_killed(self):
        """It has written a row, and nobody reads the answer."""
        command = self.with_converter("exec 0<&-\nprintf 'main|w(x)|a.c:1\\n'\nkill -KILL $$")
        status, _, said = self.record(self.program(), "0", "race", command=command)
        self.assertEqual(status, 125, said)
        self.assertRegex(said, r"(?m)^shb-record: run 1, process \d+: shb-std ended with signal 9$")

    def test_a_page_that_contradicts_the_list(self):
        """Which places are listed is said, since no page shows it."""
        real = recorder.BUILT / "shb-std"
        for end in "sed -i s/status.c:9/status.c:8/ $3", ": > $3":
            with self.subTest(end):
                command = self.with_converter(f'exec 4<&0\n{real} "$@" <&4 &\nexec >&- <&- 4<&-\nwait '
                                              f'$!\nstatus=$?\n{end}\nexit $status')
                status, _, said = self.record(self.program(), "0", "race", command=command)
                self.assertEqual(status, 125, said)
                self.assertRegex(said, r"(?m)^shb-record: run 1, process \d+: 1 place with races that can't "
                                       r"be shown:\n"
                                 r"shb-record:   shared: status.c:9 \w+ by \S+, and status.c:9 \w+ by \S+$")
                self.assertRegex(said, r"(?m)^shb-record: 1 place with races that can't be shown; not all "
                                       r"could be looked at; the program's own")
                self.assertNotIn("0 places", said)
                shutil.rmtree(self.folder / "recorder")

    def test_a_converter_that_loses_an_event(self):
        """The file of uses lacks the second access of the race."""
        command = self.command_alone()
        shutil.copy(planted(self.folder / "planted", "page.c", "wanted.at[wanted_at] == number)",
                            "wanted.at[wanted_at] == number && !wanted_at)"), self.folder / "recorder")
        status, _, said = self.record(self.program(), "0", "race", command=command)
        self.assertEqual((status, "the page's trace lacks 1 event of `shb places --list`" in said),
                         (125, True), said)

    def test_what_earlier_runs_recorded_is_shown(self):
        """The third run leaves no record, for it can't begin one."""
        program = self.program()
        script = (f"[ -e {self.folder}/two ] && exec true; [ -e {self.folder}/one ] && touch "
                  f"{self.folder}/two; touch {self.folder}/one; exec {program} 0 race")
        status, _, said = self.record("--runs", "4", "--jobs", "1", "sh", "-c", script)
        self.assertEqual((status, "sh left no record" in said), (66, True), said)
        self.assertIn("1 place with races; not all could be looked at;", said)
        self.assertEqual(text_of(self.folder / "sh.shb" / "unknown.places"), UNKNOWN)

    def test_an_analyser_that_fails_late(self):
        """The second process is the one that it doesn't take."""
        fake = self.folder / "shb"
        fake.write_text(f'#!/bin/sh\n[ -e ran ] && exit 4; touch ran\nexec {recorder.SHB} "$@"\n')
        fake.chmod(0o755)
        program = self.program()
        status, _, said = self.record("sh", "-c", f"{program} 0 race; {program} 0 race", SHB=str(fake))
        self.assertEqual(status, 66, said)
        self.assertIn("not all could be looked at", said)
        self.assertEqual(len(list((self.folder / "sh.shb").glob("*.rec"))), 1)

    def test_a_signal_ends_the_program_and_shows_it(self):
        """Sent to the command alone; the program, which hangs, has raced before. What ignores it is
        killed after --wait."""
        program = self.program("deadlock.c")
        for number, how, own, wait in ((signal.SIGTERM, "", 143, []), (signal.SIGINT, "", 130, []),
                                       (signal.SIGTERM, "trap '' TERM; ", 137, ["--wait", "30"])):
            ready = self.folder / f"ready{own}"
            words = [*wait, "sh", "-c", f"{how}exec {program} > {ready}"]
            ran = subprocess.Popen([str(recorder.COMMAND), *words], cwd=self.folder, stderr=subprocess.PIPE,
                                   env={**os.environ, "SHB": str(recorder.SHB)},
                                   preexec_fn=lambda: signal.signal(signal.SIGINT, signal.SIG_DFL))
            while not ready.exists() or ready.read_text() != "..":
                self.assertIsNone(ran.poll())
                time.sleep(0.01)
            ran.send_signal(number)
            said = ran.communicate(timeout=recorder.SECONDS)[1].decode()
            self.assertEqual(ran.returncode, 66, said)
            self.assertIn(f"the program's own status: {own};", said)
            self.assertIn(f"stopped by {number.name}", said)

    def stopped(self, signals, at, *words):
        """The command, to which a program that it starts sends signals: the analyser or the converter."""
        tools, part = self.folder / f"tools of {at}" / "recorder", self.folder / "fake"
        tools.mkdir(parents=True, exist_ok=True)
        parts = {tools / name: recorder.BUILT / name for name in ("lib", "shb-std") if name != at}
        for place, path in parts.items():
            if not place.exists():
                place.symlink_to(path)
        real = recorder.SHB if at == "shb" else recorder.BUILT / at
        fake = part if at == "shb" else tools / at
        sends = "".join(f"kill -{number} $PPID; " for number in signals)
        sent, waits = self.folder / "sent", "exec sleep 1000; " * (len(signals) > 1)
        sent.unlink(missing_ok=True)
        fake.write_text(f'#!/bin/sh\nif [ ! -e {sent} ]; then echo $$ > {sent}; {sends}{waits}fi\nexec '
                        f'{real} "$@"\n')
        fake.chmod(0o755)
        command = recorder.put_commands(tools.parent)
        return self.record(*words, self.program(), "0", "race", command=command,
                           SHB=str(part if at == "shb" else recorder.SHB))

    def test_a_signal_after_the_run_lets_it_be_shown(self):
        for at in "shb", "shb-std":
            for words, kept in ((), []), (("--keep",), ["run1.N.rec"]):
                status, _, said = self.stopped(["TERM"], at, *words)
                self.assertEqual((status, "1 place with races; the program's own status: 0" in said),
                                 (66, True), said)
                self.assertIn("SIGTERM: what was recorded is still shown; another one ends at once, and "
                              "keeps the record\n", said)
                self.assertEqual([name for name in self.names() if name.endswith((".rec", ".html"))],
                                 ["index.html", "run1.N.html", *kept])

    def test_a_second_signal_ends_at_once_and_keeps_the_record(self):
        for at in "shb", "shb-std":
            status, _, said = self.stopped(["INT", "TERM"], at)
            self.assertEqual((status, "stopped at once" in said), (125, True), said)
            [record] = (self.folder / "status.shb").glob("*.rec")
            self.assertIn(f"the record is kept: {record}\n", said)
            recorder.must(recorder.convert(record))

    def test_ctrl_c_at_any_moment(self):
        """Each command ends by the signal, or after it with its status, and gives no traceback of its own;
        Python itself does so while it starts."""
        trace = recorder.SOURCES.parent / "examples" / "account.std"
        how = {**os.environ, "SHB": str(recorder.SHB)}
        of_signal = 0
        for number in range(100):
            name = ("shb-record", "shb-view", "shb-farm", "shb-fix")[number % 4]
            ran = subprocess.Popen([recorder.COMMAND.parent / name, trace], env=how, cwd=self.folder,
                                   stdout=subprocess.DEVNULL, stderr=subprocess.PIPE,
                                   preexec_fn=lambda: signal.signal(signal.SIGINT, signal.SIG_DFL))
            time.sleep(number / 400)
            ran.send_signal(signal.SIGINT)
            said = ran.communicate()[1].decode()
            self.assertNotRegex(said, "import os|shb_", (name, number))
            of_signal += ran.returncode == -signal.SIGINT
        self.assertGreater(of_signal, 0)

    def test_the_folder_of_a_call_that_was_killed_is_named(self):
        self.assertEqual(self.stopped(["KILL", "KILL"], "shb")[0], -signal.SIGKILL)
        [work] = (self.folder / "status.shb").glob("work-*")
        said = self.record(self.program(), "0")[2]
        self.assertIn(f"shb-record: {work} is deleted: the records of an earlier call that was killed\n",
                      said)

    def test_a_command_that_is_killed_leaves_no_helper(self):
        for at in "shb", "shb-std":
            self.assertEqual(self.stopped(["KILL", "KILL"], at)[0], -signal.SIGKILL)
            helper, end = int((self.folder / "sent").read_text()), time.monotonic() + recorder.SECONDS
            while is_running(helper):
                self.assertLess(time.monotonic(), end, at)
                time.sleep(0.01)

    def test_a_second_signal_while_a_page_is_made(self):
        """The places are known by then."""
        status, said = self.signalled("SIGINT", "SIGTERM", "SIGTERM")
        self.assertEqual((status, "stopped at once" in said, "1 place with races" in said), (66, True, True),
                         said)
        self.assertIn("run1.N.rec", self.names())
        self.assertNotIn("run1.N.html", self.names())

    def test_a_signal_that_comes_twice(self):
        """`timeout` sends SIGTERM to the command, and then to its whole group."""
        status, said = self.signalled("SIGTERM", "SIGTERM")
        self.assertEqual((status, "stopped at once" in said), (66, False), said)
        self.assertIn("run1.N.html", self.names())

    def test_a_page_that_takes_longer_than_is_waited_for(self):
        """The places are there first."""
        status, said = self.signalled("SIGTERM", words=("--wait", "20"), then="import time; time.sleep(1000)")
        self.assertEqual((status, "1 place with races" in said), (66, True), said)
        self.assertIn("shb-record: stopped 20 seconds after the signal (--wait)\n", said)
        self.assertIn("run1.N.rec", self.names())

    def test_places_are_told_first_after_a_signal(self):
        status, _, said = self.stopped(["TERM"], "shb")
        told = re.search(r"(?m)^shb-record: run 1, process \d+: 1 place with races:\nshb-record:   shared: "
                         r"status\.c:9 written by .*, and status\.c:9 written by .*$", said)
        self.assertIsNotNone(told, said)
        self.assertLess(told.end(), said.index("shb-record: page: "))
        self.assertNotIn("1 place with races:\n", self.record(self.program(), "0", "race")[2])

    def signalled(self, *numbers, words=(), then="pass"):
        """Sends signals to the command when it begins a page, which does this then."""
        command = self.folder / "command"
        command.write_text("#!/usr/bin/env python3\nimport os, runpy, signal, sys\n"
                           f"sys.path.insert(0, {str(recorder.COMMAND.parent)!r})\n"
                           "import shb_view.command\nmade = shb_view.command.explain\n"
                           "def explain(*words, **how):\n"
                           f"    for name in {numbers!r}:\n        os.kill(os.getpid(), getattr(signal, "
                           f"name))\n    {then}\n    return made(*words, **how)\nshb_view.command.explain = "
                           f"explain\nrunpy.run_path({str(recorder.COMMAND)!r}, run_name='__main__')\n")
        command.chmod(0o755)
        status, _, said = self.record(*words, self.program(), "0", "race", command=command)
        return status, said

    def test_a_check_that_fails_whatever_else_is_found(self):
        """Of two processes with a race the second one's report isn't whole."""
        fake, program = self.folder / "shb", self.program()
        fake.write_text(f'#!/bin/sh\nif [ -e ran ]; then {recorder.SHB} "$@" | sed "\\$d"; exit 0; fi\ntouch '
                        f'ran\nexec {recorder.SHB} "$@"\n')
        fake.chmod(0o755)
        status, _, said = self.record("sh", "-c", f"{program} 0 race; {program} 0 race", SHB=str(fake))
        self.assertEqual((status, "1 place with races; not all could be looked at" in said), (125, True),
                         said)

    def test_without_an_analyser_the_program_does_not_run(self):
        status, out, said = self.record(self.program(), "0", SHB="/nowhere/shb")
        self.assertEqual((status, out), (125, ""))
        self.assertIn("there is no analyser at /nowhere/shb; in a checkout `make build` makes it", said)

    def test_help(self):
        for word, lines in ("-h", range(15, 31)), ("--help", range(80, 200)):
            status, out, said = self.record(word)
            self.assertEqual((status, said), (0, ""))
            self.assertTrue(out.startswith("Usage: shb-record "))
            self.assertLessEqual(max(map(len, out.splitlines())), 80 if word == "-h" else 100)
            self.assertIn(out.count("\n"), lines)

    def test_installed(self):
        """All but shb in PREFIX/lib/shb, and links to the commands in PREFIX/bin."""
        prefix = self.folder / "prefix"
        home = prefix / "lib" / "shb"
        (prefix / "bin").mkdir(parents=True)
        shutil.copytree(recorder.BUILT / "lib", home, symlinks=True)
        for name in ("shb_common", "shb_record", "shb_view"):
            shutil.copytree(recorder.PYTHON / name, home / name)
        for path in (recorder.COMMAND, recorder.BUILT / "shb-std", recorder.BUILT / "module-reader"):
            shutil.copy(path, home)
        (prefix / "bin" / "shb-record").symlink_to("../lib/shb/shb-record")
        (prefix / "bin" / "shb").symlink_to(recorder.SHB)
        status, _, said = self.record(self.program(), "0", "race", command=prefix / "bin" / "shb-record",
                                      SHB="")
        self.assertEqual((status, "status.c:9" in said), (66, True), said)
