"""python/shb-view as a command: its files, its statuses, and the `shb` that it runs."""

import json
import os
import resource
import shutil
import signal
import subprocess
import sys
from unittest import mock

import program
from viewing import EXAMPLES, PYTHON, run, run_here, settings

from shb_common import files, standard

TRACE = EXAMPLES / "fork-join.std"


class Fake(program.Case):
    """A test with an `shb` of its own."""

    def fake(self, script, name="shb"):
        """A program that runs this script, in which REAL is the built program."""
        path = self.file(b"#!/bin/sh\n" + script.replace("REAL", str(program.PATH)).encode(), name)
        path.chmod(0o755)
        return path

    def said(self, words, status=2):
        """What is said where nothing is shown."""
        answer = run_here(words)
        self.assertEqual(answer[:2], (status, ""))
        self.assertRegex(answer[2], r"\Ashb-view: [^\n]+\n\Z")
        return answer[2][10:-1]


class Running(Fake):
    """How the program is run."""

    def test_no_schedules_where_they_would_be_long(self):
        """A thousand places after 18,000 events: 133 MB. The program is asked for no schedule."""
        events = "A|r(y)|c:1\n" * 18000 + "".join(f"A|w(x{k})|a:{k}\nB|w(x{k})|b:{k}\n" for k in range(1000))
        log = self.folder / "log"
        script = f'echo "$1 $2" >> {log}; exec REAL "$@"\n'
        trace = self.file(events.encode())
        status, out, err = run_here(["--all", "--shb", self.fake(script), trace])
        self.assertEqual((status, err), (0, ""))
        self.assertEqual(log.read_text().splitlines(), ["places --list"])
        self.assertEqual(out.splitlines()[-1], "No schedules were made, since they would take over 100 MB.")
        self.assertIn("No schedule of this race is at hand: events are shown in the order of the trace.", out)
        self.assertNotIn("come next", out)

    def test_what_is_run(self):
        log = self.folder / "log"
        script = f'echo "$*" >> {log}; exec REAL "$@"\n'
        self.assertEqual(run_here(["--shb", self.fake(script), TRACE])[0], 0)
        self.assertEqual(log.read_text().splitlines(), ["places --list --variables"])

    def test_a_trace_without_races_is_analysed_once(self):
        log = self.folder / "calls"
        fake = self.fake(f'echo "$1" >> {log}; exec REAL "$@"\n')
        status, out, _ = run_here(["--shb", fake, self.file(b"A|w(x)|a.c:1\nA|w(x)|a.c:2\n")])
        self.assertEqual((status, log.read_text()), (0, "places\n"))
        self.assertIn("0 places", out)

    def test_text_and_page_of_one_run(self):
        """As each alone, and `shb` runs as often as for the page."""
        log, page = self.folder / "log", self.folder / "page.html"
        fake = self.fake(f'echo "$1" >> {log}; exec REAL "$@"\n')
        whole = run_here([TRACE])[1]
        self.assertEqual(run_here(["--html", page, TRACE]), (0, "", ""))
        alone = page.read_bytes()
        status, out, err = run_here(["--text", "--html", page, "--shb", fake, TRACE])
        self.assertEqual((status, out.startswith(whole), err), (0, True, ""))
        self.assertEqual((page.read_bytes(), log.read_text().split()), (alone, ["places", "places", "check"]))

    def test_groups_with_places_that_are_asked_for(self):
        """The page has all groups."""
        trace, page = EXAMPLES / "unlocked-read.std", self.folder / "page.html"
        only = {(b"main.c:12", b"queue.c:29"): {b"closed"}}
        status, out, err = run_here(["--text", "--html", page, trace], new=only)
        self.assertEqual((status, err), (0, ""))
        self.assertIn("\nOf 2 groups 1 are shown, those with a place that is asked for.\n\n2. closed: ", out)
        self.assertNotIn("items", out)
        self.assertIn("items", page.read_text())
        only = {(b"main.c:12", b"queue.c:29"): {b"items"}}
        self.assertIn("\nOf 2 groups 0 are shown", run_here([trace], new=only)[1])

    def test_what_is_said_of_the_recorder(self):
        """Text, page and the result for programs have it; it is escaped."""
        page, found = self.folder / "page.html", self.folder / "found.json"
        status, out, err = run_here(["--text", "--html", page, "--json", found, TRACE],
                                    about=["Code of <b>lib\x1b.so isn't seen."])
        self.assertEqual((status, err), (0, ""))
        self.assertIn("\nCode of <b>lib\\x1b.so isn't seen.\n", out)
        self.assertIn("Code of &lt;b&gt;lib\\x1b.so isn&#x27;t seen.", page.read_text())
        document = json.loads(found.read_text())
        self.assertEqual((document["form"], document["version"], document["command"], document["notes"][-1]),
                         ("shb-places", 2, "shb-view", "Code of <b>lib\\x1b.so isn't seen."))
        [place] = document["places"]
        self.assertEqual([(access["location"], access["uses"], access["threads"])
                          for access in place["accesses"]],
                         [("start.c:6", {"write": 1}, {"main": 1}),
                          ("worker.c:3", {"write": 1}, {"worker": 1})])
        self.assertEqual(place["variables"], [{"name": "count"}])

    def test_a_fault_of_the_view_itself(self):
        with mock.patch("shb_view.command.make_view", lambda *_: None):
            status, out, err = run_here([TRACE])
        self.assertEqual((status, out, err.startswith("shb-view: Traceback ")), (2, "", True))

    def test_a_title(self):
        status, out, _ = run_here(["--title", "./app 3\x1b", TRACE])
        self.assertEqual((status, out.split(": ")[0]), (0, "./app 3\\x1b"))

    def test_a_name_that_is_not_utf8(self):
        """No word of `shb` may be so."""
        trace = os.fsencode(self.folder) + b"/\xff.std"
        with open(trace, "wb") as file:
            file.write(TRACE.read_bytes())
        answer = run([trace])
        self.assertEqual((answer.status, answer.err), (0, b""))
        self.assertTrue(answer.out.startswith(b"\\xff.std: 1 place "))

    def test_a_name_like_an_option(self):
        trace = self.file(TRACE.read_bytes(), "-t.std")
        answer = subprocess.run([sys.executable, PYTHON / "shb-view", "--", "-t.std"], cwd=self.folder,
                                env=settings(),
                                capture_output=True, timeout=program.SECONDS)
        self.assertEqual((answer.returncode, answer.stderr), (0, b""))
        self.assertTrue(answer.stdout.startswith(b"-t.std: 1 place "))

    def test_a_refused_trace(self):
        """The line is shown, and what is likely to be wrong with it; python/tests/test_refused.py
        has all hints."""
        for text, fault, line, hint in (
            (b"A|w(x)\nA\tw(x)\n", "line 2: the line has no operation field", "A\\x09w(x)",
             "a line is THREAD|OPERATION|LOCATION, with bars between, not tabs; there are no comments"),
            (b"\n\nA|W(x)\n", "line 3: the operation is not known", "A|W(x)",
             "operations are written in small letters, as `w`"),
            (b"\xef\xbb\xbf# a comment\n", "line 1: the line has no operation field", "\\ufeff# a comment",
             "the file begins with a byte order mark: save it without one"),
            (b"A|rel(l)\n", "line 1: the lock is not held by this thread", "A|rel(l)",
             "the log may begin while the lock is held, or miss an acquire; `shb-fix` repairs such logs"),
            (b"A|w(x)\nB|fork(A)\n", "line 2: the forked thread has started already", "B|fork(A)",
             "the fork may be logged late; `shb-fix` repairs such logs"),
        ):
            with self.subTest(text):
                status, out, err = run_here([self.file(text)])
                said = (f"shb-view: `shb` refuses the trace: {fault}\n  {line}\n"
                        + (f"  hint: {hint}\n" if hint else ""))
                self.assertEqual((status, out, err), (2, "", said))

    def test_a_trace_that_begins_oddly(self):
        """It isn't refused; the names aren't what they look like."""
        out = run_here([self.file(b"\xef\xbb\xbfA|w(x)\nA|w(x)\n")])[1]
        self.assertEqual(out.splitlines()[1], "The trace begins with a byte order mark, which is a part of "
                                              "the first thread's name.")
        out = run_here([self.file(b"A|w(x)|a\rB|w(x)|b\r")])[1]
        self.assertEqual(out.splitlines()[1], "In the trace a carriage return without a line feed: lines end "
                                              "with a line feed, or with both.")

    def test_a_killed_program(self):
        self.assertEqual(self.said(["--shb", self.fake("kill -9 $$\n"), TRACE]),
                         "`shb places --list --variables` was ended by signal 9")

    def test_a_program_that_fails(self):
        self.assertEqual(self.said(["--shb", self.fake("echo 'out of memory' >&2; exit 4\n"), TRACE]),
                         "`shb places --list --variables` ended with status 4: out of memory")
        self.assertEqual(self.said(["--shb", self.fake("exit 4\n"), TRACE]),
                         "`shb places --list --variables` ended with status 4")
        self.assertEqual(self.said(["--shb", self.fake("printf 'a\\033[31m\\nb' >&2; exit 4\n"), TRACE]),
                         "`shb places --list --variables` ended with status 4: a\\x1b[31m\\x0ab")
        self.assertEqual(
            self.said(["--shb", self.fake("head -c 5000 /dev/zero | tr '\\0' x >&2; exit 4\n"), TRACE]),
                         f"`shb places --list --variables` ended with status 4: {'x' * 99}…{'x' * 100}")
        self.assertEqual(self.said(["--shb", self.fake("echo hello\n"), TRACE]),
                         "line 1 of the report is `hello`; it should be "
                         "`shb-report 2`")

    def test_no_such_program(self):
        none = self.folder / "no\nne"
        said = (f"`{self.folder}/no\\x0ane` can't be run (No such file or directory); SHB=PROGRAM names "
                "another `shb`")
        self.assertEqual(self.said(["--shb", none, TRACE]), said)
        answer = run([TRACE], env=program.with_settings(SHB=str(none)))
        self.assertEqual((answer.status, answer.err.decode()), (2, f"shb-view: {said}\n"))

    def test_where_it_finds_its_parts(self):
        """In a checkout ../bin/shb; installed all packages beside it and ../../bin/shb, also by a link."""
        for name, command in (("checkout", "python/shb-view"), ("prefix", "lib/shb/shb-view")):
            top = self.folder / name
            command = top / command
            for package in ("shb_view", "shb_common"):
                shutil.copytree(PYTHON / package, command.parent / package,
                                ignore=shutil.ignore_patterns("__pycache__"))
            shutil.copy(PYTHON / "shb-view", command)
            (top / "bin").mkdir()
            (top / "bin/shb").symlink_to(program.PATH)
            link = self.folder / f"link-{name}"
            link.symlink_to(command)
            environment = {key: value for key, value in os.environ.items() if key != "SHB"}
            for path in (command, link):
                answer = run([TRACE], env=environment, command=path)
                self.assertEqual((answer.status, answer.err), (0, b""))
                self.assertIn(b"fork-join.std: 1 place ", answer.out)


class Files(Fake):
    def test_files_that_are_not_there(self):
        none = self.folder / "no\x1bne"
        shown = f"{self.folder}/no\\x1bne"
        self.assertEqual(self.said([none]), f"{shown}: No such file or directory")
        self.assertEqual(self.said([self.folder]), f"{self.folder} isn't a regular file: the trace is read "
                                                   "more than once, so save it to a file")
        (self.folder / "made-by-shb-record.txt").touch()
        self.assertEqual(self.said([self.folder]), f"{self.folder} is a folder of results: index.html in it "
                                                   "is their overview, and run*.std are the traces")
        self.assertEqual(self.said(["--source", none, TRACE]), f"--source: {shown} isn't a folder")

    def test_a_pipe_is_no_trace(self):
        os.mkfifo(self.folder / "pipe")
        self.assertEqual(self.said(["-"]), "- isn't a regular file: the trace is read more than once, so "
                                           "save it to a file")
        self.assertEqual(self.said([self.folder / "pipe"]),
                         f"{self.folder}/pipe isn't a regular file: the trace is read more than once, so "
                         "save it to a file")

    def test_places_that_cannot_be_written(self):
        self.assertEqual(self.said(["--html", self.folder, TRACE]), f"{self.folder} isn't a regular file")
        path = self.folder / "no" / "page"
        self.assertEqual(self.said(["--html", path, TRACE]), f"{path}: No such file or directory")

    def test_the_place_is_tried_before_the_work(self):
        fake = self.fake(f"touch {self.folder}/ran; exec REAL \"$@\"\n")
        self.said(["--html", self.folder / "no" / "page", "--shb", fake, TRACE])
        self.assertFalse((self.folder / "ran").exists())

    def test_the_page_never_takes_the_place_of_an_input(self):
        trace = self.file(TRACE.read_bytes())
        hard, soft = self.folder / "hard", self.folder / "soft"
        os.link(trace, hard)
        soft.symlink_to(trace)
        for path in (trace, hard, soft):
            before = path.read_bytes()
            self.assertEqual(self.said(["--html", path, trace]), f"the page would take the place of {trace}")
            self.assertEqual(path.read_bytes(), before)

    def test_the_old_page_stays_where_a_new_one_fails(self):
        page = self.file(b"old", "page.html")
        self.said(["--html", page, "--shb", self.fake("kill -9 $$\n"), TRACE])
        self.assertEqual(page.read_bytes(), b"old")
        self.assertEqual(sorted(path.name for path in self.folder.iterdir()), ["page.html", "shb"])

    def test_a_page_that_is_too_long_for_the_disk(self):
        """Here for a limit of the shell; the fault names the page."""
        page = self.file(b"old", "page.html")
        words = [sys.executable, str(PYTHON / "shb-view"), "--html", str(page), str(TRACE)]
        script = 'ulimit -f 4; exec "$@"'  # blocks of 512 or 1,024 bytes: less than the style alone
        answer = subprocess.run(["sh", "-c", script, "sh", *words], env=settings(), capture_output=True,
                                timeout=program.SECONDS)
        self.assertEqual((answer.returncode, answer.stderr.decode()),
                         (2, f"shb-view: {page}: File too large\n"))
        self.assertEqual((page.read_bytes(), len(list(self.folder.iterdir()))), (b"old", 1))

    def test_a_fault_that_comes_again_when_the_file_is_closed_names_the_page(self):
        """What the disk has no room for is kept by Python, which tries it once more then."""
        page = self.file(b"old", "page.html")
        limit, kept = resource.getrlimit(resource.RLIMIT_FSIZE), signal.signal(signal.SIGXFSZ, signal.SIG_IGN)
        self.addCleanup(signal.signal, signal.SIGXFSZ, kept)
        self.addCleanup(resource.setrlimit, resource.RLIMIT_FSIZE, limit)
        resource.setrlimit(resource.RLIMIT_FSIZE, (4096, limit[1]))
        with self.assertRaises(OSError) as fault, standard.faults_of("the page"):
            files.put(page, b"a" * 15000)
        self.assertEqual((fault.exception.filename, fault.exception.strerror), ("the page", "File too large"))
        self.assertEqual(list(self.folder.iterdir()), [page])

    def test_a_new_page_has_the_usual_mode_and_a_link_is_replaced(self):
        page, other = self.folder / "page.html", self.file(b"other", "other")
        page.symlink_to(other)
        mask = os.umask(0o027)
        self.addCleanup(os.umask, mask)
        self.assertEqual(run_here(["--html", page, TRACE])[0], 0)
        self.assertEqual((page.is_symlink(), page.stat().st_mode & 0o777,
                          other.read_bytes()), (False, 0o640, b"other"))

    def test_an_encoding_that_lacks_a_character(self):
        trace = self.file("A|w(größe…)\nB|w(größe…)\n".encode())
        answer = run([trace], env=settings(PYTHONIOENCODING="ascii"))
        self.assertEqual((answer.status, answer.err), (0, b""))
        self.assertIn(rb"1. gr\xf6\xdfe\u2026: (no location) writes without a lock", answer.out)


class Statuses(Fake):
    def test_words(self):
        self.assertEqual(run([]).status, 3)
        self.assertEqual(run(["--help"]).status, 0)
        answer = run(["a", "c\x1b[31m"])
        self.assertEqual((answer.status, answer.out), (3, b""))
        self.assertTrue(answer.err.endswith(b"shb-view: unrecognized arguments: c\\x1b[31m\n"))
        self.assertNotIn(b"\x1b", answer.err)

    def test_a_nul_in_a_word(self):
        with self.assertRaises(SystemExit) as ended:
            run_here(["a\0b"])
        self.assertEqual(ended.exception.code, 3)

    def test_a_full_disk(self):
        with open("/dev/full", "wb") as full:
            answer = run([TRACE], stdout=full)
        self.assertEqual((answer.status, answer.err),
                         (2, b"shb-view: standard output: No space left on device\n"))

    def test_a_reader_that_went_away(self):
        read_end, write_end = os.pipe()
        os.close(read_end)
        with open(write_end, "wb") as closed:
            self.assertEqual(run([TRACE], stdout=closed)[::2], (2, b""))

    def test_closed_standard_files(self):
        words = [sys.executable, str(PYTHON / "shb-view")]

        def closed(script, *more):
            return subprocess.run(["sh", "-c", script, "sh", *words, *map(str, more)], env=settings(),
                                  capture_output=True,
                                  timeout=program.SECONDS)

        answer = closed('"$@" >&-', TRACE)
        self.assertEqual((answer.returncode, answer.stderr), (2, b"shb-view: standard output is closed\n"))
        whole = run([TRACE]).out
        answer = closed('"$@" 2>&-', TRACE)
        self.assertEqual((answer.returncode, answer.stdout), (0, whole))
        answer = closed('"$@" <&- 2>&-', self.folder / "none")
        self.assertEqual((answer.returncode, answer.stdout), (2, b""))
        page = self.folder / "page.html"
        answer = closed('"$@" <&- >&- 2>&-', "--html", page, TRACE)
        self.assertEqual(answer.returncode, 0)
        self.assertTrue(page.read_bytes().endswith(b"</html>\n"))

    def test_stopped(self):
        """By the signal of a terminal, while `shb` runs. A test that runs in the background may have been
        told to ignore it."""
        started = self.folder / "started"
        fake = self.fake(f"touch {started}; exec sleep 20\n")
        ran = subprocess.Popen([sys.executable, PYTHON / "shb-view", "--shb", fake, TRACE],
                               stdout=subprocess.PIPE,
                               stderr=subprocess.PIPE,
                               preexec_fn=lambda: signal.signal(signal.SIGINT, signal.SIG_DFL))
        while not started.exists():
            self.assertIsNone(ran.poll())
        ran.send_signal(signal.SIGINT)
        out, err = ran.communicate(timeout=program.SECONDS)
        self.assertEqual((ran.returncode, out, err), (-signal.SIGINT, b"", b""))

    def test_out_of_memory(self):
        from shb_view import command

        def fails(*_):
            raise MemoryError

        kept, command.make_view = command.make_view, fails
        self.addCleanup(setattr, command, "make_view", kept)
        self.assertEqual(self.said([TRACE]), "out of memory")

    def test_a_trace_that_was_changed(self):
        """`shb` reads one trace, the view another."""
        trace = self.file(TRACE.read_bytes())
        script = (f"REAL \"$@\"; status=$?; [ $1 = places ] && printf 'A|w(count)|x\\n' >> {trace}; exit "
                  "$status\n")
        self.assertEqual(self.said(["--shb", self.fake(script), trace]),
                         "the trace isn't the one that `shb` read: it was changed in between")
