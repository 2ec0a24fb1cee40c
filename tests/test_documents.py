"""What README, docs/GUIDE.md and docs/FORMATS.md show and list, followed on the built program."""

import re
import shutil
import subprocess
import sys

import program

TOP = program.HERE.parent
README = (TOP / "README.md").read_text()
GUIDE = (TOP / "docs" / "GUIDE.md").read_text()
FORMATS = (TOP / "docs" / "FORMATS.md").read_text()
LOGS = TOP / "examples" / "logs"
# What examples/logs log, by thread, since the threads run at once; a seller may look at `ready` more
# than once.
LOGGED = {
    "main": ["fork(seller)", "w(price)", "vw(ready)", "r(count)", "join(seller)"],
    "seller": ["vr(ready)", "r(price)", "acq(door)", "w(count)", "rel(door)"],
}
FIX = [sys.executable, TOP / "python" / "shb-fix", "--quiet"]

# A trace for each reason, with the line that is refused. The texts of three are long, and other tests
# have them.
REFUSED = {
    "the text is longer than 1073741824 bytes": None,
    "the line is longer than 4096 bytes": (b"T|r(x)|" + b"a" * 4090 + b"\n", 1),
    "the line has no operation field": (b"\nT r(x)\n", 2),
    "the thread name is empty": (b"|r(x)\n", 1),
    "the operation is not known": (b"T|R(x)\n", 1),
    "the operand is not a name in parentheses": (b"T|r()\n", 1),
    "there are more than 4194304 events": None,
    "there are more than 1024 threads": None,
    "the thread was joined before": (b"T|join(U)\nU|r(x)\n", 2),
    "the lock is held by another thread": (b"T|acq(l)\nU|acq(l)\n", 2),
    "the lock is not held by this thread": (b"T|rel(l)\n", 1),
    "a thread cannot fork itself": (b"T|fork(T)\n", 1),
    "the forked thread has started already": (b"U|r(x)\nT|fork(U)\n", 2),
    "the thread was forked before": (b"T|fork(U)\nT|fork(U)\n", 2),
    "the forked thread was joined before": (b"T|join(U)\nT|fork(U)\n", 2),
    "a thread cannot join itself": (b"T|join(T)\n", 1),
}
BOTH = (  # lines with two faults, and the one that comes first in the table
    (b"T|join(U)\nU|R(x)\n", "the operation is not known"),
    (b"T|join(U)\nU|rel(l)\n", "the thread was joined before"),
    (b"U|r(x)\nT|join(U)\nT|fork(U)\n", "the forked thread has started already"),
)


def block_from(text, start):
    """The lines of a text's code block from the one that begins so, without their indentation."""
    shown = re.search(rf"^    {re.escape(start)}.*\n(?:(?:    .*)?\n)*", text, re.M)[0]
    return "".join(line[4:] + "\n" for line in shown.rstrip("\n").split("\n"))


class Documents(program.Case):
    def test_the_end_of_a_report(self):
        report = (TOP / "examples" / "fork-join.report").read_text()
        self.assertTrue(report.endswith("\n" + block_from(README, "race 1: ")))

    def test_what_a_parser_needs(self):
        """Locations that are empty, and a schedule without events."""
        answer = program.run(["races"], b"T1|w(x)\nT2|w(x)\n")
        self.assertTrue(answer.out.endswith(b"\nplace 1: 1\nat \nand \nrace 1: 1 2\nfirst T1|w(x)\nsecond "
                                            b"T2|w(x)\nschedule 0:\nend\n"), answer.out)

    def logged(self, *words):
        """The log of a program that is run in a folder of its own."""
        subprocess.run(words, cwd=self.folder, check=True, timeout=program.SECONDS)
        return (self.folder / "app.std").read_bytes()

    def look_at(self, log, lines):
        """A log has the events of each thread, and once repaired one race, at the lines of the sources that
        have these texts."""
        events = [line.split("|") for line in log.decode().splitlines()]
        for thread, wanted in LOGGED.items():
            found = [operation for name, operation, _ in events if name == thread]
            while found[:2] == ["vr(ready)"] * 2:
                del found[0]
            self.assertEqual(found, wanted)
        fixed = subprocess.run(FIX, input=log, stdout=subprocess.PIPE, stderr=subprocess.DEVNULL,
                               timeout=program.SECONDS).stdout
        listed = program.run(["places", "--list"], fixed).out.decode()
        self.assertEqual(set(re.findall(r"^(?:at|and) (.*)$", listed, re.M)), lines)
        self.assertIn("\nplaces 1\n", listed)

    def test_the_logger_in_c(self):
        source = LOGS / "logged.c"
        lines = source.read_text().splitlines()
        for line in block_from(GUIDE, 'EVENT("w(count)"').splitlines():
            self.assertIn(line, [line.strip() for line in lines])
        subprocess.run(["cc", "-Wall", "-Wextra", "-Werror", "-pthread", "-o", self.folder / "logged",
                        source], check=True)
        at = [number for number, line in enumerate(lines, 1) if '"w(count)"' in line or '"r(count)"' in line]
        self.look_at(self.logged(self.folder / "logged"), {f"{source}:{number}" for number in at})

    def test_the_logger_in_java(self):
        if not shutil.which("javac"):
            self.skipTest("javac isn't installed")
        lines = (LOGS / "Logged.java").read_text().splitlines()
        subprocess.run(["javac", "-d", self.folder, *LOGS.glob("*.java")], check=True,
                       timeout=program.SECONDS)
        at = [number for number, line in enumerate(lines, 1) if '"w(count)"' in line or '"r(count)"' in line]
        self.look_at(self.logged("java", "-cp", self.folder,
                                 "Logged"), {f"Logged.java:{number}" for number in at})

    def test_what_is_refused(self):
        table = FORMATS[FORMATS.index("| Reason |"):FORMATS.index("## A race")]
        self.assertEqual(re.findall(r"^\| `(.*?)` \|", table, re.M), list(REFUSED))
        for reason, row in REFUSED.items():
            if row:
                self.expect(program.run(["races"], row[0]), 2, b"",
                            b"line %d: %s\n" % (row[1], reason.encode()))
        for trace, reason in BOTH:
            self.expect(program.run(["races"], trace), 2, b"",
                        b"line %d: %s\n" % (trace.count(b"\n"), reason.encode()))

    def test_the_answers_of_check(self):
        """Each line of the table, of a report that was changed by hand."""
        trace, good = (
            (TOP / "examples" / "fork-join.std"), (TOP / "examples" / "fork-join.report").read_bytes())
        changed = {
            "bad line 1": b"x" + good,
            "bad counts": good.replace(b"events 7 ", b"events 8 "),
            "bad race 1": good.replace(b"schedule 3: 1 2 3", b"schedule 3: 1 3 2"),
            "bad places": good.replace(b"place 1: 1", b"place 1: 2"),
            "ok 1": good,
        }
        table = re.findall(r"^\| `((?:bad|ok) [^`]*)` \|", FORMATS, re.M)
        self.assertEqual(table, ["bad line N", "bad counts", "bad race K", "bad places", "ok R"])
        for line, report in changed.items():
            self.expect(program.run(["check", trace], report), 0 if line[0] == "o" else 5,
                        line.encode() + b"\n")
