"""An installation: what is where, that it works from there, and that nothing stays of it."""

import ast
import os
import re
import shutil
import sys

import installing
from installing import TOP, call, contents

RACE = "T1|w(x)|a.c:1\nT2|w(x)|b.c:2\n"
COMMANDS = ("shb", "shb-farm", "shb-fix", "shb-record", "shb-std", "shb-view")
WANTED = ([f"bin/{name}" for name in COMMANDS]
          + [f"share/man/man1/{name}.1" for name in (*COMMANDS, "shb-races", "shb-places", "shb-check")]
          + [f"share/bash-completion/completions/{name}" for name in COMMANDS]
          + ["share/zsh/site-functions/_shb",
             "lib/shb/libtsan.so", "lib/shb/libtsan.so.0", "lib/shb/libtsan.so.2",
             "lib/shb/libtsan_preinit.o", "lib/shb/shb_farm/job.py",
             "lib/shb/shb_view/page.css", "lib/shb/VERSION", "share/doc/shb/README.md",
             "share/doc/shb/docs/GUARANTEES.md",
             "share/doc/shb/examples", "share/shb/examples/fork-join.std"])
SHARED = ("bin/shb", "share/man/man1/shb", "share/bash-completion/completions/shb",
          "share/zsh/site-functions/_shb")
OWN = ("lib/shb/", "share/doc/shb/", "share/shb/")
# where a command can do nothing
STATUSES = {"shb-farm": 4, "shb-fix": 4, "shb-record": 125, "shb-view": 2}
# modules that python3-minimal lacks
LACKED = "array ctypes fcntl gzip html json lzma mmap resource shlex shutil unicodedata zlib".split()


class Tree(installing.Case):
    def setUp(self):
        super().setUp()
        self.prefix = installing.installed()

    def test_what_is_where(self):
        files = contents(self.prefix)
        self.assertEqual([name for name in WANTED if name not in files], [])
        self.assertEqual([name for name in files if not name.startswith(SHARED + OWN)], [])
        # made while the recorder is built
        self.assertEqual([name for name in files if name.endswith(".inc")], [])

    def test_all_can_read_it(self):
        for path in [self.prefix, *self.prefix.rglob("*")]:
            mode = path.stat().st_mode & 0o777
            wanted = (0o755,) if path.is_dir() or path.parent.name == "bin" else (0o644, 0o755)
            self.assertIn(mode, wanted, path)

    def test_the_links_of_documents_hold(self):
        folder = self.prefix / "share"
        links = [(path, name) for path in folder.rglob("*.md")
                 for name in re.findall(r"\]\(([^)#:]+)[)#]", path.read_text())]
        self.assertGreater(len(links), 10)
        self.assertEqual([f"{path.relative_to(folder)}: {name}" for path, name in links
                          if not (path.parent / name).exists()], [])

    def test_the_last_line_of_a_help_is_the_version(self):
        version = (self.prefix / "lib/shb/VERSION").read_text()
        self.assertRegex(version, r"^[0-9]{4}\.[0-9]{2}\.[0-9]{2}-[0-9a-f]{12}(-changed)?\n$")
        for command in COMMANDS:
            if command != "shb":
                self.assertTrue(call(self.prefix / "bin" / command, "--help").endswith(f"\n\nshb {version}"),
                                command)
                self.assertEqual(call(self.prefix / "bin" / command, "--version"), f"{command} {version}")

    def test_modules_are_compiled(self):
        modules = list((self.prefix / "lib/shb").rglob("*.py"))
        self.assertGreater(len(modules), 40)
        for module in modules:
            self.assertEqual(len(list(module.parent.glob(f"__pycache__/{module.stem}.*.pyc"))), 1, module)

    def test_a_bin_that_is_a_link_to_a_folder_elsewhere(self):
        """Each command finds its parts by both paths, as where ~/.local/bin leads to ~/bin."""
        prefix = self.folder / ".local"
        prefix.mkdir()
        (self.folder / "bin").mkdir()
        (prefix / "bin").symlink_to("../bin")
        installing.make(TOP, "install", f"PREFIX={prefix}")
        trace = self.folder / "traces" / "race.std"
        trace.parent.mkdir()
        trace.write_text(RACE)
        for folder in (prefix / "bin", self.folder / "bin"):
            call(folder / "shb-farm", trace.parent, self.folder / "out", status=1)
            self.assertIn("b.c:2", call(folder / "shb-view", trace))
            for command in COMMANDS:
                call(folder / command, "--help")
        program = self.folder / "account"
        call("gcc", "-fsanitize=thread", "-g", TOP / "examples" / "account.c", "-o", program)
        call(self.folder / "bin/shb-record", "-o", self.folder / "results", program, status=66)
        installing.make(TOP, "uninstall", f"PREFIX={prefix}")
        self.assertEqual((contents(prefix), contents(self.folder / "bin")), ({"bin": "../bin"}, {}))

    def links(self):
        """A folder with links to all commands, as a user may have it."""
        folder = self.folder / "bin"
        folder.mkdir()
        for command in (self.prefix / "bin").iterdir():
            (folder / command.name).symlink_to(command)
        return folder

    def test_commands_find_their_parts_without_an_environment(self):
        """Also through links from another folder, and with nothing of the checkout."""
        self.need("python3", os.defpath)
        trace = self.folder / "traces" / "race.std"
        trace.parent.mkdir()
        trace.write_text(RACE)
        for folder in (self.prefix / "bin", self.links()):
            listed = call(folder / "shb", "races", "--list", trace, env={})
            self.assertIn("\nplace 1: 1\nat a.c:1\nand b.c:2\n", listed)
            said = call(folder / "shb-farm", trace.parent, self.folder / "out", env={}, status=1)
            self.assertTrue(said.startswith("traces 1 reports 1 refused 0 missing 0\nplaces 1 unknown 1 "
                                            "known 0\n"), said)
            self.assertIn("b.c:2", call(folder / "shb-view", trace, env={}))

    def test_a_program_is_recorded(self):
        """Compiled as the README says, recorded through a link to the command."""
        program = self.folder / "account"
        call("gcc", "-fsanitize=thread", "-g", TOP / "examples" / "account.c", "-o", program)
        results = self.folder / "results"
        call(self.links() / "shb-record", "-o", results, program, status=66, env={"PATH": os.environ["PATH"]})
        self.assertEqual((results / "unknown.places").read_text(),
                         "# account.c:10\taccount.c:8\naccount.c:pay()\taccount.c:pay()\tbalance\n")

    def test_an_older_python_is_said(self):
        """Whatever it doesn't know comes later in a command than the sentence, or in another file."""
        home = self.prefix / "lib/shb"
        for path in (home / "shb_common/__init__.py", home / "shb_common/python.py",
                     *map(home.joinpath, STATUSES)):
            ast.parse(path.read_text(), feature_version=(3, 7))
        for command, status in STATUSES.items():
            script = ("import runpy, sys; sys.version_info = (3, 7, 0); "
                      f"runpy.run_path({str(home / command)!r}, run_name='__main__')")
            ran = installing.subprocess.run([sys.executable, "-B", "-c", script],
                                            stdout=installing.subprocess.PIPE,
                                            stderr=installing.subprocess.PIPE)
            said = f"{command}: Python 3.8 or later is needed, and this is 3.7\n"
            self.assertEqual((ran.returncode, ran.stdout, ran.stderr.decode()), (status, b"", said))

    def test_a_python_without_its_whole_library_is_said(self):
        (self.folder / "sitecustomize.py").write_text(
            f"import sys\nsys.modules.update(dict.fromkeys({LACKED}))\n")
        for command, status in STATUSES.items():
            ran = installing.subprocess.run([sys.executable, "-B", self.prefix / "bin" / command,
                                             "--version"], capture_output=True,
                                            env={"PYTHONPATH": str(self.folder)})
            self.assertEqual((ran.returncode, ran.stdout), (status, b""), ran.stderr)
            self.assertRegex(ran.stderr.decode(), rf"\A{command}: this Python lacks its module `\w+`: "
                                                  r"install all of Python \(.*\)\n\Z")

    def test_standard_error_that_is_closed_or_full(self):
        """Each command's own status is left."""
        for command, status in {"shb places": 4, "shb-fix": 4, "shb-view": 2, "shb-farm": 4,
                                "shb-record": 127, "shb-std": 2}.items():
            for error in ("2>&-", "2>/dev/full"):
                with self.subTest(command, error=error):
                    more = self.folder / "out" if command == "shb-farm" else ""
                    call("sh", "-c", f"'{self.prefix}'/bin/{command} ./none {more} {error}", cwd=self.folder,
                         status=status)

    def test_a_farm_lists_a_long_trace(self):
        self.need("python3", os.defpath)
        trace = self.folder / "traces" / "long.std"
        trace.parent.mkdir()
        with open(trace, "w") as file:
            for part in (RACE, "A|end\n" * 4_194_305, "T3|w(y)|k.c:1\nT4|r(y)|k.c:2\n", "T2|w(x)|far.c:9\n"):
                file.write(part)
        out = self.folder / "out"
        call(self.prefix / "bin" / "shb-farm", trace.parent, out, env={}, status=1)
        self.assertEqual((out / "unknown.places").read_text(),
                         "a.c:1\tb.c:2\tx\na.c:1\tfar.c:9\tx\nk.c:1\tk.c:2\ty\n")
        self.assertIn("\nlong.std\treport\t3\tevents 4194310 threads 5 locks 0 variables 2\t",
                      (out / "traces.tsv").read_text())

    def test_nothing_names_the_checkout_or_a_folder_that_is_gone(self):
        for name, content in contents(self.prefix).items():
            if isinstance(content, bytes) and not name.startswith("share/doc"):
                self.assertNotIn(os.fsencode(TOP), content, name)
                self.assertNotIn(b"/tmp/tmp", content.replace(os.fsencode(self.prefix), b""), name)

    def test_the_library_is_found_where_it_is(self):
        self.need("readelf")
        listed = call("readelf", "-d", self.prefix / "lib/shb/libtsan.so")
        self.assertIn(f"Library soname: [{self.prefix}/lib/shb/libtsan.so]", listed)


class Uninstalled(installing.Case):
    def make(self, what, *words):
        installing.make(TOP, what, *words)

    def test_nothing_stays(self):
        prefix = self.folder / "prefix"
        prefix.mkdir()
        self.make("install", f"PREFIX={prefix}")
        compiled = prefix / "lib/shb/shb_farm/__pycache__"
        compiled.mkdir(exist_ok=True)
        (compiled / "command.cpython-311.pyc").touch()
        self.make("uninstall", f"PREFIX={prefix}")
        self.assertEqual(contents(prefix), {})
        self.assertEqual([path.name for path in prefix.rglob("shb*")], [])
        self.make("uninstall", f"PREFIX={prefix}")      # nothing there is no fault

    def test_what_was_there_before_stays(self):
        prefix = self.folder / "prefix"
        for folder in ("bin", "share/man/man5", "share/zsh"):
            (prefix / folder).mkdir(parents=True)
        (prefix / "bin").chmod(0o2775)
        (prefix / "share/zsh/mine").write_text("mine")
        before = {str(path) for path in prefix.rglob("*")}
        self.make("install", f"PREFIX={prefix}")
        self.assertEqual((prefix / "bin").stat().st_mode & 0o7777, 0o2775)
        self.make("uninstall", f"PREFIX={prefix}")
        self.assertEqual(before - {str(path) for path in prefix.rglob("*")}, set())
        self.assertEqual(list(contents(prefix)), ["share/zsh/mine"])

    def test_folders_of_another_program_of_this_name_stay(self):
        prefix = self.folder / "prefix"
        for name, text in (("lib/shb/VERSION", "1.0\n"), ("share/shb/theirs", "theirs")):
            (prefix / name).parent.mkdir(parents=True)
            (prefix / name).write_text(text)
            self.make("uninstall", f"PREFIX={prefix}")
            self.assertIn(f"{(prefix / name).parent} isn't of an installation of shb",
                          self.refused("install", f"SHB={installing.SHB}", f"PREFIX={prefix}"))
            self.assertEqual(contents(prefix), {name: text.encode()})
            shutil.rmtree(prefix)

    def test_a_new_installation_takes_the_place_of_an_old_one(self):
        prefix = self.folder / "prefix"
        self.make("install", f"PREFIX={prefix}")
        for name in ("lib/shb/shb-old", "lib/shb/shb_old.py", "share/man/man1/shb-old.1", "bin/shb"):
            (prefix / name).write_text("old")
        (prefix / "bin/shb-old").symlink_to("../lib/shb/shb-old")
        (prefix / "bin/shb-view").unlink()
        (self.folder / "theirs").touch()
        (prefix / "bin/shb-view").symlink_to(self.folder / "theirs")
        self.make("install", f"PREFIX={prefix}")
        self.assertEqual([path for path in prefix.rglob("*") if "old" in path.name], [])
        self.assertEqual((self.folder / "theirs").read_text(), "")
        self.assertEqual((prefix / "bin/shb").read_bytes(), installing.SHB.read_bytes())
        self.make("uninstall", f"PREFIX={prefix}")
        self.assertEqual(list(contents(self.folder)), ["theirs"])

    def test_an_installation_that_was_stopped_is_taken_away(self):
        prefix = self.folder / "prefix"
        self.make("install", f"PREFIX={prefix}")
        for path in [*prefix.rglob("*.md"), prefix / "bin/shb", prefix / "share/man/man1/shb.1"]:
            path.unlink(missing_ok=True)
        shutil.rmtree(prefix / "share/doc")
        self.make("uninstall", f"PREFIX={prefix}")
        self.assertEqual(contents(self.folder), {})

    def refused(self, *words):
        """What make says that can't do it, without a traceback."""
        ran = installing.subprocess.run(["make", "-s", "-C", TOP, *words], stdout=installing.subprocess.PIPE,
                                        stderr=installing.subprocess.PIPE, env=installing.environment())
        said = ran.stderr.decode()
        self.assertNotEqual(ran.returncode, 0, said)
        self.assertNotIn("Traceback", said)
        return next(line for line in said.splitlines() if line.startswith("install: "))

    def test_what_cannot_be_done_is_said(self):
        before = sorted(TOP.iterdir())
        shb = f"SHB={installing.SHB}"
        self.assertEqual(self.refused("install", shb, "PREFIX="),
                         "install: the prefix is empty; PREFIX=/ installs in /bin, /lib and /share")
        for what, relative in (("install", "none/of it"), ("uninstall", "none"), ("install", ".")):
            self.assertIn(f"install: the prefix {relative} is relative; PREFIX={TOP}",
                          self.refused(what, shb, f"PREFIX={relative}"))
        self.assertEqual(sorted(TOP.iterdir()), before)
        (self.folder / "file").touch()
        self.assertIn("Not a directory", self.refused("install", shb, f"PREFIX={self.folder}/file/prefix"))
        none = self.folder / "none"
        self.assertIn(f"{none}: no such program;",
                      self.refused("install", f"SHB={none}", f"PREFIX={self.folder}/prefix"))
        other = self.folder / "other"
        other.write_text("#!/bin/sh\necho 'this program asks for popcnt' >&2\nexit 127\n")
        other.chmod(0o755)
        self.assertIn(f"{other} can't be run on this machine: it ended with status 127 this program asks for "
                      "popcnt",
                      self.refused("install", f"SHB={other}", f"PREFIX={self.folder}/prefix"))

    def test_a_program_with_blanks_in_its_path(self):
        program = self.folder / "a b" / "shb"
        program.parent.mkdir()
        shutil.copy(installing.SHB, program)
        self.make("install", f"SHB={program}", f"PREFIX={self.folder}/prefix")
        self.assertEqual((self.folder / "prefix/bin/shb").read_bytes(), installing.SHB.read_bytes())

    def test_destdir(self):
        self.make("install", "PREFIX=/usr", f"DESTDIR={self.folder}/image")
        self.assertEqual([path.name for path in (self.folder / "image").iterdir()], ["usr"])
        self.assertTrue((self.folder / "image/usr/bin/shb-farm").exists())
        if shutil.which("readelf"):
            self.assertIn("[/usr/lib/shb/libtsan.so]",
                          call("readelf", "-d", self.folder / "image/usr/lib/shb/libtsan.so"))
        self.make("uninstall", "PREFIX=/usr", f"DESTDIR={self.folder}/image")
        self.assertEqual(contents(self.folder / "image"), {})
