"""The commands of README, GUIDE, FORMATS and recorder/README as they are, run by another user with nothing
but a PATH: in a checkout, in an unpacked package, and where the package of Debian is installed.

A block ```sh has commands, a line each; a document reads `<<'END'` to END. The status is 0, or N after `#
status N`. README has a block for each of the three places, which begins as in BEGINNINGS; all other blocks
are for all places.
"""

import os
import re
import shutil
import subprocess

import installing
from installing import TOP, call

FOLLOWED = ("README.md", "docs/GUIDE.md", "docs/FORMATS.md", "recorder/README.md")
README, GUIDE, FORMATS, RECORDER, FARM = ((TOP / name).read_text() for name in (*FOLLOWED, "docs/FARM.md"))
BEGINNINGS = {"package": "tar -xf ", "Debian": "sudo apt install ", "checkout": "make build "}
BLOCK = re.compile(r"^```sh\n(.*?)^```$", re.M | re.S)
IN_TABLE = re.compile(r"^\| `(shb(?:-view)? .*?)` \| ", re.M)       # commands of README's table
MAY_LACK = ("gdb", "java", "javac")         # without these a command is left out
NOBODY = "65534"
SECONDS = 1800
STEP = """\
if {can_run}; then
{command}
else (exit {wanted})
fi
status=$?
[ $status = {wanted} ] || {{ echo "status $status, not {wanted}" >&2; exit 99; }}
"""

# Makes what packages change a copy that lasts as long as the process, and installs a package there.
INSTALLED = """\
set -e
mount -t tmpfs tmpfs "$1"
for folder in usr var; do
    mkdir "$1/$folder" "$1/$folder-work"
    mount -t overlay overlay -o "lowerdir=/$folder,upperdir=$1/$folder,workdir=$1/$folder-work" "/$folder"
done
dpkg --no-triggers --install "$2" > /dev/null
cd "$3"
shift 3
exec "$@"
"""


def blocks(text):
    return [found[1] for found in BLOCK.finditer(text)]


def commands(block):
    """The commands of a block, each with the status that it has to have."""
    lines = iter(block.splitlines())
    for line in lines:
        here, status = re.search(r"<<'(\w+)'", line), re.search(r"# status (\d+)", line)
        command = [line]
        while here and command[-1] != here[1]:
            command.append(next(lines))
        yield "\n".join(command), int(status[1]) if status else 0


def step(command, status):
    """A command in the script. What an installer does isn't, for the test installs the package."""
    words = command.split()
    can_run = " && ".join(f"command -v {word} > /dev/null" for word in MAY_LACK if word in words) or "true"
    return STEP.format(command=command, wanted=status, can_run=can_run) if words[0] != "sudo" else ""


def script(place, text):
    """The commands that begin in a place, then those of a document."""
    first = [block for block in blocks(README) if block.startswith(BEGINNINGS[place])]
    rest = [block for block in blocks(text) if not block.startswith(tuple(BEGINNINGS.values()))]
    found = ([it for block in first + rest for it in commands(block)]
             + [(command, 0) for command in IN_TABLE.findall(text) if text is README])
    return "".join(step(*it) for it in found)


def shown(text, start):
    """The lines of a text's block from the one that begins so, without their indentation."""
    found = re.search(rf"^    {re.escape(start)}.*\n(?:(?:    .*)?\n)*", text, re.M)[0]
    return "".join(line[4:] + "\n" for line in found.rstrip("\n").split("\n"))


class Followed(installing.Case):
    def follow(self, place, *before):
        """Runs the commands of the documents in a folder of another user; `before` are words that
        begin a command."""
        user = [] if os.getuid() else ["setpriv", f"--reuid={NOBODY}", f"--regid={NOBODY}", "--clear-groups"]
        os.chmod(self.folder, 0o755)
        if user:
            call("chown", "-R", f"{NOBODY}:{NOBODY}", self.work)
        said = []
        for text in (README, GUIDE, FORMATS, RECORDER):
            ran = subprocess.run([*before, *user, "env", "-i", "PATH=/usr/bin:/bin", "sh", "-c",
                                  script(place, text)], cwd=self.work, stdin=subprocess.DEVNULL,
                                 stdout=subprocess.PIPE, stderr=subprocess.STDOUT, timeout=SECONDS)
            self.assertEqual(ran.returncode, 0, ran.stdout.decode(errors="replace")[-4000:])
            said.append(ran.stdout.decode())
        self.look(*said)

    def look(self, readme, guide, formats, recorder):
        """What the documents show is in what was said, and in the files."""
        for start in ("1. balance: ", "race 1: "):
            self.assertIn(shown(README, start), readme)
        self.assertIn(shown(FORMATS, "shb-report 2"), formats)
        self.assertIn(shown(GUIDE, "line 1: "), guide)
        self.assertIn("\nat worker.c:8\nand start.c:12\n", guide)
        for line in shown(GUIDE, "account.c:10: ").splitlines():        # other lines stand in between
            self.assertIn(f"\n   {line}\n", guide)
        self.assertIn(shown(GUIDE, "The program crashed: "), guide)
        self.assertIn(shown(FARM, "traces 2 "), guide)
        self.assertRegex(recorder, r"\nplaces 1\nplace 1: 1\nat account\.c:(8|10)\nand account\.c:(8|10)\n")
        [known] = [path for path in self.work.rglob("known.places")]
        self.assertEqual(known.read_text(), shown(GUIDE, "# account.c:10"))

    @property
    def work(self):
        folder = self.folder / "work"
        folder.mkdir(exist_ok=True)
        return folder

    def test_in_a_package(self):
        shutil.copy(installing.packaged()[1], self.work)
        self.follow("package")

    def test_in_a_checkout(self):
        """The program is there, so that it isn't built for half an hour."""
        self.work.rmdir()
        copy = installing.copy_of_repository(self.folder / "work")
        for name in ("crates.txt", "HANDLES"):
            shutil.copy(TOP / name, copy)
        (copy / "crates").mkdir()
        (copy / "bin").mkdir()
        shutil.copy(installing.SHB, copy / "bin" / "shb")
        self.follow("checkout")

    def test_where_the_package_of_debian_is_installed(self):
        self.need("dpkg")
        self.need("unshare")
        probe = subprocess.run(["unshare", "--mount", "mount", "-t", "tmpfs", "tmpfs", self.folder],
                               stderr=subprocess.DEVNULL)
        if os.getuid() or probe.returncode:
            self.skipTest("only who may mount folders can install a package in a copy of the system")
        installing.make(installing.packaged()[0], "deb")
        [package] = installing.packaged()[0].glob("*.deb")
        over = self.folder / "over"
        over.mkdir()
        self.follow("Debian", "unshare", "--mount", "sh", "-c", INSTALLED, "sh", over, package, self.work)


class Recipes(installing.Case):
    def test_the_recipes_for_ci(self):
        """Of both services: what they run is the same, with an empty file of known places and a program
        with a race. Then results are joined."""
        *found, join = re.findall(r"^ +- (?:run: )?(make CFLAGS.*|shb-record .*)$", GUIDE, re.M)
        self.assertEqual((len(found), found[:2]), (4, found[2:]))
        (self.folder / "Makefile").write_text("app: account.c\n\tcc $(CFLAGS) -c account.c && cc $(LDFLAGS) "
                                              "account.o -o app\n")
        shutil.copy(TOP / "examples/account.c", self.folder)
        (self.folder / "known.places").touch()
        how = {"cwd": self.folder, "env": {"PATH": f"{installing.installed()}/bin:{os.defpath}"}}
        call("sh", "-c", found[0], **how)
        call("sh", "-c", found[1], status=66, **how)
        for part in ("part1", "part2"):
            shutil.copytree(self.folder / "races", self.folder / part)
        call("sh", "-c", join, status=66, **how)
        self.assertIn('href="../part1/run', (self.folder / "all/index.html").read_text())
        shutil.copy(self.folder / "races/unknown.places", self.folder / "known.places")
        call("sh", "-c", found[1], **how)
        self.assertIn(
            '"uri":"account.c"', (self.folder / "races/places.sarif").read_text().replace('": "', '":"'))


class Extracted(installing.Case):
    def test_commands_of_a_block(self):
        found = list(commands("one  # status 66: a race\ncat <<'END'\na\nEND\ntwo\n"))
        self.assertEqual(found, [("one  # status 66: a race", 66), ("cat <<'END'\na\nEND", 0), ("two", 0)])

    def test_a_command_that_fails_ends_the_script(self):
        for command, wanted, status in (("false", 0, 99), ("true", 1, 99), ("false", 1, 0),
                                        ("cat <<'END'\nEND", 0, 0)):
            self.assertEqual(subprocess.run(["sh", "-c", step(command, wanted)],
                                            stderr=subprocess.DEVNULL).returncode, status)

    def test_each_document_with_commands_is_followed(self):
        found = {path.relative_to(TOP).as_posix() for pattern in ("*.md", "*/*.md")
                 for path in TOP.glob(pattern) if blocks(path.read_text())}
        self.assertEqual(found, set(FOLLOWED))

    def test_each_place_has_its_block(self):
        for place, beginning in BEGINNINGS.items():
            self.assertEqual(sum(block.startswith(beginning) for block in blocks(README)), 1, place)
        self.assertGreater(len(IN_TABLE.findall(README)), 5)
        self.assertGreater(sum(len(list(commands(block))) for block in blocks(GUIDE)), 20)
