"""The package: the same bytes from the same commit, and a folder that works by itself."""

import functools
import os
import re
import shutil
import sys
import tarfile
from unittest import mock

import installing
from installing import TOP, call
from shb_install import package
from shb_install.sources import Commit

README = TOP / "README.md"
LOGIC = re.search(r"^logic=([0-9a-f]{16})$", (TOP / "build.sh").read_text(), re.M)[1]
COMMIT_DAY, COMMIT_TIME = "2026.01.02", 1767319445      # of copy_of_repository
PROVED = "share/doc/shb/PROVED.md"


@functools.lru_cache(maxsize=None)
def debian(name, mask=0o022):
    """A package of Debian that is made in a copy of the repository."""
    copy = installing.room() / name
    old = os.umask(mask)
    call("git", "clone", "-q", installing.packaged()[0], copy)
    installing.make(copy, "deb")
    os.umask(old)
    [made] = copy.glob("*.deb")
    call("sha256sum", "--check", f"{made.name}.sha256", cwd=copy)
    return made


class Package(installing.Case):
    def test_the_same_bytes_from_another_folder_and_in_another_setting(self):
        copy, package, _ = installing.packaged()
        other = self.folder / "another folder with a longer name"
        call("git", "clone", "-q", copy, other)
        for path in other.rglob("*"):
            if path.is_file() and ".git" not in path.parts:
                os.utime(path, (1, 1))
        old = os.umask(0o077)
        self.addCleanup(os.umask, old)
        second = installing.dist(other, **installing.AS_FOR_USERS, TZ="Asia/Tokyo", LC_ALL="C", COLUMNS="150",
                                 PYTHONHASHSEED="7", TMPDIR=str(self.folder))
        self.assertEqual(package.name, second.name)
        self.assertEqual(package.read_bytes(), second.read_bytes())

    def test_what_is_in_it(self):
        copy, package, unpacked = installing.packaged()
        commit = call("git", "-C", copy, "rev-parse", "HEAD").strip()
        top = f"shb-{COMMIT_DAY}-{commit[:12]}-x86_64-linux"
        self.assertEqual(package.name, f"{top}.tar.xz")
        with tarfile.open(package) as tar:
            members = tar.getmembers()
        self.assertEqual([member.name for member in members], sorted(member.name for member in members))
        self.assertEqual({member.name.split("/")[0] for member in members}, {top})
        self.assertEqual({(member.uid, member.gid, member.uname, member.mtime) for member in members},
                         {(0, 0, "root", COMMIT_TIME)})
        self.assertEqual((unpacked / "lib/shb/VERSION").read_text(), f"{COMMIT_DAY}-{commit[:12]}\n")
        proved = (unpacked / "share/doc/shb/PROVED.md").read_text()
        checksum = call("sha256sum", installing.SHB).split()[0]
        for wanted in (f"commit {commit}.", checksum, f"(logic {LOGIC})",
                       "(docs/GUARANTEES.md)"):
            self.assertIn(wanted, proved)
        self.assertIn("was named by\nwho made this package (SHB=), and not compared with a build by the "
                      "Rattle kit", proved)
        self.assertNotIn("passed", proved)
        self.assertEqual((unpacked / "README.md").read_text(), README.read_text())
        links = re.findall(r"\]\(([^)#:]+)[)#]", README.read_text())
        self.assertEqual([name for name in links if not (unpacked / name).exists()], [])
        call("sha256sum", "--check", f"{package.name}.sha256", cwd=copy)

    def test_a_program_that_was_built_here(self):
        """By the sum that build.sh leaves, also if the package has the program stripped."""
        shb, made = self.folder / "bin/shb", self.folder / "made"
        for path, text in ((shb, "built"), (made / "bin/shb", "stripped"), (made / PROVED, ""),
                           (self.folder / "build.sh", f"logic={LOGIC}\n")):
            path.parent.mkdir(parents=True, exist_ok=True)
            path.write_text(text)
        commit = Commit("2026.01.02-abc", "abc", "1", "", "")
        for left, wanted in ((package.checksum_of(shb), "only after all its proofs passed"),
                             ("0" * 64, "was named by\nwho made this package")):
            (self.folder / "bin/shb.sum").write_text(f"{left}  -\n")
            with mock.patch.object(package, "TOP", self.folder):
                package.put_proved(made, shb, commit)
            self.assertIn(wanted, (made / PROVED).read_text())
            self.assertIn(package.checksum_of(made / "bin/shb"), (made / PROVED).read_text())

    def test_a_package_of_debian(self):
        """The same bytes from two folders with other masks; unpacked, its commands run."""
        self.need("dpkg-shlibdeps")
        deb, tree = debian("one"), self.folder / "tree"
        self.assertEqual(deb.read_bytes(), debian("another folder", 0o077).read_bytes())
        commit = call("git", "-C", deb.parent, "rev-parse", "HEAD").strip()
        version = f"{COMMIT_DAY}+{commit[:12]}"
        self.assertEqual(deb.name, f"shb_{version}_amd64.deb")
        self.assertIn(" libdw1 (>= ", call("dpkg-deb", "--field", deb, "Depends"))
        fields = call("dpkg-deb", "--field", deb, "Package", "Version", "Architecture", "Maintainer")
        self.assertEqual(fields, f"Package: shb\nVersion: {version}\nArchitecture: amd64\nMaintainer: "
                                 "maintainers <maintainers@shb.example>\n")
        call("dpkg-deb", "--extract", deb, tree)
        self.assertEqual([path.name for path in tree.iterdir()], ["usr"])
        said = call(tree / "usr/bin/shb", "races", "--list",
                    tree / "usr/share/doc/shb/examples/fork-join.std")
        self.assertIn("race 1: 4 5\n", said)
        self.assertIn(f"{COMMIT_DAY}-{commit[:12]}", call(tree / "usr/bin/shb-view", "--version"))

    def test_a_distribution_takes_the_package(self):
        """As lintian judges it, if it is installed."""
        self.need("dpkg-shlibdeps")
        self.need("lintian")
        ran = installing.subprocess.run(["lintian", "--allow-root", debian("one")],
                                        stdout=installing.subprocess.PIPE, timeout=installing.SECONDS)
        self.assertEqual([line for line in ran.stdout.decode().splitlines() if line.startswith("E:")], [])

    def test_dpkg_leaves_nothing(self):
        """Installed by dpkg the commands run, with modules that are compiled once; removed,
        nothing is left."""
        self.need("dpkg")
        root = self.folder / "root"
        for folder in ("updates", "info"):
            (root / "var/lib/dpkg" / folder).mkdir(parents=True)
        (root / "var/lib/dpkg/status").touch()
        dpkg = ["dpkg", f"--root={root}", f"--log={self.folder}/log", "--force-script-chrootless",
                "--force-depends", "--force-not-root", "--force-bad-path"]
        call(*dpkg, "--install", debian("one"))
        compiled = {path: path.read_bytes() for path in (root / "usr/lib/shb").rglob("*.pyc")}
        self.assertEqual(len(compiled), len(list((root / "usr/lib/shb").rglob("*.py"))))
        self.assertIn("Usage: shb ", call(root / "usr/bin/shb", "--help"))
        self.assertRegex(call(root / "usr/bin/shb-view", "--version"), "^shb-view 2026.01.02-")
        self.assertEqual({path: path.read_bytes() for path in (root / "usr/lib/shb").rglob("*.pyc")},
                         compiled)
        call(*dpkg, "--remove", "shb")
        self.assertFalse((root / "usr").exists())

    def test_the_glibc_is_the_highest_that_a_file_asks_for(self):
        unpacked = installing.packaged()[2]
        said = re.search(r"glibc ([0-9.]+) or later", README.read_text())[1]
        asked = set()
        for name in ("bin/shb", "bin/shb-std", "lib/shb/module-reader", "lib/shb/libtsan.so"):
            asked |= set(re.findall(r"\(GLIBC_([0-9.]+)\)", call("objdump", "-T", unpacked / name)))
        self.assertEqual(said, max(asked, key=lambda version: [int(part) for part in version.split(".")]))

    def test_the_processor_is_what_the_program_asks_for(self):
        unpacked = installing.packaged()[2]
        self.assertTrue(b"x86-64-v2" in (unpacked / "bin/shb").read_bytes(),
                        "a program that was built without build.sh")

    def test_on_a_machine_without_python(self):
        """The programs run, and the other commands say what is missing."""
        unpacked, alone = installing.packaged()[2], {"PATH": "/nowhere"}
        self.assertIn("race 1: 4 5\n",
                      call(unpacked / "bin/shb", "races", unpacked / "examples/fork-join.std", env=alone))
        self.assertIn("Usage: shb-std ", call(unpacked / "bin/shb-std", "--help", env=alone))
        for command in ("shb-farm", "shb-fix", "shb-record", "shb-view"):
            ran = installing.subprocess.run([unpacked / "bin" / command, "--help"],
                                            stdout=installing.subprocess.PIPE,
                                            stderr=installing.subprocess.PIPE, env=alone)
            self.assertEqual((ran.returncode, ran.stdout, b"python3" in ran.stderr), (127, b"", True),
                             command)

    def test_the_readme_says_what_is_needed(self):
        for wanted in (f"`logic {LOGIC}`", "(x86-64-v2)"):
            self.assertIn(wanted, README.read_text())

    def clone(self):
        copy = self.folder / "copy"
        call("git", "clone", "-q", installing.packaged()[0], copy)
        return copy

    def refused(self, copy, **settings):
        """What is said where no package is made."""
        words = [sys.executable, "-B", copy / "packaging/install", "--shb", installing.SHB, "dist"]
        ran = installing.subprocess.run(words, stdout=installing.subprocess.PIPE,
                                        stderr=installing.subprocess.PIPE, env={**os.environ, **settings})
        self.assertEqual((ran.returncode, ran.stdout, list(copy.glob("*.tar.xz"))), (1, b"", []))
        return ran.stderr.decode()

    def test_files_that_are_not_of_the_commit_are_left_out(self):
        copy = self.clone()
        for name in ("docs/my-notes.txt", "examples/private.std", "python/shb_view/scratch.py",
                     "recorder/runtime/mine.c", "python/shb-mine",
                     "python/shb_mine/part.py"):
            (copy / name).parent.mkdir(exist_ok=True)
            (copy / name).write_text("no C, no Python")
        self.assertEqual(installing.dist(copy, **installing.AS_FOR_USERS).read_bytes(),
                         installing.packaged()[1].read_bytes())

    def test_a_changed_file_is_refused(self):
        copy = self.clone()
        with open(copy / "README.md", "a") as file:
            file.write("more\n")
        (copy / "examples/mine.std").touch()
        call("git", "-C", copy, "add", "examples/mine.std")
        (copy / "docs/DECISIONS.md").unlink()
        self.assertEqual(self.refused(copy), "install: a package is made of a commit, and these files are "
                                             "changed since: README.md, docs/DECISIONS.md, "
                                             "examples/mine.std\n")

    def test_where_git_does_not_say_what_is_of_the_commit(self):
        """A checkout of another owner, as git's own variable for tests has it; no git; a part of another
        checkout; no checkout."""
        copy = self.clone()
        settings = {"GIT_CONFIG_GLOBAL": "/dev/null", "GIT_CONFIG_NOSYSTEM": "1",
                    "GIT_TEST_ASSUME_DIFFERENT_OWNER": "1"}
        self.assertRegex(self.refused(copy, **settings),
                         r"^install: git can't say which files .* dubious ownership .*safe\.directory")
        self.assertEqual(self.refused(copy, PATH="/nowhere"),
                         "install: git isn't installed; only git knows which files belong to the commit\n")
        shutil.rmtree(copy / ".git")
        self.assertIn("not a git repository", self.refused(copy, GIT_CEILING_DIRECTORIES=str(self.folder)))
        call("git", "-C", self.folder, "init", "-q")
        self.assertIn("isn't a checkout of its own", self.refused(copy))
