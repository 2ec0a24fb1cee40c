"""What the tests of the installation share."""

import atexit
import functools
import os
import pathlib
import shutil
import subprocess
import tempfile

import side_by_side

HERE = pathlib.Path(__file__).resolve().parent
TOP = HERE.parents[1]
SHB = TOP / "crates" / "shb" / "out" / "shb"
SECONDS = 600  # after so long a command hangs, also where proofs run beside it
os.environ.pop("PYTHONPYCACHEPREFIX", None)  # what is installed has its compiled modules beside it
AS_FOR_USERS = {"CC": "cc", "MAKEFLAGS": ""}
PARTS = ("Makefile", "build.sh", "README.md", "CHANGELOG.md", "SECURITY.md", "CITATION.cff", "docs",
         "examples", "packaging", "python", "recorder")


def call(*words, **how):
    """Runs a command to its end; it fails the test where its status isn't the expected one (`status`, 0)."""
    status = how.pop("status", 0)
    how = {"stdin": subprocess.DEVNULL, "timeout": SECONDS, **how}
    ran = subprocess.run([str(word) for word in words], stdout=subprocess.PIPE, stderr=subprocess.PIPE, **how)
    if ran.returncode != status:
        raise AssertionError(f"{words}: status {ran.returncode}\n{ran.stderr.decode(errors='replace')}")
    return ran.stdout.decode()


def copy_of_repository(folder):
    """A repository of one commit with what is installed, as it is here now."""
    ignore = shutil.ignore_patterns("lib", "shb-std", "tests", "__pycache__")
    folder.mkdir(parents=True)
    for name in PARTS:
        source = TOP / name
        if source.is_dir():
            shutil.copytree(source, folder / name, ignore=ignore)
        else:
            shutil.copy(source, folder / name)
    time = "2026-01-02T03:04:05 +0100"
    environment = {**os.environ, "GIT_AUTHOR_DATE": time, "GIT_COMMITTER_DATE": time}
    for words in (["init", "-q"], ["add", "."], ["-c", "user.name=maintainers", "-c",
                                                 "user.email=maintainers@shb.example", "commit", "-q", "-m",
                                                 "all"]):
        call("git", "-C", folder, *words, env=environment)
    return folder


def contents(folder):
    """Each file and link below a folder with what is in it."""
    return {str(path.relative_to(folder)): os.readlink(path) if path.is_symlink() else path.read_bytes()
            for path in folder.rglob("*") if path.is_symlink() or path.is_file()}


class Case(side_by_side.Case):
    def need(self, command, path=None):
        if not shutil.which(command, path=path):
            self.skipTest(f"{command} isn't installed" + (f" in {path}" if path else ""))


@functools.lru_cache(maxsize=None)
def room():
    """A folder for what several tests look at. It is deleted at the end."""
    made = tempfile.TemporaryDirectory()
    atexit.register(made.cleanup)
    return pathlib.Path(made.name)


@functools.lru_cache(maxsize=None)
def compiler():
    """A C compiler that does again none of what it did before."""
    return shutil.copy(HERE / "compile_once", room())


def environment(**settings):
    """What installs has this environment: the recorder isn't optimised as a whole, which would be done again
    for each prefix. With AS_FOR_USERS it is compiled as users compile it."""
    return {**os.environ, "CC": compiler(), "MAKEFLAGS": "LTO=", **settings}


def make(folder, what, *words, **settings):
    """Runs make in a copy of the repository."""
    call("make", "-s", "-C", folder, what, f"SHB={SHB}", *words, env=environment(**settings))


@functools.lru_cache(maxsize=None)
def installed():
    """The prefix of an installation."""
    prefix = room() / "pre fix"
    make(TOP, "install", f"PREFIX={prefix}")
    return prefix


def dist(copy, **settings):
    """Makes the package in a copy of the repository, and gives its path."""
    make(copy, "dist", **settings)
    found = list(copy.glob("shb-*-x86_64-linux.tar.xz"))
    if len(found) != 1:
        raise AssertionError(found)
    return found[0]


@functools.lru_cache(maxsize=None)
def packaged():
    """A copy of the repository with its package, and the package unpacked: as it is made for users."""
    copy = copy_of_repository(room() / "copy")
    package = dist(copy, **AS_FOR_USERS)
    call("tar", "-xf", package, "-C", room())
    return copy, package, room() / package.name[:-len(".tar.xz")]
