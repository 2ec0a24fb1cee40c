"""The packages for machines without the kit, whose bytes follow from the commit."""

import hashlib
import os
import re
import shutil
import subprocess

from shb_install.sources import TOP
from shb_install.tree import HOME, MANUAL

LOGIC = re.compile(r"^logic=([0-9a-f]+)$", re.M)    # in build.sh
PROVED = """\
# shb {version}

Made from commit {commit}. `bin/shb` (SHA-256 {checksum}) {origin}
The other commands aren't part of what is proved. [docs/GUARANTEES.md](docs/GUARANTEES.md) says what is
proved, and on what it rests.
"""
BUILT = """was built
by the Rattle kit (logic {logic}), which builds a crate only after all its proofs passed."""
NAMED = """was named by
who made this package (SHB=), and not compared with a build by the Rattle kit (logic {logic}): that it is
proved is their word."""

CHANGES = """\
shb ({version}) unstable; urgency=medium

  * The package of a commit; CHANGELOG.md lists what changed.

 -- {author}  {date}
"""


def run(*words, **how):
    subprocess.run([str(word) for word in words], check=True, **how)


def checksum_of(path):
    return hashlib.sha256(path.read_bytes()).hexdigest()


def is_built_here(shb):
    """Whether a program is the one that build.sh made."""
    built = TOP / "bin/shb.sum"
    return built.exists() and built.read_text().split()[:1] == [checksum_of(shb)]


def put_proved(made, shb, commit):
    """By which commit and kit the program was proved, as far as that is known."""
    origin = (BUILT if is_built_here(shb) else NAMED).format(
        logic=LOGIC.search((TOP / "build.sh").read_text())[1])
    (made / "share/doc/shb/PROVED.md").write_text(PROVED.format(
        version=commit.version, commit=commit.name, checksum=checksum_of(made / "bin/shb"), origin=origin))


def archive(made, seconds):
    """A folder as a tar.xz: sorted names, one time, no owner and no mask of this machine."""
    package = made.with_name(f"{made.name}.tar.xz")
    run("chmod", "-R", "go=rX", made)
    run("tar", "--create", f"--file={package}", "--use-compress-program=xz -9 -T1", "--sort=name",
        f"--mtime=@{seconds}", "--owner=root:0", "--group=root:0", "--format=gnu", "-C", made.parent,
        made.name)
    return package


def stripped(made):
    """Takes out of the programs and the library what only debuggers read, and gives their paths."""
    home = made / HOME
    programs = [made / "bin/shb", home / "shb-std", home / "module-reader", home / "libtsan.so"]
    run("strip", "--strip-unneeded", *programs)
    return programs


def debian(made, programs, commit):
    """The tree of /usr as a package of Debian, in which nothing is newer than its commit."""
    top, room, documents = made.parent, made.parents[1], made / "share/doc/shb"
    version = commit.version.replace("-", "+")  # what follows a hyphen is the packaging's revision
    source = shutil.copytree(TOP / "packaging/debian", room / "debian")
    (source / "changelog").write_text(CHANGES.format(
        version=version, author=commit.author, date=commit.date))
    shutil.copy(source / "changelog", documents)
    shutil.copy(source / "copyright", documents)
    run("gzip", "-9n", documents / "changelog", *(made / MANUAL).iterdir())
    (made / HOME / "libtsan.so").chmod(0o644)
    (top / "DEBIAN").mkdir()
    shutil.copy(source / "postinst", top / "DEBIAN")
    shutil.copy(source / "prerm", top / "DEBIAN")
    run("chmod", "-R", "go=rX", top)
    run("dpkg-shlibdeps", "--warnings=0", *programs, cwd=room)
    run("dpkg-gencontrol", f"-P{top}", f"-DMaintainer={commit.author}", cwd=room)
    package = room / f"shb_{version}_amd64.deb"
    run("dpkg-deb", "--root-owner-group", "-Zxz", "--build", top, package, stdout=subprocess.DEVNULL,
        env={**os.environ, "SOURCE_DATE_EPOCH": commit.seconds})
    return package
