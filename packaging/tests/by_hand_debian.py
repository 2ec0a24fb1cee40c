#!/usr/bin/env python3
"""Follows README, the guide and docs/FARM with a package on a bare Debian 12, which has no kit.

    by_hand_debian.py PACKAGE WORK

It is run by hand, as root, with debootstrap and a network. WORK/bare is made where it isn't there. Commands
run with nothing but a PATH in a copy of it, WORK/debian, with a /proc of its own: at first without Python,
then with Python and xz, then with gcc and libdw too. In a further copy the commit is built with the packages
that README names for that; only the program is the package's. The last line is 'N passed, N failed'.
"""

import pathlib
import re
import shutil
import subprocess
import sys
import tarfile

TOP = pathlib.Path(__file__).resolve().parents[2]
sys.path[:0] = [str(TOP / "packaging/tests"), str(TOP / "packaging"), str(TOP / "python"), str(TOP / "tests")]

from test_followed import FARM, GUIDE, README, blocks, script, shown

MIRROR = "http://deb.debian.org/debian"
SECONDS = 600
RESULTS = []


class Debian:
    """The machine that commands run on."""

    def __init__(self, work):
        bare, self.root = work / "bare", work / "debian"
        if not bare.exists():
            subprocess.run(["debootstrap", "--variant=minbase", "bookworm", bare, MIRROR], check=True,
                           stdout=sys.stderr)
        shutil.rmtree(self.root, ignore_errors=True)
        subprocess.run(["cp", "-a", bare, self.root], check=True)

    def call(self, script):
        """What a script writes and says, with its status. It ends when its first process does."""
        inside = (f'mount -t proc proc "{self.root}/proc" && exec chroot "{self.root}" env -i '
                  'PATH=/usr/bin:/bin /bin/sh -c "$1"')
        words = ["unshare", "--mount", "--pid", "--fork", "--kill-child", "sh", "-c", inside, "sh", script]
        ran = subprocess.run(words, stdin=subprocess.DEVNULL, stdout=subprocess.PIPE, stderr=subprocess.PIPE,
                             timeout=SECONDS)
        return ran.stdout.decode(), ran.stderr.decode(), ran.returncode

    def add(self, *packages):
        words = ("apt-get -qq update && DEBIAN_FRONTEND=noninteractive apt-get -qq install "
                 f"--no-install-recommends {' '.join(packages)}")
        said = self.call(f"export PATH=/usr/sbin:/usr/bin:/sbin:/bin; {words}")
        if said[2]:
            raise SystemExit(said[1])


def expect(what, is_so, said=()):
    """Notes whether something is as it has to be; if not, prints what was said."""
    RESULTS.append(bool(is_so))
    print(f"{'ok' if is_so else 'FAILED'}: {what}", *([] if is_so else said), sep="\n")


def without_python(debian, package, top):
    with tarfile.open(package) as tar:
        tar.extractall(debian.root / "root")
    said = debian.call(f"cd /root/{top} && bin/shb races examples/fork-join.std")
    expect("shb races", said[0].endswith(shown(README, "race 1: ")) and said[1:] == ("", 0), said)
    said = debian.call(f"/root/{top}/bin/shb-std --help")
    expect("shb-std --help", said[0] and said[1:] == ("", 0), said)
    said = debian.call(f"/root/{top}/bin/shb-view --help")
    expect("shb-view says what is missing", "python3" in said[1] and said[2] == 127, said)


def with_python(debian, top):
    [block] = [block for block in blocks(GUIDE) if "shb-farm traces" in block]
    said = debian.call(f'cd /root/{top} && export PATH="$PWD/bin:$PATH"\n{block}')
    expect("the guide's farm", shown(FARM, "traces 2 ") in said[0] and said[2] == 0, said)


def with_gcc(debian, package, top):
    for name in ("README", "GUIDE"):
        shutil.rmtree(debian.root / "root" / top)
        shutil.copy(package, debian.root / "root")
        said = debian.call("cd /root\n" + script("package", README if name == "README" else GUIDE))
        expect(f"the commands of {name}", said[2] == 0, said)


def from_source(debian, package, top):
    debian.add(*re.search("Building needs `(.*?)`", README)[1].split())
    source = debian.root / "root" / "source"
    subprocess.run(["git", "clone", "-q", TOP, source], check=True)
    with tarfile.open(package) as tar:
        (source / "bin").mkdir()
        (source / "bin" / "shb").write_bytes(tar.extractfile(f"{top}/bin/shb").read())
    (source / "bin" / "shb").chmod(0o755)
    for name, text in (("README", README), ("GUIDE", GUIDE)):
        said = debian.call("cd /root/source\n" + script("checkout", text))
        expect(f"the commands of {name} in a checkout", said[2] == 0, said)
    said = debian.call("cd /root/source && make install SHB=bin/shb && /usr/local/bin/shb-record ./account")
    expect("what is installed from it", said[2] == 66, said)


def main(package, work):
    top = package.name[:-len(".tar.xz")]
    debian = Debian(work)
    without_python(debian, package, top)
    debian.add("python3", "xz-utils")
    with_python(debian, top)
    debian.add("gcc", "libc6-dev", "libdw1")
    with_gcc(debian, package, top)
    from_source(Debian(work), package, top)
    print(f"{sum(RESULTS)} passed, {len(RESULTS) - sum(RESULTS)} failed")
    return 0 if all(RESULTS) else 1


if __name__ == "__main__":
    if len(sys.argv) != 3:
        sys.exit(__doc__)
    sys.exit(main(*(pathlib.Path(word).resolve() for word in sys.argv[1:])))
