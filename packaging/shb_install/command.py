"""The words of the command, which the Makefile calls."""

import argparse
import compileall
import os
import pathlib
import shutil
import subprocess
import sys
import tempfile

from shb_common.files import put
from shb_common.standard import tell, words_of
from shb_common.words import Refused
from shb_install import package, placing, sources, tree

EPILOG = """\
Exit status: 0; 1 if it can't be done, with the reason. What was installed by then goes by `uninstall`, or by
installing again."""


def arguments(words):
    parser = argparse.ArgumentParser(prog="install", description=__doc__, epilog=EPILOG)
    parser.add_argument("--shb", type=pathlib.Path, default=sources.TOP / "bin" / "shb",
                        help="the built program (%(default)s)")
    parser.add_argument("--prefix", default="/usr/local",
                        help="where the commands will be used (%(default)s)")
    parser.add_argument("--destdir", default="", help="a folder to install below, as packagers need it")
    parser.add_argument("what", choices=("install", "uninstall", "dist", "deb"))
    return parser.parse_args(words)


def prefix_of(options):
    """The absolute path of the prefix. A relative one would depend on the folder that `make` is called in."""
    prefix = os.path.expanduser(options.prefix)
    if not prefix:
        raise Refused("the prefix is empty; PREFIX=/ installs in /bin, /lib and /share")
    if not os.path.isabs(prefix):
        raise Refused(f"the prefix {prefix} is relative; PREFIX={os.path.abspath(prefix)} is the one in this "
                      "folder")
    return os.path.abspath(prefix)


def place_of(options):
    """The folder that stands for the prefix."""
    return pathlib.Path(f"{options.destdir}{prefix_of(options)}")


def check(shb):
    """Refuses a program that isn't there or that this machine can't run, in the program's own words."""
    if not shb.is_file():
        raise Refused(f"{shb}: no such program; `make build` builds bin/shb, SHB=PATH names another one")
    ran = subprocess.run([shb.absolute(), "--help"], stdin=subprocess.DEVNULL, capture_output=True)
    if ran.returncode:
        said = ran.stderr.decode(errors="replace").strip()
        raise Refused(
            f"{shb} can't be run on this machine: it ended with status {ran.returncode} {said}".rstrip())


def need(program):
    if not shutil.which(program):
        raise Refused(f"{program} isn't installed; no package can be made without it")


def install(options):
    place, prefix = place_of(options), prefix_of(options)
    check(options.shb)
    files, commit = sources.listed(), sources.commit()
    with tempfile.TemporaryDirectory() as room:
        made = pathlib.Path(room)
        tree.make(made, options.shb, f"{prefix}/lib/shb/libtsan.so", files, commit.version)
        if shutil.which("help2man"):
            tree.put_manual(made, prefix, commit)
        else:
            tell("install: help2man isn't installed, so there are no manual pages")
        placing.install(made, place)
    if not options.destdir:     # where a package's own script does so; else each call of a user would
        compileall.compile_dir(place / tree.HOME, quiet=2)
    print(f"installed in {place}")


def uninstall(options):
    place = place_of(options)
    print(f"uninstalled from {place}" if placing.uninstall(place)
          else f"nothing is installed in {place}: there is no {place / placing.VERSION}")


def packaged(options, made, prefix, library):
    """Makes the tree of a package of the commit alone, which is returned."""
    files, changed = sources.listed(), sources.changed()
    if changed:
        raise Refused("a package is made of a commit, and these files are changed since: "
                      f"{', '.join(changed)}")
    need("help2man")
    check(options.shb)
    commit = sources.commit()
    tree.make(made, options.shb, library, files, commit.version)
    tree.put_manual(made, prefix, commit)
    return commit


def dist(options):
    with tempfile.TemporaryDirectory() as room:
        made = pathlib.Path(room, "tree")
        commit = packaged(options, made, "/path/to/shb", "libtsan.so.2")
        package.put_proved(made, options.shb, commit)
        # the documents' links lead somewhere from the top too
        for path in (made / "share/doc/shb").iterdir():
            (made / path.name).symlink_to(f"share/doc/shb/{path.name}")
        top = made.rename(made.with_name(f"shb-{commit.version}-x86_64-linux"))
        write_package(package.archive(top, commit.seconds))


def deb(options):
    need("dpkg-shlibdeps")
    with tempfile.TemporaryDirectory() as room:
        made = pathlib.Path(room, "tree", "usr")
        commit = packaged(options, made, "/usr", "/usr/lib/shb/libtsan.so")
        programs = package.stripped(made)
        package.put_proved(made, options.shb, commit)
        write_package(package.debian(made, programs, commit))


def write_package(made):
    """Puts a package into the checkout, and beside it its checksum, as `sha256sum --check` reads it."""
    place = sources.TOP / made.name
    put(place, made.read_bytes())
    put(f"{place}.sha256", f"{package.checksum_of(made)}  {made.name}\n".encode())
    print(place)


def main(words):
    options = arguments(words)
    os.umask(0o022)
    try:
        {"install": install, "uninstall": uninstall, "dist": dist, "deb": deb}[options.what](options)
        return 0
    except (Refused, OSError) as fault:
        said = words_of(fault)
    except subprocess.CalledProcessError as fault:
        said = f"{fault.cmd[0]} ended with status {fault.returncode}"
    except KeyboardInterrupt:
        said = "stopped"
    print(f"install: {said}", file=sys.stderr)
    return 1
