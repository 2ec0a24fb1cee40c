"""The tree that is installed: commands, their parts, manual pages, completions, documents, examples."""

import os
import pathlib
import shutil
import subprocess
import tempfile

from shb_common.words import Refused
from shb_install.sources import TOP

# commands (shb-NAME) stand there beside their packages (shb_NAME), as in the checkout; links lead to them
HOME = "lib/shb"
DOCUMENTS = ("README.md", "CHANGELOG.md", "SECURITY.md", "CITATION.cff", "recorder/README.md")
OF_THE_CHECKOUT = ("docs/GATE.md", "docs/PROOF-NOTES.md")   # they are about files that aren't installed
BASH, ZSH, MANUAL = "share/bash-completion/completions", "share/zsh/site-functions", "share/man/man1"
DOCUMENTATION, SHARED = "share/doc/shb", "share/shb"
OWN = (DOCUMENTATION, SHARED, HOME)     # folders that no other program has
# the commands with a page, and what it says of each under NAME
PAGES = {
    "shb": "finds the data races of a trace",
    "shb races": "lists all races of a trace",
    "shb places": "lists one race of each place of a trace",
    "shb check": "checks a report against its trace",
    "shb-farm": "analyses many traces",
    "shb-fix": "repairs a trace of another tool",
    "shb-record": "records a program, and explains its data races",
    "shb-std": "turns a record of a program into a trace",
    "shb-view": "explains the races of a trace",
}
EXAMPLE = '.SS "Example:"\n.IP\n'    # where a page has a command with what it writes, as its last part
# as in its Makefile without -g, which names folders
RECORDER_FLAGS = "-O2 -Wall -Wextra -Wno-unused-parameter"


def make(tree, shb, library, files, version):
    """Makes the tree without manual pages in an empty folder. `shb` is the built program, `library` the path
    under which programs that were linked with the recorder's library look for it, `files` those of the
    checkout that may go in."""
    copy(shb, tree / "bin" / "shb")
    copy(TOP / "packaging/completion.bash", tree / BASH / "shb")
    copy(TOP / "packaging/completion.zsh", tree / ZSH / "_shb")
    with tempfile.TemporaryDirectory() as room:
        recorder = pathlib.Path(room, "recorder")
        for name in files:
            if name.startswith("python/shb"):
                copy(TOP / name, tree / HOME / name[len("python/"):])
            if name.startswith("recorder/"):
                copy(TOP / name, recorder.parent / name)
            if name.startswith("examples/"):
                copy(TOP / name, tree / SHARED / name)
            if name in DOCUMENTS or name.startswith("docs/") and name not in OF_THE_CHECKOUT:
                copy(TOP / name, tree / DOCUMENTATION / name)
        build_recorder(recorder, library, version)
        for source in (recorder / "shb-std", recorder / "module-reader", *recorder.glob("lib/libtsan*")):
            copy(source, tree / HOME / source.name)
    # images for containers leave out what is below share/doc
    (tree / DOCUMENTATION / "examples").symlink_to("../../shb/examples")
    (tree / HOME / "VERSION").write_text(version + "\n")
    for command in (tree / HOME).glob("shb-*"):
        (tree / "bin" / command.name).symlink_to(f"../{HOME}/{command.name}")
        (tree / BASH / command.name).symlink_to("shb")


def build_recorder(folder, library, version):
    ran = subprocess.run(["make", "-s", f"-j{len(os.sched_getaffinity(0))}", "-C", folder,
                          f"CFLAGS={RECORDER_FLAGS}", f"SONAME={library}", f"SHB_VERSION={version}"])
    if ran.returncode:
        raise Refused(f"the recorder can't be built: make ended with status {ran.returncode}; it needs gcc "
                      "and libdw-dev (elfutils)")


def copy(source, place):
    """Copies a file, executable if the source is, or a link."""
    place.parent.mkdir(parents=True, exist_ok=True)
    shutil.copy(source, place, follow_symlinks=False)


def put_manual(tree, prefix, commit):
    """Has help2man make the page of each command from its help, which names the tree's folder."""
    (tree / MANUAL).mkdir(parents=True)
    environment = {"PATH": f"{tree}/bin:{os.environ.get('PATH', os.defpath)}", "LC_ALL": "C.UTF-8",
                   "COLUMNS": "80", "PYTHONDONTWRITEBYTECODE": "1", "SOURCE_DATE_EPOCH": commit.seconds}
    pages = {command: command.replace(" ", "-") for command in PAGES}
    also = "[SEE ALSO]\n" + ",\n".join(f".BR {in_roff(page)} (1)" for page in pages.values())
    for command, page in pages.items():
        words = ["help2man", "--no-info", f"--name={PAGES[command]}", "--include=/dev/stdin",
                 f"--version-string={page} {commit.version}", command]
        text = subprocess.run(words, env=environment, input=also.encode(), stdout=subprocess.PIPE,
                              check=True).stdout.decode()
        text = text.replace(in_roff(os.path.realpath(tree)), in_roff(prefix))
        (tree / MANUAL / f"{page}.1").write_text(text.replace(EXAMPLE, f"{EXAMPLE}.nf\n"))


def in_roff(text):
    return text.replace("-", r"\-")
