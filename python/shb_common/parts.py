"""Where the parts of the project are: in a checkout, or installed; then all but `shb` is in one folder; and
of which version they are."""

import os
import subprocess

HOME = os.path.dirname(os.path.dirname(os.path.realpath(__file__)))
FILE = os.path.join(HOME, "VERSION")      # the installation puts it there


def part(*paths):
    """The first of these paths from the folder of the packages that is there, else the first one."""
    places = [os.path.normpath(os.path.join(HOME, path)) for path in paths]
    return next(filter(os.path.exists, places), places[0])


def part_of_page(name):
    """The style or the script of pages."""
    with open(os.path.join(HOME, "shb_view", name), encoding="utf-8") as file:
        return file.read()


ANALYSER = part("../bin/shb", "../../bin/shb")
NO_ANALYSER = ("there is no analyser at {}; in a checkout `make build` makes it, "
               "and SHB=PROGRAM names another").format


def installed():
    """The day and the commit of what is installed; None in a checkout."""
    try:
        with open(FILE, encoding="utf-8") as file:
            return file.read().strip()
    except FileNotFoundError:
        return None


def version():
    """The day and the commit of what is installed, or of the checkout; with a word if files were changed."""
    if installed():
        return installed()
    last = of_git("log", "-1", "--abbrev=12", "--date=format-local:%Y.%m.%d", "--format=%cd-%h")
    if not last or of_git("rev-parse", "--show-prefix"):     # a copy in a checkout of something else
        return "of a checkout"
    return last + ("-changed" if of_git("status", "--porcelain", "--untracked-files=no") else "")


def of_git(*words):
    """What git says of the checkout; nothing if it doesn't know it."""
    try:
        ran = subprocess.run(["git", "--no-optional-locks", "-C", os.path.dirname(HOME), *words],
                             env={**os.environ, "TZ": "UTC"}, stdin=subprocess.DEVNULL, capture_output=True)
    except OSError:
        return ""
    return ran.stdout.decode(errors="replace").strip() if ran.returncode == 0 else ""
