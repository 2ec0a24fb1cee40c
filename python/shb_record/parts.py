"""What the command is made of, and where that is."""

import os
import shutil
import time

from shb_common import parts
from shb_common.standard import tell
from shb_common.words import Refused, printable

LIBRARY = os.path.dirname(parts.part("../recorder/lib/libtsan.so", "libtsan.so"))
CONVERTER = parts.part("../recorder/shb-std", "shb-std")
READER = parts.part("../recorder/module-reader", "module-reader")
ANALYSER = os.environ.get("SHB") or parts.ANALYSER


def check_parts():
    """Fails where something is missing that is needed after the program ran."""
    for path in (f"{LIBRARY}/libtsan.so", CONVERTER):
        if not os.path.exists(path):
            raise Refused(f"{path} isn't there; in a checkout `make recorder` builds the recorder")
    if not shutil.which(ANALYSER):
        raise Refused(parts.NO_ANALYSER(ANALYSER))


def say(line):
    """Prints a line on standard error. What doesn't print in it, as an escape of a path, is escaped."""
    tell(f"shb-record: {printable(str(line).encode('utf-8', 'surrogateescape'))}")


def files_in(folder, begin, end=""):
    """The paths of the files in a folder whose names begin and end so; none where it is gone."""
    names = os.listdir(folder) if os.path.isdir(folder) else []
    return [f"{folder}/{name}" for name in names if name.startswith(begin) and name.endswith(end)]


def now():
    return time.strftime("%Y-%m-%d %H:%M:%S")
