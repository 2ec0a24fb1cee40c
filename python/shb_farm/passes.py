"""A pass: some traces to be run within the same limits. Its file is all that a job is told."""

import collections
import contextlib
import fcntl
import json
import os
import pathlib
import re
import shutil
import tempfile

from shb_common.sums import blake2b

LIST, KEPT = "list", "kept"     # the places of a trace; its report, which is kept
FOLDER_OF = {LIST: "outcomes", KEPT: "reports"}
LOCK, DONE = "lock", "done"
MOST_OF_NAME = 60               # characters of a trace's name that are in the name of its outcome
OTHER = re.compile(r"[^A-Za-z0-9._-]+")

# What a pass needs: the program and its checksum; the folders of the traces, of the outcomes, and for files
# of this run that aren't whole yet (`room`); whether links may lead out of the folder of the traces; the MiB
# of address space (`memory`), the seconds of processor time, and the MiB of a report and of the text of a
# packed trace (`size`); and the traces to run, below their folder (`names`).
Pass = collections.namedtuple("Pass", "shb program traces out room links form memory seconds size names",
                              defaults=(False, LIST, 0, 0, 0, []))


def write(work):
    number, path = tempfile.mkstemp(prefix="pass-", dir=work.room)
    with open(number, "w", encoding="ascii") as file:
        json.dump(work._asdict(), file)
    return path


def read(path):
    with open(path, encoding="ascii") as file:
        return Pass(**json.load(file))


@contextlib.contextmanager
def room_in(out):
    """A locked folder for files that aren't whole yet. It goes with the run, and killed runs' before."""
    tmp = pathlib.Path(out) / "tmp"
    tmp.mkdir(parents=True, exist_ok=True)
    clean(tmp)
    room = pathlib.Path(tempfile.mkdtemp(prefix="run-", dir=tmp))
    with open(room / LOCK, "wb") as lock:
        fcntl.flock(lock, fcntl.LOCK_EX)
        try:
            yield room
        finally:
            shutil.rmtree(room, ignore_errors=True)


def clean(tmp):
    """Deletes what killed runs have left. Other farms may work in the same folder: what is locked stays, and
    what they delete meanwhile is passed over."""
    for path in tmp.glob(f"*/{LOCK}"):
        with contextlib.suppress(OSError), open(path, "rb") as lock:
            fcntl.flock(lock, fcntl.LOCK_EX | fcntl.LOCK_NB)
            shutil.rmtree(path.parent)


def key_of(name):
    """What the files of a trace are named by: the plain end of its name, and a sum of the whole."""
    plain = OTHER.sub("_", name.rpartition("/")[2])[:MOST_OF_NAME]
    return f"{plain}-{blake2b(os.fsencode(name), digest_size=10).hexdigest()}"


def outcome_path(out, form, name):
    return pathlib.Path(out) / FOLDER_OF[form] / f"{key_of(name)}.outcome"


def kept_path(out, name, ending):
    """What is kept of a trace: the `report`, or the `json` with what the view says of its places."""
    return pathlib.Path(out) / FOLDER_OF[KEPT] / f"{key_of(name)}.{ending}"


def is_valid(outcome, work, name):
    """Whether an outcome of this trace, as it is now, is valid under the limits of this pass."""
    if outcome.program != work.program or outcome.kind == "failed":
        return False
    if outcome.kind in ("memory", "time", "size"):
        limit = {"memory": work.memory, "time": work.seconds, "size": work.size}[outcome.kind]
        return int(outcome.words) >= limit
    if work.form == LIST or outcome.kind != "report":
        return True
    path = kept_path(work.out, name, "report")
    return path.exists() and os.stat(path).st_size == int(outcome.words)
