"""The folder of the results."""

import contextlib
import fcntl
import itertools
import os
import re
import shutil
import time

from shb_common.files import put
from shb_common.standard import faults_of
from shb_common.words import Refused
from shb_record.parts import files_in, now, say

LIST = "made-by-shb-record.txt"
LIST_BEGIN = "# What shb-record made in this folder"
TABLES = "unknown.places", "places.tsv", "places.json", "places.sarif", "index.html"
OURS = r"run\d+\.\d[\d-]*(\.\d+)?\.(rec|turns|std|places|uses|stacks|html)|work-\w+"  # and TABLES


class Results:
    """The folder of the results. What is made there is named in a list first, which is locked as long as the
    call lasts: so no call takes another's files, and none deletes what it didn't make."""

    def __init__(self, folder, command, spared=None):
        try:
            self.folder, self.list = unused_folder(folder)
        except OSError as fault:
            why = "it is a file" if os.path.isfile(folder) else fault.strerror
            raise Refused(
                f"the results can't be put into {folder}: {why}; name another folder with -o") from None
        self.names = []     # of what is made
        spared = self.remove_earlier(spared)
        self.list.truncate(0)
        self.list.write(f"{LIST_BEGIN} on {now()}, for: {command}\n")
        for name in spared:
            self.path(name, is_there=True)
        self.tables = {name: self.path(name) for name in TABLES}
        # records before they are looked at
        self.work = self.path(f"work-{time.time_ns()}")
        os.mkdir(self.work, 0o700)
        open(f"{self.work}/{LIST}", "wb").close()   # shows a later call that it is one of ours
        self.first = [] if spared else list(self.names)     # which say nothing if they are all

    def remove_earlier(self, spared):
        """Deletes what an earlier call's list names, and says so. Returns names of what is still needed."""
        self.list.seek(0)
        first, *names = self.list.read().splitlines() or [LIST_BEGIN]
        if not first.startswith(LIST_BEGIN):
            raise Refused(f"{self.folder}/{LIST} is there, and shb-record didn't make it")
        ours = {name: f"{self.folder}/{name}" for name in names
                if name in TABLES or re.fullmatch(OURS, name)}
        kept = [name for name, path in ours.items()
                if spared and os.path.exists(path) and os.path.samefile(path, spared)]
        for name, path in ours.items():
            if os.path.isfile(f"{path}/{LIST}"):
                say(f"{path} is deleted: the records of an earlier call that was killed")
        removed = [name for name in reversed(ours) if name not in kept and remove(ours[name])]
        if removed:
            say(f"replacing the results in {self.folder}, made{first[len(LIST_BEGIN):]}")
        return kept

    def path(self, name, is_there=False):
        """The path of a file or folder that is to be made. What is there already isn't ours, and stays."""
        path = f"{self.folder}/{name}"
        if os.path.lexists(path) and not is_there:
            raise Refused(f"{path} is there, and shb-record didn't make it; name another folder with -o")
        with faults_of(f"{self.folder}/{LIST}"):
            self.list.write(f"{name}\n")
            self.list.flush()
        self.names.append(name)
        return path

    def keep(self, path, name):
        """Moves a finished file out of the folder of work. Returns its new path."""
        kept = self.path(name)
        os.rename(path, kept)
        return kept

    def keep_records(self):
        for record in sorted(files_in(self.work, "", ".rec")):
            say(f"the record is kept: {self.keep(record, os.path.basename(record))}")

    def has_more(self):
        """Whether something was made besides the tables and the folder of work."""
        return self.names != self.first

    def write(self, texts):
        """Puts tables in place, each whole or not at all. Returns the faults of those that can't be."""
        faults = []
        for name, text in texts.items():
            try:
                put(self.tables[name], text, self.work)
            except OSError as fault:
                faults.append(fault)
        return faults

    def close(self, is_recorded):
        """Deletes the folder of work, and all of the results if nothing was recorded, and lets other calls
        use the folder."""
        shutil.rmtree(self.work, ignore_errors=True)
        if not is_recorded:
            os.unlink(f"{self.folder}/{LIST}")
            with contextlib.suppress(OSError):
                os.rmdir(self.folder)   # which may have others' files
        with contextlib.suppress(OSError):
            self.list.close()   # fails again if the disk is full


def unused_folder(folder):
    """The folder, or one with a number after its name, that no other call uses, and its locked list."""
    for number in itertools.count(1):
        path = folder if number == 1 else f"{folder}-{number}"
        os.makedirs(path, exist_ok=True)
        look_at_owner(path)
        # not through a link, which may lead anywhere: somebody else may have prepared the folder
        file = open(f"{path}/{LIST}", "a+", encoding="utf-8", errors="surrogateescape",
                    opener=lambda path, flags: os.open(path, flags | os.O_NOFOLLOW, 0o666))
        try:
            fcntl.flock(file, fcntl.LOCK_EX | fcntl.LOCK_NB)
        except BlockingIOError:
            file.close()
            continue
        if number > 1:
            say(f"another call uses {folder}; the results go to {path}")
        return path, file


def look_at_owner(folder):
    """Refuses for root a folder that isn't root's, and tells others of one that isn't theirs."""
    if {os.lstat(folder).st_uid, os.stat(folder).st_uid} == {os.geteuid()}:
        return
    if os.geteuid() == 0:
        raise Refused(f"{folder} belongs to another user, who can change what is in it: -o names another "
                      "folder")
    say(f"{folder} belongs to another user, who can change the results")


def remove(path):
    """Deletes a file, or a folder of work that is marked as ours. Returns whether a file was there."""
    if os.path.islink(path) or os.path.isfile(path):
        os.unlink(path)
        return True
    if os.path.basename(path).startswith("work-") and os.path.isfile(f"{path}/{LIST}"):
        shutil.rmtree(path, ignore_errors=True)
    return False
