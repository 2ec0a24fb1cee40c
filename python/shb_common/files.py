"""Files that are whole or not there, and files of strangers, which may be anything."""

import contextlib
import os
import stat

from shb_common.standard import faults_of


def open_regular(path):
    """A regular file, open for reading; OSError for anything else, which may have no end and isn't waited
    for."""
    number = os.open(path, os.O_RDONLY | os.O_NONBLOCK | os.O_CLOEXEC)
    if stat.S_ISREG(os.fstat(number).st_mode):
        return open(number, "rb")
    os.close(number)
    raise OSError(0, "it isn't a regular file", path)


def read_at_most(path, most):
    """The bytes of a file that the user named, of any kind; OSError where it has more than `most`."""
    with open(path, "rb") as file:
        text = file.read(most + 1)
    if len(text) > most:
        raise OSError(0, f"it is longer than {most:,} bytes", path)
    return text


@contextlib.contextmanager
def temporary_file(folder):
    """A new open file and its path; it is deleted at the end if it is still there. Flush what counts."""
    import tempfile  # is slow to import, and a usual recording does without
    number, path = tempfile.mkstemp(dir=folder)
    file = open(number, "w+b")
    try:
        yield file, path
    finally:
        with contextlib.suppress(OSError):
            file.close()    # fails again where the disk is full
        remove(path)


def remove(path):
    """Deletes a file, if it is there."""
    with contextlib.suppress(FileNotFoundError):
        os.unlink(path)


def put(path, text, room=None):
    """Puts a file in place whole; `room` is a folder of the same file system (the file's own by default)."""
    with faults_of(path), temporary_file(room or os.path.dirname(os.path.abspath(path))) as (file, new):
        file.write(text)
        file.flush()
        put_file(new, path)


def put_file(new, path):
    mask = os.umask(0)
    os.umask(mask)
    os.chmod(new, 0o666 & ~mask)
    os.makedirs(os.path.dirname(os.path.abspath(path)), exist_ok=True)
    os.replace(new, path)
