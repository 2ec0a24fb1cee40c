"""The list of a run's turns, which the recorder leaves beside the record (runtime/replay.c)."""

import array
import collections
import re

from shb_common.files import open_regular
from shb_common.words import Refused

HEADER_BYTES, ENTRY_BYTES, MOST_BYTES = 4096, 8, 128 << 20
HEADER = re.compile(rb"shb-turns 5\ncommand (?P<command>[^\n]*)\n(?:whole (?P<count>[0-9a-f]+) "
                    rb"(?P<sum>[0-9a-f]+)\n)?\0*")
List = collections.namedtuple("List", "content command")


def read(path):
    """The list in a file, or why it can't be followed."""
    with open_regular(path) as file:
        content = file.read(MOST_BYTES + 1)
    if re.match(rb"shb-turns (?!5\n)\d+\n", content):
        raise Refused(f"{path} is not followed: another version of the recorder wrote it")
    header, entries = HEADER.fullmatch(content[:HEADER_BYTES]), content[HEADER_BYTES:]
    if not header or not HEADER_BYTES <= len(content) <= MOST_BYTES or len(entries) % ENTRY_BYTES:
        raise Refused(f"{path} is no list of turns (RUN.turns in the folder of results)")
    count = int(header["count"], 16) if header["count"] else len(entries) // ENTRY_BYTES
    if (header["count"]
        and not (count * ENTRY_BYTES <= len(entries) and sum_of(entries, count) == int(header["sum"], 16))):
        raise Refused(f"{path} was cut or changed since the recorder wrote it")
    return List(content, header["command"].decode(errors="backslashreplace").strip())


def sum_of(entries, count):
    """As the recorder takes it: zeros may follow what it counted."""
    return sum(array.array("Q", entries)[:count]) % 2**64
