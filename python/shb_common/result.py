"""What a command found, in the form that programs read. docs/FORMATS.md has it."""

import json
import os
import re

from shb_common.files import open_regular
from shb_common.parts import installed
from shb_common.words import Refused, printable

FORM, VERSION = "shb-places", 2
NAME, MOST_BYTES = "places.json", 1 << 30


def text(name):
    """A name of a trace. Bytes that aren't UTF-8 are written as `\\xff`."""
    return name.decode(errors="backslashreplace")


def name_of(text):
    """The name that was written as this text."""
    return re.sub(rb"\\x([89a-f][0-9a-f])", lambda found: bytes([int(found[1], 16)]),
                  text.encode(errors="surrogatepass"))


def access(name, location, in_trace, event=None, read=None):
    """An access of a place: `name` is what its location is called over all programs, `location` says whose it
    is, `in_trace` is how the trace has it, and `read` its fields there."""
    found = {"location": text(name), "in_trace": text(in_trace),
             "functions": sorted(map(text, location.functions))}
    if location.path.startswith(b"/"):
        found["file"] = text(location.path)
    if event is not None:
        found["event"] = event
    if read is not None:
        found.update(thread=text(read.thread), operation={b"r": "read", b"w": "write"}[read.word])
    return found


def entry(row, found, reads=((), ()), **more):
    """A row as an entry: `found` is the view's, `reads` are of each access its event and its fields."""
    there = {one["in_trace"]: one for one in found.get("accesses", ())}
    accesses = [{**there.get(text(in_trace), {}), **access(name, location, in_trace, *read)}
                for name, location, in_trace, read in zip(row.names, row.key, row.texts, reads)]
    variables = [{"name": text(name), "state": "known" if is_known else "unknown"}
                 for name, is_known in row.variables]
    return {"state": row.state(), "accesses": accesses, "variables": variables,
            "has_more_variables": row.has_more,
            **{name: found[name] for name in ("blamed", "about", "headline", "remedy", "facts")
               if name in found},
            **more}


def entries_of(trace, places):
    """Entries of what the view found in a trace, by the trace and the two locations as it has them."""
    return {(trace, frozenset(one["in_trace"] for one in place["accesses"])): place for place in places}


def entry_of(entries, row):
    return entries.get((row.example, frozenset(map(text, row.texts))), {})


def stale_of(lines):
    return [{"line": line.number, "text": text(line.text)} for line in lines]


def document(command, summary, places, **more):
    """The whole. `summary` has numbers by their names."""
    head = {"form": FORM, "version": VERSION, "command": command,
            **({"installed": installed()} if installed() else {})}
    return {**head, "summary": summary, **more, "places": places}


def in_bytes(found):
    return (json.dumps(found) + "\n").encode()


def read(path, look):
    """An earlier result, by the path of it or of its folder. `look` fails at an entry with a part missing."""
    path = os.path.join(path, NAME) if os.path.isdir(path) else path
    with open_regular(path) as file:
        text = file.read(MOST_BYTES)
    try:
        found = parsed(text)
        if found["form"] != FORM or found["version"] != VERSION:
            raise ValueError(f"it isn't of form {FORM}, version {VERSION}")
        for entry in found["places"]:
            look(entry)
        return found
    except (ValueError, KeyError, TypeError, AttributeError, RecursionError) as fault:
        said = str(fault) if isinstance(fault, ValueError) else "a part of it is missing, or of another kind"
        raise Refused(f"{printable(path)}: {said}") from None


def parsed(text):
    try:
        return json.loads(text)
    except ValueError:
        raise ValueError(f"this is no {NAME} of `shb-farm` or `shb-record`") from None
