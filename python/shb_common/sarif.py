"""Places as a log in SARIF 2.1.0 of OASIS, one result a place."""

import collections
import functools
import os
import posixpath
import re

from shb_common import known
from shb_common.locations import bare, line_of, parts_of
from shb_common.parts import installed
from shb_common.result import in_bytes
from shb_common.sources import read_lines
from shb_common.words import printable

SCHEMA = "https://docs.oasis-open.org/sarif/sarif/v2.1.0/errata01/os/schemas/sarif-schema-2.1.0.json"
RULE = {
    "id": "data-race",
    "name": "DataRace",
    "shortDescription": {"text": "Two threads access a variable, one of them writes it, and nothing orders "
                                 "the two accesses."},
    "fullDescription": {"text": "In a recorded run two threads access the same variable, at least one access "
                                "is a write, and schedulable happens-before doesn't order them: after a "
                                "correct reordering of earlier events both can execute next."},
    "help": {"text": "Make both accesses under one lock, or order them: by a join, by a release and an "
                     "acquire, or by making the variable atomic. The page of the run explains the race; of a "
                     "trace shb-view makes one."},
    "defaultConfiguration": {"level": "error"},
}
SUPPRESSIONS = [{"kind": "external", "justification": "It is in the file of known places."}]
BASE = "SRCROOT"        # the folder that relative file names in the traces start from
TRACES = "TRACES"       # the folder of the traces
BASES = {BASE: "The folder that relative file names start from: the repository.",
         TRACES: "The folder of the traces."}
# what is known of a location, from what a reader can open best
FOUND, RELATIVE, ABSOLUTE, NAME = range(4)

PLAIN = str.maketrans({sign: f"\\{sign}" for sign in "\\[]"})
RELATED = {1: "The other access.", 2: "An access."}     # what a location is, by how many are related
MOST_NAMED = 3          # variables in a message

# An access of a race: its thread, what it does, its stack, the innermost frame first, and the path of each
# source file by its name in locations.
Access = collections.namedtuple("Access", "thread operation frames files")

# A location: its text, what is known of it, its file and line, and the text of this line or None.
Place = collections.namedtuple("Place", "text kind path line code")


class Alert(collections.namedtuple("Alert", "row facts seen example accesses properties blamed",
                                   defaults=(None,))):
    """A place for review. `facts` is what is known of its locks, `seen` where it was seen, both as sentences;
    `example` is the path of a trace that has it, from the folder of the traces; `accesses` are those of a
    race there with their call stacks; `properties` are further facts; `blamed` is the name of the location
    that the facts name first, and the path of its file, or None."""

    @functools.cached_property
    def variables(self):
        """The variables of the place, in names that last from run to run."""
        return known.lasting_names(name for name, _ in self.row.variables)


class Here:
    """The files of the repository that the working folder is in; without one, those below that folder."""

    def __init__(self, folder):
        self.read = functools.lru_cache(maxsize=64)(read_lines)
        top = folder
        while top != "/" and not os.path.exists(f"{top}/.git"):
            top = os.path.dirname(top)
        self.top = os.fsencode(folder if top == "/" else top) + b"/"

    def find(self, _path, compiled):
        """The path from the top of a file that was compiled from this one; None of one elsewhere."""
        return compiled[len(self.top):] if compiled.startswith(self.top) else None

    def line(self, source, number):
        lines, _, _ = self.read(self.top + source)
        return lines[number - 1].strip() if number <= len(lines) else None


def place_of(name, sources, compiled):
    """What is known of a location: a file with a line where it has this form, the repository's file where
    that is found. `compiled` is the path that the file had where its program was compiled."""
    found = line_of(name)
    if not found or not found[1]:    # lines count from 1
        return Place(name, NAME, b"", 0, None)
    path, line = found
    source = sources.find(path, compiled)
    if source:
        return Place(name, FOUND, source, line, sources.line(source, line))
    return Place(name, ABSOLUTE if path.startswith(b"/") else RELATIVE, path, line, None)


def uri_of(path, base):
    """A file name as a URI reference; a relative one counts from a base."""
    path = posixpath.normpath(path)
    if not re.fullmatch(rb"[\w./~-]*", path):
        import urllib.parse  # is slow to import, and most paths do without
        path = urllib.parse.quote_from_bytes(path, safe="/").encode()
    if path.startswith(b"/"):
        return {"uri": "file://" + path.decode().replace("//", "/", 1)}
    return {"uri": path.decode(), "uriBaseId": base}


def location_of(place, **more):
    """A location object: with a file and a line, or with a name alone."""
    if place.kind == NAME:
        return {**more, "logicalLocations": [{"fullyQualifiedName": named(place)}]}
    return {**more, "physicalLocation": {"artifactLocation": uri_of(place.path, BASE),
                                         "region": {"startLine": place.line}}}


def primary_of(place, example):
    """The location of a result. Readers of such logs want a file: else it is the trace that has it."""
    if place.kind != NAME:
        return location_of(place)
    trace = {"artifactLocation": uri_of(example, TRACES), "region": {"startLine": 1}}
    return {**location_of(place), "physicalLocation": trace}


def named(place):
    return printable(place.text) or "no location"


def fingerprint(parts, between=b"\t", size=16):
    from shb_common.sums import blake2b  # is slow to import, and most calls have no place
    return blake2b(between.join(parts), digest_size=size).hexdigest()


def line_fingerprint(first, second, alert):
    """Names a place by the texts of its lines and its variables, so it stays when they move."""
    if first.code is None:
        return None
    parts = [first.path, first.code, *((second.text,) if second.code is None else (second.path, second.code)),
             *alert.variables]
    return fingerprint(parts, b"\n", 8)


def code_flows(alert, sources):
    """The property of a result with the calls to both accesses of a race, if they are known."""
    flows = [thread_flow(access, sources) for access in alert.accesses]
    are_known = flows and all(flow["locations"] for flow in flows)
    return {"codeFlows": [{"threadFlows": flows}]} if are_known else {}


def thread_flow(access, sources):
    """The calls of a thread to its access, the outermost first, that are lines of the program's own."""
    name = printable(access.thread)
    steps = []
    for frame in reversed(access.frames):
        place = place_of(frame.location, sources, access.files.get(parts_of(frame.location)[0], b""))
        if place.kind != NAME and not frame.in_system:
            function = plain(printable(bare(frame.function)) or "a function")
            steps.append({"location": location_of(place, message={"text": f"{name} in {function}"})})
    return {"id": name, "message": {"text": plain(f"{name}: {printable(access.operation)}")},
            "locations": steps}


def message_of(alert, blamed, related):
    """The message, in which the related locations are links by their numbers."""
    links = [f"[{plain(named(place))}]({number})" for number, place in enumerate(related, 1)]
    sides = links if len(links) > 1 else [plain(named(blamed)), *links]
    variables = list(map(printable, alert.variables))
    names = [f"`{name}`" for name in variables[:MOST_NAMED]]
    more = len(variables) - len(names)
    on = " and ".join([", ".join(names), *([f"{more} more"] if more > 0 else [])]) if names else "a variable"
    text = f"Data race on {plain(on)} between {' and '.join(sides)}"
    return ". ".join([text, *(plain(part.rstrip(".")) for part in (alert.facts, alert.seen) if part)]) + "."


def result_of(alert, sources, seen):
    """The result of one place. `seen` counts the fingerprints of lines before it."""
    both = [place_of(name, sources, location.path) for name, location in zip(alert.row.names, alert.row.key)]
    both.sort(key=lambda place: (place.kind, place.text))
    # it changes only with these
    prints = {"places/v2": fingerprint([*sorted(alert.row.names), *alert.variables])}
    by_lines = line_fingerprint(*both, alert)
    if by_lines:
        seen[by_lines] += 1
        prints["primaryLocationLineHash"] = f"{by_lines}:{seen[by_lines]}"
    blamed = place_of(alert.blamed[0], sources, alert.blamed[1]) if alert.blamed else both[0]
    related = [place for place in both if place.text != blamed.text] or both[1:]
    return {
        "ruleId": RULE["id"],
        "ruleIndex": 0,
        "level": "error",
        "message": {"text": message_of(alert, blamed, related)},
        "locations": [primary_of(blamed, alert.example)],
        "relatedLocations": [location_of(place, id=number, message={"text": RELATED[len(related)]})
                             for number, place in enumerate(related, 1)],
        "partialFingerprints": prints,
        "suppressions": SUPPRESSIONS if alert.row.is_known else [],
        "properties": {**alert.properties, "variables": [printable(name) for name, _ in alert.row.variables]},
        **code_flows(alert, sources),
    }


def plain(text):
    """A text in a message, where brackets begin a link and backslashes escape."""
    return text.translate(PLAIN)


def log(alerts, sources, notifications, is_whole, status):
    """A log as bytes. `notifications` are pairs of a level and a sentence; `is_whole` says that the command
    did all that it should."""
    seen = collections.Counter()
    run = {
        "tool": {"driver": {"name": "shb", "version": installed() or "checkout", "rules": [RULE]}},
        "originalUriBaseIds": {name: {"description": {"text": text}} for name, text in BASES.items()},
        "invocations": [{"executionSuccessful": is_whole, "exitCode": status, "toolExecutionNotifications":
                         [{"level": level, "message": {"text": text}} for level, text in notifications]}],
        "results": [result_of(alert, sources, seen) for alert in alerts],
    }
    return in_bytes({"$schema": SCHEMA, "version": "2.1.0", "runs": [run]})
