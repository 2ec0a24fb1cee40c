"""Remedies that lines of code tell, in place of a fact's own."""

import re

from shb_common.locations import line_of
from shb_common.result import text
from shb_view.facts import worded
from shb_view.names import by_numbers
from shb_view.words import Code, listed, lock_name, place

# What has its result where all threads have it, in a library; with `_r` behind its name it hasn't.
SHARED = rb"\b(asctime|ctime|get(?:gr|host|pw)\w+|gmtime|localtime|strerror|strtok)\s*\("
LIBRARY = rb"lib\w[^:]*\.so[^:]*:"
BRANCH = rb"\b(?:if|switch)\s*\(|\?"  # not a loop, which may wait for what the lock keeps off


def advised(section, source, functions):
    """A group with what its lines of code advise; `functions` has by location those that it lies in."""
    fact, lines = section.fact, sorted(section.group.locations())
    if all(re.match(LIBRARY, name) for name in section.group.variables):
        calls = [worded("call {} at {}", Code(name + b"_r"), place(line))
                 for line in lines for name in re.findall(SHARED, source.code(line) or b"")]
        if calls:
            fact = fact._replace(remedy=[*listed(calls), "."])
    both = next(checks(section, source, functions), None) if fact.form == "without" else None
    if both:
        remedy = worded("hold {} from {} to {}: what was read may have changed in between.",
                        lock_name(fact.lock), *map(place, both))
        fact = fact.saying({"check": list(map(text, both))}, remedy=remedy)
    return section._replace(fact=fact)


def checks(section, source, functions):
    """Racing lines that decide by what they read without the lock, each with the next line of its function
    where a thread of its uses the same with it."""
    def is_after(one, other):
        first, second = line_of(one.name), line_of(other.name)
        return first and second and first[0] == second[0] and first < second

    for site in section.sites:
        if (site.partners and site.lacks(section.fact.lock) and not site.writes()
            and re.search(BRANCH, source.code(site.location) or b"")):
            later = [it.location for it in section.sites
                     if not it.lacks(section.fact.lock) and is_after(site, it)
                     and not site.threads.keys().isdisjoint(it.threads)
                     and functions.get(it.location, set()) & functions.get(site.location, set())]
            yield from ((site.location, it) for it in sorted(later, key=by_numbers)[:1])
