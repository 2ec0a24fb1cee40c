"""`index.html`, an overview of all runs with a name that stays: the bugs by file, with links to their pages.

It is made of what places.json has. A bug is the places of a group, and in other runs those of its
variables."""

import collections
import itertools

from shb_common import known, result, sarif
from shb_common.html import element, head, joined, with_commands
from shb_common.locations import parts_of
from shb_common.parts import part_of_page
from shb_common.words import counted

HEADS = "File", "Bugs", "Places", "Runs"
NO_BUG = "No place with a race was found."
VERIFIED = "Verified: every group on the pages has a race with a schedule that `shb check` accepts."

# `pages` are links by the names of processes, the largest group's first; `runs` are the processes with it.
Bug = collections.namedtuple("Bug", "name headline remedy file places pages runs states rank")


def index(title, document):
    summary, groups = document["summary"], document["groups"]
    size = f"{counted(summary['runs'], 'run')}, {counted(summary['unknown'], 'unknown place')}"
    # what `shb check` found of all pages
    is_good = groups and all(group.get("schedule", {}).get("is_checked") for group in groups)
    parts = [*[element("p", with_commands(VERIFIED), class_="verdict good")] * bool(is_good),
             element("h1", title), element("p", size, class_="faint"),
             *(overview(document) if document["places"] else [element("p", NO_BUG)]),
             *(element("p", note, class_="faint") for note in document["notes"])]
    page = head(f"Data races of {title}", part_of_page("page.css")) + joined(parts, "\n")
    return f"{page}\n</body>\n</html>\n".encode(errors="backslashreplace")


def overview(document):
    found, by_file = bugs(document), {}
    for bug in found:
        by_file.setdefault(bug.file, []).append(bug)
    files = sorted(by_file.items(), key=lambda one: -len(one[1]))
    rows, tables = [], []
    for number, (file, its) in enumerate(files, 1):
        part = len(its) / len(files[0][1])
        share = element("b", f"{len(its):,}", class_="share", style=f"--part:{part:.2f}")
        rows.append([link(f"#file-{number}", file), share, *sums(its)])
        tables += [element("h2", file, id=f"file-{number}"),
                   table("bugs", ("Variable", "Fact and remedy", *HEADS[2:]), map(cells_of, its))]
    size = (f"{counted(len(found), 'bug')} in {counted(len(files), 'file')}: "
            f"{counted(len(document['places']), 'place')} with races")
    return element("p", size, class_="sum"), table("files", HEADS, rows), *tables


def link(way, words):
    return element("a", words, href=way)


def sums(found):
    """How many places some bugs have, in how many processes."""
    return f"{sum(bug.places for bug in found):,}", f"{len(set().union(*(bug.runs for bug in found))):,}"


def table(kind, heads, rows):
    head, *body = (element("tr", *(element(tag, cell) for cell in cells))
                   for tag, cells in [("th", heads), *(("td", row) for row in rows)])
    its = element("table", element("thead", head), "\n", element("tbody", joined(body, "\n")), class_=kind)
    return element("div", its, class_="wide")


def cells_of(bug):
    """The cells of a bug's row; links lead to all its pages."""
    (_, page), *others = bug.pages.items() or [("", "")]
    tags = [element("span", state, class_=f"tag {state}") for state in bug.states if state != "unknown"]
    more = joined((link(way, process.partition(",")[0]) for process, way in others), ", ")
    fact = [bug.headline, element("br"), element("span", bug.remedy, class_="faint"),
            *[element("br"), element("span", "also in ", more, class_="faint")] * bool(others)]
    return (joined([element("code", link(page, bug.name) if page else bug.name), *tags], " "), joined(fact),
            *sums([bug]))


def bugs(document):
    """Those with an unknown place first, in the order of a page."""
    from shb_view.groups import Union    # takes its time, and a run without a place does without
    union, entries = Union(), collections.defaultdict(list)
    for number, entry in enumerate(document["places"]):
        for key in keys_of(entry):
            union.join(number, key)
    for number, entry in enumerate(document["places"]):
        entries[union.top(number)].append(entry)
    ways = ways_of(document["groups"])
    found = [bug_of(its, document["groups"], ways) for its in entries.values()]
    return sorted(found, key=lambda bug: (bug.rank, -bug.places, bug.name))


def shown(entry):
    """The processes whose pages have a place, each with the number of its group."""
    return entry.get("pages", [(entry["process"], entry["group"])] if "group" in entry else [])


def keys_of(entry):
    """What a place shares with others of its bug: its group, and variables with a name that lasts."""
    yield from (("group", group) for _, group in shown(entry))
    for variable in entry["variables"]:
        name = known.lasting(result.name_of(variable["name"]))
        if b"*" not in name:
            yield "variable", name


def ways_of(groups):
    """By the number of each group its link: to its page, where groups are counted from one."""
    seen, ways = collections.Counter(), {}
    for number, group in enumerate(groups, 1):
        trace = group["trace"]
        seen[trace] += 1
        page = result.name_of(trace)[:-len(".std")] + b".html"
        ways[number] = f"{sarif.uri_of(page, '')['uri']}#group-{seen[trace]}"
    return ways


def bug_of(entries, groups, ways):
    """The bug of some places, told by its largest group."""
    from shb_view.facts import RANKS
    from shb_view.groups import common_name
    from shb_view.issue import flat
    paged = sorted((entry for entry in entries if "group" in entry),
                   key=lambda entry: -len(groups[entry["group"] - 1]["pairs"]))
    first = (paged or entries)[0]
    blamed = first.get("blamed") or first["accesses"][0]
    file, _ = parts_of(result.name_of(blamed["location"]))
    names = {result.name_of(one["name"]) for entry in entries for one in entry["variables"]}
    names = sorted(names, key=lambda name: (b"#" in name, name))    # blocks have the least telling ones
    states = sorted({entry["state"] for entry in entries})
    pages = {}
    for process, group in itertools.chain(*map(shown, paged)):
        pages.setdefault(process, ways[group])
    places = " and ".join(access["location"] for access in first["accesses"])
    form = groups[first["group"] - 1]["form"] if paged else None
    return Bug(flat(common_name(names)) if names else "", first.get("headline") or places,
               first.get("remedy", ""), result.text(file),
               len(entries), pages,
               set().union(*(entry["processes"] for entry in entries)), states,
               ("unknown" not in states, RANKS.get(form, len(RANKS))))
