"""The page of python/shb-view, parsed: what it has, that names stay names, and that no line
crosses a text."""

import base64
import contextlib
import hashlib
import html.parser
import io
import json
import re

import program
import shb
from viewing import EXAMPLES, MADE, QUIET, asked, made, recorded_run, run_here, windows

from shb_view import command, names, picture
from shb_view.view import Stacks, view_of_run

VOID = {"br", "meta"}
HOSTILE = [b"<script>alert(1)</script>", b'"><img src=x onerror=alert(1)>', b"' onload='alert(1)",
           b"&lt;b&gt;&amp;&#60;",
           b"</title></style></svg></code>", b"<!-- ]]> <![CDATA[", b"\xff\xfe\x00<\x80",
           b"javascript:alert(1)",
           b"(" + b"<" * 3900 + b")"]


class Page(html.parser.HTMLParser):
    """The elements of a page, in order: (tag, attributes, text inside). A tag that isn't closed
    in turn fails."""

    def __init__(self, text):
        super().__init__(convert_charrefs=True)
        self.elements, self.open = [], []
        self.feed(text)
        self.close()
        assert not self.open, self.open

    def handle_starttag(self, tag, attributes):
        self.elements.append((tag, dict(attributes), []))
        if tag not in VOID:
            self.open.append(self.elements[-1])

    def handle_startendtag(self, tag, attributes):
        self.elements.append((tag, dict(attributes), []))

    def handle_endtag(self, tag):
        assert self.open.pop()[0] == tag, tag

    def handle_data(self, data):
        for _, _, texts in self.open:
            texts.append(data)

    def all(self, tag, kind=None):
        """The attributes and the text of each element with this tag and this class."""
        return [(attributes, "".join(texts)) for name, attributes, texts in self.elements
                if name == tag and (kind is None or kind in attributes.get("class", "").split())]

    def data(self):
        """What the script draws from."""
        return json.loads(self.all("script")[0][1])

    def group(self):
        """What the first group is drawn from."""
        return self.data()["groups"][0]

    def stacks(self):
        """The functions and lines of each stack as one text."""
        data = self.data()
        return ["".join(said(data["frames"][frame][0]) for frame in stack) for stack in data["stacks"]]

    def shape(self):
        """The elements with the names of their attributes."""
        return [(tag, sorted(attributes)) for tag, attributes, _ in self.elements]


def said(parts):
    """Parts as one text."""
    return "".join(part if isinstance(part, str) else part[0] for part in parts)


class Pages(program.Case):
    def page(self, trace, *words, **more):
        """The page of a trace, parsed. Words after it are further arguments, `more` is as
        `run_here` has it."""
        path = self.folder / "page.html"
        status, out, err = run_here(["--html", path, self.file(trace), *words], **more)
        self.assertEqual((status, out, err), (0, "", ""))
        return Page(path.read_text(encoding="utf-8"))

    def example(self, name):
        return (EXAMPLES / f"{name}.std").read_bytes()

    def test_a_row_for_each_group(self):
        page = self.page(self.example("unlocked-read"))
        self.assertEqual([text for _, text in page.all("summary")][1:],
                         ["1 items main.c:11 reads without lock main.c:11 1 place",
                          "2 closed main.c:12 writes, queue.c:29 reads without a lock main.c:12 1 place"])
        rows = [attributes for attributes, _ in page.all("details") if "id" in attributes]
        self.assertEqual([(row["id"], row["class"]) for row in rows],
                         [("group-1", "group rank1"), ("group-2", "group rank3")])

    def test_every_line_by_hand(self):
        [group] = self.page(self.example("account")).data()["groups"]
        self.assertEqual(group["sites"], [
            [[["account.c:10"]], "", "2 reads and 2 writes", [["T1.pay"], " and ", ["main"]],
             [["held", ["holds ", ["door"], ""]]],
             [["account.c:8"]], True],
            [[["account.c:8"]], "", "2 reads", [["T1.pay"], " and ", ["main"]], [["none", ["no lock held"]]],
             [["account.c:10"]], True]])
        self.assertIn(["Remedy: ", "hold ", ["door"], " at ", ["account.c:8"], "."], group["about"])

    def test_the_text_of_a_group(self):
        [(_, issue)] = self.page(self.example("fork-join")).all("pre")
        self.assertEqual(issue.splitlines()[:2],
                         ["data race on count: worker.c:3 and start.c:6",
                          "  write by worker at worker.c:3 (event 4)"])

    def test_events_by_hand(self):
        """Each with its number, lane, words and place; and with its line and that line's number, for which
        empty lines count."""
        [group] = self.page(self.example("fork-join")).data()["groups"]
        self.assertEqual([event[:2] + event[4:] for event in group["picture"]["events"]][1:3], [
            [2, 1, "starts worker", "start.c:5 · 2", "line 2: main|fork(worker)|start.c:5\nno lock held"],
            [3, 0, "reads config", "worker.c:2 · 3", "line 3: worker|r(config)|worker.c:2\nno lock held"]])
        for empty, second in ((b"\n", "5"), (200_000 * b"\n", "200004")):
            [group] = self.page(b"\n\r\nA|w(x)\n" + empty + b"B|w(x)\n").data()["groups"]
            self.assertEqual([event[6].splitlines()[0] for event in group["picture"]["events"]],
                             ["line 3: A|w(x)", f"line {second}: B|w(x)"])

    def test_known_groups_are_folded_behind_the_others(self):
        only = {(b"main.c:11", b"queue.c:22"): {b"items"}}
        page = self.page(self.example("unlocked-read"), new=only)
        self.assertEqual([(attributes["class"], text) for attributes, text in page.all("span", "tag")],
                         [("tag new", "new"), ("tag known", "known")])

    def test_commands_that_run_it_again(self):
        page = self.page(self.example("account"), turns="out/a b.turns", command="./account 7")
        self.assertEqual(page.data()["groups"][0]["again"][:-1], [
            ["with the same thread switches", "shb-record --replay 'out/a b.turns' ./account 7"],
            ["in a debugger that stops at the two lines", "shb-record --replay 'out/a b.turns' gdb "
             "-ex 'break account.c:10' -ex 'break account.c:8' -ex run --args ./account 7"]])

    def test_nothing_comes_from_outside(self):
        page = self.page(self.example("unlocked-read"))
        ids = [attributes["id"] for _, attributes, _ in page.elements if "id" in attributes]
        self.assertEqual(len(ids), len(set(ids)))
        self.assertLessEqual({name for _, attributes, _ in page.elements for name in attributes},
                             {"class", "id", "lang", "charset", "name", "content", "http-equiv", "type"})
        for text in (page.all("style")[0][1], page.all("script")[1][1]):
            self.assertNotRegex(text.replace("http://www.w3.org/2000/svg", ""),
                                r"url\(|@import|https?:|fetch|XMLHttp|innerHTML")

    def test_the_browser_may_run_its_own_style_and_script_alone(self):
        page = self.page(self.example("places"))
        metas = [attributes for attributes, _ in page.all("meta")]
        [policy] = [meta["content"] for meta in metas if meta.get("http-equiv") == "Content-Security-Policy"]
        self.assertTrue(policy.startswith("default-src 'none'; "))
        self.assertEqual(len(page.all("script")), 2)
        for tag in ("style", "script"):
            digest = base64.b64encode(hashlib.sha256(page.all(tag)[-1][1].encode()).digest()).decode()
            self.assertIn(f"{tag}-src 'sha256-{digest}'", policy)

    def test_names_stay_names(self):
        """A page with other names has the same elements, and the names as its text and in its data."""
        def trace(thread, lock, variable, location):
            lines = (thread + b"|acq(" + lock + b")|", thread + b"|w(" + variable + b")|",
                     b"B|w(" + variable + b")|")
            return b"".join(line + location + b"\n" for line in lines)

        shape = self.page(trace(b"A", b"l", b"x", b"p")).shape()
        for name in HOSTILE:
            with self.subTest(name[:40]):
                hostile = trace(name, name, name, name) if len(name) < 900 else trace(b"A", b"l", name, b"p")
                page = self.page(hostile)
                self.assertEqual(page.shape(), shape)
                self.assertIn(names.short(name, 80), page.all("summary")[1][1])
                self.assertIn(names.short(name, 120), page.all("pre")[0][1])
                if len(name) < 900:
                    self.assertEqual(page.data()["groups"][0]["sides"][0]["at"], [[names.short(name, 80)]])

    def test_blanks_in_names_are_kept(self):
        """In the text of the page, and by its style; in a browser, where there is one, test_view_browser
        looks at them."""
        page = self.page(b"A|w(a  b )|p\nB|w(a  b )|p\n")
        self.assertIn("a  b ", [text for _, text in page.all("code")])
        self.assertRegex(page.all("style")[0][1], r"(?m)^code \{.* white-space: pre-wrap; \}$")

    def test_long_names_are_cut(self):
        name = b"v" * 1500
        page = self.page(b"A|acq(" + name + b")|p\n"
                         + b"".join(thread + b"|w(" + name + b")|" + name + b"\n" for thread in (b"A", b"B")))
        whole = "".join(text for tag, _, texts in page.elements if tag in ("code", "text", "title", "pre")
                        for text in texts)
        self.assertNotIn("v" * 121, whole)
        self.assertIn("v" * 40, whole)

    def test_the_longest_page(self):
        """250 groups of 30 lines with names that are long in HTML: the list is whole, and what is drawn ends
        after 2 MB."""
        quotes = '"' * 80
        events = [f"T{i}.{quotes}|{'w' if i % 10 == 0 else 'r'}({k}{quotes})|{k}.{i}{quotes}"
                  for k in range(250) for i in range(30)]
        page = self.page("\n".join(events).encode())
        size = (self.folder / "page.html").stat().st_size
        self.assertTrue(2_000_000 < size < 5_000_000, size)
        groups = page.data()["groups"]
        self.assertEqual((len(page.all("h2")), len(groups)), (250, 250))
        drawn = sum(group is not None for group in groups)
        self.assertTrue(10 < drawn < 200 and groups[drawn:] == [None] * (250 - drawn), drawn)

    def test_a_hostile_name_of_the_file(self):
        path = self.folder / "page.html"
        self.assertEqual(run_here(["--html", path, self.file(b"A|w(x)\nB|w(x)\n", "<b>&\"\x1b.std")])[0], 0)
        page = Page(path.read_text(encoding="utf-8"))
        self.assertEqual((page.all("h1"), page.all("b")), ([({}, "<b>&\"\\x1b.std")], []))
        self.assertEqual(page.all("title")[0][1], "<b>&\"\\x1b.std: 1 place with races, in 1 group")

    def test_what_is_said_of_schedules_and_verdicts(self):
        own, verdict = self.page(self.example("places")), ("Verified: every race on the page has a schedule "
                                                           "that shb check accepts.shb places --variables ")
        self.assertTrue(own.all("details", "verdict")[0][1].startswith(verdict))
        self.assertIn("`shb check` found the schedule of race 1 good: after its 0 events both accesses can "
                      "execute next.",
                      "".join(text for _, text in own.all("details")))
        good, said = self.of_run(program.PATH)
        verdict = ("Verified: every race on the page has a schedule that shb check accepts."
                   "shb places --variables page.std | shb check page.std")
        self.assertEqual([(attributes["class"], re.sub(r"\S+/page.std", "page.std", text))
                          for attributes, text in good.all("details", "verdict")],
                         [("verdict good", verdict)])
        self.assertIn("good: after its 0 events of the page's trace both accesses can execute next.",
                      "".join(text for _, text in good.all("details")))
        self.assertEqual(said, "")

    def of_run(self, shb):
        """The page of a recorded run whose schedules this program makes and judges, and what
        else was said."""
        trace, uses, stacks, path = (self.folder / name
                                     for name in ("page.std", "uses", "stacks", "page.html"))
        trace.write_bytes((EXAMPLES / "places.std").read_bytes())
        used = re.findall(rb"(.*)\|([rw])\((.*)\)\|(.*)\n", trace.read_bytes())
        uses.write_bytes(b"shb-uses 3\n"
                         + b"".join(b"use\t%b\t%b\t\t%b\tby\t1\t%b\tbare\t1\t0\n"
                                    b"event\t%d\t%d\n" % (word, name, at, thread, number, number)
                                    for number, (thread, word, name, at) in enumerate(used, 1))
                         + b"events\t4\n")
        stacks.write_bytes(b"shb-stacks 1 %020d\n" % 4 + bytes(16))
        with contextlib.redirect_stderr(io.StringIO()) as said:
            command.explain(command.show_run, recorded_run(trace, uses, stacks), asked(shb), path,
                            io.TextIOWrapper(io.BytesIO(), "utf-8"))
        return Page(path.read_text(encoding="utf-8")), said.getvalue()

    def test_what_comes_before_in_a_part_of_the_run(self):
        """What the page's trace has of other parts isn't shown, but it tells that a thread had begun."""
        lines = ["main|fork(A)|f.c:1", "main|fork(B)|f.c:2", "B|w(y)|f.c:3",
                 "B|acq(m)|f.c:4", "B|w(x)|f.c:5", "B|rel(m)|f.c:6", "A|w(x)|f.c:7",
                 "A|acq(m)|f.c:8", "A|w(z)|f.c:9", "A|rel(m)|f.c:10", "B|w(z)|f.c:11"]
        uses = [f"event\t{number}\t{number}" for number in range(1, 12)] + ["part\t4", "part\t8"]
        for location, thread, name in ((5, "B", "x"), (7, "A", "x"), (9, "A", "z"), (11, "B", "z")):
            uses.append(f"use\tw\t{name}\t\tf.c:{location}\tby\t1\t{thread}\tbare\t1\t0")
        trace = self.file("".join(f"{line}\n" for line in lines).encode(), "page.std")
        its = self.file("".join(f"{line}\n" for line in ["shb-uses 3", *uses, "events\t11"]).encode(), "uses")
        stacks = self.file(b"shb-stacks 1 %020d\n" % 11 + bytes(44), "stacks")
        found = view_of_run(recorded_run(trace, its, stacks), asked(), QUIET)
        shown = {section.window.accesses: (section.window.before, section.window.edges,
                                           picture.picture(section.window, found.gathered)["gaps"])
                 for section in found.sections}
        self.assertEqual(shown, {(5, 7): ([1, 4], [(1, 7)], [0, 1, 0, 0]), (9, 11): ([8], [], [1, 0, 1])})
        locks = {section.window.accesses: section.window.events[section.window.accesses[0]].locks
                 for section in found.sections}
        self.assertEqual(locks, {(5, 7): ((b"m", 4),), (9, 11): ((b"m", 8),)})

    def judged(self, script):
        """The same if `shb check` is this script."""
        fake = self.file(b"#!/bin/sh\nif [ $1 = check ]; then %b; fi\nexec %b \"$@\"\n"
                         % (script, bytes(program.PATH)), "shb")
        fake.chmod(0o755)
        return self.of_run(fake)

    def test_commands_in_sentences_are_code(self):
        """They are between backticks in the text for an issue and in the data alone."""
        page = self.page(self.example("places"))
        self.assertIn("`shb check`", page.data()["groups"][0]["note"])
        self.assertEqual([text for _, text in page.all("p") if "`" in text], [])

    def test_a_bad_verdict_comes_first_and_is_red(self):
        page, _ = self.judged(b"printf 'ok <b>\\033[31m\\n'; exit 5")
        said = "shb check finds the schedules of this page bad: ok <b>\\x1b[31m. None is shown."
        self.assertEqual(page.all("p")[0], ({"class": "verdict bad"}, said))
        self.assertTrue(page.all("header")[0][1].startswith(said))
        self.assertEqual((page.all("b"), "come next" in page.all("body")[0][1]), ([], False))

    def test_a_verdict_without_words_or_of_many(self):
        """Also if the program writes more than a pipe holds, to both."""
        said = self.judged(b"exit 5")[0].all("p")[0][1]
        self.assertEqual(said, "shb check finds the schedules of this page bad: it ended with status 5 and "
                               "no word. None is shown.")
        said = self.judged(b"yes bad | head -c 300000; yes line | head -c 300000 >&2; exit 5")[0].all("p")[0][
            1]
        self.assertTrue(said.startswith("shb check finds the schedules of this page bad: bad\\x0abad"), said)
        self.assertLess(len(said), 400)

    def test_a_judge_that_fails(self):
        for script, how in ((b"kill -9 $$", "was ended by signal 9"),
                            (b"echo 'out of memory' >&2; exit 4", "ended with status 4: out of memory")):
            page, _ = self.judged(script)
            self.assertIn(f"No schedules were made: shb check {how}", [text for _, text in page.all("p")])

    def test_no_races(self):
        page = self.page(self.example("hidden-by-lock"))
        self.assertEqual((page.all("section"), page.all("table")), ([], []))
        self.assertEqual([text for _, text in page.all("p", "sum")], ["0 places with races"])


class Pictures(program.Case):
    """What pictures of made traces are drawn from."""

    @classmethod
    def setUpClass(cls):
        cls.pictures = []
        for _, text, _ in made(MADE):
            cls.pictures += [(window, drawn(window)) for window in windows(text, shb.report(text, True))]

    def test_events_and_lanes(self):
        for window, found in self.pictures:
            self.assertEqual([event[0] for event in found["events"]], [*window.before, *window.accesses])
            threads = [window.events[event[0]].thread for event in found["events"]]
            self.assertEqual([found["lanes"][event[1]] for event in found["events"]],
                             [names.readable(thread) for thread in threads])

    def test_edges_that_are_left_out_follow_from_others(self):
        """By the order of each thread and the edges that are drawn, what all edges order is ordered."""
        arrows = dropped = 0
        for window, found in self.pictures:
            events = [event[0] for event in found["events"]]
            rows = [window.events[event] for event in events]
            drawn_edges = {(events[edge.first], events[edge.second])
                           for edge in picture.needed(window.edges, rows)}
            self.assertLessEqual(drawn_edges, set(window.edges))
            self.assertEqual(len(found["edges"]), len(drawn_edges))
            thread, arrows = ({event: window.events[event].thread for event in events},
                              arrows + len(drawn_edges))
            for source, event in set(window.edges) - drawn_edges:
                dropped += 1
                self.assertTrue(any(thread[one] == thread[source] and thread[other] == thread[event]
                                    and events.index(source) <= events.index(one)
                                    and events.index(other) <= events.index(event)
                                    for one, other in drawn_edges))
        self.assertGreater(arrows, 30)

    def test_bars_are_the_locks_held(self):
        bars = 0
        for window, found in self.pictures:
            for event in found["events"]:
                lane, y = event[1:3]
                here = [lock for x, top, height, lock, _ in found["bars"] if lane_of(found, x) == lane
                        and top <= y <= top + height]
                held = [names.readable(lock) for lock, _ in window.events[event[0]].locks]
                self.assertLessEqual(set(held[-picture.MOST_BARS:]), set(here))
            bars += len(found["bars"])
        self.assertGreater(bars, 50)

    def test_no_line_crosses_a_text(self):
        """All lines, bars and circles are left of the texts, but for what ends right before an event's own
        text; no two texts are in one line."""
        lines = 0
        for _, found in self.pictures:
            texts = found["texts"]
            self.assertGreater(texts - 4, max(found["x"]) + 8)
            for path, x, *_ in found["edges"]:
                numbers = [float(number) for number in re.findall(r"[HMQ](-?[\d.]+)", path)]
                self.assertTrue(all(0 < number < texts - 4 for number in (*numbers, x)), path)
            heights = [event[3] + 14 * line for at, event in enumerate(found["events"])
                       for line in range(3 if at >= len(found["events"]) - 2 else 2)]
            self.assertTrue(all(lower - upper >= 14 for upper, lower in zip(heights, heights[1:])), heights)
            self.assertLess(heights[-1], found["height"])
            self.assertGreater(heights[0] - 12, 19 * len(found["lanes"]) - 6)
            lines += len(found["edges"])
        self.assertGreater(lines, 30)

    def test_bars_and_arrows_do_not_lie_on_each_other(self):
        pairs = 0
        for _, found in self.pictures:
            boxes = [(x, top, x + 14, top + height) for x, top, height, _, _ in found["bars"]]
            boxes += [(x - 8, 0, x + 8, found["height"]) for x in found["x"]]
            downs = [re.search(r"Q([\d.]+) ([\d.]+) \S+ \S+V([\d.]+)", path) for path, *_ in found["edges"]]
            boxes += [(x - 1, y, x + 1, max(y, end))
                      for x, y, end in (map(float, down.groups()) for down in downs)]
            for at, one in enumerate(boxes):
                for other in boxes[:at]:
                    pairs += 1
                    self.assertFalse(one[0] < other[2] and other[0] < one[2] and one[1] < other[3]
                                     and other[1] < one[3], (one, other))
        self.assertGreater(pairs, 500)

    def test_a_name_of_a_bar_fits_along_it(self):
        """Else it is cut, and the event at which the bar begins has it in its text."""
        cut = 0
        for _, found in self.pictures:
            for _, _, height, name, shown in found["bars"]:
                self.assertLessEqual(len(shown) * 6, height)
                if shown != name:
                    cut += 1
                    self.assertTrue(shown == "" or name.startswith(shown[:-1]))
        self.assertGreater(cut, 1)

    def test_no_name_of_a_bar_reaches_the_line_between_the_accesses(self):
        """It crosses the bars of the lanes between them."""
        found = picture.Layout(2, [1, 0, 1], [], [picture.Bar(1, "a name longer than the bar", 0, 2)])
        _, top, _ = found.rectangle(0)
        self.assertLess(top + picture.LETTER * len(found.name(0)), found.y[-1])


def lane_of(found, x):
    """The lane that a bar is left of."""
    return min(lane for lane, at in enumerate(found["x"]) if at > x)


def drawn(window):
    return picture.picture(window, Words())


class Words:
    """Stands in for `groups.Gathered` of a trace that wasn't recorded: each word is what it says."""

    stacks = Stacks()

    def of(self, number, word, variable):
        return word
