"""The page of python/shb-view in a browser, where one is installed: that its script runs, that nothing is
cut, and how long it is on paper."""

import json
import re
import shutil
import subprocess

import program
from viewing import EXAMPLES, run_here

BROWSERS = ("chromium", "chromium-browser", "google-chrome")
TRIAL = """
<script>
"use strict";
{
const numbers = () => [...document.querySelectorAll("#groups .group")]
  .filter((it) => it.getClientRects().length)
  .map((it) => it.querySelector(".no").textContent).join();
const output = document.querySelector(".filter output"), field = document.querySelector(".filter input");
const ask = (words) => {
  field.value = words;
  field.dispatchEvent(new Event("input"));
  return [numbers(), output.textContent];
};
const press = (key, at) => {
  at.dispatchEvent(new KeyboardEvent("keydown", { key, bubbles: true }));
  return document.activeElement;
};
const click = (name) => {
  const button = document.querySelector(`.heads .${name}`);
  button.click();
  return [numbers().slice(0, 8), button.getAttribute("aria-pressed")];
};
const found = { all: ask(""), line: ask("G.C:57"), thread: ask("other.late"), none: ask("g.c:999"),
  words: ask("main g.c:12"), again: ask("") };
found.sorted = [click("var"), click("var"), click("no")];
const head = document.querySelector("#group-1 summary");
found.keys = [press("/", document.body) === field, press("ArrowDown", head).parentElement.id,
  press("End", head).parentElement.id, press("Escape", head) === head];
field.focus();
found.away = [press("ArrowDown", field).parentElement.id, press("/", head) === field,
  press("Escape", field) === field, press("ArrowDown", document.body).parentElement.id];
const open = () => document.querySelectorAll("#groups .group[open]").length;
found.printed = [open()];
for (const when of ["beforeprint", "afterprint"]) dispatchEvent(new Event(when)), found.printed.push(open());
history.replaceState(null, "", "#group-56");
dispatchEvent(new HashChangeEvent("hashchange"));
const row = document.getElementById("group-56");
found.linked = [row.open, row.querySelectorAll("svg").length, document.activeElement.parentElement.id];
const text = row.querySelector("details.part > pre");
row.querySelector(".links button").click();
found.copied = [row.querySelector(".links button").textContent, text.textContent.split("\\n")[0]];
document.body.textContent = "FOUND" + JSON.stringify(found) + "END";
}
</script>
</body>"""

NOT_YET = "no event of this thread yet"
STEPS = """
<script>
"use strict";
{
const row = document.querySelector(".group"), slider = row.querySelector(".steps input");
const press = (key) =>
  row.firstElementChild.dispatchEvent(new KeyboardEvent("keydown", { key, bubbles: true }));
const all = (where, from = row) => [...from.querySelectorAll(where)];
const state = () => [row.querySelector(".steps output").textContent,
  Number(row.querySelector(".cover").getAttribute("y")) < 1e6,
  ...all(".both figure").map((it) => all("tr.now", it).map((tr) => tr.dataset.line).join()),
  ...all(".step").map((it) => it.innerText.replace(/\\s+/g, " "))];
const found = [];
for (let left = 5; left; left--) press("ArrowLeft"), found.push(state());
slider.value = slider.max;
slider.dispatchEvent(new Event("input"));
found.push(state());
document.body.textContent = "FOUND" + JSON.stringify(found) + "END";
}
</script>
</body>"""

BLANKS = """
<script>
"use strict";
for (const row of document.querySelectorAll(".group")) draw(row), row.open = true;
const seen = (where) => [...new Set([...document.querySelectorAll(where)].map((name) => name.innerText))];
document.body.textContent = "FOUND" + JSON.stringify(
  [seen("#groups .var code"), seen("table.sites tbody td:nth-child(3) code")]) + "END";
</script>
</body>"""


class Browser(program.Case):
    """Where no browser is installed each test says so and tries nothing."""

    def browser(self):
        found = next(filter(None, map(shutil.which, BROWSERS)), None)
        if found is None:
            print("(no browser is installed: not tried)", end=" ")
        return found

    def shown(self, browser, page, *words):
        """What the browser makes of a page, as text."""
        command = [browser, "--headless", "--no-sandbox", "--disable-gpu",
                   f"--user-data-dir={self.folder}/profile",
                   "--virtual-time-budget=5000", *words, "--dump-dom", page.as_uri()]
        ran = subprocess.run(command, stdout=subprocess.PIPE, stderr=subprocess.PIPE,
                             timeout=program.SECONDS * 2)
        self.assertNotIn(b"CONSOLE", ran.stderr)
        return ran.stdout.decode()

    def page(self, *words):
        path = self.folder / "page.html"
        self.assertEqual(run_here(["--html", path, *words])[0], 0)
        return path

    def test_the_script_runs_under_the_policy(self):
        browser = self.browser()
        if browser:
            shown = self.shown(browser, self.page(EXAMPLES / "account.std"), "--enable-logging=stderr")
            heads = re.findall(r'<th scope="col">([^<]*)</th>', shown)
            self.assertEqual(heads, ["Line", "Accesses", "Threads", "Locks", "Races with"])

    def tried(self, browser, page, trial):
        """What a script finds in a copy of a page without its policy."""
        text = re.sub(r"<meta http-equiv[^>]*>", "", page.read_text(encoding="utf-8"))
        page.write_text(text.replace("</body>", trial), encoding="utf-8")
        return json.loads(re.search(r"FOUND(.*?)END", self.shown(browser, page), re.S).group(1))

    def test_sixty_groups_are_sorted_filtered_and_opened(self):
        """Each is of a variable; the threads of the last two have other names."""
        browser = self.browser()
        if browser:
            events = [f"{thread}{'.late' * (k > 58)}|w(v{k})|g.c:{k}\n" for k in range(1, 61)
                      for thread in ("main", "other")]
            found = self.tried(browser, self.page(self.file("".join(events).encode())), TRIAL)
            sixty = ",".join(map(str, range(1, 61)))
            self.assertEqual(found["all"], [sixty, "60 groups"])
            self.assertEqual(
                (found["line"], found["thread"]), (["57", "1 of 60 groups"], ["59,60", "2 of 60 groups"]))
            self.assertEqual((found["none"], found["words"], found["again"]),
                             (["", "0 of 60 groups"], ["12", "1 of 60 groups"], [sixty, "60 groups"]))
            self.assertEqual(
                found["sorted"], [["1,2,3,4,", "true"], ["60,59,58", "mixed"], ["1,2,3,4,", "true"]])
            self.assertEqual(found["keys"], [True, "group-2", "group-60", True])
            self.assertEqual(found["away"], ["group-1", True, False, "group-1"])
            self.assertEqual(found["printed"], [0, 60, 0])
            self.assertEqual(found["linked"], [True, 1, "group-56"])
            self.assertIn(found["copied"][0], ("Copied", "Press Ctrl+C"))
            self.assertEqual(found["copied"][1], "data race on v56: g.c:56 and g.c:56")

    def test_the_schedule_is_played(self):
        """By keys and by the slider: the picture is covered below the event, and the code shows where both
        threads are."""
        browser = self.browser()
        if browser:
            found = self.tried(browser, self.page("--source", EXAMPLES, EXAMPLES / "account.std"), STEPS)
            self.assertEqual(found[0], ["4 of 4: main reads balance", True, "10", "",
                                        "account.c:10 balance += (long)amount; holding door", NOT_YET])
            self.assertEqual([row[:4] for row in found[1:]],
                             [["3 of 4: main acquires door", True, "9", ""],
                              ["2 of 4: main reads balance", True, "8", ""],
                              *[["1 of 4: main starts T1.pay", True, "", ""]] * 2,
                              ["Both accesses can execute next.", False, "10", "8"]])

    def test_blanks_in_names_are_kept(self):
        """Else names that differ look the same."""
        browser = self.browser()
        if browser:
            events = [f"{thread}|w({name})|{place}.c:1\n"
                      for place, name in enumerate(("a b", "a  b", "a b ")) for thread in (" T1", "T1")]
            found = self.tried(browser, self.page(self.file("".join(events).encode())), BLANKS)
            self.assertEqual(found, [["a b", "a  b", "a b "], [" T1", "T1"]])

    def test_nothing_is_wider_than_a_narrow_window(self):
        """Of 400 pixels, with all folded parts open and with long names."""
        browser = self.browser()
        if browser:
            name = "very_long_names_of_a_program." * 12
            code = self.file(b"int x;\n" + b"    call(%b);\n" % (name.encode() * 3), "code.c")
            trace = self.file("".join(f"{thread}.{name}|{event}|code.c:2\n" for thread in "AB" for event in
                                      (f"acq(lock.{thread}.{name})", f"w({name})",
                                       f"rel(lock.{thread}.{name})")).encode())
            page = self.page("--source", code.parent, trace)
            script = """<script>
for (const row of rows) draw(row);
for (const part of document.querySelectorAll("details")) part.open = true;
const boxes = [...document.querySelectorAll(".wide, pre, figure, .sites, svg")];
const cuts = boxes.filter((box) => box.scrollWidth > box.clientWidth + 1);
const hidden = boxes.filter((box) => !box.getBoundingClientRect().height);
document.title = [document.documentElement.scrollWidth, cuts.length, hidden.length, boxes.length].join(" ");
</script></body>"""
            text = re.sub(r"<meta http-equiv[^>]*>", "", page.read_text(encoding="utf-8"))
            page.write_text(text.replace("</body>", script), encoding="utf-8")
            frame = self.file(b"""<iframe src="page.html" style="width:400px;height:900px;border:0"></iframe>
<script>
onload = () => document.title = document.querySelector("iframe").contentDocument.title;
</script>""", "frame.html")
            shown = self.shown(browser, frame, "--allow-file-access-from-files", "--window-size=800,1000")
            width, *boxes = map(int, re.search("<title>([0-9 ]+)</title>", shown).group(1).split())
            self.assertLessEqual(width, 400)
            self.assertEqual(boxes[:2], [0, 0])  # cut, hidden

