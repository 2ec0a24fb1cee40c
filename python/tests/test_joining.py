"""Several results of shb-record as one, and the overview that is made of them."""

import html
import json
import re
import subprocess
import sys

import farm

from shb_common import result
from shb_record.index import index

COMMAND = farm.HERE.parent / "shb-record"
PROCESS = "run 1, process 7"


def place(first, second, name, group=None, state="unknown", functions=()):
    accesses = [{"location": f"app.c:{line}", "in_trace": f"app.c:{line}", "functions": list(functions),
                 "event": line} for line in (first, second)]
    its = {"group": group, "headline": f"app.c:{first} writes without a lock", "remedy": "lock it"}
    return {"state": state, "accesses": accesses, "variables": [{"name": name, "state": state}],
            "has_more_variables": False, "process": PROCESS, "trace": "run1.7.std", "processes": [PROCESS],
            **(its if group else {})}


def group(trace="run1.7.std", is_checked=True):
    return {"form": "bare", "pairs": [["app.c:1", "app.c:2"]], "trace": trace, "process": PROCESS,
            "schedule": {"is_checked": is_checked}}


def document(places, groups, runs=1, status=66, **more):
    unknown = sum(one["state"] != "known" for one in places)
    return result.document("shb-record", {"places": len(places), "unknown": unknown, "runs": runs,
                                          "status": status}, places, groups=groups, notes=["A note."], **more)


class Joining(farm.side_by_side.Case):
    def put(self, name, its):
        (self.folder / name).mkdir(parents=True)
        (self.folder / name / "places.json").write_bytes(result.in_bytes(its))

    def join(self, *words):
        ran = subprocess.run([sys.executable, COMMAND, "--join", *words], cwd=self.folder, timeout=60,
                             stdout=subprocess.PIPE, stderr=subprocess.PIPE)
        return ran.returncode, ran.stderr.decode()

    def test_two_machines(self):
        """A place of both is one, and unknown if it is in one of them; links lead into both folders."""
        self.put("one", document([place(1, 2, "x", 1), place(3, 4, "y", 2, "known")], [group(), group()], 4))
        self.put("two", document([place(3, 4, "y", 1), place(1, 2, "x")], [group("run2.9.std")], 2))
        status, said = self.join("-o", "all", "one", "two")
        self.assertEqual((status, re.sub(r"\S*/all", "all", said)),
                         (66, "shb-record: 2 unknown places with races in 2 recordings of 6 runs; "
                          "the overview: all/index.html\n"))
        its = json.loads((self.folder / "all/places.json").read_text())
        self.assertEqual([(one["state"], one["processes"]) for one in its["places"]],
                         [("unknown", ["one, run 1, process 7", "two, run 1, process 7"])] * 2)
        self.assertEqual((its["summary"]["runs"], len(its["groups"])), (6, 3))
        self.assertEqual((self.folder / "all/unknown.places").read_text(),
                         "app.c:1\tapp.c:2\tx\napp.c:3\tapp.c:4\ty\n")
        page = (self.folder / "all/index.html").read_text()
        self.assertIn("2 bugs in 1 file: 2 places with races", page)
        self.assertIn("content=\"default-src 'none'; ", html.unescape(page))
        self.assertIn('href="../one/run1.7.html#group-1"', page)
        self.assertIn('href="../one/run1.7.html#group-2"', page)
        self.assertIn('also in <a href="../two/run2.9.html#group-1">two</a>', page)

    def test_tables_and_log(self):
        """They have each place once: with the page of any, and known if it is in all."""
        self.put("a/out", document([place(1, 2, "x"), place(5, 6, "z", state="known")], []))
        self.put("b/out", document([place(1, 2, "x", 1, functions=["pay"]), place(5, 6, "z", state="known")],
                                   [group("r\\xff.std")], is_whole=False))
        self.assertEqual(self.join("-o", "all", "a/out/places.json", "b/out")[0], 66)
        self.assertEqual((self.folder / "all/places.tsv").read_text().splitlines()[1:], [
            "app.c:1\tapp.c:2\tx\tunknown\t1\t2\tb/out, run 1, process 7\trun1.7.std",
            "app.c:5\tapp.c:6\tz\tknown\t5\t6\ta/out, run 1, process 7\trun1.7.std"])
        self.assertEqual((self.folder / "all/unknown.places").read_text(),
                         "# app.c:1\tapp.c:2\napp.c:pay()\tapp.c:pay()\tx\n")
        [log] = json.loads((self.folder / "all/places.sarif").read_text())["runs"]
        self.assertEqual([(one["message"]["text"], bool(one["suppressions"]), one["properties"])
                          for one in log["results"]], [
            ("Data race on `x` between app.c:1 and [app.c:2](1). app.c:1 writes without a lock. Remedy: lock "
             "it.", False, {"process": "b/out, run 1, process 7", "variables": ["x"]}),
            ("Data race on `z` between app.c:5 and [app.c:6](1).", True,
             {"process": "a/out, run 1, process 7", "variables": ["z"]})])
        [ended] = log["invocations"]
        self.assertEqual((ended["exitCode"], ended["executionSuccessful"]), (66, False))
        self.assertIn('href="../b/out/r%FF.html#group-1"', (self.folder / "all/index.html").read_text())
        # what was joined may be joined again
        self.assertEqual(self.join("-o", "more/all", "all", "a/out")[0], 66)
        page = (self.folder / "more/all/index.html").read_text()
        self.assertIn('href="../../b/out/r%FF.html#group-1"', page)

    def test_a_variable_that_only_one_machine_knows(self):
        self.put("one", document([place(1, 2, "x", state="known")], []))
        self.put("two", document([place(1, 2, "x")], []))
        self.assertEqual(self.join("-o", "all", "one", "two")[0], 66)
        self.assertEqual((self.folder / "all/unknown.places").read_text(),
                         "app.c:1\tapp.c:2\tx\n")
    def test_what_cannot_be_joined(self):
        self.put("one", document([], [], status=124))
        self.assertEqual(self.join("-o", "all", "one")[0], 124)
        (self.folder / "one/places.json").write_text("{}")
        status, said = self.join("-o", "other", "one")
        self.assertEqual((status, said.count("a part of it is missing")), (125, 1), said)
        self.assertEqual(self.join("one")[0], 125)

    def test_earlier_results_stay_if_a_folder_lacks_a_file(self):
        self.put("one", document([], [], status=0))
        self.assertEqual(self.join("-o", "all", "one")[0], 0)
        before = sorted(self.folder.glob("all/*"))
        (self.folder / "one/places.json").unlink()
        status, said = self.join("-o", "all", "one")
        self.assertEqual((status, "one/places.json: No such file" in said), (125, True), said)
        self.assertEqual(sorted(self.folder.glob("all/*")), before)

    def test_a_folder_is_not_replaced_by_what_is_made_of_it(self):
        """Nor is a farm's result one of a recording."""
        self.put("one", document([], []))
        status, said = self.join("-o", "one/.", "one")
        self.assertEqual((status, "-o names one of the folders" in said), (125, True), said)
        entry = place(1, 2, "x")
        del entry["processes"]
        self.put("part", document([entry], []))
        status, said = self.join("-o", "all", "part")
        self.assertEqual((status, "a part of it is missing" in said), (125, True), said)
        self.put("farm", result.document("shb-farm", {}, []))
        status, said = self.join("-o", "all", "farm")
        self.assertEqual((status, "it isn't of shb-record" in said), (125, True), said)

    def test_bugs_of_an_overview(self):
        """Places of one group are one bug, and so are those of one variable in other runs; a name of no
        variable, as on a stack, says nothing."""
        places = [place(1, 2, "x", 1), place(2, 3, "y", 1), place(4, 5, "x", 2),
                  *(place(line, line + 1, "stack.main-0x8") for line in (6, 8))]
        page = index("./app <b>", document(places, [group(), group("run2.9.std")])).decode()
        self.assertIn("3 bugs in 1 file: 5 places with races", page)
        self.assertIn("<h1>./app &lt;b&gt;</h1>", page)
        self.assertIn("Verified: ", page)
        unchecked = index("app", document(places, [group(is_checked=False)] * 2))
        self.assertNotIn(b"Verified: ", unchecked)
