"""The log in SARIF, held against what the standard (OASIS, version 2.1.0) requires of each object."""

import json
import re

import farm
from farm import BAD, RACE

# The properties that the standard gives each object, as far as they are used, and which of them it requires.
OBJECTS = {
    "sarifLog": ({"$schema", "version", "runs"}, {"version", "runs"}),
    "run": ({"tool", "results", "invocations", "originalUriBaseIds"}, {"tool"}),
    "tool": ({"driver"}, {"driver"}),
    "toolComponent": ({"name", "version", "rules"}, {"name"}),
    "reportingDescriptor": ({"id", "name", "shortDescription", "fullDescription", "help",
                             "defaultConfiguration"}, {"id"}),
    "invocation": ({"executionSuccessful", "exitCode",
                    "toolExecutionNotifications"}, {"executionSuccessful"}),
    "notification": ({"level", "message"}, {"message"}),
    "result": ({"ruleId", "ruleIndex", "level", "message", "locations", "relatedLocations",
                "partialFingerprints", "suppressions",
                "properties", "codeFlows"}, {"message"}),
    "codeFlow": ({"threadFlows"}, {"threadFlows"}),
    "threadFlow": ({"id", "message", "locations"}, {"locations"}),
    "threadFlowLocation": ({"location"}, set()),
    "location": ({"id", "message", "physicalLocation", "logicalLocations"}, set()),
    "physicalLocation": ({"artifactLocation", "region"}, {"artifactLocation"}),
    "artifactLocation": ({"uri", "uriBaseId", "description"}, set()),
    "region": ({"startLine"}, {"startLine"}),
    "logicalLocation": ({"fullyQualifiedName"}, set()),
    "message": ({"text"}, {"text"}),
    "suppression": ({"kind", "justification"}, {"kind"}),
}
LEVELS = {"none", "note", "warning", "error"}
URI = re.compile(r"(file:///)?[A-Za-z0-9._~!$&'()*+,;=@/%-]+")      # no colon in a relative one


class Base(farm.Case):
    def log(self, *words):
        self.farm(*words)
        log = json.loads((self.out / "places.sarif").read_bytes().decode("utf-8"))
        self.expect("sarifLog", log)
        self.assertEqual(log["version"], "2.1.0")
        self.assertEqual(len(log["runs"]), 1)
        self.check_run(log["runs"][0])
        return log["runs"][0]

    def expect(self, kind, value):
        allowed, required = OBJECTS[kind]
        self.assertIsInstance(value, dict)
        self.assertLessEqual(set(value), allowed, kind)
        self.assertLessEqual(required, set(value), kind)

    def check_run(self, run):
        self.expect("run", run)
        self.expect("tool", run["tool"])
        driver = run["tool"]["driver"]
        self.expect("toolComponent", driver)
        self.assertEqual(driver["name"], "shb")
        for rule in driver["rules"]:
            self.expect("reportingDescriptor", rule)
            self.assertIn(rule["defaultConfiguration"]["level"], LEVELS)
            self.check_message(rule["shortDescription"])
            self.check_message(rule["fullDescription"])
            self.check_message(rule["help"])
        self.assertEqual(len({rule["id"] for rule in driver["rules"]}), len(driver["rules"]))
        for base in run["originalUriBaseIds"].values():
            self.expect("artifactLocation", base)
        for invocation in run["invocations"]:
            self.expect("invocation", invocation)
            self.assertIsInstance(invocation["executionSuccessful"], bool)
            for notification in invocation["toolExecutionNotifications"]:
                self.expect("notification", notification)
                self.assertIn(notification["level"], LEVELS)
                self.check_message(notification["message"])
        for result in run["results"]:
            self.check_result(run, result)
        texts = [json.dumps(result, sort_keys=True) for result in run["results"]]
        self.assertEqual(len(set(texts)), len(texts))

    def check_message(self, message):
        self.expect("message", message)
        self.assertTrue(message["text"])

    def check_result(self, run, result):
        self.expect("result", result)
        self.assertEqual(result["ruleId"], run["tool"]["driver"]["rules"][result["ruleIndex"]]["id"])
        self.assertIn(result["level"], LEVELS)
        self.check_message(result["message"])
        # more are for what has to be changed at each of them
        self.assertEqual(len(result["locations"]), 1)
        # readers of such logs refuse a result without a file
        self.assertIn("physicalLocation", result["locations"][0])
        for location in result["locations"] + result["relatedLocations"]:
            self.check_location(run, location)
        links = set(re.findall(r"(?<!\\)\]\(([^)]*)\)", result["message"]["text"]))
        self.assertEqual(links, {str(location["id"]) for location in result["relatedLocations"]})
        for name, value in result["partialFingerprints"].items():
            self.assertRegex(name, r"^([^/]+/v[0-9]+|primaryLocationLineHash)$")
            self.assertTrue(value and isinstance(value, str))
        for code_flow in result.get("codeFlows", []):
            self.check_code_flow(run, code_flow)
        for suppression in result["suppressions"]:          # all results have this property, or none has
            self.expect("suppression", suppression)
            self.assertIn(suppression["kind"], ("inSource", "external"))

    def check_code_flow(self, run, code_flow):
        self.expect("codeFlow", code_flow)
        for flow in code_flow["threadFlows"]:
            self.expect("threadFlow", flow)
            self.check_message(flow["message"])
            self.assertTrue(flow["locations"])
            for step in flow["locations"]:
                self.expect("threadFlowLocation", step)
                self.check_location(run, step["location"])
                self.check_message(step["location"]["message"])

    def check_location(self, run, location):
        self.expect("location", location)
        for name in location.get("logicalLocations", []):
            self.expect("logicalLocation", name)
        if "physicalLocation" not in location:
            return
        self.expect("physicalLocation", location["physicalLocation"])
        artifact = location["physicalLocation"]["artifactLocation"]
        self.expect("artifactLocation", artifact)
        self.assertRegex(artifact["uri"], "^" + URI.pattern + "$")
        self.assertNotRegex(artifact["uri"], "%(?![0-9A-F]{2})")
        is_absolute = artifact["uri"].startswith("file:")
        self.assertTrue("uriBaseId" not in artifact if is_absolute
                        else artifact["uriBaseId"] in run["originalUriBaseIds"])
        self.assertGreaterEqual(location["physicalLocation"]["region"]["startLine"], 1)


class Log(Base):
    def test_no_place(self):
        self.trace("clean.std", farm.CLEAN)
        run = self.log()
        self.assertEqual(run["results"], [])
        self.assertEqual(run["invocations"],
                         [{"executionSuccessful": True, "exitCode": 0, "toolExecutionNotifications": []}])

    def test_the_version_of_what_is_installed(self):
        self.trace("clean.std", farm.CLEAN)
        self.assertEqual(self.log()["tool"]["driver"]["version"], "checkout")
        self.run_alone()
        (self.folder / "alone" / "python" / "VERSION").write_text("2026.11.25-abc\n")
        self.assertEqual(self.log()["tool"]["driver"]["version"], "2026.11.25-abc")

    def test_a_place(self):
        self.trace("race.std", RACE)
        result = self.log()["results"][0]
        self.assertEqual(result["message"],
                         {"text": "Data race on `x` between a.c:1 and [b.c:2](1). In this trace no lock is "
                                  "held at any access; 2 threads write, at a.c:1 and b.c:2. Remedy: hold "
                                  "one lock at a.c:1 and b.c:2. 1 of 1 traces has it, for example "
                                  "race.std."})
        place = lambda uri, line: {"artifactLocation": {"uri": uri, "uriBaseId": "SRCROOT"},
                                   "region": {"startLine": line}}
        self.assertEqual(result["locations"], [{"physicalLocation": place("a.c", 1)}])
        self.assertEqual(result["relatedLocations"], [
            {"id": 1, "message": {"text": "The other access."}, "physicalLocation": place("b.c", 2)}])
        self.assertEqual(result["suppressions"], [])

    def test_a_known_place_is_suppressed(self):
        self.trace("race.std", RACE + b"T1|w(y)|k.c:1\nT2|w(y)|k.c:1\n")
        results = self.log("--known", self.known(b"k.c:1\tk.c:1\n"))["results"]
        self.assertEqual(
            [[part["kind"] for part in result["suppressions"]] for result in results], [[], ["external"]])

    def test_traces_without_a_report_are_notifications(self):
        self.trace("bad.std", BAD)
        self.assertEqual(self.log()["invocations"],
                         [{"executionSuccessful": True, "exitCode": 5, "toolExecutionNotifications": [
                             {"level": "warning", "message": {"text": "bad.std: " + farm.BAD_WORDS}}]}])
        (self.traces / "gone.std").symlink_to("nowhere")
        invocation = self.log()["invocations"][0]
        self.assertEqual((invocation["executionSuccessful"], invocation["exitCode"]), (True, 5))
        self.assertEqual(invocation["toolExecutionNotifications"][1],
                         {"level": "warning", "message": {"text": "gone.std: No such file or directory"}})

    def test_locations_of_all_kinds(self):
        """Each races with a write at a location that sorts last."""
        locations = [b"", b"1", b"a.c", b"a.c:0", b"a:1:2", b"dir/a b.c:12", b"./x/../y.c:3", b"/abs/c#.c:4",
                     b"//abs.c:4", b"c:d.c:5",
                     b"50%[1]\\?.c:6", "\u00e9.c:7".encode(), b"\xff\x1b.c:8", b"<b>.c:9", b"a.c:99999999999"]
        self.trace("all.std", b"".join(b"T1|w(x%d)|%s\nT2|w(x%d)|\xff\xff\n" % (k, location, k)
                                       for k, location in enumerate(locations)))
        run = self.log()
        self.assertEqual(len(run["results"]), len(locations))
        found = [result["locations"][0] for result in run["results"]]
        traces = [place for place in found if place["physicalLocation"]["artifactLocation"].get("uriBaseId")
                  == "TRACES"]
        self.assertEqual([place["physicalLocation"] for place in traces],
                         [{"artifactLocation": {"uri": "all.std", "uriBaseId": "TRACES"},
                           "region": {"startLine": 1}}] * 5)
        self.assertEqual(
            ["logicalLocations" in place for place in found], [place in traces for place in found])
        uris = {place["physicalLocation"]["artifactLocation"]["uri"]
                for place in found if place not in traces}
        self.assertEqual(uris, {"a", "dir/a%20b.c", "y.c", "file:///abs/c%23.c", "file:///abs.c", "c%3Ad.c",
                                "50%25%5B1%5D%5C%3F.c",
                                "%C3%A9.c", "%FF%1B.c", "%3Cb%3E.c"})
        names = {place["logicalLocations"][0]["fullyQualifiedName"]
                 for place in found if "logicalLocations" in place}
        self.assertEqual(names, {"no location", "1", "a.c", "a.c:0", "a.c:99999999999"})

    def test_a_file_comes_before_a_name_and_the_repository_before_the_system(self):
        self.trace("race.std",
                   b"T1|w(x)|/usr/include/a.h:3\nT2|w(x)|z.c:2\nT1|w(y)|prog+0x11df\nT2|w(y)|/usr/b.h:7\n")
        results = self.log()["results"]
        uris = [result["locations"][0]["physicalLocation"]["artifactLocation"]["uri"] for result in results]
        self.assertEqual(sorted(uris), ["file:///usr/b.h", "z.c"])


class Repository(Base):
    """Logs with --source: locations are files of the repository where there is one."""

    def setUp(self):
        super().setUp()
        self.top = self.folder / "repository"
        for name, text in (("src/a.c", "one\n  two  2\n"), ("src/b.c", "b one\nb two\nb two\n"),
                           ("lib/same.c", "x\n"), ("src/same.c", "x\n"),
                           (".git/hidden.c", "x\n")):
            (self.top / name).parent.mkdir(parents=True, exist_ok=True)
            (self.top / name).write_text(text)

    def race(self, *locations):
        lines = [f"T{number}|w(x)|{location}\n" for number, location in enumerate(locations)]
        self.trace("race.std", "".join(lines).encode())
        return self.log("--source", self.top)["results"]

    def uris(self, *locations):
        [result] = self.race(*locations)
        return [place["physicalLocation"]["artifactLocation"]
                for place in (result["locations"][0], result["relatedLocations"][0])]

    def test_the_file_that_a_path_ends_with(self):
        inside = lambda uri: {"uri": uri, "uriBaseId": "SRCROOT"}
        for location, wanted in (("b.c:1", inside("src/b.c")), ("src/b.c:1", inside("src/b.c")),
                                 (f"{self.top}/src/b.c:1", inside("src/b.c")),
                                 ("./src/../src/b.c:1", inside("src/b.c")),
                                 ("lib/same.c:1", inside("lib/same.c")), ("same.c:1", inside("same.c")),
                                 ("rc/b.c:1", inside("rc/b.c")), ("hidden.c:1", inside("hidden.c")),
                                 ("/src/b.c:1", {"uri": "file:///src/b.c"})):
            self.assertIn(wanted, self.uris("a.c:2", location), location)

    def hashes(self, *locations):
        return [result["partialFingerprints"].get("primaryLocationLineHash")
                for result in self.race(*locations)]

    def test_fingerprints_by_the_text_of_lines(self):
        before = self.hashes("a.c:2", "b.c:1")
        self.assertRegex(before[0], "^[0-9a-f]{16}:1$")
        (self.top / "src/a.c").write_text("// new\none\n\ttwo 2\n")
        self.assertEqual(self.hashes("a.c:3", "b.c:1"), before)
        self.assertNotEqual(self.hashes("a.c:2", "b.c:1"), before)
        self.assertNotEqual(self.hashes("a.c:3", "b.c:2"), before)
        self.assertEqual(self.hashes("a.c:99", "none.c:2"), [None])

    def test_places_with_the_same_texts_are_counted(self):
        found = self.hashes("a.c:2", "b.c:2", "b.c:3")
        self.assertEqual(len(found), 3)
        self.assertEqual(len(set(found)), 3)
        self.assertEqual({text.split(":")[0] for text in self.hashes("a.c:2", "b.c:2")}
                         & {text.split(":")[0] for text in self.hashes("a.c:2", "b.c:3")},
                         {self.hashes("a.c:2", "b.c:2")[0].split(":")[0]})

    def test_no_such_folder(self):
        self.trace("race.std", RACE)
        answer = self.farm("--source", self.folder / "none")
        self.assertEqual((answer.status, answer.err),
                         (4, f"shb-farm: {self.folder}/none: no such folder of sources\n"))


class Fingerprints(farm.Case):
    def fingerprints(self, text, **more):
        """The fingerprint of each place, by its two locations."""
        for path in self.traces.iterdir():
            path.unlink()
        self.trace("t.std", text)
        for name, content in more.items():
            self.trace(f"{name}.std", content)
        self.farm()
        results = json.loads((self.out / "places.sarif").read_text())["runs"][0]["results"]
        pairs = [tuple(line[2:4]) for line in self.table("places.tsv")]
        return dict(zip(pairs, (result["partialFingerprints"]["places/v2"] for result in results)))

    def test_lines_of_other_files_change_nothing(self):
        other = b"T1|w(y)|other.c:%d\nT2|w(y)|other.c:%d\n"
        before = self.fingerprints(RACE + other % (3, 4))
        after = self.fingerprints(other % (70, 80) + RACE)
        pair = ("a.c:1", "b.c:2")
        self.assertEqual(before[pair], after[pair])
        self.assertNotEqual(before["other.c:3", "other.c:4"], after["other.c:70", "other.c:80"])

    def test_the_order_and_number_of_accesses_change_nothing(self):
        before = self.fingerprints(RACE)
        self.assertEqual(self.fingerprints(farm.OTHER_ORDER, a=RACE, b=RACE * 3 + b"T3|w(q)|z\n")[
            "a.c:1", "b.c:2"], before["a.c:1", "b.c:2"])

    def test_each_place_has_its_own(self):
        found = self.fingerprints(b"".join(b"T%d|w(x)|a.c:%d\n" % (k, k) for k in range(9)))
        self.assertEqual((len(found), len(set(found.values()))), (36, 36))
