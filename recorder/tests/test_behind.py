"""Known races hide less: what a second look finds behind them."""

import json
import sys

import recorder

sys.path.insert(0, str(recorder.PYTHON))
from shb_record import second
from shb_common.report import Access, Race

# A read of balance without the lock sees what the other thread wrote under it, and so hides the race of tries
# behind it.
PAY = """#include <pthread.h>
static long balance, tries;
static pthread_mutex_t door = PTHREAD_MUTEX_INITIALIZER;
static void *pay(void *amount) {
    if (balance < 1000%s) {
        pthread_mutex_lock(&door);
        balance += (long)amount;
        pthread_mutex_unlock(&door);
    }
    return 0;
}
int main(void) {
    pthread_t payer;
    pthread_create(&payer, 0, pay, (void *)100);
    pay((void *)200);
    pthread_join(payer, 0);
    return 0;
}
"""
KNOWN = "pay.c:pay()\tpay.c:pay()\tbalance\n"


class Behind(recorder.Case):
    def record(self, name, more, seed, known=KNOWN):
        (self.folder / "pay.c").write_text(PAY % more)
        (self.folder / "known").write_text(known)
        recorder.must(recorder.call("gcc", "-w", "-g", "-O1", "-fsanitize=thread", "-pthread",
                                    self.folder / "pay.c", "-o", self.folder / name))
        how = recorder.settings("unused", seed, 0, SHB=str(recorder.SHB))
        del how["SHB_RECORD"]
        ran = recorder.call(recorder.COMMAND, "-o", self.folder / "out", "--known", self.folder / "known",
                            self.folder / name,
                            env=how, cwd=self.folder)
        return (ran.returncode, ran.stderr.decode(),
                json.loads((self.folder / "out" / "places.json").read_text()))

    def test_a_race_behind_a_known_one(self):
        states = set()
        for seed in range(1, 6):
            status, said, found = self.record("pay", " && ++tries", seed)
            self.assertEqual(status, 66, said)
            [state] = {place["state"] for place in found["places"]
                       if place["variables"][0]["name"] == "tries"}
            states.add(state)
            if state == "unknown":     # no read of this run hides it
                continue
            self.assertEqual({place["state"] for place in found["places"]}, {"known", "behind"})
            self.assertEqual(found["summary"]["behind"], found["summary"]["unknown"])
            self.assertIn("   Seen only with the known races left out: real if those are harmless.\n",
                          said)
            self.assertIn("(behind known races: real if these are harmless), 1 known one skipped;", said)
            self.assertIn("\ttries\n", (self.folder / "out" / "unknown.places").read_text())
            self.assertIn(": pay.c:5 read what pay.c:7 wrote, a known race: a second look left it out\n",
                          said)
        self.assertIn("behind", states)

    def test_nothing_behind_a_known_one(self):
        status, said, found = self.record("alone", "", 1)
        self.assertEqual((status, found["summary"]["behind"], [place["state"] for place in found["places"]]),
                         (0, 0, ["known"]), said)

    def test_what_is_found_behind_is_known_by_its_own_line(self):
        status, said, found = self.record("pay", " && ++tries", 1,
                                          KNOWN + "pay.c:pay()\tpay.c:pay()\ttries\n")
        self.assertEqual((status, {place["state"] for place in found["places"]}), (0, {"known"}), said)
        self.assertNotIn("no race matched", said)


class Rest(recorder.Case):
    """The trace without the accesses at known places, by hand."""

    def test_events_keep_their_numbers(self):
        lines = [b"A|w(x)|1\n", b"A|acq(l)|2\n", b"A|r(x)|3\n", b"B|w(y)|1\n", b"B|w(x)|1\n", b"B|r(x)|4\n",
                 b"B|rel(l)|5\n"]
        kept_before = []
        rest = second.rest(lines, {(b"1", b"x"), (b"3", b"x")}, [], kept_before, [])
        self.assertEqual(list(rest), [lines[k] for k in (1, 3, 5, 6)])
        self.assertEqual(kept_before, [0, 1, 2])

    def test_reads_of_what_the_first_wrote(self):
        one, other = Access(b"A", b"w", b"x", b"1"), Access(b"B", b"r", b"x", b"2")
        for lines, seen in (([b"A|w(x)|1\n", b"B|r(x)|2\n"], 1),
                            ([b"A|w(x)|1\n", b"B|w(x)|9\n", b"B|r(x)|2\n"], 0)):
            found, race = [], Race(1, (1, len(lines)), (one, other), None)
            list(second.rest(lines, {(b"1", b"x"), (b"2", b"x")}, [race], [], found))
            self.assertEqual(found, [(one, other)] * seen)
