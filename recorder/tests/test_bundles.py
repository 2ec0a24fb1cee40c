"""A run's coarse trace, as shb-record asks for it: bytes of a buffer that are used alike are one variable in
it, until one of them is in a race. test_drawn.py has more on what is found."""

import json

import recorder

# The bytes of `given` go to the other thread under a lock; those of `shared` race, and so does `count`.
SOURCE = """#include <pthread.h>
static char given[4096], shared[64];
static int count, is_ready;
static pthread_mutex_t door = PTHREAD_MUTEX_INITIALIZER;
static void *take(void *unused) {
    for (int is_there = 0; !is_there;) {
        pthread_mutex_lock(&door);
        is_there = is_ready;
        pthread_mutex_unlock(&door);
    }
    for (int k = 0; k < sizeof given; k++) shared[k % sizeof shared] += given[k];
    count++;
    return 0;
}
int main(void) {
    pthread_t taker;
    pthread_create(&taker, 0, take, 0);
    for (int k = 0; k < sizeof given; k++) given[k] = k;
    pthread_mutex_lock(&door);
    is_ready = 1;
    pthread_mutex_unlock(&door);
    count++;
    RACING
    return pthread_join(taker, 0);
}
"""
RACING = "for (int k = 0; k < sizeof shared; k++) shared[k] = k;"
KNOWN = "give.c:main()\tgive.c:take()\tcount\n"


class Bundles(recorder.Case):
    def record(self, racing, *words):
        """The number of the variables of each place, and of the events that were analysed."""
        (self.folder / "give.c").write_text(SOURCE.replace("RACING", racing))
        recorder.must(recorder.call("gcc", "-w", "-g", "-O0", "-fsanitize=thread", "-pthread",
                                    self.folder / "give.c", "-o", self.folder / "give"))
        how = recorder.settings("unused", SHB=str(recorder.SHB))
        del how["SHB_RECORD"]
        ran = recorder.call(recorder.COMMAND, "-o", "out", "--verify", *words, self.folder / "give", env=how,
                            cwd=self.folder)
        self.assertEqual(ran.returncode, 66 if racing or not words else 0, ran.stderr)
        found = json.loads((self.folder / "out" / "places.json").read_text())["places"]
        [report] = (self.folder / "out").glob("run1.*.places")
        events = int(report.read_text().split("\n")[1].split()[1])
        return sorted(len(place["variables"]) for place in found), events

    def test_a_buffer_that_is_given_on_is_one_variable(self):
        places, events = self.record("")
        self.assertEqual(places, [1])
        self.assertLess(events, 1000)

    def test_the_bytes_of_a_buffer_that_races_stand_apart(self):
        places, events = self.record(RACING)
        self.assertIn(64, places)
        self.assertLess(events, 8000)

    def test_a_known_race_is_looked_behind_in_the_trace_of_all_bytes(self):
        (self.folder / "known").write_text(KNOWN)
        for racing in ("", RACING):
            _, events = self.record(racing, "--known", "known")
            self.assertGreater(events, 8192)
