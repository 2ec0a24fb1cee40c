"""A thread that waits gives the turn up before it does."""

import recorder


class Waits(recorder.Case):
    def test_each_wait_gives_the_turn_up(self):
        """In a recorder in which no waiter takes the turn from one that sleeps, a wait that keeps it
        lasts for ever."""
        patient = recorder.taking_turns("IS_PATIENT=1")
        recorder.build(recorder.PROGRAMS / "waits.c", "-O1", self.folder / "waits", patient)
        ways = recorder.must(recorder.call(self.folder / "waits"))
        self.assertGreater(ways.stdout.count(b"\n"), 20)
        ran = recorder.call("timeout", "100", self.folder / "waits",
                            env=recorder.settings(self.folder / "app.rec"))
        self.assertEqual((ran.stdout, ran.stderr, ran.returncode), (ways.stdout, b"", 0))

    def test_no_thread_keeps_the_turn_by_its_memory(self):
        """In such a recorder calls that get memory end a slice, and so does each long range, however
        long slices are."""
        patient = recorder.taking_turns("IS_PATIENT=1")
        recorder.build(recorder.PROGRAMS / "starves.c", "-O1", self.folder / "starves", patient)
        for way, slice in enumerate((100, 100, 100_000_000)):
            with self.subTest(way):
                env = recorder.settings(self.folder / f"{way}.rec", 1, slice, SHB_RECORDS="5000000")
                ran = recorder.call("timeout", "100", self.folder / "starves", way, env=env)
                self.assertEqual((ran.returncode, ran.stderr), (0, b""))

    def test_thousands_want_the_turn_at_once(self):
        """If each of them looked at the holder, that would hardly run: minutes of the processors, in place
        of 0.8 s."""
        recorder.build(recorder.PROGRAMS / "crowd.c", "-O1", self.folder / "crowd")
        env = recorder.settings(self.folder / "app.rec", 1, recorder.OWN_SLICES)
        recorder.must(recorder.call("sh", "-c", "ulimit -t 30; exec timeout 300 ./crowd", cwd=self.folder,
                                    env=env))
