"""The example's stored trace; packaging/tests/test_followed.py runs the commands of README."""

import recorder


class Example(recorder.Case):
    def test_the_stored_trace(self):
        trace = (recorder.SOURCES.parent / "examples" / "account.std").read_bytes()
        self.assertEqual(recorder.places(trace), {("account.c:10", "account.c:8")})
