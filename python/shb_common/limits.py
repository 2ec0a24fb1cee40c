"""What `shb` takes. It refuses a trace that has more; for `shb places --list` only the limit of a line holds.
recorder/converter/converter.h has the same."""

MOST_EVENTS = 4_194_304
MOST_THREADS = 1_024
MOST_TEXT = 1 << 30     # bytes of a trace, or of a report that is checked
MOST_LINE = 4_096       # bytes
LINE_ROOM = MOST_LINE + 104     # bytes of a line that are read: what is longer is none of `shb`
