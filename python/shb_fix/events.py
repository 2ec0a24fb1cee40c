"""Events of a trace, and the list of repairs."""

import collections

from shb_common.words import counted

OWN = "#"   # a repaired name is the old one, this sign and a word


class Event(collections.namedtuple("Event", "line thread word name location")):
    """One event: its line in the file that was read, and its fields. `name` is None without parentheses."""

    def text(self):
        operation = self.word if self.name is None else b"%s(%s)" % (self.word, self.name)
        fields = [self.thread, operation] + ([] if self.location is None else [self.location])
        return b"|".join(fields) + b"\n"

    def like(self, word, name):
        """An event at the same place of the trace, by the same thread."""
        return self._replace(word=word, name=name)


class Repairs:
    """What was done. Guesses are noted by line: of those that are alike the first ones are kept, and all are
    counted. What is merely written in another form is counted alone."""

    MOST = 20
    ADDS_ORDER = "; this adds order, which can hide a race"

    def __init__(self):
        self.kept, self.ordering = [], 0
        self.counts, self.translated = collections.Counter(), collections.Counter()

    def note(self, line, words, adds_order=False, kind=None):
        """Notes a repair of a line. `kind` says which repairs are alike, if not those of these words."""
        kind = kind or words
        self.counts[kind] += 1
        self.ordering += adds_order
        if self.counts[kind] <= self.MOST:
            self.kept.append((line, words + self.ADDS_ORDER * adds_order))

    def translate(self, what):
        """Counts an event that has another form now; `what` names its form."""
        self.translated[what] += 1

    def lines(self):
        """A line for each repair that was kept, and one for each kind of which there are more."""
        yield from (f"line {line}: {words}" for line, words in sorted(self.kept))
        for kind, count in sorted(self.counts.items()):
            if count > self.MOST:
                yield f"{count - self.MOST} more lines: {kind}"

    def summary(self):
        forms = ", ".join(counted(count, what) for what, count in sorted(self.translated.items()))
        ordering = f", {self.ordering:,} of which {'adds' if self.ordering == 1 else 'add'} order"
        repairs = counted(sum(self.counts.values()), "repair") + ordering * bool(self.ordering)
        return f"{forms} translated; {repairs}" if forms else repairs
