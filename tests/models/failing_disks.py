"""Sessions of a journal on a disk in memory each of whose calls fails in turn, alone or with all behind it, and then did nothing of what it was
asked, a part of it, or all. Each line that `journal_trial` is given has one here that it is to write, reckoned by models/journal_calls.py.

Who sends the lines opens the journal again after a failure, looks whether the payload stands behind those before it, and appends it where it
does not: so each stands there once. After each line what a crash may leave is asked for.
"""
from models.journal_calls import Damaged, Journal, MemoryDisk, in_words, payloads_of

EFFECTS = (None, 1, 4, "whole")
EACH, SOME = range(256), (0, 1, 2, 255)
ROOM, CHANGES = 100_000, 100_000
THREE = [b"\1" * 9, b"law", b"\0\0\0\2ab\1"]
# With lines that are refused, questions and openings in between: more than forty lines.
STREAM = [THREE[0], "bytes", THREE[1], "record 8", THREE[2], "append -", "record 22", "open",
          *(word for n in range(3, 20) for word in (bytes([n, 1]) * n, "open" if n % 4 == 0 else "record 8"))]


class Failing:
    """The numbers of calls that fail: one, or each from that one on."""

    def __init__(self, first, goes_on):
        self.first, self.goes_on = first, goes_on

    def __contains__(self, number):
        return number == self.first or self.goes_on and number > self.first


class Session:
    """Lines, each with the one that is to be written; what was acknowledged; and the images that lack some of it."""

    def __init__(self, first, goes_on, effect, each):
        self.disk = MemoryDisk(b"", Failing(first, goes_on), ROOM, CHANGES, effect)
        self.journal, self.lines, self.kept, self.wrong, self.each = Journal(self.disk), [], [], [], each
        self.end, self.pending, self.tries = 8, None, 2 if goes_on else 3

    def say(self, line, payload=None):
        """Sends a line, and then asks for images."""
        had_failed = self.disk.has_failed
        if payload is not None and self.journal.is_ready:
            self.pending = payload
        want = self.journal.told(line)
        self.lines.append((line, want))
        if want.startswith("appended"):
            self.keep(int(want.split()[1]), payload)
        fresh = self.disk.has_failed and not had_failed
        for pick in EACH if self.each and fresh else SOME:
            self.look(pick)
        return want

    def look(self, pick):
        """An image that a crash may leave: it has what was acknowledged, and perhaps the payload that was asked for last."""
        image = self.disk.image(pick)
        self.lines.append((f"image {pick}", f"image {image.hex()}"))
        try:
            found = payloads_of(image)
        except Damaged:
            found = None
        if found != self.kept and found != [*self.kept, self.pending]:
            self.wrong.append((len(self.lines), pick))

    def keep(self, end, payload):
        self.kept.append(payload)
        self.end = end

    def append(self, payload):
        """Appends a payload, and where that fails finds out whether it stands."""
        for _ in range(self.tries):
            if self.say(f"append {payload.hex()}", payload).startswith("appended"):
                return
            if self.say("open") == "opened":
                found = self.say(f"record {self.end}").split()
                if found[0] == "payload":
                    return self.keep(int(found[1]), payload)

    def send(self, steps):
        self.say("open")
        for step in steps:
            if isinstance(step, bytes):
                self.append(step)
            else:
                self.say(step)
        self.say("bytes")

    def first_line(self):
        failed = [number for number in range(1, self.disk.made + 1) if number in self.disk.failing]
        return in_words(b"", failed, ROOM, CHANGES, self.disk.effect)


def sessions():
    """Each call of the disk until one is left that none of a session makes: a name, the first line, the others, and the images that are wrong."""
    for name, steps in (("three payloads", THREE), ("a stream", STREAM)):
        for effect in EFFECTS:
            for goes_on in (False, True):
                first, has_failed = 0, True
                while has_failed:
                    first += 1
                    session = Session(first, goes_on, effect, steps is THREE)
                    session.send(steps)
                    has_failed = session.disk.has_failed
                    how = f"{'with all later' if goes_on else 'alone'}, and did {'nothing' if effect is None else effect}"
                    yield f"{name}, call {first} of the disk fails {how}", session.first_line(), session.lines, session.wrong
