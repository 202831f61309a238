"""A reader of entries as bytes, written from docs/ENTRY.md and docs/FORMS.md alone: where the first field begins that breaks its rule or is not
there whole, or none where the bytes spell an entry. `entry_bytes.py` spells entries; both know nothing of each other."""
import datetime
import re

NUM = re.compile(rb"[A-Za-z0-9-]{1,16}\Z")
DRAFTER = re.compile(rb"[a-z0-9._-]{1,32}\Z")
LANGUAGE = re.compile(rb"[a-z]{3}\Z")
PORTION = re.compile(rb"[A-Za-z0-9_-]{1,512}\Z")
WORK = re.compile(rb"/akn/[a-z]{2}(?:-[a-z0-9]{1,8})?/act/(?:[A-Za-z][A-Za-z0-9._-]{0,31}/){0,2}([0-9]{4}(?:-[0-9]{2}-[0-9]{2})?)/[A-Za-z0-9._-]{1,64}\Z")
EXPRESSION = re.compile(rb"(.*)/[a-z]{3}@([0-9]{4}-[0-9]{2}-[0-9]{2})?(?:/!main(?:/?~[A-Za-z0-9_-]{1,512})?|/~[A-Za-z0-9_-]{1,512})?\Z", re.DOTALL)
LAST_DAY, DEEPEST = 3_652_059, 12


def day_of(text):
    """The number of a day, or None."""
    try:
        return datetime.date(*map(int, text.split(b"-"))).toordinal()
    except ValueError:
        return None


def days_of_work(iri):
    """The days with which the date in the IRI of a work agrees, or None where it is no such IRI."""
    found = WORK.match(iri)
    if not found:
        return None
    if len(found[1]) == 4:
        year = int(found[1])
        return range(datetime.date(year, 1, 1).toordinal(), datetime.date(year, 12, 31).toordinal() + 1) if year else None
    day = day_of(found[1])
    return range(day, day + 1) if day else None


def is_expression(iri):
    """Some end of the work keeps the grammar: a language has three letters, so no other `@` can be that of the version."""
    found = EXPRESSION.match(iri)
    return bool(found) and days_of_work(found[1]) is not None and (found[2] is None or day_of(found[2]) is not None)


class Broken(Exception):
    """The first field that breaks its rule, by where it begins."""


class Reader:
    """Reads fields from the left."""

    def __init__(self, data):
        self.data, self.at, self.asks, self.second = data, 0, False, False

    def field(self, size, keeps=lambda data: True):
        data = self.data[self.at:self.at + size]
        if len(data) < size or not keeps(data):
            raise Broken(self.at)
        self.at += size
        return data

    def number(self, size, keeps=lambda number: True):
        return int.from_bytes(self.field(size, lambda data: keeps(int.from_bytes(data, "big"))), "big")

    def one_of(self, *numbers, size=1):
        return self.number(size, lambda number: number in numbers)

    def text(self, keeps=lambda data: True, size=2):
        return self.field(self.number(size), lambda data: is_text(data) and keeps(data))

    def work(self):
        return self.text(lambda iri: days_of_work(iri) is not None)

    def num(self):
        self.text(NUM.match, 1)

    def list(self, read, keeps=lambda count: True):
        for _ in range(self.number(2, keeps)):
            read()

    def day(self, days=range(1, LAST_DAY + 1)):
        self.number(4, lambda number: number in days)

    def period(self):
        self.day()
        self.day(range(0, LAST_DAY + 1))

    def id(self):
        self.number(4)
        self.number(2)

    def node(self, depth=1):
        self.number(1, lambda number: number < 14)
        self.num()
        self.text()
        self.text()
        self.list(lambda: self.text(is_expression))
        self.list(lambda: self.node(depth + 1), lambda count: count == 0 or depth < DEEPEST)

    def nodes(self):
        self.list(self.node)

    def act(self):
        days = days_of_work(self.work())
        self.field(3, LANGUAGE.match)
        self.day(days)
        self.number(2, lambda number: number < 1 << 14)
        if self.second:
            self.asks = self.one_of(4096, 8192, size=2) == 8192
        self.period()
        self.nodes()

    def source(self):
        self.work()
        self.number(2)
        if self.second:
            self.asks = self.text(lambda name: name == b"" or PORTION.match(name)) != b"" or self.asks

    def spot(self):
        self.text()
        self.number(2)

    def edit(self):
        kind = self.one_of(*range(1, 9))
        if kind == 6:
            return self.list(lambda: (self.text(), self.num()))
        self.text()
        if kind == 2:
            self.nodes()
        elif kind == 3:
            self.spot()
            self.text()
        elif kind in (4, 5):
            position = self.one_of(0, 1, 2, 3)
            if kind == 4:
                return self.nodes()
            if position < 2:
                self.spot()
            self.text()
        elif kind == 7:
            (self.text if self.one_of(0, 1) else self.spot)()
            self.num()
            self.text()
        elif kind == 8:
            self.text()
            self.text()

    def modification(self):
        kind = self.one_of(1, 2, 3)
        self.source()
        if kind == 1:
            self.period()
            return self.edit()
        (self.text if self.one_of(0, 1) else self.id)()
        effect = self.one_of(*range(1, 6 if kind == 2 else 8))
        self.day()
        if kind == 2 or effect in (1, 2, 4, 5):
            self.day()
        elif effect == 7:
            self.period()

    def command(self):
        kind = self.one_of(*range(1, 9))
        if kind == 1:
            self.act()
        elif kind == 7:
            self.number(4)
        elif kind in (3, 4, 5):
            self.id()
        else:
            self.work()
        if kind == 2:
            self.list(self.modification)
        elif kind in (3, 6):
            self.modification()
        elif kind == 8:
            self.number(4)

    def entry(self):
        self.second = self.one_of(1, 2) == 2
        self.text(DRAFTER.match, 1)
        self.number(8)
        self.day()
        self.number(4)
        self.command()
        if self.at < len(self.data):
            raise Broken(self.at)
        if self.second and not self.asks:
            raise Broken(0)


def is_text(data):
    try:
        data.decode()
        return True
    except UnicodeDecodeError:
        return False


def fault_of(data):
    """Where the first field begins that breaks its rule; None where the bytes spell an entry."""
    try:
        Reader(data).entry()
    except Broken as broken:
        return broken.args[0]
    return None
