"""Entries as bytes, made and broken by a list of fields, each with the line that `desk_trial` is to write of them. What is expected
follows from the list alone: where a field begins is the sum of the lengths before it. It was written from docs/ENTRY.md.

A field is its bytes and the ways to break it: other bytes, or bytes for it and the length field before it. The fields that the second
format alone has are left out where the limit of an act, or the provision of a source, is None; an empty provision is one that is not named.
"""
import random
import struct

from models import entry_reader
from rows import dossiers, register

ELEMENTS = ["article", "section", "chapter", "paragraph", "subparagraph", "subsection", "clause", "subclause", "alinea", "part", "title",
            "book", "point", "indent"]
WORK = "/akn/gb/act/2010-05-01/7"
SOURCE = "/akn/gb/act/1999/1"
DAY = 734258
NO_TEXT = b"\xc3\x28"
SEEDS = 12_000
PLAIN, WIDE = 4096, 8192
PROVISION = "sec_9"


class Field:
    """Bytes, other bytes that break their rule, and lengths with bytes that break it (which begin a field earlier)."""

    def __init__(self, name, data, broken=(), resized=()):
        self.name, self.data, self.broken, self.resized = name, data, list(broken), list(resized)


def u8(name, value, broken=()):
    return [Field(name, struct.pack(">B", value), [struct.pack(">B", b) for b in broken])]


def u16(name, value, broken=()):
    return [Field(name, struct.pack(">H", value), [struct.pack(">H", b) for b in broken])]


def u32(name, value, broken=()):
    return [Field(name, struct.pack(">I", value), [struct.pack(">I", b) for b in broken])]


def u64(name, value):
    return [Field(name, struct.pack(">Q", value))]


def counted(name, code, data, broken=(), resized=()):
    """A length, and the bytes that it announces."""
    sizes = [(struct.pack(code, len(b)), b) for b in resized]
    return [Field(f"{name}: length", struct.pack(code, len(data))), Field(name, data, broken, sizes)]


def name8(name, text, resized):
    return counted(name, ">B", text.encode(), resized=resized)


def text16(name, text, resized=()):
    return counted(name, ">H", text.encode(), resized=[*resized, NO_TEXT, b"a\xff"])


def work(name, iri=WORK):
    return text16(name, iri, [b"", b"/akn", b"/akn/gb/act/2010-02-30/7", iri.encode() + b"/eng@"])


def num(name, value):
    return name8(name, value, [b"", b"a_b", b"12345678901234567", b"1 "])


def drafter(name):
    return name8("drafter", name, [b"", b"Ada", b"a" * 33, b"a/b"])


def day(name, value):
    return u32(name, value, [0, 3652060, 4294967295])


def until(name, value):
    return u32(name, value or 0, [3652060])


def period(name, start, end=None):
    return day(f"{name}: from", start) + until(f"{name}: until", end)


def id_(name, law, item):
    return u32(f"{name}: law", law) + u16(f"{name}: item", item)


def listed(name, items, broken=()):
    return u16(f"{name}: count", len(items), broken) + [field for item in items for field in item]


def ref(text):
    return text16("ref", text, [b"", b"/akn/gb/act/2010-05-01/7", b"/akn/gb/act/2010-05-01/7/eng"])


def node(number="1", element=1, heading="", content="", refs=(), children=(), depth=1):
    deepest = [1] if depth == 12 else []
    return (u8("element", element, [14, 255]) + num("num", number) + text16("heading", heading) + text16("content", content)
            + listed("refs", [ref(r) for r in refs]) + listed("children", list(children), deepest))


def provision(name):
    return text16("provision", name, [b"sec.9", b"sec 9", b"/sec_9", "\u00e9".encode(), b"a" * 513])


def source(place=1, href=SOURCE, names=None):
    return work("source", href) + u16("place", place) + (provision(names) if names is not None else [])


def to_id(law, item):
    return u8("destination", 0, [2, 255]) + id_("destination", law, item)


def to_wid(wid):
    return u8("destination", 1, [2, 255]) + text16("destination", wid)


def spot(old, occurrence):
    return text16("old", old) + u16("occurrence", occurrence)


def edit(tag):
    return u8("edit", tag, [0, 9, 255])


def repeal(wid="sec_3"):
    return edit(1) + text16("wId", wid)


def substituted_nodes(nodes, wid="sec_1"):
    return edit(2) + text16("wId", wid) + listed("new", nodes)


def substituted_text(wid="sec_2", old="Two", occurrence=1, new="Ten"):
    return edit(3) + text16("wId", wid) + spot(old, occurrence) + text16("new", new)


def inserted_nodes(nodes, pos=3, wid="body"):
    return edit(4) + text16("wId", wid) + u8("pos", pos, [4, 255]) + listed("new", nodes)


def inserted_text(pos=2, wid="sec_1", old="One", occurrence=1, new="x"):
    at = spot(old, occurrence) if pos < 2 else []
    return edit(5) + text16("wId", wid) + u8("pos", pos, [4, 255]) + at + text16("new", new)


def renumbered(pairs):
    return edit(6) + listed("pairs", [text16("wId", wid) + num("num", number) for wid, number in pairs])


def split_at_text(wid="sec_2", old=" two", occurrence=1, number="2A", heading=""):
    return edit(7) + text16("wId", wid) + u8("at", 0, [2, 255]) + spot(old, occurrence) + num("num", number) + text16("heading", heading)


def split_at_child(wid="sec_2", child="sec_2__para_1", number="2A", heading=""):
    return edit(7) + text16("wId", wid) + u8("at", 1, [2, 255]) + text16("child", child) + num("num", number) + text16("heading", heading)


def joined(wid="sec_1", second="sec_2", separator=" "):
    return edit(8) + text16("wId", wid) + text16("second", second) + text16("separator", separator)


def textual(change, start=DAY, end=None, href=SOURCE, place=1, names=None):
    return u8("modification", 1, [0, 4, 255]) + source(place, href, names) + period("force", start, end) + change


def force(type_=1, destination=None, on=DAY, date=DAY, names=None):
    return (u8("modification", 2, [0, 4, 255]) + source(names=names) + (destination or to_id(2, 1)) + u8("type", type_, [0, 6, 255])
            + day("on", on) + day("date", date))


def efficacy(type_=1, destination=None, on=DAY, date=DAY, end=None, names=None):
    rest = {3: day("date", date), 6: day("on", on), 7: day("on", on) + period("days", date, end)}
    return (u8("modification", 3, [0, 4, 255]) + source(names=names) + (destination or to_wid("body")) + u8("type", type_, [0, 8, 255])
            + rest.get(type_, day("on", on) + day("date", date)))


def node_limit(number):
    return u16("node limit", number, [0, 1, PLAIN - 1, PLAIN + 1, 5000, WIDE - 1, WIDE + 1, PLAIN + WIDE, 65_535])


def act(nodes, iri=WORK, language="eng", on=733893, numbering=3, force_=(733924, None), limit=None):
    """An act whose IRI has the day 2010-05-01, which is 733893."""
    other_day = [on + 1] if iri == WORK else []
    return (work("work", iri) + [Field("language", language.encode(), [b"Eng", b"en1", b"e g"])]
            + [Field("day", struct.pack(">I", on), [struct.pack(">I", b) for b in (0, 3652060, *other_day)])]
            + u16("numbering", numbering, [numbering | 0x4000, numbering | 0x8000]) + (node_limit(limit) if limit is not None else [])
            + period("force", *force_) + listed("body", nodes))


def command(tag, *parts):
    return u8("command", tag, [0, 9, 255]) + [field for part in parts for field in part]


def entry(parts, law=1, request=1, name="ada", on=DAY, format_=1):
    return u8("format", format_, [0, 3, 255]) + drafter(name) + u64("request", request) + day("day", on) + u32("law", law) + parts


def deep(height, depth=1):
    """A node with one below it, down to this height."""
    below = [deep(height - 1, depth + 1)] if height > 1 else []
    return node("1", 3, children=below, depth=depth)


PAYLOAD = [node("1", 1, "Title", "One.", [WORK + "/eng@2011-01-01"], [node("1", 3, content="a", depth=2), node("2", 3, depth=2)])]
EDITS = [repeal(), substituted_nodes(PAYLOAD), substituted_text(), inserted_nodes(PAYLOAD, 0), inserted_nodes([], 3), inserted_text(0),
         inserted_text(1), inserted_text(2), inserted_text(3), renumbered([("sec_1", "2"), ("sec_2", "1")]), split_at_text(),
         split_at_child(), joined()]


def modifications(*names):
    """Each edit and each effect, whose sources name these provisions in turn."""
    made = [lambda names, change=change: textual(change, DAY, DAY + 30, names=names) for change in EDITS]
    made += [lambda names, t=t: force(t, names=names) for t in range(1, 6)] + [lambda names, t=t: efficacy(t, names=names) for t in range(1, 8)]
    made += [lambda names: force(2, to_wid("sec_1"), names=names), lambda names: efficacy(7, end=DAY + 9, names=names)]
    return [make(names[k % len(names)]) for k, make in enumerate(made)]


MODIFICATIONS = modifications(None)
# A command of each kind, with each kind of modification in one of them.
ENTRIES = {
    "enact": entry(command(1, act(PAYLOAD + [deep(12)]))),
    "record": entry(command(2, work("work"), listed("modifications", MODIFICATIONS))),
    "correct": entry(command(3, id_("id", 2, 1), textual(repeal()))),
    "withdraw": entry(command(4, id_("id", 2, 1)), law=4, request=5),
    "restore": entry(command(5, id_("id", 2, 1))),
    "draft add": entry(command(6, work("work"), textual(substituted_text()))),
    "draft drop": entry(command(7, u32("item", 7)), law=0),
    "file": entry(command(8, work("work"), u32("seen", 3))),
}
# The commands that have a second format: an act that is wide, and sources of which one names a provision, each kind of modification one.
SECOND = {
    "enact a wide act": entry(command(1, act(PAYLOAD + [deep(12)], limit=WIDE)), format_=2),
    "record by provisions": entry(command(2, work("work"), listed("modifications", modifications(PROVISION, "a", "B-_" * 170 + "zz"))), format_=2),
    "record by one provision": entry(command(2, work("work"), listed("modifications", [*modifications(""), textual(repeal(), names="Z")])), format_=2),
    "correct by a provision": entry(command(3, id_("id", 2, 1), textual(repeal(), names=PROVISION)), format_=2),
    "draft by a provision": entry(command(6, work("work"), efficacy(6, names=PROVISION)), format_=2),
}
# Spellings in the second format of what does not ask for it.
NEEDLESS = {
    "a plain act": entry(command(1, act(PAYLOAD, limit=PLAIN)), format_=2),
    "a record without a provision": entry(command(2, work("work"), listed("modifications", modifications(""))), format_=2),
    "a record of nothing": entry(command(2, work("work"), listed("modifications", [])), format_=2),
    "a correction without a provision": entry(command(3, id_("id", 2, 1), textual(repeal(), names="")), format_=2),
    "a withdrawal": entry(command(4, id_("id", 2, 1)), format_=2),
    "a restoring": entry(command(5, id_("id", 2, 1)), format_=2),
    "an addition without a provision": entry(command(6, work("work"), force(names="")), format_=2),
    "a drop": entry(command(7, u32("item", 7)), law=0, format_=2),
    "a filing": entry(command(8, work("work"), u32("seen", 3)), format_=2),
}


def spelled(fields):
    return b"".join(field.data for field in fields)


def line(data):
    return f"decode {data.hex()}"


def taken(data):
    """What is written of bytes that are an entry: its spelling, which is those bytes."""
    return f"entry {data.hex()}"


def fault(place, data):
    return f"fault {place} {data[place]}" if place < len(data) else f"fault {place} none"


def broken(fields):
    """Each field broken once by each of its ways: the line, and what is written of it."""
    place = 0
    for k, field in enumerate(fields):
        before, after = spelled(fields[:k]), spelled(fields[k + 1:])
        for other in field.broken:
            data = before + other + after
            yield field.name, line(data), fault(place, data)
        for size, other in field.resized:
            data = spelled(fields[:k - 1]) + size + other + after
            yield field.name, line(data), fault(place, data)
        place += len(field.data)
    data = spelled(fields) + b"\x00"
    yield "a byte left over", line(data), fault(place, data)


def fronts(fields):
    """Each front of an entry: the fault stands where the field begins that is not held whole."""
    whole, place, k = spelled(fields), 0, 0
    for size in range(len(whole)):
        while place + len(fields[k].data) <= size:
            place += len(fields[k].data)
            k += 1
        yield f"the first {size} bytes", line(whole[:size]), fault(place, whole[:size])


def needless():
    """The second format without need: the fault is that of the first byte, behind all others."""
    for kind, fields in NEEDLESS.items():
        data = spelled(fields)
        yield f"{kind} in the second format", line(data), fault(0, data)
        for name, given, want in [*broken(fields), *fronts(fields)]:
            yield f"{kind} in the second format, {name}", given, want


def in_another_format():
    """The first byte turned into that of the other format: what each entry then is, the reader says."""
    for kind, fields in [*ENTRIES.items(), *SECOND.items(), *NEEDLESS.items()]:
        data = spelled(fields)
        data = bytes([3 - data[0]]) + data[1:]
        yield f"{kind}, by the byte of the other format", line(data), told(data)


def table():
    """The rows of broken fields, of fronts of long entries, and of formats."""
    for kind, fields in [*ENTRIES.items(), *SECOND.items()]:
        yield f"{kind}, whole", line(spelled(fields)), taken(spelled(fields))
        for name, given, want in broken(fields):
            yield f"{kind}, {name}", given, want
    long = [(kind, ENTRIES[kind]) for kind in ("enact", "record", "draft add")]
    for kind, fields in [*long, *((kind, fields) for kind, fields in SECOND.items() if kind != "record by provisions")]:
        for name, given, want in fronts(fields):
            yield f"{kind}, {name}", given, want
    yield from needless()
    yield from in_another_format()
    yield from of_a_correction()
    row = bytes.fromhex("01036164610000000000000005000b343200000004040000000200 01".replace(" ", ""))
    yield "the example", line(row), taken(row)
    capital = row[:2] + b"A" + row[3:]
    yield "the example with a capital", line(capital), "fault 2 65"
    yield "the example without its last byte", line(row[:-1]), "fault 26 0"
    yield "no bytes", "decode ", "fault 0 none"


def of_a_correction():
    """A correction by a provision, by hand: 81 bytes, and without it 74 in the first format, or 76 that are none in the second."""
    head, tail = bytes.fromhex("03616461000000000000000500") + bytes.fromhex("0b343200000004") + bytes.fromhex("03000000020001"), b"\x01\x00\x05sec_3"
    source, force = b"\x01\x00\x19/akn/gb/act/2010-12-01/20\x00\x01", bytes.fromhex("000b33ba00000000")
    whole, plain = b"\x02" + head + source + b"\x00\x05sec_9" + force + tail, b"\x01" + head + source + force + tail
    empty = b"\x02" + head + source + b"\x00\x00" + force + tail
    assert (len(whole), len(plain), len(empty)) == (81, 74, 76), (len(whole), len(plain), len(empty))
    yield "a correction by a provision", line(whole), taken(whole)
    yield "the correction without it", line(plain), taken(plain)
    yield "the correction with no provision, in the second format", line(empty), "fault 0 2"
    fields = entry(command(3, id_("id", 2, 1), textual(repeal(), 734138, href="/akn/gb/act/2010-12-01/20", names=PROVISION)), 4, 5, format_=2)
    assert spelled(fields) == whole


class Random:
    """Random entries of all eight commands, in the format that each asks for."""

    def __init__(self, seed):
        self.draw, self.format, self.asks = random.Random(seed), 1, False

    def text(self, most=12):
        letters = "abc XYZ\u00e9\u4e2d\U0001f600\n\"\\"
        return "".join(self.draw.choice(letters) for _ in range(self.draw.randrange(most)))

    def some(self, make, most):
        return [make() for _ in range(self.draw.randrange(most))]

    def number(self, bits):
        return self.draw.choice([0, 1, 2 ** bits - 1, self.draw.randrange(2 ** bits)])

    def day(self):
        return self.draw.choice([1, 3652059, self.draw.randrange(1, 3652060)])

    def until(self):
        return self.draw.choice([None, self.day()])

    def num(self):
        return "".join(self.draw.choice("09AZaz-") for _ in range(self.draw.randrange(1, 17)))

    def ref(self):
        return WORK + self.draw.choice(["/eng@", "/fra@2011-01-01", "/eng@/!main", "/eng@2011-01-01/~sec_1"])

    def node(self, depth=1):
        below = self.some(lambda: self.node(depth + 1), 3) if depth < 12 and self.draw.random() < 0.6 else []
        return node(self.num(), self.draw.randrange(14), self.text(), self.text(), self.some(self.ref, 3), below, depth)

    def nodes(self):
        return self.some(self.node, 3)

    def edit(self):
        pick = self.draw.randrange(8)
        wid, number, old, occurrence = self.text(), self.num(), self.text(), self.number(16)
        if pick == 0:
            return repeal(wid)
        if pick == 1:
            return substituted_nodes(self.nodes(), wid)
        if pick == 2:
            return substituted_text(wid, old, occurrence, self.text())
        if pick == 3:
            return inserted_nodes(self.nodes(), self.draw.randrange(4), wid)
        if pick == 4:
            return inserted_text(self.draw.randrange(4), wid, old, occurrence, self.text())
        if pick == 5:
            return renumbered([(self.text(), self.num()) for _ in range(self.draw.randrange(4))])
        if pick == 6 and self.draw.random() < 0.5:
            return split_at_child(wid, self.text(), number, self.text())
        if pick == 6:
            return split_at_text(wid, old, occurrence, number, self.text())
        return joined(wid, self.text(), self.text())

    def names(self):
        """The provision that a source names, or an empty text; in the first format there is none."""
        if self.format == 1:
            return None
        made = "".join(self.draw.choice("09AZaz-_") for _ in range(self.draw.choice([0, 0, 1, 7, 512])))
        self.asks = self.asks or made != ""
        return made

    def modification(self):
        destination = self.draw.choice([to_id(self.number(32), self.number(16)), to_wid(self.text())])
        pick = self.draw.randrange(3)
        if pick == 0:
            return textual(self.edit(), self.day(), self.until(), names=self.names())
        if pick == 1:
            return force(self.draw.randrange(1, 6), destination, self.day(), self.day(), self.names())
        return efficacy(self.draw.randrange(1, 8), destination, self.day(), self.day(), self.until(), self.names())

    def limit(self):
        if self.format == 1:
            return None
        made = self.draw.choice([PLAIN, WIDE])
        self.asks = made == WIDE
        return made

    def act(self):
        iri, on = self.draw.choice([(WORK, 733893), ("/akn/fr-75/act/loi/2010/n_1", self.draw.randrange(733773, 734138))])
        return act(self.nodes(), iri, self.draw.choice(["eng", "fra"]), on, self.draw.randrange(2 ** 14), (self.day(), self.until()), self.limit())

    def command(self):
        pick = self.draw.randrange(1, 9)
        id_of = id_("id", self.number(32), self.number(16))
        parts = {1: lambda: [self.act()], 2: lambda: [work("work"), listed("modifications", self.some(self.modification, 4))],
                 3: lambda: [id_of, self.modification()], 4: lambda: [id_of], 5: lambda: [id_of],
                 6: lambda: [work("work"), self.modification()], 7: lambda: [u32("item", self.number(32))],
                 8: lambda: [work("work"), u32("seen", self.number(32))]}
        return command(pick, *parts[pick]())

    def entry(self):
        name = "".join(self.draw.choice("az09-._") for _ in range(self.draw.randrange(1, 33)))
        self.format, self.asks = self.draw.choice([1, 2]), False
        return entry(self.command(), self.number(32), self.number(64), name, self.day(), self.format)


def trips(seed, count=SEEDS):
    """Random entries: each is read, and spelled again, but for those that do not ask for their second format."""
    made = Random(seed)
    for _ in range(count):
        data = spelled(made.entry())
        yield line(data), taken(data) if made.asks or made.format == 1 else fault(0, data)


def told(data):
    """What is written of any bytes, by the reader."""
    place = entry_reader.fault_of(data)
    return taken(data) if place is None else fault(place, data)


def mutated(seed, count=SEEDS):
    """Random entries with one byte changed, cut or doubled: bytes that are still an entry are its spelling."""
    made = Random(seed)
    for _ in range(count):
        data = bytearray(spelled(made.entry()))
        at = made.draw.randrange(len(data))
        pick = made.draw.randrange(3)
        if pick == 0:
            data[at] ^= made.draw.randrange(1, 256)
        elif pick == 1:
            del data[at]
        else:
            data.insert(at, data[at])
        yield bytes(data)


def of_session(parts, law, request, format_=1):
    """An entry as a session makes it: on day 1."""
    return taken(spelled(entry(parts, law, request, "ada", 1, format_)))


def repealed(wid, place=1, names=None):
    """A repeal from 2011-01-01, which is 734138."""
    return textual(repeal(wid), 734138, href=dossiers.SOURCE, place=place, names=names)


# A command of each kind is accepted, and its entry is shown, in the format that it asks for. Requests are 1, 2, .. and so are law entries, but for
# those of drafts.
NAMED = {"href": SOURCE, "place": 1, "provision": PROVISION}
THREE = [node("1", content="One."), node("2", content="Two two."), node("3", content="Three.")]
SPELLED = [
    ("bytes 1", "none"),
    (register.enact("ada", 1, body=register.SECTIONS), register.law(1)),
    ("bytes 1", of_session(command(1, act(THREE)), 1, 1)),
    (register.record("ada", 2, dossiers.repeal("sec_3")), register.law(2)),
    ("bytes 2", of_session(command(2, work("work"), listed("modifications", [repealed("sec_3")])), 2, 2)),
    (register.correct("ada", 3, "2.1", dossiers.repeal("sec_2")), register.law(3)),
    ("bytes 3", of_session(command(3, id_("id", 2, 1), repealed("sec_2")), 3, 3)),
    (register.withdraw("ada", 4, "2.1"), register.law(4)),
    ("bytes 4", of_session(command(4, id_("id", 2, 1)), 4, 4)),
    (register.restore("ada", 5, "2.1"), register.law(5)),
    ("bytes 5", of_session(command(5, id_("id", 2, 1)), 5, 5)),
    (register.add("ada", 6, dossiers.repeal("sec_1")), register.draft(1)),
    ("bytes 6", of_session(command(6, work("work"), repealed("sec_1")), 0, 6)),
    (register.drop("ada", 7, 1), register.draft(1)),
    ("bytes 7", of_session(command(7, u32("item", 1)), 0, 7)),
    (register.add("ada", 8, dossiers.repeal("sec_1")), register.draft(2)),
    ("bytes 8", of_session(command(6, work("work"), repealed("sec_1")), 0, 8)),
    (register.file("ada", 9, 5), register.law(6)),
    ("bytes 9", of_session(command(8, work("work"), u32("seen", 5)), 6, 9)),
    (register.correct("ada", 10, "2.1", dossiers.repeal("sec_3", provision=PROVISION)), register.law(7)),
    ("bytes 10", of_session(command(3, id_("id", 2, 1), repealed("sec_3", names=PROVISION)), 7, 10, 2)),
    (register.correct("ada", 11, "2.1", dossiers.repeal("sec_3")), register.law(8)),
    ("bytes 11", of_session(command(3, id_("id", 2, 1), repealed("sec_3")), 8, 11)),
    (register.record("ada", 12, dossiers.repeal("sec_1"), dossiers.repeal("sec_2", provision="A-_")), register.law(9)),
    ("bytes 12", of_session(command(2, work("work"), listed("modifications", [repealed("sec_1", names=""), repealed("sec_2", names="A-_")])), 9, 12, 2)),
    (register.add("ada", 13, dossiers.force(source=NAMED)), register.draft(3)),
    ("bytes 13", of_session(command(6, work("work"), force(1, to_wid("sec_1"), 734138, 734169, PROVISION)), 0, 13, 2)),
    (register.add("ada", 14, dossiers.efficacy("retroactivity", on=None, source=NAMED)), register.draft(4)),
    ("bytes 14", of_session(command(6, work("work"), efficacy(3, to_wid("sec_1"), date=734169, names=PROVISION)), 0, 14, 2)),
    (register.enact("ada", 15, register.TWO, body=register.SECTIONS, nodeLimit=WIDE), register.law(10)),
    ("bytes 15", of_session(command(1, act(THREE, register.TWO, limit=WIDE)), 10, 15, 2)),
    (register.enact("ada", 16, register.NONE, body=register.SECTIONS, nodeLimit=PLAIN), register.law(11)),
    ("bytes 16", of_session(command(1, act(THREE, register.NONE)), 11, 16)),
    (register.enact("ada", 16, register.NONE, body=register.SECTIONS), register.again(register.law(11))),
    (register.enact("ada", 16, register.NONE, body=register.SECTIONS, nodeLimit=WIDE), register.refused(1, 11)),
    (register.enact("ada", 15, register.TWO, body=register.SECTIONS), register.refused(1, 10)),
    (register.add("ada", 13, dossiers.force(source={**NAMED, "provision": "sec_8"})), register.refused(1, 3)),
    ("bytes 17", "none"),
    ("bytes 0", "none"),
    ("bytes one", "no such line"),
    ("decode 0g", "no such line"),
    ("decode 0", "no such line"),
]
