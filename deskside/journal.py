"""The entries of a register, read from its journal while the desk has it open: for names and days, never for a word of a text (docs/JOURNAL.md, docs/ENTRY.md)."""
import datetime
import os

import forms

MAGIC = b"AKNLAW01"
# In the order of their numbers.
ELEMENTS = ("article", "section", "chapter", "paragraph", "subparagraph", "subsection", "clause", "subclause", "alinea", "part", "title", "book", "point", "indent")
FORCE = {1: "entryIntoForce", 2: "postponementOfEntryIntoForce", 3: "endOfEnactment", 4: "prorogationOfForce", 5: "reEnactment"}
EFFICACY = {1: "entryIntoEfficacy", 2: "endOfEfficacy", 3: "retroactivity", 4: "postponementOfEfficacy", 5: "prorogationOfEfficacy", 6: "extraefficacy", 7: "inapplication"}
POSITIONS = ("before", "after", "start", "end")


def payloads(data):
    """The payloads whose gate is open, as far as they stand whole."""
    at = len(MAGIC)
    if not data.startswith(MAGIC):
        return
    while at + 5 <= len(data) and data[at] == 1:
        length = int.from_bytes(data[at + 1 : at + 5], "big")
        if not length or at + 5 + length >= len(data):
            return
        yield data[at + 5 : at + 5 + length]
        at += 5 + length


class Entry:
    """Reads an entry from the left."""

    def __init__(self, data):
        self.data, self.at, self.format = data, 0, 1

    def number(self, size):
        self.at += size
        if self.at > len(self.data):
            raise ValueError("an entry ends too early")
        return int.from_bytes(self.data[self.at - size : self.at], "big")

    def bytes(self, length):
        self.at += length
        if self.at > len(self.data):
            raise ValueError("an entry ends too early")
        return self.data[self.at - length : self.at].decode()

    def name(self):
        return self.bytes(self.number(1))

    def text(self):
        return self.bytes(self.number(2))

    def list(self, each):
        return [each() for _ in range(self.number(2))]

    def day(self):
        found = self.number(4)
        return datetime.date.fromordinal(found).isoformat() if found else ""

    def period(self):
        start, end = self.day(), self.day()
        return {"from": start, **({"until": end} if end else {})}

    def id(self):
        law, item = self.number(4), self.number(2)
        return f"{law}.{item}"

    def node(self):
        made = {"element": ELEMENTS[self.number(1)], "num": self.name(), "heading": self.text(), "content": self.text(), "refs": self.list(self.text)}
        made["children"] = self.list(self.node)
        return made

    def act(self):
        work, language, date, numbering = self.text(), self.bytes(3), self.day(), self.number(2)
        elements = [it for at, it in enumerate(ELEMENTS) if numbering >> at & 1]
        limit = {"nodeLimit": self.number(2)} if self.format == 2 else {}
        return {"FRBRuri": work, "FRBRdate": date, "FRBRlanguage": language, "numbering": elements, **limit, "force": self.period(), "body": self.list(self.node)}

    def source(self):
        made = {"href": self.text(), "place": self.number(2)}
        provision = self.text() if self.format == 2 else ""
        return {**made, "provision": provision} if provision else made

    def occurrence(self):
        return {"old": self.text(), "occurrence": self.number(2)}

    def destination(self):
        return {"wId": self.text()} if self.number(1) else {"modification": self.id()}

    def modification(self):
        kind, source = self.number(1), self.source()
        if kind == 1:
            return {"textualMod": {"source": source, "force": self.period(), **self.edit()}}
        destination, effect = self.destination(), self.number(1)
        made = {"type": (FORCE if kind == 2 else EFFICACY)[effect], "source": source, "destination": destination}
        if kind == 2 or effect in (1, 2, 4, 5):
            made.update(on=self.day(), date=self.day())
        elif effect == 3:
            made["date"] = self.day()
        else:
            made["on"] = self.day()
            if effect == 7:
                made["days"] = self.period()
        return {"forceMod" if kind == 2 else "efficacyMod": made}

    def edit(self):
        kind = self.number(1)
        if kind == 6:
            return {"type": "renumbering", "renumber": self.list(lambda: {"wId": self.text(), "num": self.name()})}
        wid = self.text()
        at = lambda position: {"destination": {"wId": wid, "pos": POSITIONS[position]}}
        here = {"destination": {"wId": wid}}
        if kind == 1:
            return {"type": "repeal", **here}
        if kind == 2:
            return {"type": "substitution", **here, "new": self.list(self.node)}
        if kind == 3:
            return {"type": "substitution", **here, **self.occurrence(), "new": self.text()}
        if kind == 4:
            return {"type": "insertion", **at(self.number(1)), "new": self.list(self.node)}
        if kind == 5:
            position = self.number(1)
            return {"type": "insertion", **at(position), **(self.occurrence() if position < 2 else {}), "new": self.text()}
        if kind == 7:
            cut = {"child": self.text()} if self.number(1) else self.occurrence()
            return {"type": "split", **here, **cut, "num": self.name(), "heading": self.text()}
        return {"type": "join", **here, "second": self.text(), "separator": self.text()}

    def whole(self):
        self.format = self.number(1)
        if self.format not in (1, 2):
            raise ValueError("an entry of another format")
        made = {"drafter": self.name(), "request": self.number(8), "day": self.day(), "law": self.number(4)}
        kind = self.number(1)
        if kind == 1:
            made.update(command="enact", act=self.act())
        elif kind == 2:
            made.update(command="record", work=self.text(), modifications=self.list(self.modification))
        elif kind == 3:
            made.update(command="correct", id=self.id(), modification=self.modification())
        elif kind in (4, 5):
            made.update(command="withdraw" if kind == 4 else "restore", id=self.id())
        elif kind == 6:
            made.update(command="draftAdd", work=self.text(), modification=self.modification())
        elif kind == 7:
            made.update(command="draftDrop", item=self.number(4))
        else:
            made.update(command="file", work=self.text(), seen=self.number(4))
        return made


def entries(path):
    """The entries of the journal at a path; none where there is no journal yet."""
    if not os.path.exists(path):
        return []
    with open(path, "rb") as it:
        return [Entry(payload).whole() for payload in payloads(it.read())]


class Works:
    """What a register holds of each work: its act and, in their order, the modifications that stand."""

    def __init__(self, found):
        self.acts, self.modifications, self.of, self.withdrawn, drafts, number = {}, {}, {}, set(), {}, {}
        for it in found:
            command = it["command"]
            if command == "enact":
                self.acts[it["act"]["FRBRuri"]] = it["act"], it["law"]
                self.modifications.setdefault(it["act"]["FRBRuri"], {})
            elif command == "record":
                self.note(it["work"], it["law"], it["modifications"])
            elif command == "correct":
                self.modifications[self.of[it["id"]]][it["id"]] = it["modification"]
            elif command in ("withdraw", "restore"):
                (self.withdrawn.add if command == "withdraw" else self.withdrawn.discard)(it["id"])
            elif command == "draftAdd":
                number[it["drafter"]] = number.get(it["drafter"], 0) + 1
                drafts.setdefault(it["drafter"], {})[number[it["drafter"]]] = it["work"], it["modification"]
            elif command == "draftDrop":
                drafts.get(it["drafter"], {}).pop(it["item"], None)
            else:
                mine = drafts.get(it["drafter"], {})
                items = [at for at, (work, _) in mine.items() if work == it["work"]]
                self.note(it["work"], it["law"], [mine.pop(at)[1] for at in items])
        self.drafts = {drafter: items for drafter, items in drafts.items() if items}

    def note(self, work, law, modifications):
        for item, it in enumerate(modifications, 1):
            self.modifications.setdefault(work, {})[f"{law}.{item}"] = it
            self.of[f"{law}.{item}"] = work

    def standing(self, work):
        return {number: it for number, it in self.modifications.get(work, {}).items() if number not in self.withdrawn}

    def days(self, work):
        """The days on which the text of a work may change, from that of its act on."""
        act, _ = self.acts[work]
        found = {act["FRBRdate"]} | forms.days_named([act["force"], self.standing(work)])
        return sorted(day for day in found if day >= act["FRBRdate"])
