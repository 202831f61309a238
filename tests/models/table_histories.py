"""Random histories of a work whose table is revised with each command, as lines for `table_trial`, each with what is wanted of it: the reply,
the touched day, the cost, how many rows there are by a day, and which ids bear on one, all reckoned by `table_model`.
"""
import json
import random

from models.table_costs import Work, cost, own_day
from rows.dossiers import SOURCE, efficacy, force, inapplied, inserted, joined, node, repeal, split, substituted, textual
from rows.register import add, again, correct, draft, enact, file, law, record, refused, restore, withdraw

HISTORIES, COMMANDS = 300, 30
OTHER = "/akn/gb/act/2010-05-01/other"
DAYS = ["2010-05-01", "2010-06-01", "2010-12-31", "2011-01-01", "2011-01-02", "2011-02-01", "2011-03-01", "2011-06-30", "2011-07-01", "2012-01-01",
        "2012-02-29", "2013-01-01"]
BODY = [node(num=str(k), content="one two three") for k in range(1, 5)] + [
    node(num="5", children=[node("paragraph", "a", content="one"), node("paragraph", "b", content="two")])]
WIDS = ["sec_1", "sec_2", "sec_3", "sec_4", "sec_5", "sec_5__para_a", "sec_5__para_b"]
FORCE_TYPES = ["entryIntoForce", "postponementOfEntryIntoForce", "endOfEnactment", "prorogationOfForce", "reEnactment"]
EFFICACY_TYPES = ["entryIntoEfficacy", "endOfEfficacy", "postponementOfEfficacy", "prorogationOfEfficacy"]


class History:
    """The lines of a history, each with what is wanted; `None` where any line will do."""

    def __init__(self, draw, uri, reading, front, drafted):
        self.draw, self.uri, self.reading, self.front, self.drafted = draw, uri, reading, front, drafted
        until = {"until": "2012-06-01"} if draw.random() < 0.3 else {}
        self.work, self.rows, self.withdrawn, self.lines = Work({"from": "2010-06-01", **until}), [], {}, []
        self.request = 0
        self.front += 1
        self.lines.append((enact("ada", self.number(), uri, force=self.work.period, body=BODY), law(self.front) + " touched none cost 0"))
        self.orders = self.work.orders(reading)
        self.rows = [day for day, _ in self.orders]
        self.lines.append((f"make {uri} {reading}", f"rows {len(self.rows)} cost {cost(self.orders, '')}"))

    def number(self):
        """The number of the next request."""
        self.request += 1
        return 100 * self.front + self.request

    def told(self, line, reply, touched):
        """Adds a command that touches a day, and what the table is asked behind it."""
        spent = 0
        self.orders = self.work.orders(self.reading)
        if touched:
            spent = cost(self.orders, touched)
            self.rows = [day for day in self.rows if day < touched] + [day for day, _ in self.orders if touched <= day]
        self.lines.append((line, f"{reply} touched {touched or 'none'} cost {spent}"))
        self.lines.append(("same", f"same {len(self.orders)}"))
        if self.draw.random() < 0.2:
            day = self.draw.choice(DAYS)
            self.lines.append((f"rows {day}", f"rows {sum(row <= day for row in self.rows)}"))
            self.lines.append((f"at {day}", self.bearing(day)))
            self.lines.append((f"replay {day}", self.lines[-1][1]))

    def bearing(self, day):
        """The ids that bear on a day, in order: those of the last breakpoint by then."""
        return [ids for since, ids in [("", []), *self.orders] if since <= day][-1]

    def days(self):
        """A period that begins on one of the days, and may end."""
        start = self.draw.choice(DAYS)
        ends = [day for day in DAYS if day > start]
        return {"from": start, "until": self.draw.choice(ends)} if ends and self.draw.random() < 0.3 else {"from": start}

    def textual(self):
        """A textual modification; its place is its own."""
        wid, rest = self.draw.choice(WIDS), {"source": {"href": SOURCE, "place": 100 * self.draw.randrange(100) + len(self.work.said)},
                                             "force": self.days()}
        num = str(self.draw.randrange(1, 10))
        return self.draw.choice([
            lambda: textual(destination={"wId": wid}, **rest),
            lambda: substituted("two, too", wid, old="two", **rest),
            lambda: substituted([node(num=num, content="one new")], wid, **rest),
            lambda: inserted([node(num=num, content="one more")], "body", self.draw.choice(["start", "end"]), **rest),
            lambda: inserted(", then", wid, "end", **rest),
            lambda: textual(type="renumbering", destination=None, renumber=[{"wId": wid, "num": num}], **rest),
            lambda: split(wid, num, old="two", **rest),
            lambda: joined(wid, self.draw.choice([other for other in WIDS if other != wid]), **rest),
        ])()

    def destination(self):
        """A textual modification, if one is recorded, or a provision."""
        ids = [id for id, said in self.work.said.items() if "textualMod" in said]
        if ids and self.draw.random() < 0.85:
            return {"modification": "{}.{}".format(*self.draw.choice(ids))}
        return {"wId": self.draw.choice(["body", *WIDS])}

    def said(self, kind):
        """A modification of a kind."""
        on, date = self.draw.choice(DAYS), self.draw.choice(DAYS)
        if kind == "forceMod":
            return force(self.draw.choice(FORCE_TYPES), destination=self.destination(), on=on, date=date)
        if kind == "efficacyMod":
            return self.draw.choice([
                lambda: efficacy(self.draw.choice(EFFICACY_TYPES), destination=self.destination(), on=on, date=date),
                lambda: efficacy("retroactivity", destination=self.destination(), on=None, date=date),
                lambda: efficacy("extraefficacy", destination=self.destination(), on=on, date=None),
                lambda: inapplied(destination=self.destination(), on=on, days=self.days()),
            ])()
        return self.textual()

    def any_kind(self):
        return self.draw.choices(["textualMod", "forceMod", "efficacyMod"], [5, 2, 2])[0]

    def enter(self):
        """Adds one command, and whatever it needs."""
        ids = sorted(self.work.said)
        id = self.draw.choice(ids) if ids else None
        spelled = id and "{}.{}".format(*id)
        kind = self.draw.choices(["record", "correct", "change", "file", "other", "repeat"], [10, 6, 10, 1, 1, 1])[0]
        if kind == "other":
            self.front += 1
            day = self.draw.choice(DAYS)
            self.told(record("ada", self.number(), repeal(start=day), work=OTHER), law(self.front), day)
        elif kind == "file":
            self.filed()
        elif id is None or kind == "record":
            self.front += 1
            given = [self.said(self.any_kind()) for _ in range(self.draw.choice([1, 1, 1, 2, 3]))]
            self.work.record(self.front, given)
            touched = min((own_day(said) for said in given if own_day(said)), default=None)
            self.told(record("ada", self.number(), *given, work=self.uri), law(self.front), touched)
        elif kind == "correct":
            self.corrected(id, spelled)
        elif kind == "change":
            self.changed(id, spelled)
        else:
            self.refused(id, spelled)

    def filed(self):
        """Adds an item of a draft, which is then filed."""
        said = self.said(self.any_kind())
        self.drafted += 1
        self.lines.append((add("ada", self.number(), said, self.uri), draft(self.drafted) + " touched none cost 0"))
        line = file("ada", self.number(), self.front, self.uri)
        self.front += 1
        self.work.record(self.front, [said])
        self.told(line, law(self.front), own_day(said))

    def corrected(self, id, spelled):
        (kind, _), = self.work.said[id].items()
        old, new = self.work.said[id], self.said(kind)
        touched = self.work.touched(id, old, new)
        self.work.said[id] = new
        self.front += 1
        self.told(correct("ada", self.number(), spelled, new), law(self.front), touched)

    def changed(self, id, spelled):
        """An id that stands is withdrawn, and one that does not is restored."""
        self.front += 1
        touched = self.work.touched(id, self.work.said[id])
        line = (withdraw if self.work.live[id] else restore)("ada", self.number(), spelled)
        self.withdrawn[id] = self.front
        self.work.live[id] = not self.work.live[id]
        self.told(line, law(self.front), touched)

    def refused(self, id, spelled):
        """A command that is refused, or one that comes again; neither touches the table."""
        number = self.number()
        if self.work.live[id]:
            line = withdraw("ada", number, spelled)
            self.changed_by(id, line)
            self.lines.append((line, again(law(self.front))))
        else:
            self.lines.append((withdraw("ada", number, spelled), refused(9, self.withdrawn[id])))
        self.lines.append(("same", f"same {len(self.orders)}"))

    def changed_by(self, id, line):
        self.front += 1
        touched = self.work.touched(id, self.work.said[id])
        self.withdrawn[id], self.work.live[id] = self.front, False
        self.told(line, law(self.front), touched)


def histories(seed, reading, count=HISTORIES):
    """Lines of so many histories one behind the other, each of a work of its own, with what is wanted; the same commands in both readings."""
    lines = [(enact("ada", 1, OTHER, body=BODY), law(1) + " touched none cost 0")]
    front, drafted = 1, 0
    for k in range(count):
        history = History(random.Random(f"{seed} {k}"), f"/akn/gb/act/2010-05-01/{k + 1}", reading, front, drafted)
        for _ in range(COMMANDS):
            history.enter()
        front, drafted = history.front, history.drafted
        lines += history.lines
    return lines


def ids_told(line):
    """The ids that an answer names as applied and as unapplied."""
    answer = json.loads(line)
    return answer["applied"], [entry["id"] for entry in answer["unapplied"]]
