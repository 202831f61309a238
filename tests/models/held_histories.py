"""Random histories of works that depend on each other: commands with their law entries, for whoever asks a desk and reckons anew."""
import datetime
import random

from rows.dossiers import act, efficacy, force, inapplied, inserted, joined, node, split, substituted, textual
from rows.register import add, correct, draft, drop, enact, file, law, record, restore, withdraw

DAYS = ["2010-06-01", "2011-01-01", "2011-02-01", "2011-06-01", "2011-07-01", "2012-01-01"]
ACT_DAYS = ["2010-05-01", "2010-05-01", "2010-12-01", "2011-03-03", "2011-03-03", "2012-02-29"]
BODY = [node(num="1", content="One."), node(num="2", content="Two."),
        node(num="3", content="Three.", children=[node("paragraph", "a", content="a"), node("paragraph", "b", content="b")])]
WIDS = ["sec_1", "sec_2", "sec_3", "sec_3__para_a", "sec_3__para_b"]
NEIGHBOURS = [("sec_1", "sec_2"), ("sec_2", "sec_3"), ("sec_3__para_a", "sec_3__para_b"), ("sec_3", "sec_3__para_a"), ("sec_2", "body")]
FORCE_TYPES = ["entryIntoForce", "postponementOfEntryIntoForce", "endOfEnactment", "prorogationOfForce", "reEnactment"]
EFFICACY_TYPES = ["entryIntoEfficacy", "endOfEfficacy", "postponementOfEfficacy", "prorogationOfEfficacy"]
READINGS = ("force", "efficacy")


def around(days):
    """Days, each with the one before it and the one after it."""
    one = datetime.timedelta(days=1)
    parsed = [datetime.date.fromisoformat(day) for day in days]
    return sorted({str(day + shift * one) for day in parsed for shift in (-1, 0, 1)})


ALL_DAYS = around({*DAYS, *ACT_DAYS})


class Course:
    """A history: its law, and the line of each command. So often a source names a provision."""

    def __init__(self, seed, works=8, commands=40, least=2, named=0.75):
        self.draw, self.law, self.lines, self.of, self.live, self.named = random.Random(seed), [], [], {}, {}, named
        count = self.draw.randrange(least, works + 1)
        days = [self.draw.choice(ACT_DAYS) for _ in range(count)]
        self.uris = [f"/akn/gb/act/{day if self.draw.random() < 0.8 else day[:4]}/{number}" for number, day in enumerate(days, 1)]
        self.day_of = dict(zip(self.uris, days))
        self.waiting, self.number = list(self.uris), 0
        self.enter_act()
        for _ in range(commands):
            self.enter()

    def told(self, entry, make, parts, keys):
        """One more law entry, with the line of its command."""
        self.number += 1
        self.law.append(entry)
        self.lines.append(make("ada", self.number, *parts, **keys))

    def days(self):
        start = self.draw.choice(DAYS)
        ends = [day for day in DAYS if day > start]
        return {"from": start, "until": self.draw.choice(ends)} if ends and self.draw.random() < 0.3 else {"from": start}

    def body(self):
        """The nodes of an act."""
        return BODY

    def new(self, law):
        """The nodes of a payload."""
        return [node(num=str(20 + law), content="New.")]

    def wid(self):
        brought = [f"m{law}-{item}__sec_{num + law}" for law, item in self.of for num in (20, 60)]
        return self.draw.choice(WIDS + brought[-8:])

    def source(self, work):
        """A source, rather a work of a later day, and often a provision of it."""
        later = [uri for uri in self.uris if self.day_of[uri] > self.day_of[work]]
        href = self.draw.choice(later if later and self.draw.random() < 0.7 else self.uris)
        named = {"provision": self.draw.choice(["body", *(self.wid() for _ in range(7))])} if self.draw.random() < self.named else {}
        return {"href": href, "place": self.draw.randrange(4), **named}

    def textual(self, work, law):
        rest = {"source": self.source(work), "force": self.days()}
        new = self.new(law)
        return self.draw.choice([
            lambda: textual(destination={"wId": self.wid()}, **rest),
            lambda: textual(destination={"wId": self.draw.choice(["body", *(self.wid() for _ in range(5))])}, **rest),
            lambda: substituted(new, self.wid(), **rest),
            lambda: inserted(new, "body", self.draw.choice(["start", "end"]), **rest),
            lambda: inserted(new, self.wid(), self.draw.choice(["before", "after"]), **rest),
            lambda: inserted(", then", self.wid(), "end", **rest),
            lambda: split(self.wid(), str(60 + law), old=self.draw.choice(["e", "."]), **rest),
            lambda: split("sec_3", str(60 + law), child=self.draw.choice(WIDS[-2:]), **rest),
            lambda: joined(*self.draw.choice(NEIGHBOURS), separator=self.draw.choice([" ", ""]), **rest),
            lambda: textual(type="renumbering", destination=None, renumber=[{"wId": self.wid(), "num": str(40 + law)}], **rest),
        ])()

    def directed(self, work):
        ids = [id for id, (uri, kind) in self.of.items() if uri == work and kind == "textualMod"]
        if ids and self.draw.random() < 0.4:
            to = {"modification": "{}.{}".format(*self.draw.choice(ids))}
        else:
            to = {"wId": self.draw.choice(["body", self.wid(), self.wid(), self.wid()])}
        on, date, source = self.draw.choice(DAYS), self.draw.choice(DAYS), self.source(work)
        return self.draw.choice([
            lambda: force(self.draw.choice(FORCE_TYPES), destination=to, on=on, date=date, source=source),
            lambda: force(self.draw.choice(FORCE_TYPES), destination=to, on=on, date=date, source=source),
            lambda: efficacy(self.draw.choice(EFFICACY_TYPES), destination=to, on=on, date=date, source=source),
            lambda: efficacy("retroactivity", destination=to, on=None, date=date, source=source),
            lambda: inapplied(destination=to, on=on, days=self.days(), source=source),
        ])()

    def said(self, work, law):
        return self.textual(work, law) if self.draw.random() < 0.7 else self.directed(work)

    def enter_act(self):
        uri = self.waiting.pop(self.draw.randrange(len(self.waiting)))
        keys = {"FRBRdate": self.day_of[uri], "force": self.days(), "body": self.body()}
        self.told(("enact", act(FRBRuri=uri, **keys)), enact, (uri,), keys)

    def enter(self):
        enacted = [uri for uri in self.uris if uri not in self.waiting]
        ids, law = list(self.of), len(self.law) + 1
        kind = self.draw.choices(["enact", "record", "correct", "change"], [2, 6, 1, 2])[0]
        if kind == "enact" and self.waiting:
            self.enter_act()
        elif kind == "correct" and ids:
            id = self.draw.choice(ids)
            uri, kind = self.of[id]
            body = None
            while body is None or next(iter(body)) != kind or self.aims(body, id):
                body = self.directed(uri) if kind != "textualMod" else self.textual(uri, law)
            self.told(("correct", id, body), correct, ("{}.{}".format(*id), body), {})
        elif kind == "change" and ids:
            id = self.draw.choice(ids)
            self.live[id] = not self.live[id]
            word = "restore" if self.live[id] else "withdraw"
            self.told((word, id), restore if self.live[id] else withdraw, ("{}.{}".format(*id),), {})
        else:
            uri = self.draw.choice(enacted)
            mods = [self.said(uri, law) for _ in range(self.draw.choice([1, 2, 3]))]
            self.told(("record", uri, mods), record, tuple(mods), {"work": uri})
            for item, m in enumerate(mods, 1):
                self.of[law, item], self.live[law, item] = (uri, next(iter(m))), True

    @staticmethod
    def aims(body, id):
        return next(iter(body.values())).get("destination") == {"modification": "{}.{}".format(*id)}


class Drafting(Course):
    """A history beside which another drafter has a draft. Behind each line stand the reply to it, the law then, and that draft."""

    def __init__(self, seed, *sizes, **settings):
        self.replies, self.laws, self.drafts, self.drafted, self.added = [], [], [], [], 0
        super().__init__(seed, *sizes, **settings)

    def stands(self, reply):
        """What stands behind a line."""
        self.replies.append(reply)
        self.laws.append(list(self.law))
        self.drafts.append(list(self.drafted))

    def told(self, entry, make, parts, keys):
        super().told(entry, make, parts, keys)
        self.stands(law(len(self.law)))

    def beside(self, line, reply):
        """A line of the other drafter."""
        self.lines.append(line)
        self.stands(reply)

    def draft(self):
        """A step of the other drafter: he adds to his draft, drops the last of it, or files it."""
        self.number += 1
        kind = self.draw.choice(["add", "add", "drop", "file"])
        if kind == "drop" and self.drafted:
            item, _, _ = self.drafted.pop()
            self.beside(drop("bob", self.number, item), draft(item))
        elif kind == "file" and self.drafted:
            self.file(self.drafted[-1][1])
        else:
            work = self.draw.choice([uri for uri in self.uris if uri not in self.waiting])
            said = self.said(work, len(self.law) + 1)
            self.added += 1
            self.drafted.append((self.added, work, said))
            self.beside(add("bob", self.number, said, work), draft(self.added))

    def file(self, work):
        """He files what his draft has of a work."""
        line = file("bob", self.number, len(self.law), work)
        mods = [said for _, uri, said in self.drafted if uri == work]
        self.drafted = [one for one in self.drafted if one[1] != work]
        self.law.append(("record", work, mods))
        for item, m in enumerate(mods, 1):
            self.of[len(self.law), item], self.live[len(self.law), item] = (work, next(iter(m))), True
        self.beside(line, law(len(self.law)))

    def enter(self):
        if self.draw.random() < 0.2:
            self.draft()
        else:
            super().enter()
