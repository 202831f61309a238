"""A desk of small acts as a model: what it answers to commands, questions and drafts, and the entry that an accepted command becomes. It was
written from docs/PROTOCOL.md, docs/RULES.md, docs/MODEL.md and docs/ENTRY.md.

The acts have three sections and bear from 2010-06-01; a modification repeals a section or substitutes a text of one, from a day on, by one source.
"""
import datetime

from clients.messages import command as posted, compact, front, get, response
from models import entry_bytes
from models.journal_openings import undated
from rows import dossiers, histories, register
from rows.drafts import item, preview

WORKS = [f"/akn/gb/act/2010-05-01/{number}" for number in (7, 8, 9)]
CONTENTS = ["One one one.", "Two two two.", "Three three."]
LETTERS = ["o", "e", "w", "ee", "One", "Two"]
BODY = [dossiers.node(num=str(k), content=content) for k, content in enumerate(CONTENTS, 1)]


class State:
    """A register: commands by drafter and request with their first reply, the law entry of each enacted work, modifications by id, drafts by drafter
    with the number of items so far, the last law entry on each work, and the state at each law entry. A state is never changed once it is made."""

    def __init__(self):
        self.done, self.works, self.mods, self.drafts, self.touched, self.at = {}, {}, {}, {}, {}, []

    def copied(self):
        other = State()
        for name in ("done", "works", "mods", "drafts", "touched"):
            setattr(other, name, dict(getattr(self, name)))
        other.at = list(self.at)
        return other

    @property
    def laws(self):
        return len(self.at)


def named(modification, provision):
    """The modification, made by this provision of its source, or by none that is named."""
    if provision:
        modification["textualMod"]["source"]["provision"] = provision
    return modification


def repeal(k, start, place):
    return dossiers.repeal(f"sec_{k}", start, place=place)


def substituted(k, start, place, old, new):
    return dossiers.substituted(new, f"sec_{k}", old=old, occurrence=1, source={"href": dossiers.SOURCE, "place": place}, force={"from": start})


def enacted(state, asked):
    work = asked["act"]["FRBRuri"]
    if work in state.works:
        return 4, state.works[work]

    def enact(new, law):
        new.works[work] = law
        new.touched[work] = law
    return enact


def recorded_on(work, modifications):
    def record(new, law):
        for number, modification in enumerate(modifications, 1):
            new.mods[law, number] = (work, modification, None)
        new.touched[work] = law
    return record


def recorded(state, asked):
    work = asked["work"]
    return recorded_on(work, asked["modifications"]) if work in state.works else (3, work)


def numbers(id):
    return tuple(map(int, id.split(".")))


def of_id(judged):
    """What an id that is not recorded gets; or what is judged of the modification of that id."""
    def judge(state, asked):
        id = numbers(asked["id"])
        return judged(id, *state.mods[id], asked) if id in state.mods else (8, asked["id"])
    return judge


def changed(id, work, modification, withdrawn_by):
    """Another body, or the law entry that withdrew it; by None it stands, and by True this entry withdraws it."""
    def change(new, law):
        new.mods[id] = (work, modification, law if withdrawn_by is True else withdrawn_by)
        new.touched[work] = law
    return change


def corrected(id, work, _, withdrawn_by, asked):
    return changed(id, work, asked["modification"], withdrawn_by)


def withdrawn(id, work, modification, withdrawn_by, _):
    return (9, withdrawn_by) if withdrawn_by else changed(id, work, modification, True)


def restored(id, work, modification, withdrawn_by, asked):
    return changed(id, work, modification, None) if withdrawn_by else (10, asked["id"])


def items_of(state, drafter):
    return state.drafts.get(drafter, (0, ()))


def added(state, asked):
    if asked["work"] not in state.works:
        return 3, asked["work"]
    count, items = items_of(state, asked["drafter"])

    def add(new, _):
        new.drafts[asked["drafter"]] = (count + 1, (*items, (count + 1, asked["work"], asked["modification"])))
    return add


def dropped(state, asked):
    count, items = items_of(state, asked["drafter"])
    left = tuple(one for one in items if one[0] != asked["item"])
    if len(left) == len(items):
        return 8, f"0.{asked['item']}"

    def drop(new, _):
        new.drafts[asked["drafter"]] = (count, left)
    return drop


def filed(state, asked):
    work = asked["work"]
    count, items = items_of(state, asked["drafter"])
    taken = [modification for _, on, modification in items if on == work]
    if work not in state.works:
        return 3, work
    if state.touched[work] > asked["seen"]:
        return 12, state.touched[work]
    if not taken:
        return 13, work

    def file(new, law):
        recorded_on(work, taken)(new, law)
        new.drafts[asked["drafter"]] = (count, tuple(one for one in items if one[1] != work))
    return file


JUDGED = {"enact": enacted, "record": recorded, "correct": of_id(corrected), "withdraw": of_id(withdrawn), "restore": of_id(restored),
          "draftAdd": added, "draftDrop": dropped, "file": filed}
# The number of the item that a command of a draft answers.
OF_DRAFTS = {"draftAdd": lambda state, asked: items_of(state, asked["drafter"])[0] + 1, "draftDrop": lambda state, asked: asked["item"]}


def verdict(state, asked):
    """The bytes of the response to a command; and where it is accepted what it changes, and its reply."""
    key = asked["drafter"], asked["request"]
    if key in state.done:
        first, reply = state.done[key]
        return (response(201, compact(reply)) if first == asked else refused(1, *reply.values())), None, None
    change = JUDGED[asked["command"]](state, asked)
    if isinstance(change, tuple):
        return refused(*change), None, None
    item = OF_DRAFTS.get(asked["command"])
    reply = {"draft": item(state, asked)} if item else {"law": state.laws + 1}
    return response(201, compact(reply)), change, reply


def entered(state, asked):
    """The state that a command leaves; where it is not accepted, the same one."""
    _, change, reply = verdict(state, asked)
    if change is None:
        return state
    new = state.copied()
    change(new, state.laws + 1)
    if "law" in reply:
        new.at.append(new)
    new.done[asked["drafter"], asked["request"]] = asked, reply
    return new


def refused(rule, kept):
    return response(histories.STATUS_OF_RULE[rule], register.refused(rule, kept))


def replayed(mods, work, day):
    """The sections of a text on a day, the ids that apply, and the others with their cause."""
    sections = {f"sec_{k}": content for k, content in enumerate(CONTENTS, 1)}
    applied, unapplied = [], []
    due = [(mod["force"]["from"], mod["source"]["place"], id, mod) for id, (on, body, gone) in mods.items() if on == work and not gone
           for mod in [body["textualMod"]] if mod["force"]["from"] <= day]
    for _, _, id, mod in sorted(due, key=lambda one: one[:3]):
        wid, name = mod["destination"]["wId"], "%d.%d" % id
        if wid not in sections:
            unapplied.append({"cause": "TargetMissing", "id": name})
        elif mod["type"] == "repeal":
            del sections[wid]
            applied.append(name)
        elif mod["old"] in sections[wid]:
            sections[wid] = sections[wid].replace(mod["old"], mod["new"], 1)
            applied.append(name)
        else:
            unapplied.append({"cause": "OldTextMissing", "id": name})
    return sections, applied, unapplied


def answered(mods, work, day, viewpoint):
    sections, applied, unapplied = replayed(mods, work, day)
    body = [histories.printed("section", wid.removeprefix("sec_"), content) for wid, content in sections.items()]
    return response(200, histories.answered(work, day, viewpoint, body, applied, unapplied))


def unanswered(rule, kept):
    return response(histories.STATUS_OF_QUERY[rule], compact({"kept": kept, "name": histories.QUERY_NAMES[rule], "query": rule}))


class Front:
    """A question for the front."""
    sent = get("/front")

    def reply(self, state):
        return front(state.laws)


class Text:
    """A question for the text of a work on a day, at a viewpoint or at the front. The day is 2010-06-01 or later."""

    def __init__(self, work, day, viewpoint=None):
        self.work, self.day, self.viewpoint = work, day, viewpoint
        self.sent = get(histories.text(f"{work}/eng@{day}", viewpoint))

    def reply(self, state):
        viewpoint = state.laws if self.viewpoint is None else self.viewpoint
        if state.works.get(self.work, viewpoint + 1) > viewpoint:
            return unanswered(1, self.work)
        if viewpoint > state.laws:
            return unanswered(2, state.laws)
        return answered(state.at[viewpoint - 1].mods, self.work, self.day, viewpoint)


class Draft:
    """A question for the draft of a drafter."""

    def __init__(self, drafter):
        self.drafter, self.sent = drafter, get(f"/draft?drafter={drafter}")

    def reply(self, state):
        shown = [item(number, modification, work) for number, work, modification in items_of(state, self.drafter)[1]]
        return response(200, compact({"draft": shown}))


class Preview:
    """A question for what a text would be once a draft is filed."""

    def __init__(self, drafter, work, day):
        self.drafter, self.work, self.day = drafter, work, day
        self.sent = get(preview(drafter, f"{work}/eng@{day}"))

    def reply(self, state):
        if self.work not in state.works:
            return unanswered(1, self.work)
        items = [modification for _, work, modification in items_of(state, self.drafter)[1] if work == self.work]
        law = state.laws + bool(items)
        mods = {**state.mods, **{(law, number): (self.work, modification, None) for number, modification in enumerate(items, 1)}}
        return answered(mods, self.work, self.day, law)


class Command:
    """A command, as the object of its JSON."""

    def __init__(self, **asked):
        self.asked = asked
        self.sent = posted(compact(asked))

    def reply(self, state):
        return verdict(state, self.asked)[0]

    def payload(self):
        """The entry that it becomes, without its day and with the law number 0."""
        parts = spelled(self.asked), 0, self.asked["request"], self.asked["drafter"]
        return without_law(undated(entry_bytes.spelled(entry_bytes.entry(*parts, format_=1 + asks_second(self.asked)))))


class Fixed:
    """A request to which the register has nothing to say, with its response."""

    def __init__(self, sent, wanted):
        self.sent, self.wanted = sent, wanted

    def reply(self, _):
        return self.wanted


def without_law(payload):
    """An entry without its day, with the law number 0; and `law_of` its law number."""
    place = 2 + payload[1] + 8
    return payload[:place] + bytes(4) + payload[place + 4:]


def law_of(payload):
    place = 2 + payload[1] + 8
    return int.from_bytes(payload[place:place + 4], "big")


def day_number(day):
    return datetime.date.fromisoformat(day).toordinal()


def asks_second(asked):
    """Whether a command asks for the second format: its act is wide, or one of its sources names a provision."""
    bodies = [*asked.get("modifications", []), *([asked["modification"]] if "modification" in asked else [])]
    return "nodeLimit" in asked.get("act", {}) or any("provision" in body["textualMod"]["source"] for body in bodies)


def body_of(modification, second):
    mod = modification["textualMod"]
    names = mod["source"].get("provision", "") if second else None
    wid = mod["destination"]["wId"]
    edit = entry_bytes.repeal(wid) if mod["type"] == "repeal" else entry_bytes.substituted_text(wid, mod["old"], mod["occurrence"], mod["new"])
    return entry_bytes.textual(edit, day_number(mod["force"]["from"]), href=mod["source"]["href"], place=mod["source"]["place"], names=names)


def spelled(asked):
    """The fields of a command in an entry."""
    word, work = asked["command"], entry_bytes.work("work", asked.get("work", WORKS[0]))
    id, second = entry_bytes.id_("id", *numbers(asked.get("id", "0.0"))), asks_second(asked)
    if word == "enact":
        nodes = [entry_bytes.node(node["num"], content=node["content"]) for node in asked["act"]["body"]]
        return entry_bytes.command(1, entry_bytes.act(nodes, asked["act"]["FRBRuri"], limit=asked["act"].get("nodeLimit")))
    if word == "record":
        return entry_bytes.command(2, work, entry_bytes.listed("modifications", [body_of(one, second) for one in asked["modifications"]]))
    if word == "correct":
        return entry_bytes.command(3, id, body_of(asked["modification"], second))
    if word in ("withdraw", "restore"):
        return entry_bytes.command(4 + (word == "restore"), id)
    if word == "draftAdd":
        return entry_bytes.command(6, work, body_of(asked["modification"], second))
    if word == "draftDrop":
        return entry_bytes.command(7, entry_bytes.u32("item", asked["item"]))
    return entry_bytes.command(8, work, entry_bytes.u32("seen", asked["seen"]))


class Drafter:
    """A drafter who asks and commands at random, and remembers what he was told of ids, items and the front."""

    def __init__(self, name, draw):
        self.name, self.draw, self.request, self.place = name, draw, 0, 0
        self.ids, self.items, self.seen, self.sent = [], [], 0, []

    def modification(self):
        self.place = (self.place + 1) % 60_000
        start, provision = f"201{self.draw.randrange(1, 4)}-0{self.draw.randrange(1, 4)}-01", self.draw.choice(["", "", "sec_9", "m5-1__sec_4"])
        if self.draw.random() < 0.15:
            return named(repeal(self.draw.randrange(1, 4), start, self.place), provision)
        return named(substituted(self.draw.randrange(1, 4), start, self.place, self.draw.choice(LETTERS), self.draw.choice(LETTERS)), provision)

    def command(self):
        """A command of a kind that is drawn, under the next number; or under a number that is used, or one again as it was."""
        work, id = self.draw.choice(WORKS), self.draw.choice(self.ids or ["2.1"])
        make = self.draw.choices(
            [lambda: {"command": "record", "work": work, "modifications": [self.modification() for _ in range(self.draw.choice([1, 1, 2]))]},
             lambda: {"command": "correct", "id": id, "modification": self.modification()},
             lambda: {"command": "withdraw", "id": id},
             lambda: {"command": "restore", "id": id},
             lambda: {"command": "draftAdd", "work": work, "modification": self.modification()},
             lambda: {"command": "draftDrop", "item": self.draw.choice(self.items or [1])},
             lambda: {"command": "file", "work": work, "seen": self.seen},
             lambda: {"command": "enact", "act": dossiers.act(FRBRuri=work, body=BODY, nodeLimit=self.draw.choice([None, 8192]))}],
            [6, 2, 3, 2, 4, 1, 3, 1])[0]
        if self.sent and self.draw.random() < 0.1:
            return self.draw.choice(self.sent)
        self.request += self.draw.random() < 0.97 or not self.sent
        made = Command(drafter=self.name, request=self.request, **make())
        self.sent.append(made)
        return made

    def question(self):
        work, day = self.draw.choice(WORKS), f"201{self.draw.randrange(1, 4)}-0{self.draw.randrange(1, 4)}-01"
        viewpoint = self.draw.choice([None, None, self.seen, self.seen + 1, self.draw.randrange(self.seen + 1)])
        return self.draw.choice([Front(), Front(), Text(work, day, viewpoint), Text(work, day), Draft(self.name), Draft(f"d{self.draw.randrange(8)}"),
                                 Preview(self.name, work, day)])

    def heard(self, request, status, value):
        """Remembers what a response says."""
        if isinstance(request, Command) and status == 201:
            if "law" in value:
                self.seen = max(self.seen, value["law"])
                self.ids += [f"{value['law']}.1"] if request.asked["command"] in ("record", "file") else []
            elif request.asked["command"] == "draftAdd":
                self.items.append(value["draft"])
        self.seen = max(self.seen, value.get("front", 0) if status == 200 else 0)
