"""All faults of a dossier, where the desk tells the first: those of its form, and the rules that its commands break (docs/REFUSALS.md)."""
import calendar
import re

import forms
import places

NAMES = {1: "NotJson", 2: "WrongShape", 3: "BadName", 4: "BadDay", 5: "BadElement", 6: "BadNumber", 7: "UnknownWord", 8: "DateDiffers", 9: "TooLong"}
RULES = {5: "BadTree", 6: "BadModification", 7: "BadPeriod", 8: "UnknownModification", 11: "WrongKind", 15: "WorkFull"}
LONGEST = 8_388_608
# The kind of a value that is wanting.
ABSENT = "absent"
ID = re.compile(r"(0|[1-9][0-9]{0,9})\.(0|[1-9][0-9]{0,4})\Z")
NODE = (("element", "num"), ("heading", "content", "refs", "children"))
TEXTUAL = ("type", "source", "force")
FORCE = ("entryIntoForce", "postponementOfEntryIntoForce", "endOfEnactment", "prorogationOfForce", "reEnactment")
EFFICACY = {**dict.fromkeys(("entryIntoEfficacy", "endOfEfficacy", "postponementOfEfficacy", "prorogationOfEfficacy"), ("on", "date")),
            "retroactivity": ("date",), "extraefficacy": ("on",), "inapplication": ("on", "days")}


class Fault:
    """A fault of the form (kind `form`: number and place) or of a rule (kind `rule`: number and kept value), with its path in the JSON and its place in the text."""

    def __init__(self, kind, number, kept, path, at, why):
        self.kind, self.number, self.kept, self.path, self.at, self.why = kind, number, kept, path, at, why

    def name(self):
        return (NAMES if self.kind == "form" else RULES)[self.number]

    def line(self):
        """The line that the desk would end with."""
        if self.kind == "form":
            return {"form": self.number, "name": self.name(), "place": self.kept}
        return {"kept": self.kept, "name": self.name(), "rule": self.number}


def is_day(text):
    found = re.fullmatch(r"([0-9]{4})-([0-9]{2})-([0-9]{2})", text, re.ASCII)
    if not found:
        return False
    year, month, day = (int(it) for it in found.groups())
    if not (1 <= year and 1 <= month <= 12):
        return False
    leap = calendar.isleap(year)
    return 1 <= day <= (31, 29 if leap else 28, 31, 30, 31, 30, 31, 31, 30, 31, 30, 31)[month - 1]


def is_date(text):
    return is_day(text) if len(text) == 10 else text != "0000"


def is_work(text):
    return bool(forms.WORK.match(text)) and is_date(re.search(r"/([0-9]{4}(-[0-9]{2}-[0-9]{2})?)/[^/]*\Z", text)[1])


def is_expression(text):
    if not forms.EXPRESSION.match(text):
        return False
    work, _, version = text.partition("@")
    day = version.partition("/")[0]
    return is_work(work.rpartition("/")[0]) and (not day or is_day(day))


class Form:
    """Looks at the values of a dossier. What has its form is also given as plain values, for the rules."""

    def __init__(self):
        self.faults, self.place = [], 0

    def say(self, number, path, value, why):
        self.faults.append(Fault("form", number, self.place, path, value.at, why))

    def table(self, value, path, must, may=()):
        """The members of an object that a table has, or None. One that is wanting is absent, so that all else is looked at too."""
        found = self.of_kind(value, path, "object")
        if found is None:
            return None
        lacking, unknown = [it for it in must if it not in value.value], [it for it in value.value if it not in must and it not in may]
        for it in lacking:
            self.say(2, path, value, f"the key {it} is wanting")
        for it in unknown:
            self.say(2, f"{path}.{it}", value.value[it], f"no key {it} stands in this table")
        return {**{it: places.Value(ABSENT, None, value.at) for it in lacking}, **{key: it for key, it in found.items() if key not in unknown}}

    def of_kind(self, value, path, kind):
        if value.kind == kind:
            return value.value
        if value.kind != ABSENT:
            self.say(2, path, value, f"{'an' if kind == 'object' else 'a'} {kind} should stand here, and not a {value.kind}")
        return None

    def text(self, value, path, number=0, test=None, why=""):
        found = self.of_kind(value, path, "text")
        if found is not None and test and not test(found):
            self.say(number, path, value, f"'{found[:80]}' {why}")
            return None
        return found

    def day(self, value, path):
        return self.text(value, path, 4, is_day, "is no day of the calendar as 2011-01-31")

    def work(self, value, path):
        return self.text(value, path, 3, is_work, "is no IRI of a work")

    def num(self, value, path):
        return self.text(value, path, 5, lambda it: forms.NUM.match(it), "is no num: 1 to 16 letters, digits and -")

    def number(self, value, path, most):
        if value.kind != "number":
            return self.of_kind(value, path, "number")
        if value.value is None or value.value > most:
            return self.say(6, path, value, f"no whole number from 0 to {most}")
        return value.value

    def limit(self, value, path):
        """How many provisions an act may have."""
        if value.kind != "number":
            return self.of_kind(value, path, "number")
        if value.value not in forms.LIMITS:
            return self.say(6, path, value, f"no number of provisions that an act may have, {' or '.join(map(str, forms.LIMITS))}")
        return value.value

    def period(self, value, path):
        found = self.table(value, path, ("from",), ("until",))
        if found is None:
            return None
        start = self.day(found["from"], f"{path}.from")
        end = self.day(found["until"], f"{path}.until") if "until" in found else ""
        return (start, end, path, value) if start is not None and end is not None else None

    def source(self, value, path):
        found = self.table(value, path, ("href", "place"), ("provision",))
        if found is not None:
            self.work(found["href"], f"{path}.href")
            self.number(found["place"], f"{path}.place", 65535)
            if "provision" in found:
                self.text(found["provision"], f"{path}.provision", 3, forms.PORTION.match, "is no wId of a provision: 1 to 512 letters, digits, - and _")

    def list(self, value, path, each):
        found = self.of_kind(value, path, "list")
        return None if found is None else [each(it, f"{path}[{at}]") for at, it in enumerate(found)]

    def node(self, value, path):
        """A node as (element, num, heading, content, refs, children, path, value), or None."""
        found = self.table(value, path, *NODE)
        if found is None:
            return None
        element = self.text(found["element"], f"{path}.element", 5, lambda it: it in forms.WORDS, "is no element of the desk")
        num = self.num(found["num"], f"{path}.num")
        heading = self.text(found["heading"], f"{path}.heading") if "heading" in found else ""
        content = self.text(found["content"], f"{path}.content") if "content" in found else ""
        ref = lambda it, at: self.text(it, at, 3, is_expression, "is no IRI of an expression")
        refs = self.list(found["refs"], f"{path}.refs", ref) if "refs" in found else []
        children = self.list(found["children"], f"{path}.children", self.node) if "children" in found else []
        return element, num, heading, content, refs, children, path, value

    def act(self, value, path):
        keys = ("FRBRuri", "FRBRdate", "FRBRlanguage", "force", "body")
        found = self.table(value, path, keys, ("numbering", "nodeLimit"))
        if found is None:
            return None
        work = self.work(found["FRBRuri"], f"{path}.FRBRuri")
        date = self.day(found["FRBRdate"], f"{path}.FRBRdate")
        if work and date:
            of_iri = re.search(r"/([0-9]{4}(-[0-9]{2}-[0-9]{2})?)/[^/]*\Z", work)[1]
            if not date.startswith(of_iri):
                self.say(8, f"{path}.FRBRdate", found["FRBRdate"], f"the day of the act is not that of its IRI ({of_iri})")
        self.text(found["FRBRlanguage"], f"{path}.FRBRlanguage", 3, lambda it: re.fullmatch(r"[a-z]{3}", it), "is no language of three letters")
        name = lambda it, at: self.text(it, at, 5, lambda text: text in forms.WORDS, "is no element of the desk")
        numbering = self.list(found["numbering"], f"{path}.numbering", name) if "numbering" in found else ["article", "section"]
        limit = self.limit(found["nodeLimit"], f"{path}.nodeLimit") if "nodeLimit" in found else forms.MOST_NODES
        force = self.period(found["force"], f"{path}.force")
        body = self.list(found["body"], f"{path}.body", self.node)
        return {"numbering": numbering, "limit": limit, "force": force, "body": body, "path": path, "value": value}

    def modification(self, value, path):
        if value.kind != "object":
            self.say(2, path, value, f"an object should stand here, and not a {value.kind}")
            return None
        if len(value.value) != 1 or next(iter(value.value)) not in ("textualMod", "forceMod", "efficacyMod"):
            self.say(2, path, value, "one key should stand here: textualMod, forceMod or efficacyMod")
            return None
        kind, inner = next(iter(value.value.items()))
        path = f"{path}.{kind}"
        if inner.kind != "object":
            self.say(2, path, inner, f"an object should stand here, and not a {inner.kind}")
            return None
        word = inner.value.get("type")
        if word is None or word.kind != "text":
            self.say(2, path, inner, "the key type is wanting, or no text")
            return None
        return {"textualMod": self.textual, "forceMod": self.bearing, "efficacyMod": self.bearing}[kind](inner, path, word, kind)

    def textual(self, value, path, word, kind):
        keys = self.keys_of_textual(value, path, word)
        if keys is None:
            return self.common(value, path)
        found = self.table(value, path, *keys)
        made = {"kind": kind, "type": word.value, "path": path, "value": value}
        self.source(found["source"], f"{path}.source")
        made["periods"] = [self.period(found["force"], f"{path}.force")]
        made["edit"] = self.edit(found, path, word.value)
        return made

    def common(self, value, path):
        """Looks at what stands in a modification of any type, where its own keys can't be told."""
        for key, look in (("source", self.source), ("force", self.period)):
            if key in value.value:
                look(value.value[key], f"{path}.{key}")

    def keys_of_textual(self, value, path, word):
        """The keys of a textual modification, by its word and by what it brings."""
        if word.value not in ("repeal", "substitution", "insertion", "renumbering", "split", "join"):
            self.say(7, f"{path}.type", word, f"'{word.value[:40]}' is no type of a textual modification")
            return None
        keys = {"repeal": (("destination",), ()), "renumbering": (("renumber",), ()), "join": (("destination", "second"), ("separator",))}
        if word.value in keys:
            must, may = keys[word.value]
            return (*TEXTUAL, *must), may
        if word.value == "split":
            has_child = "child" in value.value
            return ((*TEXTUAL, "destination", "child", "num"), ("heading",)) if has_child else ((*TEXTUAL, "destination", "old", "num"), ("occurrence", "heading"))
        new = value.value.get("new")
        if new is None or new.kind not in ("list", "text"):
            self.say(2, path, value, "the key new is wanting, or neither a list nor a text")
            return None
        if new.kind == "list":
            return (*TEXTUAL, "destination", "new"), ()
        if word.value == "substitution":
            return (*TEXTUAL, "destination", "old", "new"), ("occurrence",)
        pos = value.value["destination"].value.get("pos") if "destination" in value.value and value.value["destination"].kind == "object" else None
        beside = pos is not None and pos.kind == "text" and pos.value in ("before", "after")
        at_end = pos is not None and pos.kind == "text" and pos.value in ("start", "end")
        if beside:
            return (*TEXTUAL, "destination", "old", "new"), ("occurrence",)
        return (*TEXTUAL, "destination", "new"), (() if at_end else ("old", "occurrence"))

    def edit(self, found, path, word):
        """What an edit says, for the rules: its wIds, texts, nodes, pairs, occurrence."""
        made = {"wids": [], "texts": [], "nodes": None, "pairs": None, "occurrence": 1, "old": None, "twice": False}
        keys = ("wId", "pos") if word == "insertion" else ("wId",)
        if "destination" in found:
            self.destination(found["destination"], f"{path}.destination", keys, made)
        for key in ("second", "child"):
            if key in found:
                text = self.text(found[key], f"{path}.{key}")
                made["twice"] = made["twice"] or key == "second" and text is not None and text in made["wids"]
                made["wids"].append(text)
        if "renumber" in found:
            made["pairs"] = self.list(found["renumber"], f"{path}.renumber", self.pair)
            made["wids"] += [it for it in made["pairs"] or () if it is not None]
            made["twice"] = len({*made["wids"]}) < len(made["wids"])
        if "old" in found:
            made["old"] = self.text(found["old"], f"{path}.old")
            made["texts"].append(made["old"])
        if "occurrence" in found:
            made["occurrence"] = self.number(found["occurrence"], f"{path}.occurrence", 65535)
        if "new" in found and found["new"].kind == "text":
            made["texts"].append(found["new"].value)
        elif "new" in found:
            made["nodes"] = self.list(found["new"], f"{path}.new", self.node)
        if word == "split":
            self.num(found["num"], f"{path}.num")
        for key in ("heading", "separator"):
            if key in found:
                made["texts"].append(self.text(found[key], f"{path}.{key}"))
        return made

    def destination(self, value, path, keys, made):
        found = self.table(value, path, keys)
        if found is None:
            return
        made["wids"].append(self.text(found["wId"], f"{path}.wId"))
        if "pos" in keys:
            pos = self.text(found["pos"], f"{path}.pos")
            if pos is not None and pos not in ("before", "after", "start", "end"):
                self.say(7, f"{path}.pos", found["pos"], f"'{pos[:40]}' is no place: before, after, start or end")

    def pair(self, value, path):
        found = self.table(value, path, ("wId", "num"))
        if found is None:
            return None
        self.num(found["num"], f"{path}.num")
        return self.text(found["wId"], f"{path}.wId")

    def bearing(self, value, path, word, kind):
        """A modification of force or efficacy."""
        known = FORCE if kind == "forceMod" else EFFICACY
        if word.value not in known:
            self.say(7, f"{path}.type", word, f"'{word.value[:40]}' is no type of a {kind}")
            return self.common(value, path)
        behind = ("on", "date") if kind == "forceMod" else EFFICACY[word.value]
        found = self.table(value, path, ("type", "source", "destination", *behind))
        made = {"kind": kind, "type": word.value, "path": path, "value": value, "periods": [], "edit": None, "wid": None, "id": None}
        self.source(found["source"], f"{path}.source")
        self.thing(found["destination"], f"{path}.destination", made)
        for key in ("on", "date"):
            if key in behind:
                self.day(found[key], f"{path}.{key}")
        if "days" in behind:
            made["periods"].append(self.period(found["days"], f"{path}.days"))
        return made

    def thing(self, value, path, made):
        key = "modification" if value.kind == "object" and "modification" in value.value else "wId"
        found = self.table(value, path, (key,))
        if found is None:
            return
        if key == "wId":
            made["wid"] = self.text(found["wId"], f"{path}.wId")
            return
        is_id = lambda it: bool(ID.match(it)) and int(it.partition(".")[0]) < 2**32 and int(it.partition(".")[2]) < 2**16
        made["id"] = self.text(found["modification"], f"{path}.modification", 3, is_id, "is no id as 2.1")

    def dossier(self, value):
        found = self.table(value, "$", ("act", "modifications"))
        if found is None:
            return None
        act = self.act(found["act"], "$.act")
        items = self.of_kind(found["modifications"], "$.modifications", "list")
        modifications = []
        for at, it in enumerate(items or ()):
            self.place = min(at + 1, LONGEST)
            modifications.append(self.modification(it, f"$.modifications[{at}]"))
        self.place = 0
        return act, modifications


class Rules:
    """Looks at the commands that a dossier of the right form stands for."""

    def __init__(self):
        self.faults = []

    def say(self, number, kept, path, value, why):
        self.faults.append(Fault("rule", number, kept, path, value.at, why))

    def tree(self, nodes, numbering, path, value, most=forms.MOST_NODES):
        """The first of the four faults of a tree, which is the kept value of rule 5."""
        eids, deepest, number, long, twice = set(), 0, 0, None, None
        stack = [(it, "", 1) for it in reversed(nodes)]
        while stack:
            (element, num, heading, content, _, children, where, _), above, depth = stack.pop()
            eid = forms.eid(above, element, num, numbering)
            twice = twice or (eid in eids and f"two provisions have the eId {eid} ({where})")
            eids.add(eid)
            number, deepest = number + 1, max(deepest, depth)
            if max(len(heading.encode()), len(content.encode())) > forms.MOST_TEXT:
                long = long or f"a heading or a content has more than {forms.MOST_TEXT:,} bytes ({where})"
            stack += [(it, eid, depth + 1) for it in reversed(children)]
        found = [(1, twice), (2, deepest > forms.MOST_DEPTH and f"deeper than {forms.MOST_DEPTH} levels"),
                 (3, number > most and f"more than {most:,} provisions"), (4, long)]
        kept, why = next(((kept, why) for kept, why in found if why), (0, ""))
        if kept:
            self.say(5, kept, path, value, why)

    def refs(self, nodes, kept):
        stack = list(nodes)
        while stack:
            it = stack.pop()
            if len(it[4]) > forms.MOST_REFS:
                self.say(6, kept, it[6], it[7], f"a node has {len(it[4])} refs, and at most {forms.MOST_REFS} may stand")
            stack += it[5]

    def period(self, period, kept):
        if period and period[1] and period[1] <= period[0]:
            self.say(7, kept, period[2], period[3], "the period ends where it starts, or before")

    def act(self, act):
        self.tree(act["body"], frozenset(act["numbering"]), act["path"] + ".body", act["value"], act["limit"])
        self.refs(act["body"], 0)
        self.period(act["force"], 0)

    def modification(self, it, at, earlier):
        path, value, edit = it["path"], it["value"], it["edit"]
        bad = lambda why: self.say(6, 1, path, value, why)
        wids = [it.get("wid")] if edit is None else edit["wids"]
        if any(wid is not None and not 1 <= len(wid.encode()) <= 512 for wid in wids):
            bad("a wId has 1 to 512 bytes")
        if edit:
            self.edit(edit, bad, path, value)
        for period in it["periods"]:
            self.period(period, 1)
        if it.get("id") is not None:
            self.id(it["id"], path, value, earlier)
        if at >= forms.MOST_MODIFICATIONS:
            self.say(15, forms.MOST_MODIFICATIONS, path, value, f"a work has at most {forms.MOST_MODIFICATIONS} modifications")

    def edit(self, edit, bad, path, value):
        if edit["nodes"] is not None:
            self.tree(edit["nodes"], frozenset(), path + ".new", value)
            self.refs(edit["nodes"], 1)
        for key in ("nodes", "pairs"):
            if edit[key] is not None and not 1 <= len(edit[key]) <= forms.MOST_SIDE:
                bad(f"1 to {forms.MOST_SIDE} {'nodes are brought' if key == 'nodes' else 'pairs are renumbered'}")
        if edit["twice"]:
            bad("a provision is named twice")
        if edit["old"] == "":
            bad("the old text is empty")
        if edit["occurrence"] == 0:
            bad("an occurrence is counted from 1")
        if any(len(it.encode()) > forms.MOST_TEXT for it in edit["texts"]):
            bad(f"a text has more than {forms.MOST_TEXT:,} bytes")

    def id(self, sought, path, value, earlier):
        number, _, item = sought.partition(".")
        at = int(number) - 2
        if item != "1" or not 0 <= at < len(earlier):
            self.say(8, sought, path, value, f"no earlier modification is {sought}")
        elif earlier[at]["kind"] != "textualMod":
            self.say(11, sought, path, value, f"{sought} is no textual modification")


def faults_of(data):
    """All faults of the bytes of a dossier, and a function from a place to its line."""
    if len(data) > LONGEST:
        return [Fault("form", 9, 0, "$", 0, f"{len(data):,} bytes, and at most {LONGEST:,} are read")], lambda at: 1
    try:
        value, text = places.read(data)
    except places.NotJson as error:
        text = data.decode("utf-8", "replace")
        return [Fault("form", 1, 0, "$", error.at, str(error))], places.lines(text)
    form = Form()
    found = form.dossier(value)
    if form.faults or found is None:
        return form.faults, places.lines(text)
    rules = Rules()
    rules.act(found[0])
    for at, it in enumerate(found[1]):
        rules.modification(it, at, found[1][:at] if it.get("id") is not None else ())
    return rules.faults, places.lines(text)
