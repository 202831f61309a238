"""What the amending acts do to an act: the modifications of their analysis, as the desk records them."""
import re
import unicodedata

from lxml import etree

import akn
import desk
import folding
import forms
import reading
from report import ASSUMED, BESIDE, LOST, MAPPED, SAME

TEXTUAL = ("repeal", "substitution", "replacement", "insertion", "renumbering", "split", "join")
FORCE = ("entryIntoForce", "endOfEnactment", "postponementOfEntryIntoForce", "prorogationOfForce", "reEnactment")
EFFICACY = ("entryIntoEfficacy", "endOfEfficacy", "inapplication", "retroactivity", "extraefficacy", "postponementOfEfficacy", "prorogationOfEfficacy")
TARGET = re.compile(r"(?P<work>/akn/[^~#@]*?)(/(?P<language>[a-z]{3})@(?P<day>[0-9-]*))?(/?!main)?(/?~(?P<portion>[^#]+))?(#(?P<eid>.+))?\Z")


class Amended:
    """The act as amended so far: its dossier, what each modification brought, and the places of its provisions."""

    def __init__(self, act, own, place, report):
        self.act, self.modifications, self.place, self.report = act, own, place, report
        # shells of what modifications bring, by wId; the ids of the modifications by work and eId of their source; what makes each, by its id
        self.shells, self.ids, self.sources, self.answers = {}, {}, {}, {}

    def next_id(self):
        return len(self.modifications) + 2

    def dossier(self):
        return {"act": self.act, "modifications": self.modifications}

    def wid(self, target, line):
        """The wId of a destination: that of the provision which had its eId on the day of its IRI, or in the act as enacted."""
        found = TARGET.match(self.act["FRBRuri"] + target if target.startswith("#") else target)
        sought = (found["portion"] or found["eid"] or "body") if found else None
        if sought is None:
            return None
        if sought in ("body", self.place.shells["body"]["eId"]):
            return "body"
        day = found["day"] or ""
        if day and self.modifications and day > self.act["FRBRdate"]:
            known = desk.wids(self.answer(day))
            for form in (sought, *self.spelled(sought)):
                if form in known:
                    if form != sought or known[form] != form:
                        self.place.report.say(MAPPED, f"{sought} of {day} is the provision {known[form]}", *line)
                    return known[form]
        if sought in self.place.wids:
            return self.place.wids[sought]
        return next((it for it in (sought, *self.spelled(sought)) if it in self.place.shells or it in self.shells), None)

    def content(self, wid, day):
        """The content of a provision on a day, as far as the act is amended."""
        if day < self.act["FRBRdate"]:
            return ""
        return next((node["content"] for node, its, _ in desk.provisions(self.answer(day)) if its == wid), "")

    def answer(self, day):
        """The desk's answer on a day, as far as the act is amended."""
        key = day, len(self.modifications)
        if key not in self.answers:
            self.answers[key] = desk.text(self.dossier(), day)[0]
        return self.answers[key]

    def spelled(self, eid):
        """Other spellings of an eId: without the level of a list, and without what stands above a numbered element."""
        levels = [it for it in eid.split("__") if not it.startswith("list_")]
        levels = [re.sub(r"\Aitem_", "point_", it) for it in levels]
        found = ["__".join(levels)]
        for kind in self.place.numbering:
            at = max((k for k, it in enumerate(levels) if it.startswith(forms.WORDS[kind] + "_")), default=0)
            found.append("__".join(levels[at:]))
        return found


def work_of(href):
    """The work that an href names, or ''."""
    found = TARGET.match(href)
    return found["work"] if found else ""


def words_of(quoted):
    """The words that a document quotes. A blank at either end that it has is one of them."""
    text, raw = folding.fold([quoted]), "".join(quoted.itertext())
    return (" " if raw.startswith(" ") else "") + text + (" " if raw.endswith(" ") and raw.strip() else "")


def are_one(first, second):
    """Whether two texts, one behind the other, run into one word where writing sets words apart."""
    if not first or not second or unicodedata.east_asian_width(second[0]) in "WF":
        return False
    # (’ ends a quotation where one began, and else is an apostrophe, as in l’acqua)
    ends = first[-1].isalnum() or first[-1] in ".,;:!?)]”»%" or first[-1] == "’" and "‘" in first
    return ends and (second[0].isalnum() or second[0] in "([“‘«§")


class Amending:
    """An amending document."""

    def __init__(self, root, path, amended, work=""):
        self.root, self.path, self.amended = root, path, amended
        self.document = next((it for it in root if akn.name_of(it) in ("act", "bill")), None)
        if self.document is None:
            raise akn.Refused(f"{path} holds no act")
        self.work = work or akn.value(self.document, "meta", "identification", "FRBRWork", "FRBRuri") or ""
        if not forms.WORK.match(self.work):
            raise akn.Refused(f"{path} names its work '{self.work}', which is no IRI of the desk's form")
        self.by_eid = {it.get("eId"): it for it in self.document.iter(etree.Element) if it.get("eId")}
        self.day = akn.value(self.document, "meta", "identification", "FRBRWork", "FRBRdate", key="date") or ""
        body = akn.first(self.document, "body")
        self.start = reading.days_of(body.get("period") if body is not None else "", self.document, amended.report)[0] or self.day
        # the rank of each source among those of this document
        self.ranks = {}

    def say(self, grade, what, element=None):
        self.amended.report.say(grade, what, self.path, element.sourceline if element is not None else 0)

    def line(self, element):
        return self.path, element.sourceline or 0

    def source(self, element):
        found = akn.first(element, "source")
        href = (found.get("href", "") if found is not None else "").lstrip("#")
        place = self.ranks.setdefault(href or f"?{len(self.ranks)}", min(len(self.ranks) + 1, 65535))
        return {"href": self.work, "place": place}, href

    def period(self, element, what="force"):
        """The days of a period that a modification names, or None."""
        found = akn.first(element, what)
        start, end = reading.days_of(found.get("period") if found is not None else "", self.document, self.amended.report)
        if not start and found is not None and forms.DAY.match(found.get("date", "")):
            start = found.get("date")
        return (start, end) if start else None

    def maker(self, href):
        """The provision of this document that makes a modification."""
        found = self.by_eid.get(href)
        while found is not None and akn.name_of(found) not in reading.HIERARCHY:
            found = found.getparent()
        return found

    def above(self, href):
        """The eIds of the provisions that hold a source."""
        found = self.by_eid.get(href)
        return [it.get("eId") for it in found.iterancestors() if akn.name_of(it) in reading.HIERARCHY and it.get("eId")] if found is not None else []

    def tell_others(self):
        """Lists what this document says beside its modifications: its words are in no output."""
        body, made = akn.first(self.document, "body"), {it.get("href", "").lstrip("#") for it in self.document.iter(akn.tag("source"))}
        makers = {self.maker(it) for it in made}
        for it in body.iter(etree.Element) if body is not None else ():
            is_own = akn.name_of(it) in reading.HIERARCHY and not any(akn.name_of(up) == "quotedStructure" for up in it.iterancestors())
            if is_own and it not in makers and not any(child in makers for child in it.iter(etree.Element)):
                self.say(BESIDE, f"{it.get('eId', akn.name_of(it))} modifies nothing: '{folding.fold([it])}'", it)
        for name in ("preface", "preamble", "conclusions", "attachments"):
            it = akn.first(self.document, name)
            if it is not None:
                self.say(BESIDE, f"the {name} of an amending act: '{folding.fold([it])}'", it)
        for it in [*sum(akn.around(self.root), []), *self.root.iter(etree.Comment, etree.PI)]:
            if not any(akn.name_of(up) == "quotedStructure" for up in it.iterancestors()):
                self.say(BESIDE, f"a comment or processing instruction of an amending act: '{(it.text or '').strip()}'", it)

    def read(self):
        """Records each modification of this document that aims at the act."""
        self.tell_others()
        active = akn.first(self.document, "meta", "analysis", "activeModifications")
        for it in active if active is not None else ():
            name = akn.name_of(it)
            if not name:
                continue
            destinations = [child for child in it if akn.name_of(child) == "destination"]
            targets = [child.get("href", "") for child in destinations]
            ours = [href for href in targets if work_of(href) == self.amended.act["FRBRuri"]]
            ids = self.made_by(targets[0]) if name in ("forceMod", "efficacyMod") and len(targets) == 1 else ()
            if targets and not ours and not ids:
                self.say(BESIDE, f"{name} of another act ({targets[0]})", it)
            elif len(targets) != 1:
                self.lose(it, f"{name} with {len(targets)} destinations")
            else:
                self.record(it, name, destinations[0], ids)

    def made_by(self, href):
        """The ids of the modifications of the act that a provision of an amending act makes, or that act as a whole."""
        found = TARGET.match(self.work + href if href.startswith("#") else href)
        return self.amended.ids.get((found["work"], found["portion"] or found["eid"] or ""), ()) if found else ()

    def of_modifications(self, element, kind, ids):
        """Records a modification of force or efficacy that aims at what an amending act does: one for each of its modifications."""
        for it in ids:
            self.say(MAPPED, f"the {kind} of what an amending act does is one of modification {it}", element)
            self.bearing(element, kind, {"modification": it})

    def lose(self, element, what):
        self.say(LOST, f"{what}: {element.get('type', '')} {element.get('eId', '')}".rstrip(": "), element)

    def record(self, element, name, destination, ids=()):
        kind = element.get("type", "")
        for flag, words in (("exclusion", "a modification that excludes"), ("incomplete", "an incomplete modification")):
            if element.get(flag) == "true":
                return self.lose(element, words)
        if destination.get("upTo"):
            return self.lose(element, "a modification of a range (upTo)")
        if name not in ("textualMod", "forceMod", "efficacyMod"):
            return self.lose(element, f"{name}, for which the desk has no form")
        if ids:
            return self.of_modifications(element, kind, ids)
        wid = self.amended.wid(destination.get("href", ""), self.line(destination))
        if wid is None:
            return self.lose(element, f"the {kind} of {destination.get('href')}, which no provision has")
        return self.textual(element, kind, destination, wid) if name == "textualMod" else self.bearing(element, kind, {"wId": wid})

    def textual(self, element, kind, destination, wid):
        source, href = self.source(element)
        period = self.period(element)
        if period is None:
            self.say(ASSUMED, f"the {kind} {element.get('eId', '')} says no period: in force from {self.start}", element)
            period = self.start, ""
        mod = {"type": kind, "source": source, "force": {"from": period[0], **({"until": period[1]} if period[1] else {})}}
        made = self.edit(element, kind, destination, wid, mod)
        if made is None:
            return None
        shells, mod = made
        self.amended.shells.update(shells)
        # (the work as a whole is '')
        for it in {element.get("eId", ""), href, *self.above(href), ""}:
            self.amended.ids.setdefault((self.work, it), []).append(f"{self.amended.next_id()}.1")
        self.keep_source(href, element)
        self.amended.modifications.append({"textualMod": mod})
        self.say(SAME, kind)
        return None

    def keep_source(self, href, element):
        """Keeps where the next modification comes from, and the words that make it."""
        maker = self.maker(href)
        words = folding.fold([maker]) if maker is not None else ""
        self.amended.sources[f"{self.amended.next_id()}.1"] = {"work": self.work, "eId": href or element.get("eId", ""), "words": words}

    def edit(self, element, kind, destination, wid, mod):
        """The keys of an edit, and the shells of what it brings; or None where it is lost."""
        old, new = self.quoted(element, "old"), self.quoted(element, "new")
        if kind == "replacement":
            self.say(MAPPED, "a replacement is a substitution", element)
            mod["type"] = kind = "substitution"
        words = words_of(old) if old is not None and akn.name_of(old) == "quotedText" else ""
        is_text = new is not None and akn.name_of(new) == "quotedText"
        if kind == "repeal" and words:
            self.say(MAPPED, f"the repeal of words of {wid} is a substitution by nothing", element)
            return {}, {**mod, "type": "substitution", "destination": {"wId": wid}, "old": self.with_blank(element, wid, mod, words), "new": ""}
        if kind == "repeal":
            return {}, {**mod, "destination": {"wId": wid}}
        if kind == "substitution" and is_text and words:
            return {}, {**mod, "destination": {"wId": wid}, "old": words, "new": words_of(new)}
        if kind == "insertion" and is_text:
            return self.inserted_words(element, destination, wid, mod, words, words_of(new))
        if kind in ("substitution", "insertion") and new is not None and not is_text:
            return self.brought(element, kind, destination, wid, mod, new)
        if kind == "renumbering":
            return self.renumbered(element, wid, mod)
        self.lose(element, f"the {kind} of {wid} says not enough")
        return None

    def quoted(self, element, which):
        """What an `old` or a `new` quotes."""
        found = akn.first(element, which)
        if found is None:
            return None
        return self.by_eid.get(found.get("href", "").lstrip("#"))

    def inserted_words(self, element, destination, wid, mod, words, new):
        pos = destination.get("pos", "")
        if words and pos in ("before", "after"):
            return {}, {**mod, "destination": {"wId": wid, "pos": pos}, "old": words, "new": self.apart(element, pos, words, new)}
        if pos in ("start", "end"):
            content = self.amended.content(wid, mod["force"]["from"])
            return {}, {**mod, "destination": {"wId": wid, "pos": pos}, "new": self.apart(element, pos, content, new)}
        self.lose(element, f"the insertion of words at '{pos}' of {wid}")
        return None

    def apart(self, element, pos, words, new):
        """Words that are put beside others, with a blank between where both would else be one word."""
        is_behind = pos in ("after", "end")
        if not are_one(*((words, new) if is_behind else (new, words))):
            return new
        self.say(ASSUMED, f"a blank is put {'before' if is_behind else 'behind'} the words '{new}'", element)
        return f" {new}" if is_behind else f"{new} "

    def with_blank(self, element, wid, mod, words):
        """Words that go, with one of the blanks around them where two would else stand side by side."""
        before, found, behind = self.amended.content(wid, mod["force"]["from"]).partition(words)
        if not found or not (before.endswith(" ") or not before):
            return words
        taken = f"{words} " if behind.startswith(" ") else f" {words}" if before and not behind[:1].isalnum() else words
        if taken != words:
            self.say(ASSUMED, f"a blank goes with the words '{words}'", element)
        return taken

    def brought(self, element, kind, destination, wid, mod, new):
        """A modification that brings provisions."""
        brought = f"m{self.amended.next_id()}-1"
        nodes, place = reading.read_brought(new, self.path, self.amended.report, brought)
        if not nodes:
            self.lose(element, f"the {kind} of {wid} quotes no provision")
            return None
        reading.aim_refs(place, self.amended.act["FRBRuri"], self.amended.act["FRBRlanguage"])
        if kind == "substitution":
            return place.shells, {**mod, "destination": {"wId": wid}, "new": nodes}
        pos = destination.get("pos", "")
        if pos not in ("before", "after", "start", "end"):
            self.lose(element, f"the insertion at '{pos}' of {wid}")
            return None
        wrap = f"{wid}__al_wrapup"
        if pos == "end" and wrap in self.amended.place.shells:
            self.say(MAPPED, f"the insertion at the end of {wid} stands before its last words", element)
            wid, pos = wrap, "before"
        return place.shells, {**mod, "destination": {"wId": wid, "pos": pos}, "new": nodes}

    def renumbered(self, element, wid, mod):
        href = akn.first(element, "new").get("href", "") if akn.first(element, "new") is not None else ""
        found = re.search(r"(?:\A|__|/)[a-z]+[-_]([A-Za-z0-9-]+)\Z", href.lstrip("#"))
        num = found[1] if found else ""
        quoted = self.quoted(element, "new")
        if quoted is not None:
            num = reading.clean(folding.fold([quoted]))
        if not forms.NUM.match(num):
            self.lose(element, f"the renumbering of {wid} without a new num")
            return None
        return {}, {**mod, "renumber": [{"wId": wid, "num": num}]}

    def bearing(self, element, kind, destination):
        """A modification of force or of efficacy, of a provision or of a modification."""
        what = akn.name_of(element)
        if kind not in (FORCE if what == "forceMod" else EFFICACY):
            return self.lose(element, f"{what} of a kind that the desk has not")
        (aim,), (source, href) = destination.values(), self.source(element)
        period = self.period(element, "force" if what == "forceMod" else "efficacy") or self.period(element, "application")
        if period is None and kind != "extraefficacy":
            return self.lose(element, f"the {kind} of {aim} without a period")
        mod = {"type": kind, "source": source, "destination": destination}
        if kind == "retroactivity":
            mod["date"] = period[0]
        else:
            mod["on"] = self.start
            self.say(ASSUMED, f"the {kind} of {aim} counts from {self.start}, when its act is in force", element)
            if kind == "inapplication":
                mod["days"] = {"from": period[0], **({"until": period[1]} if period[1] else {})}
            elif kind != "extraefficacy":
                mod["date"] = period[0]
        self.keep_source(href, element)
        self.amended.modifications.append({what: mod})
        return self.say(SAME, kind)


class Own(Amending):
    """The document of the act itself, of which the metadata may tell of amendments."""

    def read(self):
        """Takes each passive modification that no amending document makes, and tells of each event that none of them explains."""
        passive = akn.first(self.document, "meta", "analysis", "passiveModifications")
        for it in passive if passive is not None else ():
            source, destination = akn.first(it, "source"), akn.first(it, "destination")
            self.work = work_of(source.get("href", "")) if source is not None else ""
            wid = self.amended.wid(destination.get("href", ""), self.line(it)) if destination is not None else None
            if not akn.name_of(it) or self.work and wid in self.aimed_at():
                continue
            if self.work and wid:
                self.say(ASSUMED, f"no amending document makes the {it.get('type')} of {wid} by {self.work}: taken from the act's own", it)
                self.record(it, akn.name_of(it), destination)
            else:
                self.lose(it, f"a passive {akn.name_of(it)} that names no act, or no provision")
        lifecycle = akn.first(self.document, "meta", "lifecycle")
        for it in lifecycle if lifecycle is not None else ():
            if it.get("type") in ("amendment", "repeal") and not self.is_explained(it):
                self.say(LOST, f"the {it.get('type')} of {it.get('date', '')} ({it.get('eId', '')}), of which no modification is known", it)

    def aimed_at(self):
        """The provisions at which the modifications aim that this work makes."""
        found = set()
        for it in self.amended.modifications:
            inner = next(iter(it.values()))
            if inner["source"]["href"] == self.work:
                wids = [pair["wId"] for pair in inner.get("renumber", ())] or [inner["destination"].get("wId", "")]
                found |= {*wids, *(wid.removesuffix("__al_wrapup") for wid in wids)}
        return found

    def is_explained(self, event):
        """Whether the act or a provision of it begins or ends with an event, or a modification is of its work or of its day."""
        periods = {(it.get("period") or "").lstrip("#") for it in (self.document, *akn.first(self.document, "body").iter())}
        intervals = [it for group in self.document.iter(akn.tag("temporalGroup")) if group.get("eId") in periods for it in group]
        if any(f"#{event.get('eId')}" in (it.get("start"), it.get("end")) for it in intervals):
            return True
        href = (event.get("source") or "").lstrip("#")
        work = work_of(self.by_eid[href].get("href", "") if href in self.by_eid else event.get("source") or "")
        works = {next(iter(it.values()))["source"]["href"] for it in self.amended.modifications}
        return work in works or event.get("date", "")[:10] in forms.days_named(self.amended.modifications)


def read_own(root, path, amended):
    """Records what the document of the act itself says of its amendments, once the amending ones are read."""
    Own(root, path, amended, amended.act["FRBRuri"]).read()


def read_amending(root, path, amended):
    """Records what a document does to the act."""
    Amending(root, path, amended).read()
