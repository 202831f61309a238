"""From a document to what the desk keeps of it: a tree of provisions, and beside it the dressing, from which the document can be made again.

The dressing has a *shell* for each provision: its element with all its markup, in which an empty element `child` stands for each provision beneath it.
Shells put into one another are the document."""
import copy
import re

from lxml import etree

import akn
import folding
import forms
from report import ASSUMED, BESIDE, LOST, MAPPED, SAME

# What stands in a provision and is a provision of its own.
HIERARCHY = {*forms.WORDS, *forms.NEAREST} - {"item", "wrapUp", "listWrapUp", "crossHeading"}
WRAPS = ("wrapUp", "listWrapUp")
# What is no text of a provision's own.
HEADS = ("num", "heading", "subheading")
REFS = ("ref", "rref", "mref")
WORDS_OF_NUMS = r"(?i)^\s*(articles?|art|sections?|sec|chapters?|chap|parts?|titles?|titolo|capo|books?|paragraphs?|para|clauses?|comma|§)(?![a-z])[.\s]*"


class Place:
    """Where provisions are read: the act as enacted, whose eIds are wIds, or what a modification brings (brought: `m2-1`)."""

    def __init__(self, path, report, numbering=(), brought=""):
        self.path, self.report, self.numbering, self.brought = path, report, frozenset(numbering), brought
        # shells by wId; wIds by the eIds of the document; nodes with the elements whose refs are aimed once all provisions are known
        self.shells, self.wids, self.aims = {}, {}, []
        # what stands before the document and behind it
        self.around = [[], []]

    def say(self, grade, what, element=None):
        self.report.say(grade, what, self.path, element.sourceline if element is not None else 0)

    def wid(self, above, kind, num):
        if self.brought:
            return f"{above or self.brought}__{forms.level(kind, num)}"
        return forms.eid(above, kind, num, self.numbering)


def clean(text):
    """A num that the desk can have, of one as it is shown, or ''."""
    return re.sub(r"[^A-Za-z0-9-]+", "", re.sub(WORDS_OF_NUMS, "", text)).strip("-")[:16]


def num_of(element, kind, place, taken):
    """The num of a provision: that of its eId, else the one shown without its signs, else one of its own."""
    shown = akn.first(element, "num")
    text = folding.fold([shown]) if shown is not None else ""
    word, _, last = element.get("eId", "").rpartition("__")[2].partition("_")
    if word in (forms.WORDS[kind], akn.name_of(element)) and forms.NUM.match(last) and not last.startswith("nn"):
        num, how = last, SAME
    elif clean(text):
        num, how = clean(text), MAPPED
    else:
        num, how = f"nn-{1 + sum(it.startswith(forms.WORDS[kind] + '_nn-') for it in taken)}", MAPPED
    if forms.level(kind, num) in taken:
        again = next(it for it in (f"{num[:12]}-{k}" for k in range(2, 9999)) if forms.level(kind, it) not in taken)
        place.say(ASSUMED, f"two provisions side by side have the num {num}: the second is {again} at the desk", element)
        return again
    if how == SAME or text == num:
        place.say(SAME, "num")
    else:
        place.say(how, f"the num '{text}' is {num} at the desk" if text else f"{akn.name_of(element)} without a num: {num} at the desk, not shown", element)
    return num


def kind_of(element, place):
    name = akn.name_of(element)
    if name in forms.WORDS:
        place.say(SAME, name)
        return name
    place.say(MAPPED, f"{name} is {forms.NEAREST[name]} at the desk, and written back as {name}", element)
    return forms.NEAREST[name]


def take(element, above, place, taken):
    """Takes a provision: gives its node and its wId, and puts its shell into the dressing. taken: the levels of its siblings so far."""
    name, kind = akn.name_of(element), kind_of(element, place)
    num = "wrapup" if name in WRAPS and f"{forms.WORDS[kind]}_wrapup" not in taken else num_of(element, kind, place, taken)
    taken.add(forms.level(kind, num))
    wid = place.wid(above, kind, num)
    if wid in place.shells:
        place.say(LOST, f"two provisions have the eId {wid}: the desk refuses such a text", element)
    place.shells[wid] = {}
    if element.get("eId"):
        place.wids[element.get("eId")] = wid
    shell = copy.deepcopy(element)
    shell.tail = None
    children = below(element, shell, wid, place, set())
    heading = akn.first(shell, "heading")
    texts = {"heading": folding.fold([heading]) if heading is not None else "", "content": folding.fold([shell], HEADS)}
    node = {"element": kind, "num": num, **{key: it for key, it in texts.items() if it}}
    for key, text in texts.items():
        if len(text.encode()) > forms.MOST_TEXT:
            place.say(LOST, f"the {key} of {wid} has more than {forms.MOST_TEXT:,} bytes: the desk refuses it", element)
    note_beside(shell, wid, place)
    place.aims.append((node, wid, shell))
    if children:
        node["children"] = children
    place.shells[wid] = {"shell": akn.text_of(shell), "eId": element.get("eId", ""), "num": num, **texts}
    return node, wid


def below(element, twin, above, place, taken):
    """Takes the provisions beneath an element; in its copy an empty element stands for each. They may stand in a list, and in a list that ends a content."""
    nodes = []
    for child, other in zip(list(element), list(twin)):
        name = akn.name_of(child)
        if name in HIERARCHY or name in ("item", *WRAPS):
            node, wid = take(child, above, place, taken)
            put_child(other, wid)
            nodes.append(node)
        elif name == "list":
            place.say(MAPPED, "the points of a list are children of the provision that has it", child)
            if child.get("eId"):
                place.wids.setdefault(child.get("eId"), above)
            nodes += below(child, other, above, place, taken)
        elif name == "content" and len(child) and akn.name_of(child[-1]) == "blockList":
            place.say(MAPPED, "the items of a blockList that ends a content are points", child[-1])
            nodes += below(child[-1], other[-1], above, place, taken)
    return nodes


def put_child(element, wid):
    """Puts the mark of a provision in the place of it."""
    mark = etree.Element(akn.ours("child"), wId=wid, nsmap={"desk": forms.OURS})
    mark.tail = element.tail
    element.getparent().replace(element, mark)


def note_beside(shell, wid, place):
    """Lists what a provision has that is no word of it."""
    kinds = {}
    for it in shell.iter():
        name = akn.name_of(it)
        if isinstance(it, etree._Comment) or isinstance(it, etree._ProcessingInstruction):
            kinds.setdefault("comment or processing instruction", it)
        elif name in ("authorialNote", "noteRef", "remark", "subheading", "img", "formula", "table", "crossHeading"):
            kinds.setdefault(name, it)
        elif name == "blockList":
            kinds.setdefault("blockList in the midst of a content", it)
        elif name and name not in folding.BLOCKS and it is not shell and it.tag != akn.ours("child") and name not in ("list", "td", "th", *folding.SHAPES):
            kinds.setdefault(f"inline {name}", it)
    for kind, it in kinds.items():
        place.say(BESIDE, f"{kind} in {wid}", it)


def aim_refs(place, work, language):
    """Gives each node the refs of its own text that name an expression; one to a place of this document names the work as enacted."""
    for node, wid, shell in place.aims:
        found = []
        for it in shell.iter(*[akn.tag(name) for name in REFS]):
            href = it.get("href", "")
            if href.startswith("#") and href[1:] in place.wids and not place.brought:
                found.append(f"{work}/{language}@/~{place.wids[href[1:]]}")
            elif forms.EXPRESSION.match(href):
                found.append(href)
            elif href:
                place.say(BESIDE, f"the ref '{href}' in {wid} names no expression: its words alone are at the desk", it)
        if len(found) > forms.MOST_REFS:
            place.say(BESIDE, f"{wid} has {len(found)} refs, and the desk {forms.MOST_REFS} of them", shell)
        if found:
            node["refs"] = found[: forms.MOST_REFS]


def numbering_of(body, place):
    """Which of article and section are numbered throughout: those whose eIds, within another provision, don't begin with its eId."""
    through = []
    for kind in ("article", "section"):
        free, bound = 0, 0
        for it in body.iter(akn.tag(kind)):
            above = next((up.get("eId") for up in it.iterancestors() if up is not body and up.get("eId") and akn.name_of(up) in HIERARCHY), None)
            if it.get("eId") and above:
                free, bound = free + (not it.get("eId").startswith(f"{above}__")), bound + it.get("eId").startswith(f"{above}__")
        if free and bound:
            place.say(ASSUMED, f"{free} eIds of {kind} are without the eId above and {bound} with it: numbered {'throughout' if free >= bound else 'beneath it'}", body)
        if free >= bound:
            through.append(kind)
    return through


def work_of(root, document, given, place):
    """The IRI of the work, its day and its language."""
    identification = akn.first(document, "meta", "identification")
    found = akn.value(identification, "FRBRWork", "FRBRuri") or ""
    if given:
        work = given
        if given != found:
            place.say(ASSUMED, f"the work is {given}, where the document says '{found}'", identification)
    elif forms.WORK.match(found):
        work = found
    else:
        raise akn.Refused(f"{place.path} names its work '{found}', which is no IRI of the desk's form: say one by --work")
    date = akn.value(identification, "FRBRWork", "FRBRdate", key="date") or ""
    of_iri = re.search(r"/([0-9]{4}(-[0-9]{2}-[0-9]{2})?)/", work[4:])[1]
    if len(of_iri) == 10 and date != of_iri:
        if date:
            place.say(ASSUMED, f"the day of the act is {of_iri}, as its IRI says; the document has '{date}'", identification)
        date = of_iri
    elif not forms.DAY.match(date) or date[:4] != of_iri[:4]:
        place.say(ASSUMED, f"the day of the act is {of_iri}-01-01: the document gives '{date}'", identification)
        date = f"{of_iri}-01-01"
    language = akn.value(identification, "FRBRExpression", "FRBRlanguage", key="language") or ""
    if language in forms.LANGUAGES:
        place.say(MAPPED, f"the language {language} is {forms.LANGUAGES[language]} at the desk", identification)
        language = forms.LANGUAGES[language]
    if not re.fullmatch(r"[a-z]{3}", language):
        raise akn.Refused(f"{place.path} names no language of three letters (FRBRlanguage is '{language}')")
    return work, date, language


def refuse_consolidated(document, date, place):
    """A text that has been amended already is not the act as enacted."""
    day = akn.value(document, "meta", "identification", "FRBRExpression", "FRBRdate", key="date") or ""
    lifecycle = akn.first(document, "meta", "lifecycle")
    amended = [it for it in (lifecycle if lifecycle is not None else ()) if it.get("type") in ("amendment", "repeal")]
    if amended and day > date:
        raise akn.Refused(f"{place.path} is a consolidated text of {day}, as the amendments in its lifecycle say: give the act as enacted, and its amending acts beside it")


def days_of(group, document, report):
    """The start and the end of a temporal group, as days. The end is the first day that is not in it."""
    events = {it.get("eId"): it.get("date", "")[:10] for it in document.iter(akn.tag("eventRef"))}
    for it in document.iter(akn.tag("temporalGroup")):
        if group and it.get("eId") == group.lstrip("#"):
            interval = akn.first(it, "timeInterval")
            if interval is not None:
                start, end = (events.get((interval.get(key) or "").lstrip("#"), "") for key in ("start", "end"))
                return (start if forms.DAY.match(start) else ""), (report.ended(group, end) if forms.DAY.match(end) else "")
    return "", ""


def force_of(document, body, given, place):
    """The period of force of an act."""
    group = body.get("period") or document.get("period")
    start, end = days_of(group, document, place.report)
    if start:
        place.say(MAPPED, f"the force of the act is that of its period {group}: from {start}{f' until {end}' if end else ''}", body)
    elif given:
        place.say(ASSUMED, f"the act is in force from {given}, as was said", body)
        start = given
    else:
        raise akn.Refused(f"{place.path} gives its body no period of force: say the first day by --force")
    return {"from": start, **({"until": end} if end else {})}


def periods_of(body, document, place, work, date):
    """The modifications of force by which the act itself gives single provisions a period of their own."""
    found = []
    for it in body.iter(etree.Element):
        wid = place.wids.get(it.get("eId", ""))
        if it is body or not it.get("period") or not wid or akn.name_of(it) == "list":
            continue
        start, end = days_of(it.get("period"), document, place.report)
        if not start:
            place.say(LOST, f"the period {it.get('period')} of {wid} names no day", it)
            continue
        place.say(MAPPED, f"the period of {wid} is a modification of force by the act itself, counted from its day", it)
        for kind, day in (("entryIntoForce", start), ("endOfEnactment", end)):
            if day:
                source = {"href": work, "place": min(len(found) + 1, 65535)}
                found.append({"forceMod": {"type": kind, "source": source, "destination": {"wId": wid}, "on": date, "date": day}})
    return found


def document_of(root, place):
    """The act or bill of a document, and its body."""
    document = next((it for it in root if akn.name_of(it) in ("act", "bill")), None)
    if document is None:
        raise akn.Refused(f"{place.path} holds no act: it has {', '.join(akn.name_of(it) for it in root if akn.name_of(it)) or 'nothing'}")
    body = akn.first(document, "body")
    if body is None:
        raise akn.Refused(f"{place.path} has no body")
    return document, body


def read_act(root, path, report, work="", force=""):
    """Reads an act as enacted: gives the desk's act, its own modifications, the place of its provisions, and the dressing."""
    place = Place(path, report)
    document, body = document_of(root, place)
    work, date, language = work_of(root, document, work, place)
    refuse_consolidated(document, date, place)
    place.numbering = frozenset(numbering_of(body, place))
    shell = copy.deepcopy(root)
    _, twin = document_of(shell, place)
    nodes = below(body, twin, "", place, set())
    aim_refs(place, work, language)
    place.wids[body.get("eId") or "body"] = "body"
    for it in document:
        if akn.name_of(it) in ("meta", "preface", "preamble", "conclusions", "attachments", "coverPage", "components"):
            place.say(BESIDE, f"{akn.name_of(it)}: copied as it is", it)
    if folding.fold([twin]):
        place.say(BESIDE, "words of the body that stand in no provision", body)
    if any(akn.around(root)):
        place.say(BESIDE, "comments and processing instructions around the document are copied", root)
    place.around = [[akn.text_of(it) for it in side] for side in akn.around(root)]
    wide = {"nodeLimit": forms.LIMITS[1]} if forms.count(nodes) > forms.LIMITS[0] else {}
    act = {"FRBRuri": work, "FRBRdate": date, "FRBRlanguage": language, "numbering": sorted(place.numbering), **wide, "force": force_of(document, body, force, place), "body": nodes}
    place.shells["body"] = {"shell": akn.text_of(shell), "eId": body.get("eId") or "body", "num": "", "heading": "", "content": ""}
    own = periods_of(body, document, place, work, date)
    return act, own, place


def read_brought(container, path, report, brought):
    """Reads what a modification brings: gives its nodes and their place."""
    place = Place(path, report, (), brought)
    twin = copy.deepcopy(container)
    nodes = below(container, twin, "", place, set())
    return nodes, place
