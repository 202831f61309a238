"""The dressing of an act: what the desk has no place for, kept beside the dossier as JSON, and put round its answers again."""
import json

from lxml import etree

import akn
import desk
import folding
import forms
from reading import HEADS

FORMAT = "deskside 2"
KEYS = {"format", "work", "date", "language", "numbering", "force", "around", "wids", "shells", "sources", "lost"}


def made(amended, lost):
    """The dressing of an act that was read."""
    shells = {**amended.place.shells, **amended.shells}
    return {
        "format": FORMAT, "work": amended.act["FRBRuri"], "date": amended.act["FRBRdate"], "language": amended.act["FRBRlanguage"],
        "numbering": amended.act["numbering"], "force": amended.act["force"], "around": amended.place.around, "wids": amended.place.wids, "shells": shells, "sources": amended.sources, "lost": lost,
    }


PLAIN = """<akomaNtoso xmlns="{space}"><act name="act"><meta><identification source="#lawdesk">
<FRBRWork><FRBRthis value="{work}/!main"/><FRBRuri value="{work}"/><FRBRdate date="{date}" name="generation"/><FRBRauthor href="#lawdesk"/><FRBRcountry value="{country}"/></FRBRWork>
<FRBRExpression><FRBRthis value=""/><FRBRuri value=""/><FRBRdate date="{date}" name="generation"/><FRBRauthor href="#lawdesk"/><FRBRlanguage language="{language}"/></FRBRExpression>
<FRBRManifestation><FRBRthis value=""/><FRBRuri value=""/><FRBRdate date="{date}" name="generation"/><FRBRauthor href="#lawdesk"/></FRBRManifestation>
</identification></meta><body/></act></akomaNtoso>"""


def plain(act):
    """The dressing of an act that came to the desk without one."""
    work = act["FRBRuri"]
    shell = PLAIN.format(space=forms.NAMESPACE, work=work, date=act["FRBRdate"], country=work.split("/")[2][:2], language=act["FRBRlanguage"])
    body = {"shell": shell, "eId": "body", "num": "", "heading": "", "content": ""}
    return {"format": FORMAT, "work": work, "date": act["FRBRdate"], "language": act["FRBRlanguage"], "numbering": act["numbering"], "force": act["force"],
            "around": [[], []], "wids": {},
            "shells": {"body": body}, "sources": {}, "lost": []}


def load(path):
    with open(path, encoding="utf-8") as it:
        found = json.load(it)
    if not isinstance(found, dict) or found.get("format") != FORMAT or {*found} != KEYS:
        raise akn.Refused(f"{path} is no dressing of this companion")
    return found


class Dressed:
    """An answer of the desk in its dressing: the document of that day."""

    def __init__(self, dressing, answer):
        self.dressing, self.answer = dressing, answer
        # eIds of this day by wId, as they are written; what lost its markup; signs that XML has not
        self.eids, self.plain, self.replaced = {}, [], []
        self.root = akn.of_text(dressing["shells"]["body"]["shell"])
        self.document = next(it for it in self.root if akn.name_of(it) in ("act", "bill"))
        self.body = akn.first(self.document, "body")
        if not answer["bears"]:
            self.body.set(akn.ours("bears"), "false")
        self.put_children(self.body, answer["body"], "body")
        self.aim()
        before, behind = dressing["around"]
        for it in before:
            self.root.addprevious(akn.of_side(it))
        for it in reversed(behind):
            self.root.addnext(akn.of_side(it))

    def shell(self, wid):
        return self.dressing["shells"].get(wid)

    def build(self, node):
        """The element of a provision."""
        wid = node.get("wId", node["eId"])
        node, shell = self.safe(node, wid), self.shell(wid)
        element = akn.of_text(shell["shell"]) if shell else self.fresh(node)
        self.name(element, node, wid, shell)
        if shell:
            self.put_num(element, node, shell)
            self.put_heading(element, node, shell, wid)
            self.put_content(element, node, shell, wid)
        self.put_children(element, node["children"], wid)
        return element

    def safe(self, node, wid):
        """A provision without the signs that XML has not: the sign for one that is unknown stands for each."""
        found = {key: sorted({f"U+{ord(it):04X}" for it in akn.UNSAFE.findall(node[key])}) for key in ("heading", "content")}
        self.replaced += [f"{', '.join(signs)} in the {key} of {wid}" for key, signs in found.items() if signs]
        return {**node, **{key: akn.safe(node[key]) for key in found}}

    def fresh(self, node):
        """A provision without a shell, as the second part of a split."""
        element = etree.Element(akn.tag(node["element"]), nsmap={None: forms.NAMESPACE})
        if not node["num"].startswith("nn-"):
            etree.SubElement(element, akn.tag("num")).text = node["num"]
        if node["heading"]:
            etree.SubElement(element, akn.tag("heading")).text = node["heading"]
        if node["content"]:
            folding.paragraphs(node["content"], etree.SubElement(element, akn.tag("content")))
        return element

    def name(self, element, node, wid, shell):
        """Gives a provision the eId of this day: its own of the document (where it had one) if it stands as it was enacted."""
        is_as_enacted = shell is not None and wid == node["eId"]
        eid = shell["eId"] if is_as_enacted and shell["eId"] else node["eId"]
        self.eids[wid] = eid
        if not is_as_enacted:
            element.set("eId", eid)
            element.set("wId", shell["eId"] if shell and shell["eId"] and self.dressing["wids"].get(shell["eId"]) == wid else wid)
        if not node["bears"]:
            element.set(akn.ours("bears"), "false")

    def put_num(self, element, node, shell):
        shown = akn.first(element, "num")
        if node["num"] == shell["num"]:
            return
        if shown is None:
            shown = etree.Element(akn.tag("num"))
            element.insert(0, shown)
        fold = folding.Fold([shown])
        old = fold.text()
        new = old.replace(shell["num"], node["num"], 1) if shell["num"] and shell["num"] in old else node["num"]
        if not fold.patch(new):
            replace_words(shown, new)

    def put_heading(self, element, node, shell, wid):
        if node["heading"] == shell["heading"]:
            return
        heading = akn.first(element, "heading")
        if not node["heading"]:
            if heading is not None:
                element.remove(heading)
            return
        if heading is None:
            heading = etree.Element(akn.tag("heading"))
            num = akn.first(element, "num")
            element.insert(0 if num is None else list(element).index(num) + 1, heading)
        if not folding.Fold([heading]).patch(node["heading"]):
            self.plain.append(f"heading of {wid}")
            replace_words(heading, node["heading"])

    def put_content(self, element, node, shell, wid):
        if node["content"] == shell["content"]:
            return
        if folding.Fold([element], HEADS).patch(node["content"]):
            return
        if shell["content"]:
            self.plain.append(f"content of {wid}")
        strip_words(element)
        if node["content"]:
            holder = etree.Element(akn.tag("content"))
            folding.paragraphs(node["content"], holder)
            heads = [k for k, it in enumerate(element) if akn.name_of(it) in HEADS]
            element.insert(heads[-1] + 1 if heads else 0, holder)

    def put_children(self, element, nodes, wid):
        """Puts the provisions beneath an element in the place of their marks; those that came stand behind the one before them."""
        marks = {it.get("wId"): it for it in element.iter(akn.ours("child"))}
        last, behind = None, []
        for node in nodes:
            child = self.build(node)
            mark = marks.pop(node.get("wId", node["eId"]), None)
            if mark is not None:
                child.tail = mark.tail
                mark.getparent().replace(mark, child)
                for it in behind:
                    child.addprevious(self.fitting(it, child.getparent()))
                behind = []
            elif last is not None:
                child = self.fitting(child, last.getparent())
                child.tail = last.tail
                last.addnext(child)
                # (addnext moves the tail of what it follows)
            else:
                behind.append(child)
                continue
            last = child
        for it in behind:
            element.append(it)
        for it in marks.values():
            take_out(it)
        mend(element, bool(nodes))

    def fitting(self, child, parent):
        """A provision as it may stand in its parent: in a blockList an item."""
        if akn.name_of(parent) == "blockList" and akn.name_of(child) not in ("item",):
            child.tag = akn.tag("item")
            for it in [it for it in child if akn.name_of(it) in ("content", "intro")]:
                at = list(child).index(it)
                for inner in reversed(list(it)):
                    child.insert(at, inner)
                child.remove(it)
        return child

    def aim(self):
        """Aims local refs at where their provisions stand on this day."""
        for it in self.root.iter(akn.tag("ref"), akn.tag("rref"), akn.tag("mref")):
            href = it.get("href", "")
            wid = self.dressing["wids"].get(href[1:]) if href.startswith("#") else None
            if not wid or wid == "body":
                continue
            if wid not in self.eids:
                it.set("href", f"{self.dressing['work']}/{self.dressing['language']}@#{href[1:]}")
            elif self.shell(wid)["eId"] == href[1:] and self.eids[wid] != href[1:]:
                it.set("href", f"#{self.eids[wid]}")


def replace_words(element, text):
    for it in list(element):
        element.remove(it)
    element.text = text


def take_out(element):
    """Takes an element out, and leaves what follows it."""
    before, parent = element.getprevious(), element.getparent()
    if element.tail and element.tail.strip():
        if before is not None:
            before.tail = (before.tail or "") + element.tail
        else:
            parent.text = (parent.text or "") + element.tail
    parent.remove(element)


def strip_words(element):
    """Takes out what is content of a provision, and leaves its heads, its children's marks and what holds them."""
    for it in list(element):
        if akn.name_of(it) in HEADS or it.tag == akn.ours("child"):
            continue
        marks = list(it.iter(akn.ours("child")))
        if not marks:
            element.remove(it)
            continue
        at = list(element).index(it)
        holder = etree.Element(it.tag, it.attrib) if akn.name_of(it) == "list" else None
        element.remove(it)
        for mark in marks:
            if holder is not None:
                holder.append(mark)
            else:
                element.insert(at, mark)
                at += 1
        if holder is not None:
            element.insert(at, holder)


def mend(element, has_children):
    """Gives an element the form that the standard has for one with provisions beneath it, or without."""
    if akn.name_of(element) in ("body", "item", "wrapUp", "listWrapUp"):
        return
    for it in [it for it in element.iter(akn.tag("blockList")) if not any(akn.name_of(child) == "item" for child in it)]:
        parent = it.getparent()
        at = list(parent).index(it)
        for inner in [child for child in it if akn.name_of(child) in ("listIntroduction", "listWrapUp")]:
            inner.tag = akn.tag("p")
            parent.insert(at, inner)
            at += 1
        parent.remove(it)
    inner = [it for it in element if akn.name_of(it) in ("content", "intro")]
    stands_below = any(akn.name_of(it) not in (*HEADS, "content", "intro", "wrapUp", "") for it in element)
    for it in inner:
        it.tag = akn.tag("intro" if stands_below else "content")
    for it in [it for it in element if akn.name_of(it) == "list" and not any(akn.name_of(child) not in ("intro", "wrapUp", "") for child in it)]:
        at = list(element).index(it)
        for child in [child for child in it if akn.name_of(child)]:
            child.tag = akn.tag("content")
            element.insert(at, child)
            at += 1
        element.remove(it)
    if not any(akn.name_of(it) not in HEADS for it in element if akn.name_of(it)):
        etree.SubElement(etree.SubElement(element, akn.tag("content")), akn.tag("p"))
