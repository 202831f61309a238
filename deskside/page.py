"""An answer of the desk as one static page: accessible, printable, with anchors by eId, and without a script."""
import os

import jinja2
from lxml import etree
from markupsafe import Markup

import akn
import folding
import forms
import writing
from reading import HEADS

TEMPLATES = os.path.join(os.path.dirname(os.path.abspath(__file__)), "templates")
INLINE = {"b": "strong", "i": "em", "u": "u", "sup": "sup", "sub": "sub", "ins": "ins", "del": "del", "code": "code", "q": "q", "abbr": "abbr"}
BLOCKS = {"p": "p", "table": "table", "tr": "tr", "td": "td", "th": "th", "caption": "caption", "ul": "ul", "ol": "ol", "li": "li"}
# What stands in the text of a provision that does not bear, by the reading.
MARKS = {"force": "[not in force on this day]", "efficacy": "[without effect on this day]"}
GROUPS = {"doc", "mainBody", "content", "intro", "list", "blockList", "tblock", "blockContainer", "wrapUp", "listWrapUp"}


def shown(value):
    """A value as a page may show it: U+FFFD stands for signs that no document may have."""
    return akn.safe(value) if isinstance(value, str) and not isinstance(value, Markup) else value


def templates():
    return jinja2.Environment(loader=jinja2.FileSystemLoader(TEMPLATES), autoescape=True, undefined=jinja2.StrictUndefined, trim_blocks=True, lstrip_blocks=True, finalize=shown)


def style():
    with open(os.path.join(TEMPLATES, "style.css"), encoding="utf-8") as it:
        return Markup(it.read())


def render(name, language="eng", trail=(), **shown):
    """A page. trail: the links, with their words, that lead from it to others of the desk; a page that stands alone has none."""
    return templates().get_template(name).render(style=style(), line=writing.LINE, language=forms.TAGS.get(language, language), trail=trail, **shown)


def named(element):
    """The name of an element; `foreign` for one of another namespace, of which the words count; '' for what has no words."""
    return akn.name_of(element) or ("foreign" if isinstance(element.tag, str) else "")


class Page:
    """The body of a document as HTML. Notes go to the end."""

    def __init__(self, reading):
        self.notes, self.mark = [], MARKS[reading]

    def provision(self, element, depth):
        """A provision: a section with its heading, its words, and what stands beneath it."""
        eid = element.get("eId", "")
        found = etree.Element("section")
        if eid:
            found.set("id", eid)
        found.set("class", f"provision {akn.name_of(element)}" + (" bare" if akn.first(element, "heading") is None else ""))
        title = etree.SubElement(found, f"h{min(depth, 6)}")
        for name in HEADS:
            it = akn.first(element, name)
            if it is not None:
                self.inside(it, etree.SubElement(title, "span", {"class": name}))
                title[-1].tail = " "
        if not len(title):
            found.remove(title)
        self.put_mark(element, title if len(title) else etree.SubElement(found, "p"))
        self.children(element, found, depth)
        return found

    def children(self, element, to, depth):
        for it in element:
            name = named(it)
            if name in (*HEADS, "meta") or not name:
                continue
            if name == "attachment" or name in forms.WORDS or name in forms.NEAREST and name not in ("wrapUp", "listWrapUp", "item"):
                to.append(self.provision(it, depth + 1))
            elif name in GROUPS or name == "item" and not akn.name_of(element) in ("ul", "ol"):
                holder = etree.SubElement(to, "div", {"class": name})
                if name == "item":
                    if it.get("eId"):
                        holder.set("id", it.get("eId"))
                    num = akn.first(it, "num")
                    if num is not None:
                        self.inside(num, etree.SubElement(holder, "span", {"class": "num"}))
                        holder[-1].tail = " "
                self.put_mark(it, holder)
                self.loose(it, holder)
                self.children(it, holder, depth)
            else:
                self.put(it, to)

    def put_mark(self, element, to):
        """Says in words that a provision does not bear."""
        if element.get(akn.ours("bears")) == "false":
            etree.SubElement(to, "span", {"class": "mark", "lang": "en"}).text = self.mark
            to[-1].tail = " "
        elif to.tag == "p":
            to.getparent().remove(to)

    def loose(self, element, to):
        """Words that stand in no block of their own."""
        if (element.text or "").strip():
            etree.SubElement(to, "p").text = element.text

    def put(self, element, to):
        """Puts an element of the text, with what it has inside, behind what stands there."""
        name = named(element)
        if not name or name in ("remark", "noteRef"):
            return
        if name == "authorialNote":
            self.notes.append(element)
            number = str(len(self.notes))
            sup = etree.SubElement(to, "sup")
            etree.SubElement(sup, "a", {"href": f"#note-{number}", "id": f"note-mark-{number}"}).text = number
        elif name in ("eol", "br"):
            etree.SubElement(to, "br")
        elif name == "img" or name == "formula" and akn.first(element, "p") is None:
            etree.SubElement(to, "span", {"class": name}).text = f"[{element.get('alt') or element.get('title') or ('picture' if name == 'img' else 'formula')}]"
        elif name in ("ref", "rref", "mref", "a"):
            href = element.get("href", "")
            is_here = href.startswith(("#", "/akn/"))
            self.inside(element, etree.SubElement(to, "a", {"href": href}) if is_here else etree.SubElement(to, "span", {"class": "ref"}))
        else:
            made = etree.SubElement(to, BLOCKS.get(name) or INLINE.get(name) or ("div" if any(named(it) in BLOCKS for it in element) else "span"))
            if name not in BLOCKS and name not in INLINE:
                made.set("class", name)
            for key in ("colspan", "rowspan"):
                if name in ("td", "th") and element.get(key, "").isdigit():
                    made.set(key, element.get(key))
            self.inside(element, made)

    def inside(self, element, to):
        to.text = element.text
        for it in element:
            before = len(to)
            self.put(it, to)
            if it.tail:
                if len(to) > before or len(to):
                    to[-1].tail = (to[-1].tail or "") + it.tail
                else:
                    to.text = (to.text or "") + it.tail

    def noted(self):
        found = []
        for number, it in enumerate(self.notes, 1):
            item = etree.Element("li", id=f"note-{number}")
            self.children(it, item, 6)
            if not len(item):
                item.text = folding.fold([it])
            etree.SubElement(item, "a", {"href": f"#note-mark-{number}", "lang": "en"}).text = f"back to note {number} in the text"
            found.append(item)
        return found


def html_of(element):
    return Markup(etree.tostring(element, method="html", encoding="unicode", with_tail=False))


def title_of(dressing):
    """The title of an act, or its IRI where its document has none."""
    root = akn.of_text(dressing["shells"]["body"]["shell"])
    found = [folding.fold([it]) for name in ("docTitle", "shortTitle") for it in root.iter(akn.tag(name))]
    return next((it for it in found if it), dressing["work"])


def unapplied_of(modifications, answer):
    """What could not be applied, each with its cause in words."""
    found = []
    for it in answer["unapplied"]:
        modification = writing.inner(modifications[it["id"]])
        found.append({"id": it["id"], "cause": it["cause"], "words": forms.CAUSES.get(it["cause"], it["cause"]), "type": modification["type"],
                      "source": modification["source"]["href"], "target": writing.target(modification)})
    return found


def parts(dressed, modifications, answer, day):
    """What a page shows of a document."""
    page, title = Page(answer["reading"]), title_of(dressed.dressing)
    body = etree.Element("div")
    page.children(dressed.body, body, 1)
    front = etree.Element("div")
    for name in ("preface", "preamble"):
        it = akn.first(dressed.document, name)
        if it is not None:
            page.children(it, etree.SubElement(front, "div", {"class": name}), 6)
    # (the title stands above already)
    for it in [it for it in front.iter("p") if " ".join("".join(it.itertext()).split()) == title]:
        it.getparent().remove(it)
    back = etree.Element("div")
    for name in ("conclusions", "attachments"):
        it = akn.first(dressed.document, name)
        if it is not None:
            page.children(it, etree.SubElement(back, "div", {"class": name}), 1)
    return {
        "title": title, "language": dressed.dressing["language"], "work": dressed.dressing["work"],
        "expression": answer["expression"], "day": day, "version": writing.version_of(dressed.dressing, modifications, day), "reading": answer["reading"], "bears": answer["bears"], "viewpoint": answer["viewpoint"],
        "front": html_of(front), "body": html_of(body), "back": html_of(back), "notes": [html_of(it) for it in page.noted()], "unapplied": unapplied_of(modifications, answer),
        "lost": dressed.dressing["lost"], "plain": dressed.plain, "replaced": dressed.replaced,
    }


def text(dressing, modifications, answer, answered, day, trail=()):
    dressed = writing.document(dressing, modifications, answer, answered, day)
    return render("text.html", trail=trail, **parts(dressed, modifications, answer, day))
