"""What the desk keeps of marked-up text: its words. Paragraphs are lines, cells of a row are apart by tabs, a line break within a paragraph is
U+2028, and a picture or a formula U+FFFC. A fold remembers where each run of words stands, so that a changed text can be put back into the markup."""
from lxml import etree

import akn

# Elements each of which stands on a line of its own.
BLOCKS = {
    "p", "block", "tr", "li", "item", "listIntroduction", "listWrapUp", "wrapUp", "intro", "caption", "quotedStructure", "tocItem", "longTitle",
    "num", "heading", "subheading", "embeddedStructure", "blockContainer", "content", "blockList", "table", "ul", "ol", "tblock", "foreign",
}
# What has no words of the law in it: notes are kept beside.
SILENT = {"authorialNote", "noteRef", "remark", "meta"}
SHAPES = {"img": "\ufffc", "formula": "\ufffc", "eol": "\u2028", "br": "\u2028"}
BREAKS = "\n\t\u2028\ufffc"
SPACE = " \t\r\n"


class Run:
    """Words that stand in one place: the text of an element, or what follows it. A run without an element is a break."""

    def __init__(self, element, where, text):
        self.element, self.where, self.text = element, where, text

    def put(self, text):
        setattr(self.element, self.where, text)
        self.text = text


class Fold:
    def __init__(self, roots, skip=()):
        """Folds these elements, one after another, leaving out those of their children that skip names."""
        # (space: where white space began that may turn out to be a blank; begun: whether the line has something in it; fresh: whether nothing
        # of this line stands behind its last break; cell: None outside a table's cell, and else whether it has words)
        self.runs, self.skip, self.space, self.begun, self.fresh, self.cell = [], frozenset(skip), None, False, True, None
        for it in roots:
            self.root = it
            self.walk(it, True)
        self.end()

    def text(self):
        return "".join(it.text for it in self.runs)

    def walk(self, element, is_root=False):
        name = akn.name_of(element)
        if not isinstance(element.tag, str):
            return
        is_skipped = name in self.skip and element.getparent() is self.root
        if not is_root and (name in SILENT or is_skipped or element.tag == akn.ours("child")):
            return
        if name in SHAPES and akn.first(element, "p") is None:
            self.say(SHAPES[name])
            return
        if name in ("td", "th"):
            self.walk_cell(element)
            return
        is_block = name in BLOCKS
        if is_block:
            self.end()
        self.inside(element)
        if is_block:
            self.end()

    def inside(self, element):
        self.words(element, "text")
        for child in element:
            self.walk(child)
            self.words(child, "tail")

    def walk_cell(self, element):
        """Cells of a row are apart by tabs; the lines of one cell are apart by line breaks."""
        if any(akn.name_of(it) in ("td", "th") for it in element.itersiblings(preceding=True)):
            self.say("\t")
        self.cell = False
        self.inside(element)
        self.cell, self.space = None, None

    def words(self, element, where):
        """Takes the words of a place; white space is one blank, and none at either end of a line."""
        out = []
        for letter in getattr(element, where) or "":
            if letter in SPACE:
                if not self.fresh and not self.space:
                    self.space = element, where
                continue
            if self.space == (element, where):
                out.append(" ")
            elif self.space:
                self.blank()
            self.space = None
            self.open()
            out.append(letter)
        if out:
            self.runs.append(Run(element, where, "".join(out)))

    def blank(self):
        """Takes a blank in the place where its white space began."""
        last = self.runs[-1]
        if (last.element, last.where) == self.space:
            last.text += " "
        else:
            self.runs.append(Run(*self.space, " "))

    def open(self):
        """Begins a line, where none is begun."""
        if not self.begun:
            if self.runs:
                self.runs.append(Run(None, "", "\n"))
            self.begun = True
        if self.cell and self.fresh:
            self.runs.append(Run(None, "", "\u2028"))
        self.fresh = False
        if self.cell is not None:
            self.cell = True

    def say(self, sign):
        if self.space and sign not in "\t\u2028":
            self.blank()
        # (white space around a tab and a line break is none)
        self.space = None
        self.open()
        self.fresh = sign in "\t\u2028"
        self.runs.append(Run(None, "", sign))

    def end(self):
        """Ends a line; within a cell what follows stands behind a line break."""
        self.space, self.fresh = None, True
        if self.cell is None:
            self.begun = False

    def lines(self):
        """The runs between breaks, and the breaks."""
        lines, breaks = [[]], []
        for it in self.runs:
            if it.element is None:
                breaks.append(it.text)
                lines.append([])
            else:
                lines[-1].append(it)
        return lines, breaks

    def patch(self, text):
        """Puts a changed text into the markup, where it has the same breaks; returns whether it could."""
        lines, breaks = self.lines()
        parts, found = split(text)
        if found != breaks:
            return False
        if any(not runs and new for runs, new in zip(lines, parts)):
            return False
        for runs, new in zip(lines, parts):
            patch_line(runs, new)
        return True


def split(text):
    """The parts of a text between breaks, and the breaks."""
    parts, breaks = [""], []
    for letter in text:
        if letter in BREAKS:
            breaks.append(letter)
            parts.append("")
        else:
            parts[-1] += letter
    return parts, breaks


def patch_line(runs, new):
    """Gives the runs of one line a new text: what is alike at both ends stays in its markup, and the rest goes where the difference begins."""
    old, front, back = "".join(it.text for it in runs), 0, 0
    most = min(len(old), len(new))
    while front < most and old[front] == new[front]:
        front += 1
    while back < most - front and old[-1 - back] == new[-1 - back]:
        back += 1
    start, end, middle, at = front, len(old) - back, new[front : len(new) - back], 0
    if not middle and start == end:
        return
    places = []
    for it in runs:
        places.append((at, at + len(it.text)))
        at += len(it.text)
    # (what is only put in follows the words before it; what takes the place of words stands in the markup of the first of them)
    holds = (lambda it: it[0] < start <= it[1]) if start == end else (lambda it: it[0] <= start < it[1])
    owner = next((number for number, it in enumerate(places) if holds(it)), 0 if start == 0 else len(runs) - 1)
    for number, (it, (begin, _)) in enumerate(zip(runs, places)):
        inside = lambda place: min(max(place - begin, 0), len(it.text))
        text = it.text[: inside(start)] + (middle if number == owner else "") + it.text[inside(end) :]
        if text != it.text:
            it.put(text)


def fold(roots, skip=()):
    return Fold(roots, skip).text()


def paragraphs(text, parent):
    """Puts a text as plain paragraphs below an element."""
    for line in text.split("\n"):
        p = etree.SubElement(parent, akn.tag("p"))
        pieces = line.split("\u2028")
        p.text = pieces[0]
        for piece in pieces[1:]:
            etree.SubElement(p, akn.tag("eol")).tail = piece
