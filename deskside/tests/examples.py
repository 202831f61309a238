"""Checks of the numbered rows on the page about Akoma Ntoso: each has an example, and the command makes of it what stands there. What is lost ends with 3,
and stands in each output where that is allowed."""
import contextlib
import io
import json
import os
import re
import tempfile
from importlib.machinery import SourceFileLoader
from importlib.util import module_from_spec, spec_from_loader

from lxml import etree

import akn

HERE = os.path.dirname(os.path.abspath(__file__))
ACTS = os.path.join(os.path.dirname(HERE), "acts")
PAGE = os.path.join(os.path.dirname(os.path.dirname(HERE)), "docs", "AKN.md")
EXAMPLES = os.path.join(ACTS, "examples.txt")
ROW = re.compile(r"\| ([0-9]+) \| .* \| ([a-z]+) \|\Z")
HEAD = re.compile(r"\*\*([0-9]+)\*\*(?: with `(.*)`)?\Z")
# Where an element goes that the document has not yet: before the first of these.
BEFORE = {"publication": ("lifecycle",), "analysis": ("temporalData",), "preamble": ("body",), "conclusions": (), "attachments": ()}
COPIED = ("publication", "preface", "preamble", "conclusions", "attachments")


def program():
    """The command as a module."""
    loader = SourceFileLoader("deskside_program", os.path.join(os.path.dirname(HERE), "deskside"))
    made = module_from_spec(spec_from_loader("deskside_program", loader))
    loader.exec_module(made)
    return made


DESKSIDE = program()


class Example:
    def __init__(self, number, options, is_amending):
        self.number, self.options, self.is_amending, self.blocks = number, options.split(), is_amending, {}

    def lines(self):
        return [it for it in self.blocks.get("text", "").split("\n") if it]


def of_page():
    """The grades of the numbered rows, and the examples."""
    grades, found, fence, is_amending = {}, [], "", False
    with open(PAGE, encoding="utf-8") as page, open(EXAMPLES, encoding="utf-8") as examples:
        for line in [*page.read().split("\n"), *examples.read().split("\n")]:
            row, head = ROW.match(line), HEAD.match(line)
            if fence and line == "```":
                fence = ""
            elif fence:
                found[-1].blocks[fence] = found[-1].blocks.get(fence, "") + line + "\n"
            elif line.startswith("## "):
                is_amending = "amending" in line
            elif row:
                grades[int(row[1])] = row[2]
            elif head:
                found.append(Example(int(head[1]), head[2] or "", is_amending))
            elif line.startswith("```") and line != "```" and found:
                fence = line[3:]
    return grades, found


def put(root, element):
    """Puts an element of an example into its document: in place of the one of its name (and eId), or where the standard wants it."""
    name, document = akn.name_of(element), akn.first(root, "act")
    same = [it for it in root.iter(element.tag) if element.get("eId") in (None, it.get("eId"))]
    holder = {"eventRef": "lifecycle", "temporalGroup": "temporalData"}.get(name) or ("activeModifications" if name.endswith("Mod") else "")
    if isinstance(element, etree._Comment):
        root.addprevious(element)
    elif holder:
        next(root.iter(akn.tag(holder))).append(element)
    elif name in BEFORE and not same:
        before = next((it for it in root.iter(*[akn.tag(it) for it in BEFORE[name]])), None) if BEFORE[name] else None
        before.addprevious(element) if before is not None else document.append(element)
    elif name:
        same[0].getparent().replace(same[0], element)


def written(example, folder):
    """The files of an example: the act and the amending act, one of them with what the example shows."""
    names = ["example.xml", "example-2012.xml"]
    for name in names:
        root = akn.read(os.path.join(ACTS, name))[0]
        data = example.blocks["xml"]
        if name == names[example.is_amending]:
            for it in etree.fromstring(f'<x xmlns="{akn.forms.NAMESPACE}">{data}</x>'):
                it.tail = None
                put(root, it)
        made = etree.tostring(root.getroottree(), encoding="utf-8")
        draft = re.search(r'<akomaNtoso xmlns="([^"]*)"/>', data)
        with open(os.path.join(folder, name), "wb") as it:
            it.write(made.replace(akn.forms.NAMESPACE.encode(), draft[1].encode()) if draft and name == names[0] else made)
    return [os.path.join(folder, it) for it in names[: 1 + example.is_amending]]


def ran(*words):
    """The command's status and what it wrote and said, without a program of its own."""
    wrote, said = io.TextIOWrapper(io.BytesIO(), encoding="utf-8"), io.StringIO()
    with contextlib.redirect_stdout(wrote), contextlib.redirect_stderr(said):
        status = DESKSIDE.main(list(words))
        wrote.flush()
    return status, wrote.buffer.getvalue().decode(), said.getvalue()


def reported(name):
    """The lines of a report as `grade: words`."""
    found, grade = [], ""
    with open(f"{name}.report.txt", encoding="utf-8") as it:
        for line in it:
            if line.startswith("  "):
                found.append(f"{grade}: {re.sub(r'^[^ ]*[.]xml:[0-9]+: ', '', line.strip())}")
            else:
                grade = line.partition(" ")[0]
    return found


def checked(check, grammar):
    grades, found = of_page()
    check("each numbered row has an example", {*grades} == {it.number for it in found}, str({*grades} ^ {it.number for it in found}))
    check("there are rows of all grades", {*grades.values()} == {"same", "mapped", "beside", "assumed", "lost", "refused"}, str({*grades.values()}))
    for it in found:
        with tempfile.TemporaryDirectory(prefix="deskside-") as folder:
            tried(check, grammar, it, grades.get(it.number), folder)


def tried(check, grammar, example, grade, folder):
    title, name = f"example {example.number} of {os.path.basename(EXAMPLES)}", os.path.join(folder, "made")
    kinds = {it.partition(":")[0] for it in example.lines()}
    check(f"{title} has the grade of its row", grade in kinds or grade == "same" and kinds <= {"beside"}, f"{grade} {kinds}")
    given = ["from-akn", *written(example, folder), "--out", name, *example.options]
    status, _, said = ran(*given)
    if kinds == {"refused"}:
        return check(f"{title} is refused", status == 2 and all(it.partition(": ")[2] in said for it in example.lines()), f"{status} {said}")
    told = reported(name)
    check(f"{title} is reported so", all(it in told for it in example.lines()), "\n".join(told))
    lost = [it.partition(": ")[2] for it in example.lines() if it.startswith("lost: ")]
    check(f"{title} ends with {3 if lost else 0}", status == (3 if lost else 0) and os.path.exists(f"{name}.dossier.json") == (not lost), f"{status} {said}")
    check(f"{title} assumes and loses what it says", not [it for it in told if it.startswith(("assumed: ", "lost: ")) and it not in example.lines()], "\n".join(told))
    if lost:
        ran(*given, "--allow-lost")
        for words in (("to-akn", name, "2013-01-01"), ("html", name, "2013-01-01"), ("compare", name, "2010-06-01", "2013-01-01"), ("compare", name, "2010-06-01", "2013-01-01", "--html")):
            status, wrote, said = ran(*words)
            check(f"{title}: {words[0]} says what was lost", status == 0 and all(it in html_words(wrote) for it in lost), f"{status} {said}")
        return None
    with open(f"{name}.dossier.json", encoding="utf-8") as it:
        dossier = json.load(it)
    want = json.loads(example.blocks.get("json", "{}"))
    got = {**dossier["act"], "modifications": dossier["modifications"]}
    for key, value in (want if isinstance(want, dict) else {"modifications": want}).items():
        check(f"{title} gives the desk its {key}", got[key] == value, json.dumps(got[key], ensure_ascii=False))
    return back(check, grammar, example, title, name, dossier, folder)


def html_words(text):
    return text.replace("&#39;", "'").replace("&#34;", '"').replace("&amp;", "&")


def back(check, grammar, example, title, name, dossier, folder):
    """What is written back keeps the grammar, and as enacted it is what was read."""
    source = akn.read(os.path.join(folder, "example.xml"))[0]
    for day in (dossier["act"]["force"]["from"], "2013-01-01"):
        status, wrote, said = ran("to-akn", name, day)
        check(f"{title} of {day} keeps the grammar", status == 0 and grammar.validate(etree.fromstring(wrote.encode()).getroottree()), f"{said} {grammar.error_log}"[:400])
    if example.is_amending or status:
        return
    _, wrote, _ = ran("to-akn", name, dossier["act"]["force"]["from"])
    made = akn.parse(wrote.encode(), "made")[0]
    for it in made.iter(etree.Element):
        it.attrib.pop(akn.ours("bears"), None)
    etree.cleanup_namespaces(made)
    spelled = lambda it: etree.tostring(it, method="c14n", exclusive=True, with_tail=False)
    for part in ("body", *(it for it in COPIED if next(source.iter(akn.tag(it)), None) is not None)):
        check(f"{title}: its {part} comes back", spelled(next(made.iter(akn.tag(part)))) == spelled(next(source.iter(akn.tag(part)))))
    check(f"{title}: what stands around it comes back", [it.text for side in akn.around(made) for it in side] == [it.text for side in akn.around(source) for it in side])
