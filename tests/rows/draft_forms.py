"""Modifications that stand in a draft, each with every key of its form: what a draft prints of a modification is made here from the command that
brought it, by the tables of docs/FORMS.md.

All is asked on a desk with one act of three sections, in which 2.1 is a textual modification.
"""
import json

from checks import check
from clients.messages import batch, check_written, command, compact, get, response
from rows.dossiers import (DATED_TYPES, FORCE_TYPES, SOURCE, efficacy, force, inapplied, inserted, joined, nested, node, refs, renumbered, repeal, split,
                   substituted, textual, to)
from rows.register import ONE, SECTIONS, add, draft, enact, law, record

# What the keys have that a form may leave out.
EMPTY_NODE = {"children": [], "content": "", "heading": "", "refs": []}
BESIDE_A_TEXT = {"occurrence": 1}
EMPTY_SPLIT = {"heading": ""}
EMPTY_JOIN = {"separator": ""}


def whole_node(given):
    """A node with every key."""
    filled = {**EMPTY_NODE, **given}
    return {**filled, "children": [whole_node(child) for child in filled["children"]]}


def whole_textual(given):
    """A textual modification with every key of its form."""
    filled = dict(given)
    if "old" in given:
        filled = {**BESIDE_A_TEXT, **filled}
    if given["type"] == "split":
        filled = {**EMPTY_SPLIT, **filled}
    if given["type"] == "join":
        filled = {**EMPTY_JOIN, **filled}
    if isinstance(given.get("new"), list):
        filled["new"] = [whole_node(child) for child in given["new"]]
    return filled


def whole(modification):
    """A modification with every key of its form; only an end that a period does not have stays out."""
    return {kind: whole_textual(given) if kind == "textualMod" else given for kind, given in modification.items()}


FULL_NODE = node("article", "12-B", heading="A heading", content="Its \u00a7 text.", refs=[ONE + "/eng@2011-01-01", ONE + "/eng@/~sec_1"],
                 children=[node("paragraph", "1", content="First."), node("paragraph", "2", children=[node("point", "a")])])
ESCAPED = "a \"quoted\" \\ text,\twith \r\n, \x00, \x1f, \x7f, / and \u00e9\u20ac\U0001d11e"
ELEMENTS = ["article", "section", "chapter", "paragraph", "subparagraph", "subsection", "clause", "subclause", "alinea", "part", "title", "book",
            "point", "indent"]

REPEALS = [
    ("a repeal", repeal()),
    ("a repeal with an end", repeal(until="2011-06-01")),
    ("a repeal of the body from the first day, from the last place", repeal("body", "0001-01-01", place=65535, until="9999-12-31")),
    ("a repeal by another work", repeal(href="/akn/gb-sct/act/asp/scot/2005/3-b_c.d", place=0)),
    ("a repeal of what no provision is", repeal("no such wId \u00e9")),
]
SUBSTITUTIONS = [
    ("a substitution by a bare node", substituted([node()])),
    ("a substitution by nodes with every key", substituted([FULL_NODE, node(num="2")])),
    ("a substitution by a node of each element", substituted([node(name, str(k)) for k, name in enumerate(ELEMENTS, 1)])),
    ("a substitution by nodes that nest to the last level", substituted(nested(12))),
    ("a substitution by a node with 16 refs", substituted(refs(16))),
    ("a substitution by 64 nodes", substituted([node(num=str(k)) for k in range(1, 65)])),
    ("a substitution of text", substituted("Two", old="One")),
    ("a substitution of text with its occurrence", substituted("Two", old="One", occurrence=1)),
    ("a substitution of the last occurrence", substituted("Two", old="One", occurrence=65535)),
    ("a substitution by no text", substituted("", old="One", occurrence=2)),
    ("a substitution of text that is escaped", substituted(ESCAPED, old=ESCAPED)),
]
INSERTIONS = (
    [(f"an insertion of nodes, {pos}", inserted([node("section", "4", content="Four.")], "sec_1", pos)) for pos in ("before", "after", "start", "end")]
    + [(f"an insertion of text, {pos}", inserted("more", "sec_1", pos)) for pos in ("start", "end")]
    + [(f"an insertion of text, {pos} a text", inserted("more", "sec_1", pos, old="One")) for pos in ("before", "after")]
    + [(f"an insertion of text, {pos} an occurrence", inserted("", "sec_1", pos, old="One", occurrence=3)) for pos in ("before", "after")]
)
OTHERS = [
    ("a renumbering of one provision", renumbered(["sec_1"])),
    ("a renumbering of two provisions", textual(type="renumbering", destination=None, renumber=[{"wId": "sec_2", "num": "1"}, {"wId": "sec_1", "num": "Z-9"}])),
    ("a split at a text", split(old="n")),
    ("a split at an occurrence, with a heading", split(old="n", occurrence=7, heading="Half", num="1A")),
    ("a split at a child", split(child="sec_1__para_1")),
    ("a split at a child, with a heading", split(child="sec_1__para_1", heading="Half")),
    ("a join", joined()),
    ("a join with a separator", joined(separator=" and ")),
]
BEARINGS = (
    [(f"the force modification {kind}", force(kind)) for kind in FORCE_TYPES]
    + [("a force modification of a modification", force(destination=to("2.1"))), ("a force modification of the act", force(destination={"wId": "body"}))]
    + [(f"the efficacy modification {kind}", efficacy(kind)) for kind in DATED_TYPES]
    + [
        ("an efficacy modification of a modification", efficacy(destination=to("2.1"), on="0001-01-01", date="9999-12-31")),
        ("a retroactivity", efficacy("retroactivity", on=None)),
        ("an extra efficacy", efficacy("extraefficacy", date=None)),
        ("an inapplication", inapplied()),
        ("an inapplication without an end", inapplied(days={"from": "2012-02-29"})),
        ("an inapplication of a modification", inapplied(destination=to("2.1"))),
    ]
)
BY_PROVISIONS = [
    ("a repeal by a provision", repeal(provision="sec_9")),
    ("a repeal by a provision of 512 letters", repeal(provision="B-_z" * 128, place=65535)),
    ("a substitution by a provision", substituted([FULL_NODE], source={"href": SOURCE, "place": 0, "provision": "m5-1__sec_4__para_b"})),
    ("a force modification by a provision", force(source={"href": SOURCE, "place": 1, "provision": "-"})),
    ("an inapplication by a provision", inapplied(source={"href": SOURCE, "place": 1, "provision": "0"})),
]
ROWS = REPEALS + SUBSTITUTIONS + INSERTIONS + OTHERS + BEARINGS + BY_PROVISIONS

BEGUN = [(enact("ada", 1, body=SECTIONS), law(1)), (record("ada", 2, repeal("sec_3", "2011-06-01")), law(2))]
ASKED = get("/draft?drafter=ada")


def drafted(modifications):
    """A stream that puts these modifications into a draft and asks for it, and what is to be written, with the draft left out."""
    told = BEGUN + [(add("ada", request, one), draft(request - 2)) for request, one in enumerate(modifications, 3)]
    given = b"".join(command(line) for line, _ in told) + ASKED
    return given, b"".join(response(201, reply) for _, reply in told)


def told_of(modifications):
    """The draft with these items, as the desk writes it."""
    items = [{"item": item, "modification": one, "work": ONE} for item, one in enumerate(modifications, 1)]
    return response(200, compact({"draft": items}))


def draft_rows():
    """Each form alone in a draft, and all in one. What a draft prints, sent again, gives the same draft."""
    for name, modification in ROWS:
        given, replies = drafted([modification])
        check_written(f"a draft with {name}", batch(given), (0, replies + told_of([whole(modification)])))
    all_of_them = [modification for _, modification in ROWS]
    wholes = [whole(modification) for modification in all_of_them]
    check("few enough for one draft", len(ROWS) <= 64, True)
    for name, modifications in (("all forms", all_of_them), ("all forms, as they are printed", wholes)):
        given, replies = drafted(modifications)
        check_written(f"a draft with {name}", batch(given), (0, replies + told_of(wholes)))


if __name__ == "__main__":
    print(len(ROWS), "rows;", json.dumps(whole(dict(ROWS)["a split at a text"])))
