"""Two days of an act side by side: which provision is which is the desk's own table; what changed within one is marked by words."""
import difflib
import json
import re

import desk
import dressing
import page
import register
import writing

# Words that a comparison looks at in one provision: beyond it a changed text is shown whole.
MOST_WORDS = 3000


def words(text):
    return re.findall(r"\s+|[^\s]+", text)


def marked(old, new):
    """The pieces of a changed text: pairs of '=', '-' or '+' and words. What is alike at both ends is set aside first, so that the search is short."""
    a, b = words(old), words(new)
    front = 0
    while front < min(len(a), len(b)) and a[front] == b[front]:
        front += 1
    back = 0
    while back < min(len(a), len(b)) - front and a[-1 - back] == b[-1 - back]:
        back += 1
    inner_a, inner_b = a[front : len(a) - back], b[front : len(b) - back]
    pieces = [("=", "".join(a[:front]))]
    if len(inner_a) + len(inner_b) > MOST_WORDS:
        pieces += [("-", "".join(inner_a)), ("+", "".join(inner_b))]
    else:
        for kind, i, j, k, n in difflib.SequenceMatcher(None, inner_a, inner_b, autojunk=False).get_opcodes():
            if kind == "equal":
                pieces.append(("=", "".join(inner_a[i:j])))
            else:
                pieces += [("-", "".join(inner_a[i:j])), ("+", "".join(inner_b[k:n]))]
    pieces.append(("=", "".join(a[len(a) - back :])))
    return [it for it in pieces if it[1]]


def label(node):
    num = "" if node["num"].startswith("nn-") or node["num"] == "wrapup" else f" {node['num']}"
    return f"{node['element']}{num}" + (f", {node['heading']}" if node["heading"] else "")


# What the two texts are that are compared: of two days, and the law without a draft and with it.
DAYS, DRAFTS = ("on the first day", "on the second day"), ("in the law as it is", "with the draft")


def row(wid, one, other, sides):
    """What is shown of a provision that stands in one of two texts or in both."""
    if one is None or other is None:
        node = one or other
        sign = "-" if one else "+"
        return {"wid": wid, "state": f"only {sides[0 if one else 1]}", "first": one, "second": other,
                "labels": [label(it) if it else "" for it in (one, other)], "pieces": [(sign, node["content"])] if node["content"] else []}
    changes = [name for name, key in (("num", "num"), ("heading", "heading"), ("words", "content"), ("force", "bears")) if one[key] != other[key]]
    if one["eId"] != other["eId"] and "num" not in changes:
        changes.append("place")
    return {"wid": wid, "state": "changed: " + ", ".join(changes) if changes else "", "first": one, "second": other,
            "labels": [label(one), label(other)], "pieces": marked(one["content"], other["content"]) if one["content"] != other["content"] else []}


def joined(table, answers, sides=DAYS):
    """The rows of a comparison, of a table of wIds and the desk's two answers."""
    by_eid = [{node["eId"]: node for node, _, _ in desk.provisions(it)} for it in answers]
    found = {it["wId"]: row(it["wId"], by_eid[0].get(it["first"]), by_eid[1].get(it["second"]), sides) for it in table}
    return [found[wid] for wid in in_place(answers)]


def in_place(answers):
    """The wIds of two texts in the order of the second; one that went stands behind the one that it stood behind."""
    first, second = ([wid for _, wid, _ in desk.provisions(it)] for it in answers)
    still, went, last = {*second}, {"": []}, ""
    for wid in first:
        if wid in still:
            went[wid], last = [], wid
        else:
            went[last].append(wid)
    return [*went[""], *(it for wid in second for it in (wid, *went.get(wid, ())))]


def by_wid(answers):
    """The table of two texts of one act, in which a provision keeps its wId."""
    eids = [{wid: node["eId"] for node, wid, _ in desk.provisions(it)} for it in answers]
    return [{"wId": wid, "first": eids[0].get(wid, ""), "second": eids[1].get(wid, "")} for wid in {**eids[0], **eids[1]}]


def rows(dossier, first, second, reading="force"):
    """The rows of a comparison, and both answers."""
    answers = [desk.text(dossier, day, reading)[0] for day in (first, second)]
    return joined(register.correspondence(dossier, first, second), answers), answers


def terminal(found, first, second, lost):
    """A comparison as lines: what is alike is left out."""
    out = [f"--- {first}", f"+++ {second}", f"# {writing.LINE}", *(f"# lost when the documents were carried in: {it}" for it in lost)]
    for it in found:
        if not it["state"]:
            continue
        both = [text for text in dict.fromkeys(it["labels"]) if text]
        eids = list(dict.fromkeys(node["eId"] for node in (it["first"], it["second"]) if node))
        out.append(f"@ {' -> '.join(eids)} ({' -> '.join(both)}): {it['state']}")
        if it["pieces"]:
            out.append("  " + "".join(text if sign == "=" else f"[{sign}{text}{sign}]" for sign, text in it["pieces"]).replace("\n", "\n  "))
    if not any(it["state"] for it in found):
        out.append("# nothing differs")
    return "\n".join(out) + "\n"


def compared(name, first, second, is_html):
    with open(f"{name}.dossier.json", encoding="utf-8") as it:
        dossier = json.load(it)
    found, answers = rows(dossier, first, second)
    dressed = dressing.load(f"{name}.dressing.json")
    return comparison(dressed, found, answers, first, second) if is_html else terminal(found, first, second, dressed["lost"])


def comparison(dressed, found, answers, first, second, trail=()):
    """A comparison as a page."""
    return page.render("compare.html", trail=trail, title=page.title_of(dressed), language=dressed["language"], day="", first=first, second=second, rows=found,
                       expressions=[it["expression"] for it in answers], lost=dressed["lost"])
