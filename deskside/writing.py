"""An answer of the desk as Akoma Ntoso 3.0, and as the bytes of a file."""
import hashlib

from lxml import etree

import akn
import forms
from dressing import Dressed

LINE = "The words are proved, their dress is tested."
# What a document says of those tests beside it.
GRAMMAR = "The grammar of the tests is not OASIS's own schema."
# The parts of the metadata behind those of days, in the standard's order.
BEHIND = ("references", "notes", "proprietary", "presentation")


def inner(modification):
    return next(iter(modification.values()))


def numbered(dossier):
    """The modifications of a dossier by their ids."""
    return {f"{at}.1": it for at, it in enumerate(dossier["modifications"], 2)}


def document(dressing, modifications, answer, answered, day):
    """The document of a day. modifications: those known, by their ids; answered: the bytes of the answer, whose sum it carries."""
    dressed = Dressed(dressing, answer)
    meta = akn.first(dressed.document, "meta")
    identify(meta, dressing, answer, day, version_of(dressing, modifications, day))
    if answer["applied"]:
        dressed.document.set("contains", "singleVersion")
        amend(meta, modifications, dressed, answer)
    tell(meta, dressing, modifications, answer, answered, dressed)
    return dressed


def version_of(dressing, modifications, day):
    """The last day up to this one on which the text may have changed: all days from then on have one version."""
    found = {dressing["date"]} | forms.days_named([dressing["force"], modifications])
    return max((it for it in found if it <= day), default=day)


def identify(meta, dressing, answer, day, version):
    """Names the expression: the IRI of its version, that of the day as an alias of it, the day, and how many entries of the law are known."""
    identification = akn.first(meta, "identification")
    expression = akn.first(identification, "FRBRExpression")
    iri = answer["expression"].removesuffix(f"@{day}") + (f"@{version}" if answer["expression"].endswith(f"@{day}") else "")
    for frame, names in ((expression, {"FRBRthis": f"{iri}/!main", "FRBRuri": iri}), (akn.first(identification, "FRBRManifestation"), {"FRBRthis": f"{iri}/!main.xml", "FRBRuri": f"{iri}.akn"})):
        for it in frame if frame is not None else ():
            if akn.name_of(it) in names:
                it.set("value", names[akn.name_of(it)])
            elif akn.name_of(it) == "FRBRdate" and it.get("date") != version:
                it.set("date", version)
                it.set("name", "consolidation" if answer["applied"] else "version")
    if iri != answer["expression"]:
        akn.first(expression, "FRBRuri").addnext(etree.Element(akn.tag("FRBRalias"), value=answer["expression"], name="day"))
    enacted = akn.first(identification, "FRBRWork", "FRBRdate")
    if enacted is not None and not forms.DAY.match(enacted.get("date", "")):
        enacted.set("date", dressing["date"])
    number = akn.first(expression, "FRBRversionNumber")
    if number is None:
        number = etree.SubElement(expression, akn.tag("FRBRversionNumber"))
    number.set("value", str(answer["viewpoint"]))


def part(meta, name, before, source="#lawdesk"):
    """The part of the metadata of this name, made before those named where there is none."""
    found = akn.first(meta, name)
    if found is None:
        found = etree.Element(akn.tag(name), source=source)
        after = next((it for it in meta if akn.name_of(it) in before), None)
        if after is not None:
            after.addprevious(found)
        else:
            meta.append(found)
    return found


def amend(meta, modifications, dressed, answer):
    """Lists what was applied: an event, a group of days and a passive modification for each."""
    lifecycle = part(meta, "lifecycle", ("workflow", "analysis", "temporalData", *BEHIND))
    analysis = part(meta, "analysis", ("temporalData", *BEHIND))
    passive = akn.first(analysis, "passiveModifications")
    if passive is None:
        passive = etree.Element(akn.tag("passiveModifications"))
        active = akn.first(analysis, "activeModifications")
        if active is not None:
            active.addnext(passive)
        else:
            analysis.insert(0, passive)
    days = part(meta, "temporalData", BEHIND)
    for number in answer["applied"]:
        modification = inner(modifications[number])
        name = number.replace(".", "-")
        period = modification["force"]
        named = {"work": modification["source"]["href"], "eId": modification["source"].get("provision", "")}
        source = dressed.dressing["sources"].get(number, named)
        etree.SubElement(lifecycle, akn.tag("eventRef"), eId=f"desk_evn_{name}", date=period["from"], source=source["work"], type="amendment")
        if "until" in period:
            etree.SubElement(lifecycle, akn.tag("eventRef"), eId=f"desk_evn_{name}_end", date=period["until"], source=source["work"], type="amendment")
        group = etree.SubElement(days, akn.tag("temporalGroup"), eId=f"desk_tmpg_{name}")
        interval = etree.SubElement(group, akn.tag("timeInterval"), refersTo="#force", start=f"#desk_evn_{name}")
        if "until" in period:
            interval.set("end", f"#desk_evn_{name}_end")
        mod = etree.SubElement(passive, akn.tag("textualMod"), type=modification["type"], eId=f"desk_pmod_{name}")
        etree.SubElement(mod, akn.tag("source"), href=source["work"] + (f"/!main#{source['eId']}" if source["eId"] else ""))
        aim(etree.SubElement(mod, akn.tag("destination")), modification, dressed)
        etree.SubElement(mod, akn.tag("force"), period=f"#desk_tmpg_{name}")


def aim(destination, modification, dressed):
    """Says where a modification acts, by the eId of this day; before the last words of a provision is at its end."""
    wid, pos = target(modification), modification.get("destination", {}).get("pos", "")
    if pos == "before" and wid.endswith("__al_wrapup"):
        wid, pos = wid.removesuffix("__al_wrapup"), "end"
    destination.set("href", f"#{dressed.eids.get(wid, wid)}")
    if pos:
        destination.set("pos", pos)


def target(modification):
    """What a modification aims at: a provision, or another modification."""
    if "destination" in modification:
        return next(iter(it for key, it in modification["destination"].items() if key != "pos"))
    return modification["renumber"][0]["wId"]


def tell(meta, dressing, modifications, answer, answered, dressed):
    """What no element of the standard says stands in a part of our own: what could not be applied and why, what is not due, what was lost."""
    references = part(meta, "references", BEHIND[1:])
    etree.SubElement(references, akn.tag("TLCOrganization"), eId="lawdesk", href="/ontology/organization/lawdesk", showAs="lawdesk")
    found = part(meta, "proprietary", ("presentation",))
    own = etree.SubElement(found, akn.ours("consolidation"), nsmap={"desk": forms.OURS})
    own.set("sum", "sha256:" + hashlib.sha256(answered).hexdigest())
    own.set("reading", answer["reading"])
    own.set("bears", str(answer["bears"]).lower())
    etree.SubElement(own, akn.ours("note")).text = f"{LINE} {GRAMMAR}"
    due = {*answer["applied"], *[it["id"] for it in answer["unapplied"]]}
    for it in answer["unapplied"]:
        line = etree.SubElement(own, akn.ours("unapplied"), id=it["id"], cause=it["cause"])
        line.text = forms.CAUSES.get(it["cause"], it["cause"])
    for number, modification in modifications.items():
        if "textualMod" in modification and number not in due:
            etree.SubElement(own, akn.ours("notDue"), {"id": number, "from": modification["textualMod"]["force"]["from"]})
    for what in dressing["lost"]:
        etree.SubElement(own, akn.ours("lost")).text = what
    for what in dressed.plain:
        etree.SubElement(own, akn.ours("withoutMarkup")).text = what
    for what in dressed.replaced:
        etree.SubElement(own, akn.ours("replaced")).text = what


def spelled(root):
    return b'<?xml version="1.0" encoding="UTF-8"?>\n' + etree.tostring(root.getroottree(), encoding="utf-8") + b"\n"
