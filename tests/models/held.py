"""Works whose modifications are made by provisions of later acts, and bear only while those stand: what each work says on a day, on which
days its text may change, and from which day a command touches it; reckoned here anew, from docs/MODEL.md, from the law alone.

A law is a list of law entries: ("enact", act), ("record", work, modifications), ("correct", id, modification), ("withdraw", id) and
("restore", id), each part as a command spells it; an id is a pair of numbers.
"""
import datetime
import functools

from models.bearing import EFFICACY, FORCE, includes
from models.table_costs import bounds, days_of, kind_of, on_of, own_day

FIRST_DAY = "0001-01-01"
WORDS = {"section": "sec", "paragraph": "para"}


def period_of(spelled):
    return spelled["from"], spelled.get("until")


class Provision:
    """A provision of a text."""

    def __init__(self, wid, element, num, content, children, refs):
        self.wid, self.element, self.num, self.content, self.children, self.refs = wid, element, num, content, children, refs


def day_of(iri):
    """The day of an IRI, which is the first of January where that gives a year alone."""
    given = iri.split("/")[4]
    return given if len(given) > 4 else f"{given}-01-01"


def level(element, num):
    return f"{WORDS[element]}_{num}"


def provision_of(node, above, brought):
    """A node of an act or of a payload, as a provision. A wId is that of its eId as enacted, or of the levels below what brings it."""
    own = level(node["element"], node["num"])
    wid = f"{above}__{own}" if above and (brought or node["element"] != "section") else own
    return Provision(wid, node["element"], node["num"], node.get("content", ""),
                     [provision_of(child, wid, brought) for child in node.get("children", [])], node.get("refs", []))


def among(provisions, wid):
    """The list in which a provision stands, and its place there."""
    for place, provision in enumerate(provisions):
        if provision.wid == wid:
            return provisions, place
        found = among(provision.children, wid)
        if found:
            return found
    return None


def levels_begun(provisions, top):
    """The nums that have to differ: of sections, and of what stands at the top, throughout; of all else, below one provision."""
    throughout, twice = [], False
    below = []
    for provision in provisions:
        own = level(provision.element, provision.num)
        (throughout if top or provision.element == "section" else below).append(own)
        inner, inner_twice = levels_begun(provision.children, False)
        throughout, twice = throughout + inner, twice or inner_twice
    return throughout, twice or len(set(below)) < len(below)


def number_taken(body):
    throughout, twice = levels_begun(body, True)
    return twice or len(set(throughout)) < len(throughout)


def copied(provisions):
    return [Provision(p.wid, p.element, p.num, p.content, copied(p.children), p.refs) for p in provisions]


def parted(body, id, said):
    """A text in which a provision is split, at a child or at an occurrence, or the cause that holds that back."""
    found = among(body, said["destination"]["wId"])
    if not found:
        return "TargetMissing"
    stands, place = found
    target = stands[place]
    if "child" in said:
        cut, first = len(target.content), next((k for k, child in enumerate(target.children) if child.wid == said["child"]), None)
        if first is None:
            return "AnchorMissing"
    else:
        cut, first = target.content.find(said["old"]), 0
        if cut < 0:
            return "OldTextMissing"
    wid = f"m{id[0]}-{id[1]}__{level(target.element, said['num'])}"
    stands.insert(place + 1, Provision(wid, target.element, said["num"], target.content[cut:], target.children[first:], []))
    target.content, target.children = target.content[:cut], target.children[:first]
    return "NumberTaken" if number_taken(body) else body


def taken_in(body, said):
    """A text in which a provision takes in the one behind it, or the cause that holds that back."""
    found = among(body, said["destination"]["wId"])
    if not found or not among(body, said["second"]):
        return "TargetMissing"
    stands, place = found
    if place + 1 == len(stands) or stands[place + 1].wid != said["second"]:
        return "AnchorMissing"
    first, second = stands[place], stands.pop(place + 1)
    if first.element != second.element:
        return "KindsDiffer"
    first.content += said.get("separator", "") + second.content
    first.children, first.refs = first.children + second.children, first.refs + second.refs
    return "NumberTaken" if number_taken(body) else body


def edited(body, id, said):
    """The text that an edit makes, or the cause that holds it back."""
    body = copied(body)
    if said["type"] == "split":
        return parted(body, id, said)
    if said["type"] == "join":
        return taken_in(body, said)
    new = [provision_of(node, f"m{id[0]}-{id[1]}", True) for node in said["new"]] if isinstance(said.get("new"), list) else said.get("new")
    if said["type"] == "renumbering":
        for pair in said["renumber"]:
            if not among(body, pair["wId"]):
                return "TargetMissing"
        for pair in said["renumber"]:
            stands, place = among(body, pair["wId"])
            stands[place].num = pair["num"]
        return "NumberTaken" if number_taken(body) else body
    wid, found = said["destination"]["wId"], among(body, said["destination"]["wId"])
    if said["type"] == "repeal":
        if wid == "body":
            return []
        if not found:
            return "TargetMissing"
        del found[0][found[1]]
    elif said["type"] == "substitution":
        if not found:
            return "TargetMissing"
        found[0][found[1]:found[1] + 1] = new
    elif wid != "body" and not found:
        return "AnchorMissing"
    elif isinstance(new, str):
        found[0][found[1]].content += new
    elif said["destination"]["pos"] in ("before", "after"):
        if not found:
            return "AnchorMissing"
        place = found[1] + (said["destination"]["pos"] == "after")
        found[0][place:place] = new
    else:
        stands = body if wid == "body" else found[0][found[1]].children
        place = 0 if said["destination"]["pos"] == "start" else len(stands)
        stands[place:place] = new
    return "NumberTaken" if number_taken(body) else body


def listed(provisions):
    """What provisions say, as plain lists."""
    return [[p.wid, p.num, p.content, listed(p.children)] for p in provisions]


class Work:
    """What a law makes known of a work."""

    def __init__(self, act):
        self.act, self.mods, self.live = act, {}, {}
        self.uri, self.day = act["FRBRuri"], act["FRBRdate"]

    @functools.cached_property
    def enacted(self):
        """The text as it was enacted, which no edit changes: each makes a text of its own."""
        return [provision_of(node, "", False) for node in self.act["body"]]

    @functools.cached_property
    def aimed(self):
        """The modifications of force and efficacy that stand, by the thing at which they are directed, in the order in which they count. No law
        entry comes to the work once it is asked for."""
        found = {}
        for id, m in self.mods.items():
            kind, said = kind_of(m)
            if kind != "textualMod" and self.live[id]:
                found.setdefault(*said["destination"].items(), []).append((on_of(said), id, kind, said))
        return {thing: sorted(mods, key=lambda one: one[:2]) for thing, mods in found.items()}

    def directed(self, thing, day):
        """The modifications of force and efficacy that are directed at a thing and counted on a day, in order."""
        (target,) = thing.items()
        found = self.aimed.get(target)
        return [one for one in found if one[0] <= day] if found else []

    def changed(self, thing, own, day, kind):
        for _, _, of, said in self.directed(thing, day):
            if of == kind:
                own = (FORCE if kind == "forceMod" else EFFICACY)[said["type"]](own, said.get("date"))
        return own

    def since(self, reading, thing, own, day):
        """The day from which a thing of this force period bears, or none."""
        period = own
        if reading == "efficacy":
            period = self.changed(thing, own, day, "efficacyMod")
            if any("days" in said and includes(period_of(said["days"]), day) for _, _, _, said in self.directed(thing, day)):
                return None
        return period[0] if includes(period, day) else None

    def force_of(self, wid, day):
        act = self.changed({"wId": "body"}, period_of(self.act["force"]), day, "forceMod")
        return act if wid == "body" else self.changed({"wId": wid}, act, day, "forceMod")

    def bears(self, reading, wid, day):
        return self.since(reading, {"wId": wid}, self.force_of(wid, day), day) is not None

    def flags(self, reading, day, provisions, above):
        """The flag of each provision of a text by its wId."""
        all_flags = {}
        for provision in provisions:
            marks = self.directed({"wId": provision.wid}, day)
            marked = any(kind == "forceMod" or reading == "efficacy" for _, _, kind, _ in marks)
            flag = self.bears(reading, provision.wid, day) if marked else above
            all_flags[provision.wid] = flag
            all_flags.update(self.flags(reading, day, provision.children, flag))
        return all_flags

    def due(self, reading, day, is_borne):
        """The ids that bear on a day, in the order in which they are applied."""
        keys = []
        for id, m in self.mods.items():
            kind, said = kind_of(m)
            if kind != "textualMod" or not self.live[id] or not is_borne(said["source"]):
                continue
            thing = {"modification": f"{id[0]}.{id[1]}"}
            since = self.since(reading, thing, self.changed(thing, period_of(said["force"]), day, "forceMod"), day)
            if since is not None:
                href = said["source"]["href"]
                keys.append((since, day_of(href), href.encode(), said["source"]["place"], id))
        return [key[-1] for key in sorted(keys)]

    def replay(self, ids):
        """The text, what was applied, and what was not with its cause."""
        body, applied, unapplied = self.enacted, [], []
        for id in ids:
            outcome = edited(body, id, kind_of(self.mods[id])[1])
            if isinstance(outcome, str):
                unapplied.append((id, outcome))
            else:
                body = outcome
                applied.append(id)
        return body, applied, unapplied


def known(law):
    """The works that a law enacts, each as it is known."""
    works, of = {}, {}
    for number, (kind, *parts) in enumerate(law, 1):
        if kind == "enact":
            works[parts[0]["FRBRuri"]] = Work(parts[0])
        elif kind == "record":
            for item, m in enumerate(parts[1], 1):
                work = of[number, item] = works[parts[0]]
                work.mods[number, item], work.live[number, item] = m, True
        elif kind == "correct":
            of[parts[0]].mods[parts[0]] = parts[1]
        else:
            of[parts[0]].live[parts[0]] = kind == "restore"
    return works


def line(works):
    """The works, the act of the latest day first, and on one day by the bytes of the IRI."""
    ordered = sorted(works.values(), key=lambda work: work.uri.encode())
    return sorted(ordered, key=lambda work: datetime.date.fromisoformat(work.day), reverse=True)


def looked_at(works, work, source):
    """The work of a source's provision, where that is looked at."""
    other = works.get(source["href"])
    return other if "provision" in source and other and work.day < other.day else None


def trees(works, reading, day):
    """Of each work its text, what was applied and what was not, and its flags."""
    made = {}
    for work in line(works):
        def is_borne(source):
            other = looked_at(works, work, source)
            return not other or made[other.uri][3].get(source["provision"], False)
        body, applied, unapplied = work.replay(work.due(reading, day, is_borne))
        made[work.uri] = body, applied, unapplied, work.flags(reading, day, body, work.bears(reading, "body", day))
    return made


def depends(works, work):
    """The works on which a work depends."""
    named = [kind_of(m)[1]["source"] for id, m in work.mods.items() if work.live[id] and kind_of(m)[0] == "textualMod"]
    found = [looked_at(works, work, source) for source in named]
    return {other.uri for other in found if other}


def breakpoints(works):
    """Of each work the days on which its text may change."""
    days = {}
    for work in line(works):
        named = [days_of(m) for id, m in work.mods.items() if work.live[id]]
        days[work.uri] = sorted(bounds(work.act["force"]).union(*named, *(days[uri] for uri in depends(works, work))))
    return days


def flag_day(modification):
    """The day from which a modification may change flags, if any."""
    kind, said = kind_of(modification)
    return on_of(said) if kind != "textualMod" and "wId" in said["destination"] else None


def changed_bodies(law, entry):
    """The work that a law entry concerns behind others, and of each id that it changes what it says, and said."""
    works = known(law)
    of = {id: work for work in works.values() for id in work.mods}
    kind, *parts = entry
    if kind == "enact":
        return parts[0]["FRBRuri"], {}
    if kind == "record":
        return parts[0], {(len(law) + 1, item): [m] for item, m in enumerate(parts[1], 1)}
    work = of[parts[0]]
    return work.uri, {parts[0]: [work.mods[parts[0]]] + ([parts[1]] if kind == "correct" else [])}


def least(days):
    return min((day for day in days if day), default=None)


def touched(law, entry):
    """The works that a law entry touches behind others, each with its day, in the order of the line."""
    concerned, changed = changed_bodies(law, entry)
    old, new = known(law), known([*law, entry])
    days, reach = {}, {}
    for work in line(new):
        own = flags = None
        if work.uri == concerned:
            mods = old[work.uri].mods.values() if work.uri in old else ()
            named = [{"modification": f"{id[0]}.{id[1]}"} for id in changed]
            on = [on_of(kind_of(m)[1]) for m in mods if kind_of(m)[1].get("destination") in named]
            own = least([own_day(body) for bodies in changed.values() for body in bodies] + on)
            flags = least(flag_day(body) for bodies in changed.values() for body in bodies)
        through = depends(new, work) | (depends(old, old[work.uri]) if work.uri in old else set())
        days[work.uri] = least([own, *(reach[uri] for uri in through)])
        reach[work.uri] = FIRST_DAY if entry[0] == "enact" and work.uri == concerned else least([days[work.uri], flags])
    return [(work.uri, days[work.uri]) for work in line(new) if days[work.uri]]


def shown(work, reading, day, provisions, flags, above):
    """Provisions as an answer prints them."""
    told = []
    for p in provisions:
        own = level(p.element, p.num)
        eid = f"{above}__{own}" if above and p.element != "section" else own
        printed = {"element": p.element, "num": p.num, "heading": "", "content": p.content, "refs": p.refs, "eId": eid, "bears": flags[p.wid],
                   "children": shown(work, reading, day, p.children, flags, eid)}
        told.append({**printed, **({"wId": p.wid} if p.wid != eid else {})})
    return told


def answer_by(works, made, uri, reading, day, viewpoint):
    """The answer about a work on a day, by the texts of all works on it."""
    body, applied, unapplied, flags = made[uri]
    work, spelled = works[uri], "{}.{}".format
    return {
        "applied": [spelled(*id) for id in applied], "bears": work.bears(reading, "body", day),
        "body": shown(work, reading, day, body, flags, ""), "expression": f"{uri}/eng@{day}", "reading": reading,
        "unapplied": [{"cause": cause, "id": spelled(*id)} for id, cause in unapplied], "viewpoint": viewpoint,
    }


def answer(law, uri, reading, day, viewpoint):
    """The answer about a work on a day, at a viewpoint."""
    works = known(law[:viewpoint])
    return answer_by(works, trees(works, reading, day), uri, reading, day, viewpoint)
