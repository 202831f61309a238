"""Looks at a dossier: all its faults, each with its path in the JSON and its line; and where it has none, what its modifications miss."""
import json
import re
import unicodedata

import desk
import faults
import forms
import places
import writing

# Days on which the desk is asked at most, and names that are near at most.
MOST_DAYS, MOST_NEAR = 40, 3
QUOTES = str.maketrans({"‘": "'", "’": "'", "“": '"', "”": '"', "«": '"', "»": '"', "\u00a0": " ", "\u202f": " ", "–": "-", "—": "-"})


def days_of(dossier):
    """The days on which the text of a dossier may change, from that of its act on."""
    first = dossier["act"]["FRBRdate"]
    return sorted(day for day in {first} | forms.days_named(dossier) if day >= first)


class Texts:
    """The texts of an act on the days on which they may change."""

    def __init__(self, dossier):
        self.days, self.by_day, self.unapplied, self.changes = days_of(dossier), {}, {}, []
        self.cut = max(0, len(self.days) - MOST_DAYS)
        last = None
        for day in self.days[:MOST_DAYS]:
            answer = desk.text(dossier, day)[0]
            self.by_day[day] = {wid: node for node, wid, _ in desk.provisions(answer)}
            for it in answer["unapplied"]:
                self.unapplied.setdefault(it["id"], (it["cause"], day))
            now = [(wid, node["eId"], node["heading"], node["content"], node["bears"]) for wid, node in self.by_day[day].items()]
            if last is not None and now != last or last is None:
                self.changes.append(day)
            last = now

    def wids(self):
        return {wid for it in self.by_day.values() for wid in it}

    def near(self, wid):
        """What a wId that no text has may have meant."""
        found = []
        for day, nodes in self.by_day.items():
            for other, node in nodes.items():
                if node["eId"] == wid and other != wid:
                    found.append(f"it is the eId of {other} from {day} on")
        low = {it.lower().replace("-", "").replace("_", ""): it for it in self.wids()}
        same = low.get(wid.lower().replace("-", "").replace("_", ""))
        if same:
            found.append(f"{same} is spelled otherwise")
        last = wid.rpartition("__")[2]
        found += [f"{it} has the same last level" for it in sorted(self.wids()) if it.rpartition("__")[2] == last and it != wid]
        return list(dict.fromkeys(found))[:MOST_NEAR]


def plain(text):
    return re.sub(r"\s+", " ", unicodedata.normalize("NFC", text).translate(QUOTES)).strip()


def named(modification):
    """The wIds that a modification names."""
    found = [modification.get("destination", {}).get("wId"), modification.get("second"), modification.get("child")]
    return [it for it in found + [pair["wId"] for pair in modification.get("renumber", ())] if it and it != "body"]


def misses(dossier, texts):
    """What is no fault, and yet no effect: destinations that no text has, and words that miss by a blank or a quote. Each with the modification that it is
    of, counted from 0, or None where it is of none alone."""
    known = texts.wids()
    for at, it in enumerate(dossier["modifications"]):
        modification = next(iter(it.values()))
        for wid in named(modification):
            if wid not in known:
                near = texts.near(wid)
                yield at, f"no text of any day has the provision {wid}" + (f": {'; '.join(near)}" if near else "")
        cause, day = texts.unapplied.get(f"{at + 2}.1", ("", ""))
        if cause == "OldTextMissing" and "old" in modification:
            node = texts.by_day.get(day, {}).get(modification["destination"]["wId"])
            content = node["content"] if node else ""
            close = plain(modification["old"]) and plain(modification["old"]).lower() in plain(content).lower()
            yield at, f"the words '{modification['old'][:60]}' don't stand in {modification['destination']['wId']} on {day}" + (
                ", though they do but for blanks, quotes, dashes or capitals" if close else "")
        elif cause:
            yield at, f"is not applied on {day}: {forms.CAUSES.get(cause, cause)} ({cause})"
    width = {it["textualMod"]["destination"]["wId"] for it in dossier["modifications"] if "destination" in it.get("textualMod", {})}
    for wid in sorted(it for it in width if re.match(r"m[0-9]+-[0-9]+__", it)):
        yield None, f"{wid} has a number of a law entry in it: where another act is recorded first, it names another provision or none"


def examined(path):
    with open(path, "rb") as it:
        data = it.read(faults.LONGEST + 1)
    found, line = faults.faults_of(data)
    print(f"# {writing.LINE}")
    for it in found:
        print(f"{path}:{line(it.at)}: {it.path}: {it.why} ({json.dumps(it.line(), sort_keys=True)})")
    if found:
        print(f"# {len(found)} faults")
        return 1
    dossier = json.loads(data)
    texts = Texts(dossier)
    notes = list(misses(dossier, texts))
    spots = [it.at for it in places.read(data)[0].value["modifications"].value]
    for at, why in notes:
        print(f"{path}:{1 if at is None else line(spots[at])}: {'$' if at is None else f'$.modifications[{at}]'}: {why}")
    print(f"# no fault; {len(notes)} notes; the text changes on {', '.join(texts.changes)}" + (f"; {texts.cut} later days were not asked" if texts.cut else ""))
    return 0
