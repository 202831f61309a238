"""What bears on a day, from which day a command touches a work, and what it costs to revise its versions from there: reckoned here anew, from
docs/MODEL.md, for histories of random commands.
"""
from models.bearing import EFFICACY, FORCE, includes


def cost(orders, touched):
    """How many ids are applied over the breakpoints from a day on: those that are new where the list before is a front of the list, or
    else all. Before the first breakpoint the list is empty."""
    steps, before = 0, []
    for day, ids in orders:
        if touched <= day:
            steps += len(ids) - (len(before) if ids[:len(before)] == before else 0)
        before = ids
    return steps


def kind_of(modification):
    """The kind of a modification, and what it says."""
    (kind, said), = modification.items()
    return kind, said


def on_of(said):
    """The day from which a modification of force or efficacy is counted; a retroactivity is from its date."""
    return said["date"] if said["type"] == "retroactivity" else said["on"]


def bounds(period):
    """The days of a period."""
    return {period["from"], period.get("until")} - {None}


def days_of(modification):
    """The days that a modification names."""
    kind, said = kind_of(modification)
    if kind == "textualMod":
        return bounds(said["force"])
    return {on_of(said), said.get("date")} - {None} | (bounds(said["days"]) if "days" in said else set())


def own_day(modification):
    """The day that a modification touches by itself, if any."""
    kind, said = kind_of(modification)
    if kind == "textualMod":
        return said["force"]["from"]
    return on_of(said) if "modification" in said["destination"] else None


class Work:
    """A work, with its modifications: of each id what it says, and whether it stands."""

    def __init__(self, period):
        self.period, self.said, self.live = period, {}, {}

    def record(self, law, modifications):
        for item, modification in enumerate(modifications, 1):
            self.said[law, item], self.live[law, item] = modification, True

    def directed(self, id):
        """The modifications that are directed at an id, each with its own, in ascending order of ids."""
        target = {"modification": f"{id[0]}.{id[1]}"}
        return [(other, *kind_of(m)) for other, m in sorted(self.said.items()) if kind_of(m)[1].get("destination") == target]

    def touched(self, id, *bodies):
        """The day that an id touches by any of these bodies, and by what is directed at it; of what does not stand, too."""
        days = [own_day(body) for body in bodies] + [on_of(said) for _, _, said in self.directed(id)]
        return min((day for day in days if day), default=None)

    def breakpoints(self):
        """The days on which the text may change."""
        named = [days_of(said) for id, said in self.said.items() if self.live[id]]
        return sorted(bounds(self.period).union(*named))

    def order(self, reading, day, aimed):
        """The ids that bear on a day, in the order in which they are applied."""
        due = []
        for id, modification in self.said.items():
            kind, said = kind_of(modification)
            if kind != "textualMod" or not self.live[id]:
                continue
            counted = sorted((on_of(m), other, kind, m) for other, kind, m in aimed[id] if self.live[other] and on_of(m) <= day)
            period = said["force"]["from"], said["force"].get("until")
            for _, _, kind, m in counted:
                period = FORCE[m["type"]](period, m["date"]) if kind == "forceMod" else period
            for _, _, kind, m in counted if reading == "efficacy" else ():
                period = EFFICACY[m["type"]](period, m.get("date")) if kind == "efficacyMod" else period
            inapplied = reading == "efficacy" and any(
                "days" in m and includes((m["days"]["from"], m["days"].get("until")), day) for _, _, _, m in counted)
            if includes(period, day) and not inapplied:
                due.append((period[0], said["source"]["place"], id))
        return [f"{law}.{item}" for _, _, (law, item) in sorted(due)]

    def orders(self, reading):
        """The breakpoints, each with the ids that bear then. All modifications have one source, so its place tells them apart."""
        aimed = {id: self.directed(id) for id in self.said}
        return [(day, self.order(reading, day, aimed)) for day in self.breakpoints()]
