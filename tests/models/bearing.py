"""What bears by effects of force and efficacy: each effect alone, and each pair of effects on one provision, counted in either
order, over the days round each bound. What is wanted is reckoned here anew, from docs/MODEL.md.
"""
import datetime
import itertools

from rows.dossiers import act, dossier, efficacy, force, node

ACT = ("2010-06-01", "2012-06-01")
DAYS = {"from": "2011-03-01", "until": "2011-04-01"}
FORCE = {
    "entryIntoForce": lambda period, date: (date, period[1]),
    "postponementOfEntryIntoForce": lambda period, date: (max(period[0], date), period[1]),
    "endOfEnactment": lambda period, date: (period[0], date),
    "prorogationOfForce": lambda period, date: (period[0], period[1] and max(period[1], date)),
    "reEnactment": lambda period, date: (date, None),
}
EFFICACY = {
    "entryIntoEfficacy": lambda period, date: (date, period[1]),
    "endOfEfficacy": lambda period, date: (period[0], date),
    "retroactivity": lambda period, date: (min(period[0], date), period[1]),
    "postponementOfEfficacy": lambda period, date: (max(period[0], date), period[1]),
    "prorogationOfEfficacy": lambda period, date: (period[0], period[1] and max(period[1], date)),
    "extraefficacy": lambda period, date: (period[0], None),
    "inapplication": lambda period, date: period,
}
EFFECTS = list(FORCE) + list(EFFICACY)


def includes(period, day):
    """Whether a day is in a period, which includes its start and excludes its end, if it has one."""
    return period[0] <= day and (period[1] is None or day < period[1])


def spelled(effect, wid, on, date):
    """A modification of that effect as a dossier spells it."""
    if effect in FORCE:
        return force(effect, destination={"wId": wid}, on=on, date=date)
    changes = {"retroactivity": {"on": None, "date": on}, "extraefficacy": {"on": on, "date": None},
               "inapplication": {"on": on, "date": None, "days": DAYS}}.get(effect, {"on": on, "date": date})
    return efficacy(effect, destination={"wId": wid}, **changes)


def bears(effects, reading, day):
    """Whether a provision with these effects bears, each with the day from which it counts and its date; they stand in order."""
    counted = [(effect, date) for effect, on, date in effects if on <= day]
    if not any(effect in FORCE or reading == "efficacy" for effect, _ in counted):
        return includes(ACT, day)
    period = ACT
    for effect, date in counted:
        period = FORCE[effect](period, date) if effect in FORCE else period
    if reading == "force":
        return includes(period, day)
    for effect, date in counted:
        period = EFFICACY[effect](period, date) if effect in EFFICACY else period
    inapplied = any(effect == "inapplication" for effect, _ in counted) and DAYS["from"] <= day < DAYS["until"]
    return includes(period, day) and not inapplied


def dated(effect, on, date):
    """An effect with the day from which it counts and its date; a retroactivity counts from its date."""
    return (effect, on, on if effect == "retroactivity" else date)


def around(bounds):
    """The days before, at and after each bound."""
    one = datetime.timedelta(days=1)
    days = [datetime.date.fromisoformat(bound) for bound in bounds]
    return sorted({str(day + shift * one) for day in days for shift in (-1, 0, 1)})


def tables():
    """Each dossier with the days on which it is asked for, and for each reading and day the flags of its sections."""
    ons = [("2010-12-01", "2010-12-15"), ("2010-12-15", "2010-12-01"), ("2010-12-01", "2010-12-01")]
    dates = [("2011-05-01", "2011-09-01"), ("2011-09-01", "2011-05-01")]
    plans = [[[dated(effect, "2010-12-01", date)] for effect in EFFECTS] for date in ("2011-05-01", "2013-01-01")]
    for on, date in itertools.product(ons, dates):
        plans.append([[dated(a, on[0], date[0]), dated(b, on[1], date[1])] for a, b in itertools.product(EFFECTS, EFFECTS)])
    bounds = [*ACT, "2010-12-01", "2010-12-15", DAYS["from"], DAYS["until"], "2011-05-01", "2011-09-01", "2013-01-01"]
    for plan in plans:
        mods = [spelled(effect, f"sec_{k}", on, date) for k, effects in enumerate(plan, 1) for effect, on, date in effects]
        body = [node(num=str(k)) for k in range(1, len(plan) + 1)]
        given = dossier(act(force={"from": ACT[0], "until": ACT[1]}, body=body), mods)
        for reading, day in itertools.product(("force", "efficacy"), around(bounds)):
            yield given, reading, day, [bears(sorted(effects, key=lambda e: e[1]), reading, day) for effects in plan]
