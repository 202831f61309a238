"""Modifications that bear only while the provision that makes them stands: histories of works, each with what is there on a day at a viewpoint,
and the days from which its law entries touch works; and previews. They were written by hand, from docs/MODEL.md.

A history is a list of (line, law entry), as `models.held` reckons with.
"""
from clients.messages import compact, get, response
from rows.dossiers import SOURCE, act, efficacy, force, inapplied, inserted, joined, node, repeal, split, substituted, textual
from rows.drafts import seen
from rows.histories import accepted, printed, text
from rows.register import FIRST, ONE, SECOND, SECTIONS, THIRD, TWO, add, answer, correct, draft, enact, file, law, record, restore, withdraw

FIRST_DAY = "0001-01-01"
MAKING = {"FRBRdate": "2010-12-01", "force": {"from": "2011-01-01"}, "body": [node(num="9", content="Repeal.")]}
EARLIER_ACT = "/akn/gb/act/2010-04-30/9"
YEAR_ALONE = "/akn/gb/act/2010/20"
LATER = "/akn/gb/act/2012-03-01/3"
LAST = {"FRBRdate": "2012-03-01", "force": {"from": "2012-03-15"}, "body": [node(num="2", content="Repeal.")]}


def enacted(number, uri, **keys):
    return enact("ada", number, uri, **keys), ("enact", act(FRBRuri=uri, **keys))


def recorded(number, work, *mods):
    return record("ada", number, *mods, work=work), ("record", work, list(mods))


def corrected(number, id, body):
    return correct("ada", number, "{}.{}".format(*id), body), ("correct", id, body)


def withdrawn(number, id):
    return withdraw("ada", number, "{}.{}".format(*id)), ("withdraw", id)


def restored(number, id):
    return restore("ada", number, "{}.{}".format(*id)), ("restore", id)


# A repeal that is recorded before the act which makes it: that act is enacted, its provision is ended, and then repealed.
MADE_LATER = [
    enacted(1, ONE, body=SECTIONS),
    recorded(2, ONE, repeal("sec_3", "2010-07-01", provision="sec_9")),
    enacted(3, SOURCE, **MAKING),
    recorded(4, SOURCE, force("endOfEnactment", destination={"wId": "sec_9"}, on="2011-06-01", date="2011-06-01")),
    recorded(5, SOURCE, repeal("sec_9", "2011-03-01")),
]
DAYS = ["2010-08-01", "2011-01-01", "2011-03-01", "2011-06-01"]
# Of each viewpoint on each of these days, in both readings, whether the third section is there.
THIRD_IS_THERE = {
    2: [False, False, False, False],
    3: [True, False, False, False],
    4: [True, False, False, True],
    5: [True, False, True, True],
}

# A modification of the later act that names a provision of the earlier one, which is not there: it bears by its own period.
MADE_EARLIER = [
    enacted(1, ONE, body=SECTIONS),
    enacted(2, SOURCE, **MAKING),
    recorded(3, SOURCE, repeal("sec_9", "2011-02-01", href=ONE, provision="sec_99")),
]

# The act whose third section a provision of another repeals.
MADE = [enacted(1, ONE, body=SECTIONS), recorded(2, ONE, repeal("sec_3", "2011-01-01", provision="sec_9")), enacted(3, SOURCE, **MAKING)]

# That provision is repealed by one of an act that is enacted after it was recorded, and which is then repealed itself.
CHAINED = MADE + [
    recorded(4, SOURCE, repeal("sec_9", "2012-03-10", href=LATER, provision="sec_2")),
    enacted(5, LATER, **LAST),
    recorded(6, LATER, repeal("sec_2", "2012-06-01")),
]

# That provision gets another num, another stands before it, and its end becomes a new one, which is repealed: its wId stays.
MOVED = MADE + [
    recorded(4, SOURCE, textual(type="renumbering", destination=None, renumber=[{"wId": "sec_9", "num": "10"}], force={"from": "2011-02-01"})),
    recorded(5, SOURCE, inserted([node(num="1", content="Name.")], "sec_9", "before", force={"from": "2011-03-01"})),
    recorded(6, SOURCE, split("sec_9", "11", old="eal", force={"from": "2011-04-01"})),
    recorded(7, SOURCE, repeal("m6-1__sec_11", "2011-05-01")),
    recorded(8, SOURCE, repeal("sec_9", "2011-06-01")),
]

# That provision is put in the place of itself, and so has another wId; or the one before it takes it in.
REPLACED = MADE + [recorded(4, SOURCE, substituted([node(num="9", content="Repeal.")], "sec_9", force={"from": "2011-02-01"}))]
TAKEN_IN = [
    *MADE[:2],
    enacted(3, SOURCE, **{**MAKING, "body": [node(num="8", content="Name."), node(num="9", content="Repeal.")]}),
    recorded(4, SOURCE, joined("sec_8", "sec_9", separator=" ", force={"from": "2011-02-01", "until": "2011-03-01"})),
]

# The repeal of that provision is corrected, withdrawn and restored; then the modification names another one, none, and the root.
CORRECTED = MADE + [
    recorded(4, SOURCE, repeal("sec_9", "2011-02-01")),
    corrected(5, (4, 1), repeal("sec_9", "2011-03-01")),
    withdrawn(6, (4, 1)),
    restored(7, (4, 1)),
    corrected(8, (2, 1), repeal("sec_3", "2011-01-01", provision="sec_8")),
    corrected(9, (2, 1), repeal("sec_3", "2011-01-01")),
    corrected(10, (2, 1), repeal("sec_3", "2011-01-01", provision="body")),
]

# The act that makes the modification is postponed, and ends.
POSTPONED = MADE + [
    recorded(4, SOURCE, force("postponementOfEntryIntoForce", destination={"wId": "body"}, on="2010-12-15", date="2011-04-01")),
    recorded(5, SOURCE, force("endOfEnactment", destination={"wId": "body"}, on="2011-06-01", date="2011-07-01")),
]

# The provision that makes an effect of force is not looked at: it ends the one that makes the modification, though it does not stand itself.
ENDED = MADE + [
    enacted(4, LATER, **LAST),
    recorded(5, SOURCE, force("endOfEnactment", destination={"wId": "sec_9"}, on="2012-05-01", date="2012-05-01",
                              source={"href": LATER, "place": 1, "provision": "sec_7"})),
]

# In the reading of efficacy alone that provision does not bear for a month, and then no longer.
INAPPLICABLE = MADE + [
    recorded(4, SOURCE, inapplied(destination={"wId": "sec_9"}, on="2011-02-01", days={"from": "2011-02-01", "until": "2011-03-01"})),
    recorded(5, SOURCE, efficacy("endOfEfficacy", destination={"wId": "sec_9"}, on="2011-04-01", date="2011-04-01")),
]

# The provision is a paragraph: the section above it ends, and then it is enacted again by itself.
BELOW = [
    enacted(1, ONE, body=SECTIONS),
    recorded(2, ONE, repeal("sec_3", "2011-01-01", provision="sec_9__para_a")),
    enacted(3, SOURCE, **{**MAKING, "body": [node(num="9", children=[node("paragraph", "a", content="Repeal.")])]}),
    recorded(4, SOURCE, force("endOfEnactment", destination={"wId": "sec_9"}, on="2011-03-01", date="2011-03-01")),
    recorded(5, SOURCE, force("reEnactment", destination={"wId": "sec_9__para_a"}, on="2011-04-01", date="2011-04-01")),
]

# The repeal has another end by an effect of force, which is counted whether the provision stands or not.
SHORTENED = MADE + [
    recorded(4, SOURCE, repeal("sec_9", "2011-02-01", until="2011-03-01")),
    recorded(5, ONE, force("endOfEnactment", destination={"modification": "2.1"}, on="2011-02-15", date="2011-04-01")),
]

# The act that makes the modification is of the day of the act that is modified, or of an earlier one: nothing is looked at.
SAME_DAY = [
    enacted(1, ONE, body=SECTIONS),
    recorded(2, ONE, repeal("sec_3", "2011-01-01", href=TWO, provision="sec_9")),
    enacted(3, TWO, body=SECTIONS),
    enacted(4, EARLIER_ACT, FRBRdate="2010-04-30", body=SECTIONS),
    corrected(5, (2, 1), repeal("sec_3", "2011-01-01", href=EARLIER_ACT, provision="sec_9")),
]

# The IRI of the act that makes the modification gives a year alone, which began before the act that is modified: the day of the act counts.
OF_A_YEAR = [
    enacted(1, ONE, body=SECTIONS),
    recorded(2, ONE, repeal("sec_3", "2010-07-01", href=YEAR_ALONE, provision="sec_9")),
    enacted(3, YEAR_ALONE, **MAKING),
]

# Histories in which 2.1 alone modifies the act of three sections, by taking the third: days, and of each viewpoint whether it is there on each; of
# both readings, where they differ.
STORIES = {
    "a repeal that is made later": (MADE_LATER, DAYS, THIRD_IS_THERE),
    "a chain of three works": (CHAINED, ["2010-12-31", "2011-06-01", "2012-03-10", "2012-03-15", "2012-05-31", "2012-06-01"], {
        2: [True, False, False, False, False, False],
        3: [True, False, False, False, False, False],
        4: [True, False, True, True, True, True],
        5: [True, False, False, True, True, True],
        6: [True, False, False, True, True, False],
    }),
    "a provision that moves": (MOVED, ["2011-02-01", "2011-03-01", "2011-04-01", "2011-05-01", "2011-06-01"], {
        **dict.fromkeys((3, 4, 5, 6, 7), [False] * 5),
        8: [False, False, False, False, True],
    }),
    "corrections, a withdrawal and a restoring": (CORRECTED, ["2011-01-01", "2011-02-01", "2011-03-01"], {
        3: [False, False, False],
        4: [False, True, True],
        5: [False, False, True],
        6: [False, False, False],
        7: [False, False, True],
        8: [True, True, True],
        9: [False, False, False],
        10: [True, True, True],
    }),
    "an act that is postponed, and ends": (POSTPONED, ["2011-01-01", "2011-03-31", "2011-04-01", "2011-06-30", "2011-07-01"], {
        3: [False, False, False, False, False],
        4: [True, True, False, False, False],
        5: [True, True, False, False, True],
    }),
    "an effect of force whose provision does not stand": (ENDED, ["2011-01-01", "2012-04-30", "2012-05-01"], {
        4: [False, False, False],
        5: [False, False, True],
    }),
    "a provision that is replaced": (REPLACED, ["2011-01-31", "2011-02-01"], {3: [False, False], 4: [False, True]}),
    "a provision that is taken in": (TAKEN_IN, ["2011-01-31", "2011-02-01", "2011-02-28", "2011-03-01"], {
        3: [False, False, False, False],
        4: [False, True, True, False],
    }),
    "a provision that is inapplicable": (INAPPLICABLE, ["2011-01-31", "2011-02-01", "2011-02-28", "2011-03-01", "2011-04-01"], {
        3: [False] * 5,
        4: ([False] * 5, [False, True, True, False, False]),
        5: ([False] * 5, [False, True, True, False, True]),
    }),
    "a provision below another": (BELOW, ["2011-02-28", "2011-03-01", "2011-03-31", "2011-04-01"], {
        3: [False, False, False, False],
        4: [False, True, True, True],
        5: [False, True, True, False],
    }),
    "a repeal that an effect of force ends": (SHORTENED, ["2011-01-31", "2011-02-01", "2011-02-28", "2011-03-01", "2011-03-31", "2011-04-01"], {
        3: [False] * 6,
        4: [False, True, True, False, False, False],
        5: [False, True, True, False, False, True],
    }),
    "an act of the same day, and an earlier one": (SAME_DAY, ["2010-12-31", "2011-01-01"], dict.fromkeys((2, 3, 4, 5), [True, False])),
    "an act whose IRI gives a year alone": (OF_A_YEAR, DAYS[:2], {2: [False, False], 3: [True, False]}),
}

# Of law entries of these histories the works that each touches.
TOUCHED = {
    "a repeal that is made later": {
        2: [(ONE, "2010-07-01")],
        3: [(ONE, FIRST_DAY)],
        4: [(ONE, "2011-06-01")],
        5: [(SOURCE, "2011-03-01"), (ONE, "2011-03-01")],
    },
    "a chain of three works": {
        4: [(SOURCE, "2012-03-10"), (ONE, "2012-03-10")],
        5: [(SOURCE, FIRST_DAY), (ONE, FIRST_DAY)],
        6: [(LATER, "2012-06-01"), (SOURCE, "2012-06-01"), (ONE, "2012-06-01")],
    },
    "corrections, a withdrawal and a restoring": {
        5: [(SOURCE, "2011-02-01"), (ONE, "2011-02-01")],
        6: [(SOURCE, "2011-03-01"), (ONE, "2011-03-01")],
        8: [(ONE, "2011-01-01")],
    },
    "an act that is postponed, and ends": {4: [(ONE, "2010-12-15")], 5: [(ONE, "2011-06-01")]},
    "an effect of force whose provision does not stand": {4: [], 5: [(ONE, "2012-05-01")]},
    "a provision that is inapplicable": {4: [(ONE, "2011-02-01")], 5: [(ONE, "2011-04-01")]},
    "a provision below another": {4: [(ONE, "2011-03-01")], 5: [(ONE, "2011-04-01")]},
    "a repeal that an effect of force ends": {4: [(SOURCE, "2011-02-01"), (ONE, "2011-02-01")], 5: [(ONE, "2011-02-15")]},
    "an act of the same day, and an earlier one": {3: [], 4: [], 5: [(ONE, "2011-01-01")]},
}
# What some of them cost a desk, in both readings: an id for each modification that begins to bear on a touched work, from its touched day on.
COSTS = {
    "a chain of three works": {4: 2, 5: 4, 6: 4},
    "corrections, a withdrawal and a restoring": {5: 2, 6: 0, 8: 0},
}
READINGS = ("force", "efficacy")


def by_reading(row):
    """Of each reading whether the third section is there on each day."""
    return zip(READINGS, row if isinstance(row, tuple) else (row, row))


def entered(history):
    """The commands of a history."""
    return [accepted(line, law(number)) for number, (line, _) in enumerate(history, 1)]


def third(day, viewpoint, reading, is_there):
    """A question about the act of three sections, of which the third is there, or was taken by 2.1."""
    told = answer("[]", f"{FIRST},{SECOND},{THIRD}", day, viewpoint, reading) if is_there else answer(
        '["2.1"]', f"{FIRST},{SECOND}", day, viewpoint, reading)
    return get(text(f"{ONE}/eng@{day}", viewpoint, reading)), response(200, told)


def at_viewpoint(viewpoint, days, row):
    """What a history tells at a viewpoint."""
    return [third(day, viewpoint, reading, there) for reading, told in by_reading(row) for day, there in zip(days, told)]


def told(history, days, is_there):
    """A history, and what it tells behind each law entry; and in the end what it told at each viewpoint."""
    told_then = {viewpoint: at_viewpoint(viewpoint, days, row) for viewpoint, row in is_there.items()}
    behind = [[request, *told_then.get(number, [])] for number, request in enumerate(entered(history), 1)]
    return sum([*behind, *told_then.values()], [])


def making(day, viewpoint, reading, body, applied):
    """An answer about the act that makes the modification."""
    return compact({"applied": applied, "bears": True, "body": body, "expression": f"{SOURCE}/eng@{day}", "reading": reading, "unapplied": [],
                    "viewpoint": viewpoint})


NINTH = [printed("section", 9, "Repeal.")]
EARLIER = entered(MADE_EARLIER) + [
    (get(text(f"{SOURCE}/eng@{day}", 3, reading)), response(200, making(day, 3, reading, body, applied)))
    for day, body, applied in (("2011-01-31", NINTH, []), ("2011-02-01", [], ["3.1"])) for reading in READINGS]

# A draft that repeals the provision: a preview of its act has it gone, and one of the act that it modifies is as the law stands, until it is filed.
# A draft may name a provision, too.
MARCH, AUGUST = "2011-03-01", "2010-08-01"
PREVIEWED = entered(MADE_LATER[:3]) + [
    accepted(add("bob", 1, repeal("sec_9", MARCH), work=SOURCE), draft(1)),
    seen("bob", making(MARCH, 4, "force", [], ["4.1"]), f"{SOURCE}/eng@{MARCH}"),
    seen("cyd", making(MARCH, 3, "force", NINTH, []), f"{SOURCE}/eng@{MARCH}"),
    seen("bob", answer('["2.1"]', f"{FIRST},{SECOND}", MARCH, 3), f"{ONE}/eng@{MARCH}"),
    accepted(add("cyd", 1, repeal("sec_2", "2010-07-01", provision="sec_9")), draft(1)),
    seen("cyd", answer("[]", f"{FIRST},{SECOND},{THIRD}", AUGUST, 4), f"{ONE}/eng@{AUGUST}"),
    seen("cyd", answer('["2.1","4.1"]', FIRST, MARCH, 4), f"{ONE}/eng@{MARCH}"),
    accepted(file("bob", 2, 3, work=SOURCE), law(4)),
    seen("bob", answer("[]", f"{FIRST},{SECOND},{THIRD}", MARCH, 4), f"{ONE}/eng@{MARCH}"),
    seen("cyd", answer("[]", f"{FIRST},{SECOND},{THIRD}", MARCH, 5), f"{ONE}/eng@{MARCH}"),
    seen("cyd", answer('["2.1","5.1"]', FIRST, "2011-02-28", 5), f"{ONE}/eng@2011-02-28"),
]

HISTORIES = {**{name: told(*story) for name, story in STORIES.items()}, "a repeal that an earlier act makes": EARLIER, "previews": PREVIEWED}

# What a report tells of the first history, to which a second repeal of the third section is recorded, by no provision; and where another act names
# that section as it is on a day.
TWICE = [line for line, _ in MADE_LATER] + [record("ada", 6, repeal("sec_3", "2011-02-01"))]
NAMED = f"{ONE}/eng@2011-06-01/~sec_3"
NAMING = enact("ada", 9, TWO, body=[node(num="1", content="See there.", refs=[NAMED])])
TABLES = [
    ("a section that its repeal has taken before", TWICE, ["unapplied", "2011-02-28"], [[ONE, "6.1", "TargetMissing"]]),
    ("a section whose first repeal bears no longer", TWICE, ["unapplied", MARCH], []),
    ("a section that comes back with the repeal of what took it", TWICE[:5], ["correspondence", ONE, "2011-02-28", MARCH],
     [["sec_1"] * 3, ["sec_2"] * 3, ["sec_3", "", "sec_3"]]),
    ("a modification whose provision comes to stand later", TWICE[:3], ["lifecycle", ONE],
     [["2010-05-01", "generation", ONE, "1"], ["2010-07-01", "amendment", SOURCE, "2.1"]]),
    ("a reference to a section that a provision takes", [*TWICE[:3], NAMING], ["dangling", MARCH], [[TWO, "sec_1", NAMED, "UnknownPortion"]]),
    ("the same once that provision has ended by then", [*TWICE[:3], NAMING, TWICE[3]], ["dangling", MARCH], []),
]
