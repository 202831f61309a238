"""References that dangle on a day, of registers that commands made: each table as it is to be written. They were written by hand, from
docs/REPORTS.md, docs/EDITS.md and docs/MODEL.md.

A row is (name, commands, words, table), as in `rows.reports`.
"""
from rows.dossiers import SOURCE, efficacy, force, inserted, joined, node, repeal, sections, split, substituted, textual, to
from rows.register import NONE, ONE, TWO, add, correct, drop, enact, file, record, restore, withdraw

TEN = "/akn/gb/act/2010-05-01/10"
NINTH = SOURCE + "/eng@2011-01-01/~sec_9"
MAKING = {"FRBRdate": "2010-12-01", "force": {"from": "2011-01-01"}, "body": [node(num="9", content="Repeal.")]}
MADE = enact("ada", 2, uri=SOURCE, **MAKING)


def dangling(day="2010-06-01"):
    return ["dangling", day]


def acting(*refs, number=1, uri=ONE, **keys):
    """An act of three sections, with references on the first."""
    body = [node(num="1", content="One.", refs=list(refs)), node(num="2", content="Two two."), node(num="3", content="Three.")]
    return enact("ada", number, uri=uri, **{"body": body, **keys})


def off(ref, cause, eid="sec_1", work=ONE):
    """The row of a reference."""
    return [work, eid, ref, cause]


def on_ninth(*mods):
    """The act that names section 9 of a later one, that act, and each modification of it by a record of its own."""
    return [acting(NINTH), MADE] + [record("ada", number, mod, work=SOURCE) for number, mod in enumerate(mods, 3)]


GONE = [off(NINTH, "UnknownPortion")]
WRITTEN = [
    ("a work that nobody enacted", [acting(NINTH)], dangling(), [off(NINTH, "UnknownWork")]),
    ("the same on the day of the act", [acting(NINTH)], dangling("2010-05-01"), [off(NINTH, "UnknownWork")]),
    ("the same before the act", [acting(NINTH)], dangling("2010-04-30"), []),
    ("a work that was enacted later", on_ninth(), dangling(), []),
    ("a section that goes after the day that is named", on_ninth(repeal("sec_9", "2011-02-01")), dangling(), []),
    ("a section that goes on the day that is named", on_ninth(repeal("sec_9", "2011-02-01"), repeal("sec_9", "2011-01-01")), dangling(), GONE),
    ("the same once that repeal is withdrawn", on_ninth(repeal("sec_9", "2011-02-01"), repeal("sec_9", "2011-01-01")) + [withdraw("ada", 9, "4.1")],
     dangling(), []),
    ("the same once it is restored", on_ninth(repeal("sec_9", "2011-02-01"), repeal("sec_9", "2011-01-01"))
     + [withdraw("ada", 8, "4.1"), restore("ada", 9, "4.1")], dangling(), GONE),
    ("the same on a later day", on_ninth(repeal("sec_9", "2011-01-01")), dangling("2020-01-01"), GONE),
    ("an empty register", [], dangling(), []),
    ("acts without references", [acting(), MADE], dangling(), []),
]

# What is asked of the later act, whose section 9 goes for the month of February 2011, and why it dangles.
ASKED = [
    ("", None), ("2010-11-30", "NotYetEnacted"), ("2010-12-01", None), ("2011-01-31/~sec_9", None), ("2011-02-01/~sec_9", "UnknownPortion"),
    ("2011-02-28/~sec_9", "UnknownPortion"), ("2011-03-01/~sec_9", None), ("9999-12-31/~sec_9", None), ("/~sec_9", None), ("/~sec_8", "UnknownPortion"),
    ("2010-11-30/~sec_8", "NotYetEnacted"), ("2011-02-01/!main", None), ("2011-02-01/!main/~sec_9", "UnknownPortion"), ("2011-03-01/!main~sec_9", None),
    ("2011-03-01/~body", "UnknownPortion"), ("2011-03-01/~sec_9__para_a", "UnknownPortion"), ("2011-03-01/~Sec_9", "UnknownPortion"),
]
TONGUES = [("2011-02-01", "OtherLanguage"), ("2010-11-30", "NotYetEnacted"), ("2011-02-01/~sec_9", "OtherLanguage"), ("", "OtherLanguage")]


def asked(refs):
    """A register in which an act names these parts of a later one, and those that dangle."""
    commands = [acting(*(ref for ref, _ in refs)), MADE, record("ada", 3, repeal("sec_9", "2011-02-01", until="2011-03-01"), work=SOURCE)]
    return commands, dangling(), [off(ref, cause) for ref, cause in refs if cause]


NAMED = [
    ("versions and portions", *asked([(f"{SOURCE}/eng@{rest}", cause) for rest, cause in ASKED[:9]])),
    ("more portions", *asked([(f"{SOURCE}/eng@{rest}", cause) for rest, cause in ASKED[9:]])),
    ("other languages", *asked([(f"{SOURCE}/fra@{rest}", cause) for rest, cause in TONGUES])),
    ("one reference twice", *asked([(f"{SOURCE}/fra@", "OtherLanguage")] * 2)),
    ("works of other IRIs", *asked([(f"{iri}/eng@", "UnknownWork") for iri in (NONE, "/akn/gb/act/2010/20", "/akn/ie/act/2010-12-01/20",
                                                                              "/akn/gb/act/si/2010-12-01/20")])),
]

SELF = ONE + "/eng@2011-01-01/~sec_3"
WANTED = NONE + "/eng@"
OF_ITSELF = ("a section of the act itself that goes", [acting(SELF), record("ada", 2, repeal("sec_3"))])
NEW = node(num="4", content="Four.", refs=[WANTED])
UNDER = node(num="1", refs=[WANTED + "/~a"], children=[
    node("paragraph", "b", refs=[WANTED + "/~c", WANTED + "/~b"], children=[node("subparagraph", "i", refs=[WANTED + "/~d"])]),
    node("paragraph", "a", refs=[WANTED + "/~a"])])
PLACED = [
    (*OF_ITSELF, dangling("2010-06-01"), [off(SELF, "UnknownPortion")]),
    ("each provision before those beneath it, and references in order", [enact("ada", 1, body=[UNDER, node(num="2", refs=[WANTED])])], dangling(),
     [off(WANTED + "/~a", "UnknownWork"), off(WANTED + "/~c", "UnknownWork", "sec_1__para_b"), off(WANTED + "/~b", "UnknownWork", "sec_1__para_b"),
      off(WANTED + "/~d", "UnknownWork", "sec_1__para_b__subpara_i"), off(WANTED + "/~a", "UnknownWork", "sec_1__para_a"),
      off(WANTED, "UnknownWork", "sec_2")]),
    ("several works, in the order of their bytes", [acting(WANTED, uri=TWO), acting(WANTED, number=2), acting(WANTED, number=3, uri=TEN)], dangling(),
     [off(WANTED, "UnknownWork", work=work) for work in (TEN, ONE, TWO)]),
    ("a work of a later day", [acting(WANTED), enact("ada", 2, uri=SOURCE, **{**MAKING, "body": [NEW]})], dangling("2010-11-30"),
     [off(WANTED, "UnknownWork")]),
    ("the same on its day", [acting(WANTED), enact("ada", 2, uri=SOURCE, **{**MAKING, "body": [NEW]})], dangling("2010-12-01"),
     [off(WANTED, "UnknownWork"), off(WANTED, "UnknownWork", "sec_4", SOURCE)]),
    ("sections of another num", [acting(SOURCE + "/eng@2011-01-01/~sec_9", SOURCE + "/eng@2011-01-01/~sec_10"), MADE, record(
        "ada", 3, textual(type="renumbering", destination=None, renumber=[{"wId": "sec_9", "num": "10"}]), work=SOURCE)], dangling(), GONE),
    ("a section of another num that refers", [acting(WANTED), record(
        "ada", 2, textual(type="renumbering", destination=None, renumber=[{"wId": "sec_1", "num": "9"}]))], dangling("2011-01-01"),
     [off(WANTED, "UnknownWork", "sec_9")]),
    ("a section that refers and goes, on the day before", [acting(WANTED), record("ada", 2, repeal("sec_1"))], dangling("2010-12-31"),
     [off(WANTED, "UnknownWork")]),
    ("a section that refers and goes", [acting(WANTED), record("ada", 2, repeal("sec_1"))], dangling("2011-01-01"), []),
    ("a section that refers and comes back", [acting(WANTED), record("ada", 2, repeal("sec_1", until="2011-07-01"))], dangling("2011-07-01"),
     [off(WANTED, "UnknownWork")]),
    ("sections that are joined", [enact("ada", 1, body=[node(num="1", refs=[WANTED]), node(num="2", refs=[NINTH])]),
                                  record("ada", 2, joined("sec_1", "sec_2", separator=""))], dangling("2011-01-01"),
     [off(WANTED, "UnknownWork"), off(NINTH, "UnknownWork")]),
    ("a section that is split", [acting(WANTED), record("ada", 2, split("sec_1", "1A", old="."))], dangling("2011-01-01"), [off(WANTED, "UnknownWork")]),
    ("a wide act", [enact("ada", 1, nodeLimit=8192, body=sections(8190) + [node(num="a", refs=[WANTED] * 16), node(num="b", refs=[NINTH])])],
     dangling(), [off(WANTED, "UnknownWork", "sec_a")] * 16 + [off(NINTH, "UnknownWork", "sec_b")]),
    ("portions of a wide act", [acting(*(f"{SOURCE}/eng@2011-01-01/~sec_{num}" for num in (1, 8192, 8193))),
                                enact("ada", 2, uri=SOURCE, **{**MAKING, "nodeLimit": 8192, "body": sections(8192)})], dangling(),
     [off(SOURCE + "/eng@2011-01-01/~sec_8193", "UnknownPortion")]),
]

BROUGHT = [acting(), record("ada", 2, inserted([NEW], "sec_3", "after"))]
FOUR = [off(WANTED, "UnknownWork", "sec_4")]
BORNE = [
    ("an insertion that refers", BROUGHT, dangling("2011-01-01"), FOUR),
    ("the same on the day before", BROUGHT, dangling("2010-12-31"), []),
    ("a payload of several levels", [acting(), record("ada", 2, substituted([UNDER], "sec_1"))], dangling("2011-01-01"),
     [off(WANTED + "/~a", "UnknownWork"), off(WANTED + "/~c", "UnknownWork", "sec_1__para_b"), off(WANTED + "/~b", "UnknownWork", "sec_1__para_b"),
      off(WANTED + "/~d", "UnknownWork", "sec_1__para_b__subpara_i"), off(WANTED + "/~a", "UnknownWork", "sec_1__para_a")]),
    ("a payload that could not be applied", [acting(), record("ada", 2, substituted([NEW], "sec_9"))], dangling("2011-01-01"), []),
    ("what a payload brings is named", [acting(ONE + "/eng@2011-01-01/~sec_4", ONE + "/eng@2010-12-31/~sec_4"), *BROUGHT[1:]], dangling(),
     [off(ONE + "/eng@2010-12-31/~sec_4", "UnknownPortion")]),
    ("a withdrawn insertion", BROUGHT + [withdraw("ada", 3, "2.1")], dangling("2011-01-01"), []),
    ("a restored insertion", BROUGHT + [withdraw("ada", 3, "2.1"), restore("ada", 4, "2.1")], dangling("2011-01-01"), FOUR),
    ("a correction that brings a reference", [acting(), record("ada", 2, inserted([node(num="4")], "sec_3", "after")),
                                              correct("ada", 3, "2.1", inserted([NEW], "sec_3", "after"))], dangling("2011-01-01"), FOUR),
    ("a correction that takes it", BROUGHT + [correct("ada", 3, "2.1", inserted([node(num="4")], "sec_3", "after"))], dangling("2011-01-01"), []),
    ("a correction to a later day", BROUGHT + [correct("ada", 3, "2.1", inserted([NEW], "sec_3", "after", force={"from": "2011-02-01"}))],
     dangling("2011-01-31"), []),
    ("the same on that day", BROUGHT + [correct("ada", 3, "2.1", inserted([NEW], "sec_3", "after", force={"from": "2011-02-01"}))],
     dangling("2011-02-01"), FOUR),
    ("a correction by which a target goes", on_ninth(repeal("sec_9", "2011-02-01")) + [correct("ada", 4, "3.1", repeal("sec_9", "2011-01-01"))],
     dangling(), GONE),
    ("a postponed repeal of a target", on_ninth(repeal("sec_9", "2011-01-01"), force(
        "postponementOfEntryIntoForce", destination=to("3.1"), on="2010-12-15", date="2011-06-01")), dangling(), []),
    ("what has efficacy alone", on_ninth(repeal("sec_9", "2012-01-01"), efficacy("retroactivity", destination=to("3.1"), on=None, date="2011-01-01")),
     dangling(), []),
    ("a target that does not bear", on_ninth(force("endOfEnactment", destination={"wId": "sec_9"}, on="2011-01-01", date="2011-01-01")), dangling(), []),
    ("a whole text that goes", on_ninth(repeal("body", "2011-01-01")), dangling(), GONE),
]

DRAFTED = inserted([NEW], "sec_3", "after")
HELD_BACK = [
    ("a draft", [acting(), add("ada", 2, DRAFTED)], dangling("2011-01-01"), []),
    ("a draft that takes a target away", [acting(NINTH), MADE, add("ada", 3, repeal("sec_9", "2011-01-01"), work=SOURCE)], dangling(), []),
    ("a draft that was dropped", [acting(), add("ada", 2, DRAFTED), drop("ada", 3, 1)], dangling("2011-01-01"), []),
    ("a draft that was filed", [acting(), add("ada", 2, DRAFTED), file("ada", 3, 1)], dangling("2011-01-01"), FOUR),
    ("commands that were refused", [acting(NINTH), acting(number=3), enact("ada", 4, uri=SOURCE, **{**MAKING, "body": sections(1) * 2}),
                                    record("ada", 5, repeal("sec_1", "2010-06-01"), work=TWO)], dangling(), [off(NINTH, "UnknownWork")]),
    ("a command that was sent twice", [acting(NINTH), acting(NINTH)], dangling(), [off(NINTH, "UnknownWork")]),
]

ROWS = WRITTEN + NAMED + PLACED + BORNE + HELD_BACK
WORDS = [["dangling"], ["dangling", ONE], ["dangling", "2011-1-1"], ["dangling", "2011-02-29"], ["dangling", "2011-01-01", "force"], ["dangling", ""],
         ["dangling", "-2011-01-01"], ["Dangling", "2011-01-01"], ["dangle", "2011-01-01"], ["dangling", "2011-01-01", "2011-01-01", "2011-01-01"]]
