"""Acts that may have 4,096 provisions and acts that may have 8,192, and sources that name the provision that modifies: dossiers with what the desk
writes of them, and streams of requests. The lines were written by hand, from docs/FORMS.md, docs/RULES.md and docs/MODEL.md.

The tables of dossiers are those of `dossiers.py`, which has their forms.
"""
from clients.messages import bad_form, command
from rows.drafts import holds, item, seen, without
from rows.dossiers import (SOURCE, act, dossier, efficacy, force, form, inapplied, inserted, joined, node, refused, repeal, sections, split,
                           substituted, textual)
from rows.histories import ENACTED, accepted, answered, asked, broken, printed
from rows.register import FIRST, ONE, SECOND, SECTIONS, THIRD, TWO, add, correct, draft, drop, enact, file, law, record, restore, withdraw

PLAIN, WIDE = 4096, 8192
# A number that no section has.
SPARE = [node(num="9001"), node(num="9002")]
LONGEST = "B-_z" * 128


def by(provision, place=1):
    """A source that names a provision."""
    return {"href": SOURCE, "place": place, "provision": provision}


def many(count):
    """So many provisions below one."""
    return [node("part", "1", children=[node("paragraph", str(k)) for k in range(1, count)])]


def grouped(parts, each):
    """Parts of so many sections, each of another num."""
    return [node("part", str(p), children=[node(num=f"{p}-{k}") for k in range(each)]) for p in range(parts)]


# Dossiers that are answered.
FITS = [
    ("an act that states the smaller limit", dossier(act(nodeLimit=PLAIN))),
    ("an act that states the greater limit", dossier(act(nodeLimit=WIDE))),
    ("4,096 sections in an act that states their number", dossier(act(nodeLimit=PLAIN, body=sections(PLAIN)))),
    ("4,097 sections in a wide act", dossier(act(nodeLimit=WIDE, body=sections(PLAIN + 1)))),
    ("8,192 sections in a wide act", dossier(act(nodeLimit=WIDE, body=sections(WIDE)))),
    ("8,192 provisions in a wide act, each part of 31 sections", dossier(act(nodeLimit=WIDE, body=grouped(256, 31)))),
    ("4,096 provisions are inserted into a wide act", dossier(act(nodeLimit=WIDE), [inserted(many(PLAIN))])),
    *((f"a provision of {what}", dossier(mods=[repeal(), textual(source=by(name))])) for what, name in [
        ("one letter", "a"), ("a digit", "0"), ("a dash", "-"), ("a low line", "_"), ("its levels", "m5-1__sec_4__para_b"), ("512 bytes", LONGEST)]),
    ("a provision that changes the force", dossier(mods=[force(source=by("sec_9"))])),
    ("a provision that changes the efficacy", dossier(mods=[efficacy(source=by("sec_9")), inapplied(source=by("sec_9"))])),
]

# A name that breaks the rule of a portion.
NO_PROVISIONS = [
    ("nothing", ""), ("513 bytes", LONGEST + "a"), ("a dot", "sec.9"), ("a slash", "sec/9"), ("a blank", "sec 9"), ("a sign before it", "~sec_9"),
    ("a letter that is not of ASCII", "s\u00e9c_9"), ("a line feed behind it", "sec_9\n"), ("a colon", "sec:9"),
]
# Numbers that are none of the two limits, in JSON.
NO_LIMITS = ["0", "1", "4095", "4097", "5000", "8191", "8193", "12288", "65536", "69632", "-4096", "4294971392", "18446744073709555712", "4096.0",
             "8.192e3", "8192.5", "1e308"]


def of_limit(number):
    """A small act that states this limit, in JSON."""
    return dossier(act(nodeLimit="?")).replace(b'"?"', number.encode())


# The first fault of form.
FORMS = (
    [(f"a provision of {name}", dossier(mods=[textual(source=by(it))]), form(3, 1)) for name, it in NO_PROVISIONS]
    + [(f"a second provision of {name}, of force", dossier(mods=[repeal(), force(source=by(it))]), form(3, 2)) for name, it in NO_PROVISIONS]
    + [(f"a third provision of {name}, of efficacy", dossier(mods=[repeal(), repeal(), efficacy(source=by(it))]), form(3, 3))
       for name, it in NO_PROVISIONS]
    + [(f"a provision that is {it!r}", dossier(mods=[repeal(), textual(source=by(it))]), form(2, 2)) for it in (None, 1, True, ["sec_9"], {})]
    + [(f"the limit {number}", of_limit(number), form(6)) for number in NO_LIMITS]
    + [(f"the limit {value}", of_limit(value), form(2)) for value in ('"4096"', '"8192"', '"5000"', "null", "true", "[8192]", "{}")]
    + [
        ("the set of keys comes before the limit", dossier(act(title="Act", nodeLimit=5000)), form(2)),
        ("the language comes before the limit", dossier(act(FRBRlanguage="en", nodeLimit=5000)), form(3)),
        ("the day comes before the limit", dossier(act(FRBRdate="2010-05-02", nodeLimit=5000)), form(8)),
        ("the numbering comes before the limit", dossier(act(numbering=["annex"], nodeLimit=5000)), form(5)),
        ("the limit comes before the force", dossier(act(nodeLimit=5000, force={"from": "2010-06-31"})), form(6)),
        ("the kind of the limit comes before the force", dossier(act(nodeLimit="8192", force={"from": "2010-06-31"})), form(2)),
        ("the limit comes before the body", dossier(act(nodeLimit=5000, body=[node("annex")])), form(6)),
        ("the limit comes before the modifications", dossier(act(nodeLimit=5000), [1]), form(6)),
        ("the place comes before the provision", dossier(mods=[textual(source=by("", 65536))]), form(6, 1)),
        ("the IRI comes before the provision", dossier(mods=[textual(source={**by(""), "href": ""})]), form(3, 1)),
        ("the kind of the place comes before the provision", dossier(mods=[textual(source=by("", "1"))]), form(2, 1)),
        ("the provision comes before the force", dossier(mods=[textual(source=by(""), force={"from": "2011-02-29"})]), form(3, 1)),
        ("the provision comes before the destination", dossier(mods=[force(source=by(""), destination={})]), form(3, 1)),
        ("a source's provision without a place", dossier(mods=[textual(source={"href": SOURCE, "provision": "sec_9"})]), form(2, 1)),
        ("a source's key too many", dossier(mods=[textual(source={**by("sec_9"), "wId": "sec_9"})]), form(2, 1)),
        ("a provision in capitals as the key", dossier(mods=[textual(source={"href": SOURCE, "place": 1, "Provision": "sec_9"})]), form(2, 1)),
        ("a provision of a modification", dossier(mods=[textual(provision="sec_9")]), form(2, 1)),
        ("a provision of a destination", dossier(mods=[textual(destination={"wId": "sec_1", "provision": "sec_9"})]), form(2, 1)),
        ("a provision of an act", dossier(act(provision="sec_9")), form(2)),
        ("a limit of a node", dossier(act(body=[node(nodeLimit=WIDE)])), form(2)),
        ("a limit of a modification", dossier(mods=[textual(nodeLimit=WIDE)]), form(2, 1)),
        ("a limit of a dossier", dossier()[:-1] + b',"nodeLimit":8192}', form(2)),
        ("a limit in small letters", dossier(act(nodelimit=WIDE)), form(2)),
        ("a limit that is misspelled", dossier(act(nodeLimits=WIDE)), form(2)),
    ]
)

# The first rule that the first refused command breaks.
COMMANDS = [
    ("4,097 sections in an act that states 4,096", dossier(act(nodeLimit=PLAIN, body=sections(PLAIN + 1))), refused(5, 3)),
    ("8,193 sections in a wide act", dossier(act(nodeLimit=WIDE, body=sections(WIDE + 1))), refused(5, 3)),
    ("8,193 provisions at two depths in a wide act", dossier(act(nodeLimit=WIDE, body=[node("part", children=sections(WIDE))])), refused(5, 3)),
    ("8,192 sections in a plain act", dossier(act(body=sections(WIDE))), refused(5, 3)),
    ("one section twice among 8,193 in a wide act", dossier(act(nodeLimit=WIDE, body=[*sections(WIDE), *sections(1)])), refused(5, 1)),
    ("a long content among 8,192 sections of a wide act", dossier(act(nodeLimit=WIDE, body=[*sections(WIDE - 1), node(num="9000", content="c" * 16385)])),
     refused(5, 4)),
    ("a long content among 8,192 sections of a plain act", dossier(act(body=[*sections(WIDE - 1), node(num="9000", content="c" * 16385)])), refused(5, 3)),
    ("4,097 provisions are inserted into a wide act", dossier(act(nodeLimit=WIDE), [inserted(many(PLAIN + 1))]), refused(5, 3)),
    ("4,097 provisions in the place of one of a wide act", dossier(act(nodeLimit=WIDE), [repeal(), substituted(many(PLAIN + 1))]), refused(5, 3)),
    ("4,097 provisions in the place of the text of a wide act", dossier(act(nodeLimit=WIDE), [substituted(many(PLAIN + 1), "body")]), refused(5, 3)),
]


def with_child(count):
    """So many provisions, of which the first two are a section and its paragraph."""
    return [node(num="9000", content="One two.", children=[node("paragraph", "a")]), *sections(count - 2)]


def reached(limit, size, **stated):
    """What comes to the limit of an act, and what passes it: by each kind of edit that adds provisions."""
    def row(name, body, mods, applied, causes=()):
        return f"{limit}: {name}", dossier(act(body=body, **stated), mods), [f"{k}.1" for k in applied], list(causes)

    full, one_less, over = sections(size), sections(size - 1), ["TooManyNodes"]
    first, second = SPARE
    at_text, at_child = split("sec_9000", "9001", old=" two"), split("sec_9000", "9001", child="sec_9000__para_a")
    yield row("one fewer and one more", one_less, [inserted([first])], [2])
    for wid, pos in (("body", "end"), ("body", "start"), ("sec_7", "before"), ("sec_7", "after"), ("sec_7", "start"), ("sec_7", "end")):
        yield row(f"as many and one more, {pos} {wid}", full, [inserted([first], wid, pos)], [], over)
    yield row("one fewer and two more", one_less, [inserted(SPARE)], [], over)
    yield row("one fewer and one more twice", one_less, [inserted([first]), inserted([second])], [2], over)
    yield row("as many, another in the place of one", full, [substituted([first], "sec_7")], [2])
    yield row("as many, two others in the place of one", full, [substituted(SPARE, "sec_7")], [], over)
    yield row("as many, one with another below it in the place of one", full, [substituted([node(num="9001", children=[node("paragraph", "a")])], "sec_7")],
              [], over)
    yield row("one fewer, two others in the place of one", one_less, [substituted(SPARE, "sec_7")], [2])
    yield row("as many, two others in the place of all", full, [substituted(SPARE, "body")], [2])
    for name, cut in (("a text", at_text), ("a child", at_child)):
        yield row(f"one fewer and a split at {name}", with_child(size - 1), [cut], [2])
        yield row(f"as many and a split at {name}", with_child(size), [cut], [], over)
    yield row("as many, two joined and one more", full, [joined("sec_7", "sec_8"), inserted([first]), inserted([second])], [2, 3], over)
    yield row("as many, one repealed and one more", full, [repeal("sec_7"), inserted([first]), inserted([second])], [2, 3], over)
    yield row("so many fewer that 4,096 more fit", sections(size - PLAIN), [inserted(many(PLAIN))], [2])
    yield row("one more than that", sections(size - PLAIN + 1), [inserted(many(PLAIN))], [], over)
    yield row("4,096 others in the place of one, as many in all", sections(size - PLAIN + 1), [substituted(many(PLAIN), "sec_1")], [2])
    yield row("the num comes before the number", full, [inserted([node(num="7")])], [], ["NumberTaken"])
    yield row("the number comes before the text", full, [inserted([first]), inserted("c" * 16384, "sec_7"), inserted("c", "sec_7")], [3],
              ["TooManyNodes", "TextTooLong"])


# Modifications that come to a limit of the tree, and those that pass it: what is applied on their day, and what is not.
REACHED = [*reached("4,096 provisions", PLAIN), *reached("8,192 provisions", WIDE, nodeLimit=WIDE), *list(reached("4,096 stated", PLAIN, nodeLimit=PLAIN))[::5]]

# A wide act and a plain one, each full, side by side.
WIDEST = [
    accepted(enact("ada", 1, nodeLimit=WIDE, body=sections(WIDE)), law(1)),
    broken(enact("ada", 2, TWO, nodeLimit=WIDE, body=sections(WIDE + 1)), 5, 3),
    broken(enact("ada", 2, TWO, nodeLimit=PLAIN, body=sections(PLAIN + 1)), 5, 3),
    (command(enact("ada", 2, TWO, nodeLimit=5000)), bad_form(6)),
    accepted(enact("ada", 2, TWO, body=sections(PLAIN)), law(2)),
    accepted(record("ada", 3, inserted(SPARE[:1])), law(3)),
    accepted(record("ada", 4, inserted(SPARE[:1]), work=TWO), law(4)),
    accepted(record("ada", 5, substituted(SPARE[1:], "sec_7")), law(5)),
    broken(record("ada", 6, inserted(many(PLAIN + 1))), 5, 3),
    asked(ONE + "/eng@2011-01-01/~sec_8192", answered(
        ONE, "2011-01-01/~sec_8192", 5, [printed("section", WIDE)], ["5.1"], [{"cause": "TooManyNodes", "id": "3.1"}]), 5),
    asked(TWO + "/eng@2011-01-01/~sec_4096", answered(
        TWO, "2011-01-01/~sec_4096", 5, [printed("section", PLAIN)], [], [{"cause": "TooManyNodes", "id": "4.1"}]), 5),
    accepted(add("bob", 1, inserted(SPARE[1:], "sec_9", "before")), draft(1)),
    seen("bob", answered(ONE, "2011-01-01/~sec_8192", 6, [printed("section", WIDE)], ["5.1"], [
        {"cause": "TooManyNodes", "id": "3.1"}, {"cause": "NumberTaken", "id": "6.1"}]), ONE + "/eng@2011-01-01/~sec_8192"),
    accepted(add("bob", 2, repeal("sec_1", "2010-07-01")), draft(2)),
    seen("bob", answered(ONE, "2011-01-01/~sec_8192", 6, [printed("section", WIDE)], ["6.2", "3.1", "5.1"], [
        {"cause": "NumberTaken", "id": "6.1"}]), ONE + "/eng@2011-01-01/~sec_8192"),
    asked(ONE + "/eng@2010-06-01", answered(ONE, "2010-06-01", 2, [printed("section", k) for k in range(1, WIDE + 1)]), 2),
]

# What a command says of a limit and of a provision is a part of it, so another limit or provision makes it another command; an answer shows neither,
# and a draft shows the provision.
ALL, DAY = (FIRST, SECOND, THIRD), "2011-01-01"
ON_DAY = f"{ONE}/eng@{DAY}"
WITH_NINE, WITH_TEN = repeal("sec_3", provision="sec_9"), repeal("sec_3", provision="sec_10")
NAMED = [
    accepted(ENACTED, law(1)),
    accepted(enact("ada", 1, body=SECTIONS, nodeLimit=PLAIN), law(1)),
    broken(enact("ada", 1, body=SECTIONS, nodeLimit=WIDE), 1, 1),
    (command(enact("ada", 2, TWO, nodeLimit=5000)), bad_form(6)),
    accepted(enact("ada", 2, TWO, body=SECTIONS, nodeLimit=WIDE), law(2)),
    accepted(enact("ada", 2, TWO, body=SECTIONS, nodeLimit=WIDE), law(2)),
    broken(enact("ada", 2, TWO, body=SECTIONS), 1, 2),
    broken(enact("ada", 2, TWO, body=SECTIONS, nodeLimit=PLAIN), 1, 2),
    accepted(record("ada", 3, WITH_NINE), law(3)),
    accepted(record("ada", 3, WITH_NINE), law(3)),
    broken(record("ada", 3, WITH_TEN), 1, 3),
    broken(record("ada", 3, repeal("sec_3")), 1, 3),
    (command(record("ada", 4, repeal(provision=""))), bad_form(3, 1)),
    (command(record("ada", 4, WITH_NINE, repeal(provision="sec.9"))), bad_form(3, 2)),
    (command(add("ada", 4, repeal(provision="a" * 513))), bad_form(3, 1)),
    (command(correct("ada", 4, "3.1", repeal(provision=9))), bad_form(2, 1)),
    asked(ON_DAY, without('["3.1"]', FIRST, SECOND, viewpoint=3), 3),
    accepted(correct("ada", 4, "3.1", repeal("sec_2", provision="sec_8")), law(4)),
    asked(ON_DAY, without('["3.1"]', FIRST, THIRD, viewpoint=4), 4),
    accepted(correct("ada", 5, "3.1", repeal("sec_2")), law(5)),
    accepted(add("bob", 1, WITH_TEN), draft(1)),
    accepted(add("bob", 2, repeal("sec_1")), draft(2)),
    holds("bob", item(1, WITH_TEN), item(2, repeal("sec_1"))),
    seen("bob", without('["3.1","6.1","6.2"]', viewpoint=6)),
    accepted(drop("bob", 3, 2), draft(2)),
    accepted(file("bob", 4, 5), law(6)),
    asked(ON_DAY, without('["3.1","6.1"]', FIRST, viewpoint=6), 6),
    accepted(withdraw("ada", 6, "6.1"), law(7)),
    accepted(restore("ada", 7, "6.1"), law(8)),
    # the order goes by the place, and not by the provision
    accepted(record("ada", 8, repeal("sec_1", place=2, provision="a"), repeal("sec_1", place=1, provision="b")), law(9)),
    asked(ON_DAY, answered(ONE, DAY, 9, [], ["3.1", "6.1", "9.2"], [{"cause": "TargetMissing", "id": "9.1"}]), 9),
    asked(ON_DAY, without('["3.1"]', FIRST, THIRD, viewpoint=5), 5),
]
HISTORIES = {"acts of two sizes": WIDEST, "limits and provisions": NAMED}
