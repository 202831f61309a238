"""Sessions of a register: lines that `desk_trial` is given, each with the line that it is to write. Those lines were written by hand,
from docs/RULES.md, docs/MODEL.md and docs/FORMS.md.

Each session begins with an empty register and is a list of (line, line). Where two neighbouring rules of a command can be broken at
once, a line breaks both and is refused by the lower one. These neighbours can't:

- 1 and 2: a drafter whose number is reused has an entry, and one for whom there is no room has none.
- 3 and 4: only what is recorded, drafted or filed is for a work that has to be there, and only an act for one that must not.
- 3 and 12: nothing concerns a work that no law entry enacts, so whoever files it has seen all.
- 8 and 9, 8 and 10: an id that is not recorded was not withdrawn, and does not stand.
- 9 and 10, 10 and 11, 11 and 12, 13 and 14, 14 and 15: no command can break both.
- 13 and 15: a filing of no item adds no id.

No line makes an entry of more than 16,777,216 bytes: it has at most 8,388,608 bytes itself, and each part of a command takes at least as
many in JSON as in an entry. So rule 17 is broken here by all entries together alone.
"""
import json

from rows.dossiers import LIMIT, SOURCE, act, efficacy, force, inapplied, inserted, nested, node, refs, repeal, sections, substituted, textual, to

ONE = "/akn/gb/act/2010-05-01/7"
TWO = "/akn/gb/act/2010-05-01/8"
NONE = "/akn/gb/act/2010-05-01/99"
OTHER_SOURCE = "/akn/gb/act/2010-11-01/19"
NAMES = ["", "NumberReused", "DraftersFull", "UnknownWork", "WorkExists", "BadTree", "BadModification", "BadPeriod", "UnknownModification",
         "AlreadyWithdrawn", "NotWithdrawn", "WrongKind", "Stale", "EmptyDraft", "DraftFull", "WorkFull", "LawFull", "RegisterFull"]
NOTHING = "no such line"
AT_ONCE = {"from": "2011-01-01", "until": "2011-01-01"}
TWICE = sections(2) + sections(1)


def refused(rule, kept):
    """The line of a command that is refused."""
    return f'{{"kept":{json.dumps(kept)},"name":"{NAMES[rule]}","rule":{rule}}}'


def form(rule, name, place):
    """The line of a command that is none."""
    return f'{{"form":{rule},"name":"{name}","place":{place}}}'


def law(number):
    return f'{{"law":{number}}}'


def draft(number):
    return f'{{"draft":{number}}}'


def again(reply):
    return "repeat " + reply


def front(laws, entries):
    return ("front", f"law {laws} entries {entries}")


def asked(drafter, request, command, **keys):
    """The line of a command."""
    return json.dumps({"drafter": drafter, "request": request, "command": command, **keys}, separators=(",", ":"))


def enact(drafter, request, uri=ONE, **changes):
    return asked(drafter, request, "enact", act=act(FRBRuri=uri, **changes))


def record(drafter, request, *mods, work=ONE):
    return asked(drafter, request, "record", work=work, modifications=list(mods))


def correct(drafter, request, id, modification):
    return asked(drafter, request, "correct", id=id, modification=modification)


def withdraw(drafter, request, id):
    return asked(drafter, request, "withdraw", id=id)


def restore(drafter, request, id):
    return asked(drafter, request, "restore", id=id)


def add(drafter, request, modification=None, work=ONE):
    return asked(drafter, request, "draftAdd", work=work, modification=modification or repeal())


def drop(drafter, request, item):
    return asked(drafter, request, "draftDrop", item=item)


def file(drafter, request, seen, work=ONE):
    return asked(drafter, request, "file", work=work, seen=seen)


# The act of three sections, and its provisions as answers print them.
SECTIONS = [node(num="1", content="One."), node(num="2", content="Two two."), node(num="3", content="Three.")]
FIRST = '{"bears":true,"children":[],"content":"One.","eId":"sec_1","element":"section","heading":"","num":"1","refs":[]}'
SECOND = '{"bears":true,"children":[],"content":"Two two.","eId":"sec_2","element":"section","heading":"","num":"2","refs":[]}'
THIRD = '{"bears":true,"children":[],"content":"Three.","eId":"sec_3","element":"section","heading":"","num":"3","refs":[]}'


def answer(applied, body, day, viewpoint, reading="force", portion=""):
    """The line of an answer about the act of three sections that bears, with everything applied."""
    return (f'{{"applied":{applied},"bears":true,"body":[{body}],"expression":"/akn/gb/act/2010-05-01/7/eng@{day}{portion}",'
            f'"reading":"{reading}","unapplied":[],"viewpoint":{viewpoint}}}')


def ask(day, viewpoint, reading="force", work=ONE, rest="", word="ask"):
    return f"{word} {work}/eng@{day}{rest} {viewpoint} {reading}"


# A repeal that begins to have force early, and is withdrawn.
WITHDRAWN = [
    (enact("ada", 1, body=SECTIONS), law(1)),
    (record("ada", 2, repeal("sec_3", "2011-06-01")), law(2)),
    (record("ada", 3, force(destination=to("2.1"), on="2011-01-01", date="2011-01-01")), law(3)),
    (withdraw("ada", 4, "2.1"), law(4)),
    (ask("2011-02-01", 1), answer("[]", f"{FIRST},{SECOND},{THIRD}", "2011-02-01", 1)),
    (ask("2011-02-01", 2), answer("[]", f"{FIRST},{SECOND},{THIRD}", "2011-02-01", 2)),
    (ask("2011-02-01", 3), answer('["2.1"]', f"{FIRST},{SECOND}", "2011-02-01", 3)),
    (ask("2011-02-01", 4), answer("[]", f"{FIRST},{SECOND},{THIRD}", "2011-02-01", 4)),
    (ask("2010-12-31", 3), answer("[]", f"{FIRST},{SECOND},{THIRD}", "2010-12-31", 3)),
    (f"known {ONE} 0", "none"),
    (f"known {ONE} 1", "enacted 1 front 4"),
    (f"known {ONE} 2", "enacted 1 front 4 2.1"),
    (f"known {ONE} 3", "enacted 1 front 4 2.1 3.1"),
    (f"known {ONE} 4", "enacted 1 front 4 2.1 withdrawn 3.1"),
    (withdraw("ada", 5, "2.1"), refused(9, 4)),
    front(4, 4),
    (restore("ada", 5, "2.1"), law(5)),
    (ask("2011-02-01", 4), answer("[]", f"{FIRST},{SECOND},{THIRD}", "2011-02-01", 4)),
    (ask("2011-02-01", 5), answer('["2.1"]', f"{FIRST},{SECOND}", "2011-02-01", 5)),
    (f"known {ONE} 4", "enacted 1 front 5 2.1 withdrawn 3.1"),
    (f"known {ONE} 5", "enacted 1 front 5 2.1 3.1"),
    (withdraw("ada", 6, "2.1"), law(6)),
    (withdraw("ada", 7, "2.1"), refused(9, 6)),
]

# A repeal that is corrected to one of another section.
CORRECTED = [
    (enact("ada", 1, body=SECTIONS), law(1)),
    (record("ada", 2, repeal("sec_3")), law(2)),
    (correct("ada", 3, "2.1", repeal("sec_2")), law(3)),
    (ask("2011-01-01", 1), answer("[]", f"{FIRST},{SECOND},{THIRD}", "2011-01-01", 1)),
    (ask("2011-01-01", 2), answer('["2.1"]', f"{FIRST},{SECOND}", "2011-01-01", 2)),
    (ask("2011-01-01", 3), answer('["2.1"]', f"{FIRST},{THIRD}", "2011-01-01", 3)),
    (ask("2011-01-01", 4), '{"kept":3,"name":"ViewpointAhead","query":2}'),
    (ask("2011-01-01", 0), '{"kept":"/akn/gb/act/2010-05-01/7","name":"UnknownWork","query":1}'),
    (ask("2010-12-31", 3), answer("[]", f"{FIRST},{SECOND},{THIRD}", "2010-12-31", 3)),
    (f"known {ONE} 1", "enacted 1 front 3"),
    (f"known {ONE} 2", "enacted 1 front 3 2.1"),
    (f"known {ONE} 3", "enacted 1 front 3 2.1"),
]

# What is asked of an act alone, by portions and languages too.
ASKED = [
    (ask("2010-06-01", 1), '{"kept":"/akn/gb/act/2010-05-01/7","name":"UnknownWork","query":1}'),
    (enact("ada", 1, body=SECTIONS), law(1)),
    (ask("2010-06-01", 1, rest="/~sec_2"), answer("[]", SECOND, "2010-06-01", 1, portion="/~sec_2")),
    (ask("2010-06-01", 1, rest="/!main/~sec_2"), answer("[]", SECOND, "2010-06-01", 1, portion="/~sec_2")),
    (ask("2010-06-01", 1, "efficacy", rest="/!main"), answer("[]", f"{FIRST},{SECOND},{THIRD}", "2010-06-01", 1, "efficacy")),
    (ask("2010-06-01", 1, rest="/~sec_9"), '{"kept":"sec_9","name":"UnknownPortion","query":5}'),
    (f"ask {ONE}/fra@2010-06-01 1 force", '{"kept":"eng","name":"OtherLanguage","query":4}'),
    (ask("2010-06-01", 1, work=TWO), '{"kept":"/akn/gb/act/2010-05-01/8","name":"UnknownWork","query":1}'),
    (ask("2010-04-30", 1), '{"kept":"2010-05-01","name":"NotYetEnacted","query":3}'),
    (ask("", 1), answer("[]", f"{FIRST},{SECOND},{THIRD}", "", 1).replace('"bears":true', '"bears":false')),
    (ask("2010-06-01", 2), '{"kept":1,"name":"ViewpointAhead","query":2}'),
    # the neighbours among the rules of questions, broken at once
    (ask("2010-06-01", 0, work=TWO), '{"kept":"/akn/gb/act/2010-05-01/8","name":"UnknownWork","query":1}'),
    (ask("2010-04-30", 2), '{"kept":1,"name":"ViewpointAhead","query":2}'),
    (f"ask {ONE}/fra@2010-04-30 1 force", '{"kept":"2010-05-01","name":"NotYetEnacted","query":3}'),
    (f"ask {ONE}/fra@2010-06-01/~sec_9 1 force", '{"kept":"eng","name":"OtherLanguage","query":4}'),
    # without the day of a version: what was known when the act was enacted, on its day
    (record("ada", 2, repeal("sec_3", "2010-04-01")), law(2)),
    (ask("", 2), answer("[]", f"{FIRST},{SECOND},{THIRD}", "", 2).replace('"bears":true', '"bears":false')),
    (ask("2010-06-01", 2), answer('["2.1"]', f"{FIRST},{SECOND}", "2010-06-01", 2)),
]

# Which modifications bear on a day, and in which order: by start, by the day of the source, by the bytes of its IRI (in which 110 stands
# before 19), by the place in it and by the id. On which days that may change; and whether a provision bears.
EARLIER_SOURCE, EARLIER_BYTES = "/akn/gb/act/2010-11-01/19", "/akn/gb/act/2010-11-01/110"
ORDERED = [
    (enact("ada", 1, body=SECTIONS), law(1)),
    (record("ada", 2, repeal("sec_3")), law(2)),
    (record("ada", 3, force("postponementOfEntryIntoForce", destination=to("2.1"), on="2011-02-01", date="2011-04-01")), law(3)),
    (ask("2011-01-15", 3, word="order"), "order 2.1"),
    (ask("2011-02-15", 3, word="order"), "order"),
    (ask("2011-04-01", 3, word="order"), "order 2.1"),
    (ask("2011-02-15", 2, word="order"), "order 2.1"),
    (ask("2011-02-15", 3, "efficacy", word="order"), "order"),
    (ask("2011-02-15", 0, word="order"), "none"),
    (f"days {ONE} 1", "days 2010-06-01"),
    (f"days {ONE} 2", "days 2010-06-01 2011-01-01"),
    (f"days {ONE} 3", "days 2010-06-01 2011-01-01 2011-02-01 2011-04-01"),
    (f"days {ONE} 0", "none"),
    (enact("ada", 4, TWO), law(4)),
    (record("ada", 5, repeal(start="2011-03-01", href=EARLIER_SOURCE), work=TWO), law(5)),
    (record("ada", 6, repeal(), work=TWO), law(6)),
    (record("ada", 7, repeal(href=EARLIER_SOURCE, place=2), work=TWO), law(7)),
    (record("ada", 8, repeal(href=EARLIER_SOURCE), repeal(href=EARLIER_SOURCE), work=TWO), law(8)),
    (record("ada", 9, repeal(href=EARLIER_BYTES, place=9), work=TWO), law(9)),
    (ask("2011-03-01", 9, work=TWO, word="order"), "order 9.1 8.1 8.2 7.1 6.1 5.1"),
    (ask("2011-02-28", 9, work=TWO, word="order"), "order 9.1 8.1 8.2 7.1 6.1"),
    (record("ada", 10, force("endOfEnactment", destination={"wId": "sec_2"}, on="2011-01-01", date="2011-01-01")), law(10)),
    (ask("2011-01-01", 10, rest="/~sec_2", word="flag"), "does not bear"),
    (ask("2010-12-31", 10, rest="/~sec_2", word="flag"), "bears"),
    (ask("2011-01-01", 9, rest="/~sec_2", word="flag"), "bears"),
    (ask("2011-01-01", 10, rest="/~sec_1", word="flag"), "bears"),
    (ask("2011-01-01", 10, word="flag"), "bears"),
    (ask("2010-05-31", 10, word="flag"), "does not bear"),
    (ask("2011-01-01", 10, rest="/~sec_9", word="flag"), "none"),
    (ask("2011-01-01", 0, word="flag"), "none"),
]

# What JSON has to escape, refs, and a wId that is no longer the eId: an answer as it is written token by token, and by its value.
REFS = ["/akn/zz/act/2001-01-02/5/eng@", "/akn/zz/act/2003-04-05/6/eng@2004-01-01"]
ARTICLE = (r'{"bears":true,"children":[],"content":"a \"b\" \\ c/d\te\nf \u0001 é €","eId":"art_3a","element":"article","heading":"",'
           f'"num":"3a","refs":["{REFS[0]}","{REFS[1]}"],"wId":"art_3"}}')
WHOLE = f'{{"bears":true,"children":[{ARTICLE}],"content":"","eId":"sec_1","element":"section","heading":"Scope","num":"1","refs":[]}}'
PRINTED = [
    (enact("ada", 1, body=[node(heading="Scope", children=[
        node("article", "3", content='a "b" \\ c/d\te\nf \u0001 é €', refs=REFS)])]), law(1)),
    (record("ada", 2, textual(type="renumbering", destination=None, renumber=[{"wId": "art_3", "num": "3a"}])), law(2)),
    *[line for word in ("ask", "value") for line in [
        (ask("2011-01-01", 2, "efficacy", word=word), answer('["2.1"]', WHOLE, "2011-01-01", 2, "efficacy")),
        (ask("2011-01-01", 2, rest="/~art_3a", word=word), answer('["2.1"]', ARTICLE, "2011-01-01", 2, portion="/~art_3a")),
        (ask("2011-01-01", 3, word=word), '{"kept":2,"name":"ViewpointAhead","query":2}'),
    ]],
]

# A number for one command, and one act for a work.
NUMBERS = [
    (enact("ada", 1, body=SECTIONS), law(1)),
    (enact("ada", 1, body=SECTIONS), again(law(1))),
    (enact("ada", 1, TWO), refused(1, 1)),
    (enact("ada", 2, body=SECTIONS), refused(4, 1)),
    front(1, 1),
]

# Two drafters: what is drafted, recorded and filed.
FILED = NUMBERS + [
    (add("ada", 3, repeal("sec_3")), draft(1)),
    (record("bob", 1, repeal("sec_1")), law(2)),
    (file("ada", 4, 1), refused(12, 2)),
    (file("bob", 2, 2), refused(13, ONE)),
    (drop("bob", 2, 1), refused(8, "0.1")),
    front(2, 3),
    (file("ada", 4, 2), law(3)),
    (file("ada", 5, 3), refused(13, ONE)),
    (drop("ada", 5, 1), refused(8, "0.1")),
    front(3, 4),
    (f"known {ONE} 2", "enacted 1 front 3 2.1"),
    (f"known {ONE} 3", "enacted 1 front 3 2.1 3.1"),
    (ask("2011-01-01", 3), answer('["2.1","3.1"]', SECOND, "2011-01-01", 3)),
]

# A register on which the refusals below are judged: two acts; 2.1 and 2.2 are repeals, the second withdrawn; 4.1 is of force and 4.2 of
# efficacy; 5.1 is a repeal in the second act; and ada has one item in her draft.
BASE = [
    (enact("ada", 1, body=SECTIONS), law(1)),
    (record("ada", 2, repeal("sec_3"), repeal("sec_2")), law(2)),
    (enact("ada", 3, TWO), law(3)),
    (record("ada", 4, force(destination=to("2.1")), efficacy(destination=to("2.1"))), law(4)),
    (record("ada", 5, repeal(), work=TWO), law(5)),
    (withdraw("ada", 6, "2.2"), law(6)),
    (add("ada", 7), draft(1)),
    front(6, 7),
]
STANDS = [
    front(6, 7),
    (f"known {ONE} 6", "enacted 1 front 6 2.1 2.2 withdrawn 4.1 4.2"),
    (f"known {TWO} 6", "enacted 3 front 6 5.1"),
]

# A lower rule is named first: (4, 5) is an act that breaks rules 4 and 5.
REFUSED = [
    # 1, alone and with others
    (enact("ada", 1, NONE), refused(1, 1)),
    (withdraw("ada", 2, "2.1"), refused(1, 2)),
    (record("ada", 2, repeal("sec_2"), repeal("sec_3")), refused(1, 2)),
    (record("ada", 2, repeal("sec_3"), repeal("sec_2", place=2)), refused(1, 2)),
    (record("ada", 2, repeal("sec_3")), refused(1, 2)),
    (record("ada", 2, repeal("sec_3"), repeal("sec_2"), work=TWO), refused(1, 2)),
    (add("ada", 7, repeal("sec_2")), refused(1, 1)),
    (enact("ada", 1, TWO), refused(1, 1)),  # 1, 4
    (record("ada", 1, repeal(), work=NONE), refused(1, 1)),  # 1, 3
    (add("ada", 4, work=NONE), refused(1, 4)),  # 1, 3
    (file("ada", 5, 0, NONE), refused(1, 5)),  # 1, 3
    (correct("ada", 3, "2.1", inserted(TWICE)), refused(1, 3)),  # 1, 5
    (withdraw("ada", 4, "9.1"), refused(1, 4)),  # 1, 8
    (restore("ada", 5, "9.1"), refused(1, 5)),  # 1, 8
    (drop("ada", 7, 9), refused(1, 1)),  # 1, 8
    (enact("bob", 1, body=SECTIONS), refused(4, 1)),  # bob's numbers are his own
    # 3
    (record("bob", 1, repeal(), work=NONE), refused(3, NONE)),
    (add("bob", 1, work=NONE), refused(3, NONE)),
    (file("bob", 1, 6, NONE), refused(3, NONE)),  # 3, 13
    (record("bob", 1, inserted(TWICE), work=NONE), refused(3, NONE)),  # 3, 5
    (add("bob", 1, inserted(TWICE), NONE), refused(3, NONE)),  # 3, 5
    (record("bob", 1, work=NONE), refused(3, NONE)),  # 3, 6
    # 4
    (enact("bob", 1), refused(4, 1)),
    (enact("bob", 1, TWO), refused(4, 3)),
    (enact("bob", 1, TWO, body=TWICE), refused(4, 3)),  # 4, 5
    # 5, the lowest fault of the first item that has one
    (enact("bob", 1, NONE, body=TWICE), refused(5, 1)),
    (enact("bob", 1, NONE, body=nested(13)), refused(5, 2)),
    (enact("bob", 1, NONE, body=sections(4097)), refused(5, 3)),
    (enact("bob", 1, NONE, body=sections(1, "c" * 16385)), refused(5, 4)),
    (record("bob", 1, repeal(), inserted(nested(13)), inserted(TWICE)), refused(5, 2)),
    (record("bob", 1, substituted(sections(1, "c" * 16385) + TWICE)), refused(5, 1)),
    (correct("bob", 1, "2.1", inserted(sections(1, "c" * 16385))), refused(5, 4)),
    (add("bob", 1, substituted(nested(13))), refused(5, 2)),
    (enact("bob", 1, NONE, body=refs(17) + sections(1)), refused(5, 1)),  # 5, 6
    (record("bob", 1, repeal(""), inserted(TWICE)), refused(5, 1)),  # 5, 6
    (correct("bob", 1, "2.1", inserted(TWICE, "")), refused(5, 1)),  # 5, 6
    (add("bob", 1, inserted(TWICE, "")), refused(5, 1)),  # 5, 6
    # 6, the list before its items
    (enact("bob", 1, NONE, body=refs(17)), refused(6, 0)),
    (record("bob", 1), refused(6, 0)),
    (record("bob", 1, *[repeal()] * 65), refused(6, 0)),
    (record("bob", 1, *[repeal("")] * 65), refused(6, 0)),
    (record("bob", 1, repeal(), repeal(), repeal("")), refused(6, 3)),
    (record("bob", 1, repeal(), repeal("w" * 513), repeal("")), refused(6, 2)),
    (record("bob", 1, *[repeal()] * 63, inserted([])), refused(6, 64)),
    (correct("bob", 1, "2.1", repeal("")), refused(6, 1)),
    (add("bob", 1, repeal("")), refused(6, 1)),
    (enact("bob", 1, NONE, body=refs(17), force=AT_ONCE), refused(6, 0)),  # 6, 7
    (record("bob", 1, repeal(until="2011-01-01"), repeal("")), refused(6, 2)),  # 6, 7
    (correct("bob", 1, "2.1", repeal("", until="2011-01-01")), refused(6, 1)),  # 6, 7
    (add("bob", 1, repeal("", until="2011-01-01")), refused(6, 1)),  # 6, 7
    # 7
    (enact("bob", 1, NONE, force=AT_ONCE), refused(7, 0)),
    (record("bob", 1, repeal(), repeal(until="2011-01-01"), repeal(until="2010-12-31")), refused(7, 2)),
    (correct("bob", 1, "2.1", repeal(until="2011-01-01")), refused(7, 1)),
    (add("bob", 1, inapplied(days=AT_ONCE)), refused(7, 1)),
    (record("bob", 1, force(destination=to("9.1")), repeal(until="2011-01-01")), refused(7, 2)),  # 7, 8
    (correct("bob", 1, "9.1", repeal(until="2011-01-01")), refused(7, 1)),  # 7, 8
    (add("bob", 1, inapplied(destination=to("9.1"), days=AT_ONCE)), refused(7, 1)),  # 7, 8
    # 8
    (withdraw("bob", 1, "9.1"), refused(8, "9.1")),
    (withdraw("bob", 1, "2.3"), refused(8, "2.3")),
    (withdraw("bob", 1, "2.0"), refused(8, "2.0")),
    (withdraw("bob", 1, "1.1"), refused(8, "1.1")),
    (restore("bob", 1, "7.1"), refused(8, "7.1")),
    (correct("bob", 1, "0.1", repeal()), refused(8, "0.1")),
    (correct("bob", 1, "9.1", force(destination=to("9.2"))), refused(8, "9.1")),
    (correct("bob", 1, "4.1", force(destination=to("9.2"))), refused(8, "9.2")),
    (correct("bob", 1, "4.1", force(destination=to("5.1"))), refused(8, "5.1")),
    (record("bob", 1, repeal(), force(destination=to("7.1"))), refused(8, "7.1")),
    (record("bob", 1, force(destination=to("2.1")), work=TWO), refused(8, "2.1")),
    (add("bob", 1, efficacy(destination=to("5.1"))), refused(8, "5.1")),
    (drop("bob", 1, 1), refused(8, "0.1")),
    (drop("ada", 8, 0), refused(8, "0.0")),
    (drop("ada", 8, 2), refused(8, "0.2")),
    (record("bob", 1, force(destination=to("4.1")), force(destination=to("9.1"))), refused(8, "9.1")),  # 8, 11
    (correct("bob", 1, "2.1", force(destination=to("9.1"))), refused(8, "9.1")),  # 8, 11
    (correct("bob", 1, "9.1", force(destination=to("4.1"))), refused(8, "9.1")),  # 8, 11
    (add("bob", 1, force(destination=to("4.1")), TWO), refused(8, "4.1")),  # 8, 11
    # 9 and 10
    (withdraw("bob", 1, "2.2"), refused(9, 6)),
    (restore("bob", 1, "2.1"), refused(10, "2.1")),
    # 11, of a correction the id before the body
    (correct("bob", 1, "2.1", force()), refused(11, "2.1")),
    (correct("bob", 1, "4.1", repeal()), refused(11, "4.1")),
    (correct("bob", 1, "4.1", efficacy()), refused(11, "4.1")),
    (correct("bob", 1, "4.2", force()), refused(11, "4.2")),
    (correct("bob", 1, "2.2", efficacy(destination=to("4.1"))), refused(11, "2.2")),
    (correct("bob", 1, "4.1", force(destination=to("4.2"))), refused(11, "4.2")),
    (record("bob", 1, repeal(), force(destination=to("4.1")), force(destination=to("4.2"))), refused(11, "4.1")),
    (add("bob", 1, efficacy(destination=to("4.2"))), refused(11, "4.2")),
    # 12 and 13
    (file("ada", 8, 5), refused(12, 6)),
    (file("ada", 8, 0), refused(12, 6)),
    (file("ada", 8, 4, TWO), refused(12, 5)),  # 12, 13
    (file("bob", 1, 5), refused(12, 6)),  # 12, 13
    (file("ada", 8, 5, TWO), refused(13, TWO)),
    (file("bob", 1, 6), refused(13, ONE)),
]

# What is accepted on that register: an id that was withdrawn stays recorded, and whoever has seen more than there is has seen all.
ACCEPTED = [
    (correct("bob", 1, "2.2", repeal("sec_1")), law(7)),
    (record("bob", 2, efficacy(destination=to("2.2"))), law(8)),
    (f"known {ONE} 8", "enacted 1 front 8 2.1 2.2 withdrawn 4.1 4.2 8.1"),
    (file("ada", 8, 4294967295), law(9)),
    (file("ada", 9, 9), refused(13, ONE)),
    (drop("ada", 9, 1), refused(8, "0.1")),
    (f"known {ONE} 9", "enacted 1 front 9 2.1 2.2 withdrawn 4.1 4.2 8.1 9.1"),
    (f"known {ONE} 6", "enacted 1 front 9 2.1 2.2 withdrawn 4.1 4.2"),
    (restore("bob", 3, "2.2"), law(10)),
    (correct("bob", 4, "9.1", substituted(sections(3), "sec_2")), law(11)),
    (withdraw("bob", 5, "9.1"), law(12)),
    front(12, 13),
]

# Each kind of command again, also with its keys in another order and with what may be left out: the first reply, and nothing changes.
_ALL = [
    (enact("ada", 1, body=SECTIONS), law(1)),
    (record("ada", 2, repeal("sec_3"), substituted("Ten", "sec_2", old="Two")), law(2)),
    (correct("ada", 3, "2.1", repeal("sec_1")), law(3)),
    (withdraw("ada", 4, "2.2"), law(4)),
    (restore("ada", 5, "2.2"), law(5)),
    (add("ada", 6, repeal("sec_2")), draft(1)),
    (add("ada", 7, repeal("sec_3")), draft(2)),
    (drop("ada", 8, 1), draft(1)),
    (file("ada", 9, 5), law(6)),
]
REPEATED = _ALL + [
    front(6, 9),
    *[(line, again(reply)) for line, reply in _ALL],
    *[(json.dumps(dict(reversed(json.loads(line).items()))), again(reply)) for line, reply in _ALL],
    (enact("ada", 1, body=[{**section, "heading": "", "refs": [], "children": []} for section in SECTIONS],
           numbering=["section", "article"]), again(law(1))),
    (record("ada", 2, repeal("sec_3"), substituted("Ten", "sec_2", old="Two", occurrence=1)), again(law(2))),
    (record("ada", 2, repeal("sec_3"), substituted("Ten", "sec_2", old="Two", occurrence=2)), refused(1, 2)),
    (file("ada", 9, 4), refused(1, 6)),
    (drop("ada", 8, 2), refused(1, 1)),
    front(6, 9),
    (f"known {ONE} 6", "enacted 1 front 6 2.1 2.2 6.1"),
]

# A correction keeps the work of its id.
KEPT = [
    (enact("ada", 1, body=SECTIONS), law(1)),
    (enact("ada", 2, TWO), law(2)),
    (record("ada", 3, repeal("sec_3")), law(3)),
    (record("ada", 4, repeal(), work=TWO), law(4)),
    (correct("ada", 5, "3.1", repeal("sec_1", href=OTHER_SOURCE)), law(5)),
    (correct("bob", 1, "4.1", inserted(sections(1))), law(6)),
    (f"known {ONE} 6", "enacted 1 front 6 3.1"),
    (f"known {TWO} 6", "enacted 2 front 6 4.1"),
    (f"known {TWO} 3", "enacted 2 front 6"),
    (ask("2011-01-01", 6), answer('["3.1"]', f"{SECOND},{THIRD}", "2011-01-01", 6)),
    (record("bob", 2, force(destination=to("3.1")), work=TWO), refused(8, "3.1")),
    (record("bob", 2, force(destination=to("3.1"))), law(7)),
]

# Each law entry on a work makes what was seen before it stale, and none on another work does.
SEEN = [
    (enact("ada", 1, body=SECTIONS), law(1)),
    (add("bob", 1, repeal("sec_2")), draft(1)),
    (file("bob", 2, 0), refused(12, 1)),
    (record("ada", 2, repeal("sec_3")), law(2)),
    (file("bob", 2, 1), refused(12, 2)),
    (enact("ada", 3, TWO), law(3)),
    (record("ada", 4, repeal(), work=TWO), law(4)),
    (file("bob", 2, 1), refused(12, 2)),
    (correct("ada", 5, "2.1", repeal("sec_1")), law(5)),
    (file("bob", 2, 4), refused(12, 5)),
    (withdraw("ada", 6, "2.1"), law(6)),
    (file("bob", 2, 5), refused(12, 6)),
    (restore("ada", 7, "2.1"), law(7)),
    (file("bob", 2, 6), refused(12, 7)),
    (add("ada", 8), draft(1)),
    (file("ada", 9, 7), law(8)),
    (file("bob", 2, 7), refused(12, 8)),
    (withdraw("ada", 10, "4.1"), law(9)),
    (file("bob", 2, 7), refused(12, 8)),
    (file("bob", 2, 8), law(10)),
    (add("bob", 3), draft(2)),
    (file("bob", 4, 9), refused(12, 10)),  # what the drafter filed counts too
    (file("bob", 4, 10), law(11)),
]

# Drafts: at most 64 items, numbered by how many were added; each drafter sees only what is his.
DRAFTED = [
    (enact("ada", 1, body=SECTIONS), law(1)),
    (enact("ada", 2, TWO), law(2)),
    (record("ada", 3, force()), law(3)),
    *[(add("ada", 10 + k, repeal(place=k), TWO if k == 60 else ONE), draft(k)) for k in range(1, 65)],
    (add("ada", 100), refused(14, 64)),
    (add("ada", 100, work=TWO), refused(14, 64)),
    (add("ada", 100, force(destination=to("9.1"))), refused(8, "9.1")),  # 8, 14
    (add("ada", 100, force(destination=to("3.1"))), refused(11, "3.1")),  # 11, 14
    (add("bob", 1), draft(1)),
    (drop("ada", 100, 1), draft(1)),
    (drop("ada", 101, 1), refused(8, "0.1")),
    (add("ada", 101), draft(65)),
    (add("ada", 102), refused(14, 64)),
    (drop("bob", 2, 65), refused(8, "0.65")),
    (file("ada", 102, 3), law(4)),
    (f"known {ONE} 4", "enacted 1 front 4 3.1 " + " ".join(f"4.{k}" for k in range(1, 64))),
    (f"known {TWO} 4", "enacted 2 front 4"),
    (file("ada", 103, 2, TWO), law(5)),
    (f"known {TWO} 5", "enacted 2 front 5 5.1"),
    (add("ada", 104), draft(66)),
    (file("bob", 2, 4), law(6)),
    (file("ada", 105, 6), law(7)),
]

# Works: at most 512 ids, counted with those that were withdrawn.
FILLED = [
    (enact("ada", 1, body=SECTIONS), law(1)),
    *[(record("ada", k, *[repeal(place=k)] * 64), law(k)) for k in range(2, 9)],
    (record("ada", 9, force(), *[repeal()] * 62), law(9)),
    (record("ada", 10, repeal(), repeal()), refused(15, 512)),
    (add("ada", 10), draft(1)),
    (add("bob", 1), draft(1)),
    (add("bob", 2), draft(2)),
    (file("bob", 3, 9), refused(15, 512)),
    (file("bob", 3, 8), refused(12, 9)),  # 12, 15
    (file("ada", 11, 9), law(10)),
    (record("ada", 12, repeal()), refused(15, 512)),
    (record("ada", 12, force(destination=to("9.1"))), refused(11, "9.1")),  # 11, 15
    (record("ada", 12, force(destination=to("9.64"))), refused(8, "9.64")),  # 8, 15
    (withdraw("ada", 12, "2.64"), law(11)),
    (record("ada", 13, repeal()), refused(15, 512)),
    (enact("ada", 13, TWO), law(12)),
    (record("ada", 14, repeal(), work=TWO), law(13)),
    (correct("ada", 15, "2.64", repeal()), law(14)),
]

# Drafters: at most 256 that have an entry.
CROWDED = [
    (enact("d0", 1), law(1)),
    (withdraw("who.is.refused", 1, "9.1"), refused(8, "9.1")),
    *[(add(f"d{k}", 1), draft(1)) for k in range(1, 256)],
    (add("d256", 1), refused(2, 256)),
    (enact("d256", 1), refused(2, 256)),  # 2, 4
    (record("d256", 1, repeal(), work=NONE), refused(2, 256)),  # 2, 3
    (correct("d256", 1, "9.1", inserted(TWICE)), refused(2, 256)),  # 2, 5
    (withdraw("d256", 1, "9.1"), refused(2, 256)),  # 2, 8
    (restore("d256", 1, "9.1"), refused(2, 256)),  # 2, 8
    (add("d256", 1, work=NONE), refused(2, 256)),  # 2, 3
    (drop("d256", 1, 1), refused(2, 256)),  # 2, 8
    (file("d256", 1, 0, NONE), refused(2, 256)),  # 2, 3
    (record("d255", 2, repeal()), law(2)),
    (add("d0", 2), draft(1)),
    (add("d0", 2), again(draft(1))),
    front(2, 258),
]

# What is at a limit is accepted, and one past it is refused: of modifications, and of acts.
_MODS = [
    (inserted(nested(12)), inserted(nested(13)), 5, 2),
    (inserted([node("part", children=sections(4095))]), inserted([node("part", children=sections(4096))]), 5, 3),
    (inserted(sections(1, "c" * 16384)), inserted(sections(1, "c" * 16385)), 5, 4),
    (inserted(sections(64)), inserted(sections(65)), 6, 1),
    (inserted(refs(16)), inserted(refs(17)), 6, 1),
    (repeal("w" * 512), repeal("w" * 513), 6, 1),
    (substituted("n" * 16384, old="o" * 16384), substituted("n" * 16384, old="o" * 16385), 6, 1),
    (substituted("n", old="o", occurrence=1), substituted("n", old="o", occurrence=0), 6, 1),
    (repeal(until="2011-01-02"), repeal(until="2011-01-01"), 7, 1),
    (inapplied(days={"from": "2011-01-01", "until": "2011-01-02"}), inapplied(days=AT_ONCE), 7, 1),
]
_ACTS = [
    ({"body": nested(12)}, {"body": nested(13)}, 5, 2),
    ({"body": sections(4096)}, {"body": sections(4097)}, 5, 3),
    ({"body": sections(4096), "nodeLimit": 4096}, {"body": sections(4097), "nodeLimit": 4096}, 5, 3),
    ({"body": sections(8192), "nodeLimit": 8192}, {"body": sections(8193), "nodeLimit": 8192}, 5, 3),
    ({"body": sections(1, "c" * 16384)}, {"body": sections(1, "c" * 16385)}, 5, 4),
    ({"body": refs(16)}, {"body": refs(17)}, 6, 0),
    ({"force": {"from": "2011-01-01", "until": "2011-01-02"}}, {"force": AT_ONCE}, 7, 0),
]
LIMITS = [
    (enact("ada", 1), law(1)),
    (record("ada", 2, *[repeal()] * 65), refused(6, 0)),
    (record("ada", 2, *[repeal()] * 64), law(2)),
]
for _k, (_kept, _broken, _rule, _number) in enumerate(_MODS, 3):
    LIMITS += [(record("ada", _k, _broken), refused(_rule, _number)), (record("ada", _k, _kept), law(_k))]
for _k, (_kept, _broken, _rule, _number) in enumerate(_ACTS, 3 + len(_MODS)):
    _uri = f"/akn/gb/act/2010-05-01/{_k + 100}"
    LIMITS += [(enact("ada", _k, _uri, **_broken), refused(_rule, _number)), (enact("ada", _k, _uri, **_kept), law(_k))]

# Bytes that are no command, and lines that are none.
_BLANKS = enact("ada", 1, body=SECTIONS)
NO_COMMANDS = [
    ("{", form(1, "NotJson", 0)),
    ("{}", form(2, "WrongShape", 0)),
    ('{"command":"repeal"}', form(7, "UnknownWord", 0)),
    (withdraw("Ada", 1, "9.1"), form(3, "BadName", 0)),
    (withdraw("a" * 33, 1, "9.1"), form(3, "BadName", 0)),
    (withdraw("", 1, "9.1"), form(3, "BadName", 0)),
    (withdraw("a b", 1, "9.1"), form(3, "BadName", 0)),
    (withdraw("\u00e8", 1, "9.1"), form(3, "BadName", 0)),
    (withdraw("a-b.c_9", 1, "9.1"), refused(8, "9.1")),
    (withdraw("a" * 32, 1, "9.1"), refused(8, "9.1")),
    (withdraw("ada", -1, "9.1"), form(6, "BadNumber", 0)),
    (withdraw("ada", 18446744073709551616, "9.1"), form(6, "BadNumber", 0)),
    (withdraw("ada", 18446744073709551615, "9.1"), refused(8, "9.1")),
    (withdraw("ada", 0, "9"), form(3, "BadName", 0)),
    (drop("ada", 1, 4294967296), form(6, "BadNumber", 0)),
    (drop("ada", 1, 4294967295), refused(8, "0.4294967295")),
    (file("ada", 1, 4294967296), form(6, "BadNumber", 0)),
    (correct("ada", 1, "9.1", textual(type="repealed")), form(7, "UnknownWord", 1)),
    (add("ada", 1, repeal(start="2011-02-29")), form(4, "BadDay", 1)),
    (record("ada", 1, repeal(), repeal(start="2011-02-29")), form(4, "BadDay", 2)),
    (enact("ada", 1, FRBRdate="2010-05-02"), form(8, "DateDiffers", 0)),
    (_BLANKS + " " * (LIMIT + 1 - len(_BLANKS)), form(9, "TooLong", 0)),
    (_BLANKS + " " * (LIMIT - len(_BLANKS)), law(1)),
    ("", NOTHING),
    ("Front", NOTHING),
    ("front ", NOTHING),
    ("[]", NOTHING),
    ("ask", NOTHING),
    (f"asked {ONE}/eng@ 1 force", NOTHING),
    (f"know {ONE} 1", NOTHING),
    (f"ask {ONE}/eng@ 1", NOTHING),
    (f"ask {ONE}/eng@ 1 Force", NOTHING),
    (f"ask {ONE}/eng@ one force", NOTHING),
    (f"ask {ONE} 1 force", NOTHING),
    (f"known {ONE}", NOTHING),
    (f"known {ONE}/eng@ 1", NOTHING),
    (f"known {ONE} 4294967296", NOTHING),
    (f"known {ONE} 4294967295", "enacted 1 front 1"),
    (f"known {NONE} 1", "none"),
    front(1, 1),
]

SESSIONS = {
    "a repeal is withdrawn": WITHDRAWN,
    "a repeal is corrected": CORRECTED,
    "an act is asked for": ASKED,
    "what bears, and when": ORDERED,
    "an answer is printed": PRINTED,
    "numbers and works": NUMBERS,
    "two drafters": FILED,
    "refusals": BASE + REFUSED + STANDS + ACCEPTED,
    "repeats": REPEATED,
    "corrections keep the work": KEPT,
    "what was seen": SEEN,
    "drafts": DRAFTED,
    "ids of a work": FILLED,
    "drafters": CROWDED,
    "limits": LIMITS,
    "no commands": NO_COMMANDS,
}

# How many bytes an entry takes, behind a drafter's name of three letters: a number of 1, 2, 4 or 8 bytes, a text behind its length of
# two bytes, a list behind its count of two.
HEAD = 1 + (1 + 3) + 8 + 4 + 4
BY_ID = HEAD + 1 + 6
MOST = 536_870_912


def act_size(uri, contents):
    """The bytes of the entry that enacts sections of these contents, with nums of one to three letters."""
    nodes = sum(1 + (1 + len(str(k))) + 2 + (2 + len(content)) + 2 + 2 for k, content in enumerate(contents, 1))
    return HEAD + 1 + (2 + len(uri)) + 3 + 4 + 2 + 8 + (2 + nodes)


def insertion(contents, work, provision=None):
    """An insertion of sections of these contents at the end of the act, by a provision or by none that is named, and the bytes that it takes as an item
    of a draft of a work."""
    named = {} if provision is None else {"source": {"href": SOURCE, "place": 1, "provision": provision}}
    source = (2 + len(SOURCE)) + 2 + (2 + len(provision) if named else 0)
    nodes = sum(1 + (1 + len(str(k))) + 2 + (2 + len(content)) + 2 + 2 for k, content in enumerate(contents, 1))
    edit = 1 + (2 + len("body")) + 1 + (2 + nodes)
    new = [node(num=str(k), content=content) for k, content in enumerate(contents, 1)]
    return inserted(new, **named), HEAD + 1 + (2 + len(work)) + 1 + source + 8 + edit


def filling(size, work, provision=None):
    """An insertion that takes exactly so many bytes as an item of a draft of a work, or in a record two more."""
    count = size // 16_000 + 1
    mod, taken = insertion([""] * count, work, provision)
    each, more = divmod(size - taken, count)
    return insertion(["c" * (each + (k < more)) for k in range(count)], work, provision)


def full():
    """A register that is filled to the last law entry and to the last byte, with what is refused when: (line, line) in turn."""
    size, contents = 0, ["c" * 16384] * 510
    for k in range(1, 65):
        if k == 64:
            contents = contents[:490]
        uri = f"/akn/gb/act/2010-05-01/{k:02}"
        yield enact("ada", k, uri, body=[node(num=str(n), content=c) for n, c in enumerate(contents, 1)]), law(k)
        size += act_size(uri, contents)
    first, laws, request = "/akn/gb/act/2010-05-01/01", 64, 100
    # 512 ids of the second act, and one of the first
    second = "/akn/gb/act/2010-05-01/02"
    item = 1 + (2 + 25 + 2) + 8 + (1 + 2 + len("sec_1"))
    for k in range(8):
        yield record("ada", request, *[repeal()] * 64, work=second), law(laws + 1)
        size, laws, request = size + HEAD + 1 + (2 + len(second)) + 2 + 64 * item, laws + 1, request + 1
    yield record("ada", request, repeal(), work=first), law(73)
    size, laws, request = size + HEAD + 1 + (2 + len(first)) + 2 + item, laws + 1, request + 1
    # 63 items in the draft of ada, one of them of the second act
    for k in range(1, 64):
        yield add("ada", request, work=second if k == 1 else first), draft(k)
        size, request = size + HEAD + 1 + (2 + len(first)) + item, request + 1
    yield withdraw("ada", request, "72.2"), law(74)
    size, laws, request = size + BY_ID, laws + 1, request + 1
    # 73.1 is withdrawn and restored in turn
    while laws < 65_534:
        yield (restore if laws % 2 else withdraw)("ada", request, "73.1"), law(laws + 1)
        size, laws, request = size + BY_ID, laws + 1, request + 1
    yield front(65_534, 65_534 + 63)
    # one law entry is left: one that is too large by a byte, and one that fits
    big, taken = filling(MOST - size - 1, first)
    assert taken == MOST - size - 1, taken
    yield record("ada", request, big, work=first), refused(17, MOST)
    yield restore("ada", request, "73.1"), refused(10, "73.1")
    yield withdraw("ada", request, "73.1"), law(65_535)
    size, laws, request = size + BY_ID, 65_535, request + 1
    # 16 alone, and behind each neighbour below it
    yield from [
        (restore("ada", request, "73.1"), refused(16, 65_535)),
        (correct("ada", request, "73.1", repeal("sec_2")), refused(16, 65_535)),
        (record("ada", request, repeal(), work=first), refused(16, 65_535)),
        (enact("ada", request, NONE), refused(16, 65_535)),
        (file("ada", request, 65_535, first), refused(16, 65_535)),
        (enact("ada", request, NONE, force=AT_ONCE), refused(7, 0)),  # 7, 16
        (correct("ada", request, "73.1", force()), refused(11, "73.1")),  # 11, 16
        (withdraw("ada", request, "9.1"), refused(8, "9.1")),  # 8, 16
        (withdraw("ada", request, "73.1"), refused(9, 65_535)),  # 9, 16
        (restore("ada", request, "72.1"), refused(10, "72.1")),  # 10, 16
        (record("ada", request, repeal(), work=second), refused(15, 512)),  # 15, 16
        (file("ada", request, 65_535, second), refused(15, 512)),  # 15, 16
        (file("bob", 1, 65_535, second), refused(13, second)),  # 13, 16
        (file("ada", request, 73, second), refused(12, 74)),  # 12, 15
    ]
    # what is left is filled to the last byte, by the 64th item of the draft
    more, taken = filling(MOST - size + 1, first)
    assert taken == MOST - size + 1, taken
    yield add("ada", request, more, first), refused(17, MOST)
    yield record("ada", request, more, work=first), refused(16, 65_535)  # 16, 17
    more, taken = filling(MOST - size + 1, first, "sec_9")
    assert taken == MOST - size + 1, taken
    yield add("ada", request, more, first), refused(17, MOST)
    rest, taken = filling(MOST - size, first, "sec_9")
    assert taken == MOST - size, taken
    yield add("ada", request, rest, first), draft(64)
    request += 1
    yield from [
        (drop("ada", request, 1), refused(17, MOST)),
        (add("bob", 1, work=first), refused(17, MOST)),
        (add("ada", request, work=first), refused(14, 64)),  # 14, 17
        (drop("ada", request, 65), refused(8, "0.65")),  # 8, 17
        (restore("ada", request, "73.1"), refused(16, 65_535)),  # 16, 17
        (correct("ada", request, "73.1", repeal("sec_2")), refused(16, 65_535)),  # 16, 17
        (withdraw("ada", request, "72.1"), refused(16, 65_535)),  # 16, 17
        (record("ada", request, repeal(), work=first), refused(16, 65_535)),  # 16, 17
        (enact("ada", request, NONE), refused(16, 65_535)),  # 16, 17
        (file("ada", request, 65_535, first), refused(16, 65_535)),  # 16, 17
        (add("ada", request - 1, rest, first), again(draft(64))),
        front(65_535, 65_535 + 64),
        (f"known {first} 65535", "enacted 1 front 65535 73.1 withdrawn"),
        (f"known {first} 65534", "enacted 1 front 65535 73.1"),
    ]
