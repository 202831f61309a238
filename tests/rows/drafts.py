"""Drafts and previews, asked over `batch`: histories of two drafters with the responses that are to come, which were written by hand from
docs/PROTOCOL.md, docs/RULES.md and docs/MODEL.md; queries of both paths with what is wrong about them; and drafters side by side, of whom
each is to see what he would see alone.
"""
import random
from urllib.parse import quote

from checks import check
from clients.messages import bad_form, batch, bytewise, check_written, command, compact, front, get, post, refused, response
from rows.dossiers import force, node, repeal, substituted, to
from rows.histories import ENACTED, STATUS_OF_QUERY, QUERY_NAMES, accepted, asked, broken, printed, text
from rows.register import (FIRST, ONE, SECOND, SECTIONS, THIRD, TWO, add, answer, correct, draft, drop, enact, file, law, record, restore, withdraw)

DAY = "2011-01-01"
ON_DAY = f"{ONE}/eng@{DAY}"
NOBODY = response(200, '{"draft":[]}')


def preview(drafter, expression=ON_DAY, reading=None):
    """The target of a preview."""
    keys = {"drafter": drafter, "expression": expression, "reading": reading}
    return "/preview?" + "&".join(f"{key}={quote(str(value), safe='/@!~')}" for key, value in keys.items() if value is not None)


def seen(drafter, line, expression=ON_DAY, reading=None):
    """A preview, and its answer."""
    return get(preview(drafter, expression, reading)), response(200, line)


def unseen(drafter, expression, rule, kept):
    """A preview, and the rule that refuses it."""
    return get(preview(drafter, expression)), response(STATUS_OF_QUERY[rule], compact({"kept": kept, "name": QUERY_NAMES[rule], "query": rule}))


def item(number, modification, work=ONE):
    """An item of a draft, as it is printed."""
    return {"item": number, "modification": modification, "work": work}


def holds(drafter, *items):
    """A question for a draft, and the draft."""
    return get(f"/draft?drafter={drafter}"), response(200, compact({"draft": list(items)}))


def counted(number):
    return get("/front"), front(number)


def without(applied, *parts, viewpoint, day=DAY):
    """The answer about the act of three sections with these provisions."""
    return answer(applied, ",".join(parts), day, viewpoint)


ALL = (FIRST, SECOND, THIRD)
THIRD_GOES, SECOND_GOES, FIRST_GOES = repeal("sec_3"), repeal("sec_2"), repeal("sec_1")
TEN = substituted("Ten", "sec_2", old="Two", occurrence=1)
EARLY = repeal("sec_3", "2010-07-01")
ON_ENTRY = force(destination=to("2.1"), on="2010-09-01", date="2010-09-01")
OTHER_ACT = enact("ada", 2, TWO, body=[node(num="1", content="Else.")])
TEN_TWO = SECOND.replace("Two two.", "Ten two.")
OTHER_TEXT = compact({"applied": [], "bears": True, "body": [printed("section", 1, "Else.")], "expression": f"{TWO}/eng@{DAY}", "reading": "force",
                      "unapplied": [], "viewpoint": 2})
OTHER_EMPTY = compact({"applied": ["3.1"], "bears": True, "body": [], "expression": f"{TWO}/eng@{DAY}", "reading": "force", "unapplied": [],
                       "viewpoint": 3})
NOT_BEARING = '{"applied":[],"bears":false,"body":[%s],"expression":"%s/eng@2010-05-01","reading":"force","unapplied":[],"viewpoint":%d}'

ROWS = {
    "an item is seen by its drafter alone, filed once it is not stale, and then gone": [
        accepted(ENACTED, law(1)),
        accepted(add("ada", 2, THIRD_GOES), draft(1)),
        seen("ada", without('["2.1"]', FIRST, SECOND, viewpoint=2)),
        seen("bob", without("[]", *ALL, viewpoint=1)),
        holds("ada", item(1, THIRD_GOES)),
        holds("bob"),
        accepted(record("bob", 1, FIRST_GOES), law(2)),
        broken(file("ada", 3, 1), 12, 2),
        accepted(file("ada", 4, 2), law(3)),
        broken(file("ada", 5, 3), 13, ONE),
        holds("ada"),
    ],
    "a draft is no law": [
        accepted(ENACTED, law(1)),
        accepted(add("ada", 2, THIRD_GOES), draft(1)),
        counted(1),
        asked(ON_DAY, without("[]", *ALL, viewpoint=1)),
    ],
    "a preview without items is the answer at the front": [
        accepted(ENACTED, law(1)),
        accepted(record("bob", 1, THIRD_GOES), law(2)),
        seen("ada", without('["2.1"]', FIRST, SECOND, viewpoint=2)),
        asked(ON_DAY, without('["2.1"]', FIRST, SECOND, viewpoint=2)),
    ],
    "a preview of one whom nobody knows": [
        accepted(ENACTED, law(1)),
        seen("zoe", without("[]", *ALL, viewpoint=1)),
        holds("zoe"),
    ],
    "items in their order, numbered from 1": [
        accepted(ENACTED, law(1)),
        accepted(add("ada", 2, THIRD_GOES), draft(1)),
        accepted(add("ada", 3, SECOND_GOES), draft(2)),
        holds("ada", item(1, THIRD_GOES), item(2, SECOND_GOES)),
        seen("ada", without('["2.1","2.2"]', FIRST, viewpoint=2)),
    ],
    "an item that was dropped is gone, and its number with it": [
        accepted(ENACTED, law(1)),
        accepted(add("ada", 2, THIRD_GOES), draft(1)),
        accepted(add("ada", 3, SECOND_GOES), draft(2)),
        accepted(drop("ada", 4, 1), draft(1)),
        holds("ada", item(2, SECOND_GOES)),
        seen("ada", without('["2.1"]', FIRST, THIRD, viewpoint=2)),
        accepted(add("ada", 5, FIRST_GOES), draft(3)),
        holds("ada", item(2, SECOND_GOES), item(3, FIRST_GOES)),
        seen("ada", without('["2.1","2.2"]', THIRD, viewpoint=2)),
        broken(drop("ada", 6, 1), 8, "0.1"),
    ],
    "all items dropped": [
        accepted(ENACTED, law(1)),
        accepted(add("ada", 2, THIRD_GOES), draft(1)),
        accepted(drop("ada", 3, 1), draft(1)),
        holds("ada"),
        seen("ada", without("[]", *ALL, viewpoint=1)),
        accepted(add("ada", 4, THIRD_GOES), draft(2)),
        holds("ada", item(2, THIRD_GOES)),
    ],
    "an item of another drafter is none": [
        accepted(ENACTED, law(1)),
        accepted(add("ada", 2, THIRD_GOES), draft(1)),
        broken(drop("bob", 1, 1), 8, "0.1"),
        accepted(add("bob", 2, SECOND_GOES), draft(1)),
        holds("ada", item(1, THIRD_GOES)),
        holds("bob", item(1, SECOND_GOES)),
        seen("ada", without('["2.1"]', FIRST, SECOND, viewpoint=2)),
        seen("bob", without('["2.1"]', FIRST, THIRD, viewpoint=2)),
        accepted(drop("bob", 3, 1), draft(1)),
        holds("ada", item(1, THIRD_GOES)),
        holds("bob"),
    ],
    "a filing takes one's own items alone": [
        accepted(ENACTED, law(1)),
        accepted(add("ada", 2, THIRD_GOES), draft(1)),
        accepted(add("bob", 1, SECOND_GOES), draft(1)),
        accepted(file("bob", 2, 1), law(2)),
        holds("ada", item(1, THIRD_GOES)),
        holds("bob"),
        seen("bob", without('["2.1"]', FIRST, THIRD, viewpoint=2)),
        seen("ada", without('["2.1","3.1"]', FIRST, viewpoint=3)),
    ],
    "items of two works": [
        accepted(ENACTED, law(1)),
        accepted(OTHER_ACT, law(2)),
        accepted(add("ada", 3, THIRD_GOES), draft(1)),
        accepted(add("ada", 4, FIRST_GOES, TWO), draft(2)),
        accepted(add("ada", 5, SECOND_GOES), draft(3)),
        holds("ada", item(1, THIRD_GOES), item(2, FIRST_GOES, TWO), item(3, SECOND_GOES)),
        seen("ada", without('["3.1","3.2"]', FIRST, viewpoint=3)),
        seen("ada", OTHER_EMPTY, f"{TWO}/eng@{DAY}"),
        seen("bob", OTHER_TEXT, f"{TWO}/eng@{DAY}"),
    ],
    "one work filed, and the items of the other kept": [
        accepted(ENACTED, law(1)),
        accepted(OTHER_ACT, law(2)),
        accepted(add("ada", 3, FIRST_GOES, TWO), draft(1)),
        accepted(add("ada", 4, THIRD_GOES), draft(2)),
        accepted(file("ada", 5, 2), law(3)),
        holds("ada", item(1, FIRST_GOES, TWO)),
        seen("ada", without('["3.1"]', FIRST, SECOND, viewpoint=3)),
        accepted(add("ada", 6, SECOND_GOES), draft(3)),
        holds("ada", item(1, FIRST_GOES, TWO), item(3, SECOND_GOES)),
        seen("ada", without('["3.1","4.1"]', FIRST, viewpoint=4)),
    ],
    "a work of which the draft has nothing, beside one of which it has": [
        accepted(ENACTED, law(1)),
        accepted(OTHER_ACT, law(2)),
        accepted(add("ada", 3, THIRD_GOES), draft(1)),
        seen("ada", OTHER_TEXT, f"{TWO}/eng@{DAY}"),
    ],
    "what is previewed is what is filed": [
        accepted(ENACTED, law(1)),
        accepted(add("ada", 2, TEN), draft(1)),
        accepted(add("ada", 3, THIRD_GOES), draft(2)),
        seen("ada", without('["2.1","2.2"]', FIRST, TEN_TWO, viewpoint=2)),
        accepted(file("ada", 4, 1), law(2)),
        asked(ON_DAY, without('["2.1","2.2"]', FIRST, TEN_TWO, viewpoint=2)),
        seen("ada", without('["2.1","2.2"]', FIRST, TEN_TWO, viewpoint=2)),
    ],
    "an item does not bear before its day": [
        accepted(ENACTED, law(1)),
        accepted(add("ada", 2, THIRD_GOES), draft(1)),
        seen("ada", without("[]", *ALL, viewpoint=2, day="2010-12-31"), f"{ONE}/eng@2010-12-31"),
        seen("ada", without('["2.1"]', FIRST, SECOND, viewpoint=2)),
    ],
    "a day before the act, and the act's own": [
        accepted(ENACTED, law(1)),
        accepted(add("ada", 2, THIRD_GOES), draft(1)),
        unseen("ada", f"{ONE}/eng@2010-04-30", 3, "2010-05-01"),
        unseen("bob", f"{ONE}/eng@2010-04-30", 3, "2010-05-01"),
        seen("ada", NOT_BEARING % (",".join(ALL).replace("true", "false"), ONE, 2), f"{ONE}/eng@2010-05-01"),
        seen("bob", NOT_BEARING % (",".join(ALL).replace("true", "false"), ONE, 1), f"{ONE}/eng@2010-05-01"),
    ],
    "another language, a portion that goes and one that stays": [
        accepted(ENACTED, law(1)),
        accepted(add("ada", 2, THIRD_GOES), draft(1)),
        unseen("ada", f"{ONE}/fra@{DAY}", 4, "eng"),
        unseen("ada", f"{ON_DAY}/~sec_3", 5, "sec_3"),
        seen("bob", answer("[]", THIRD, DAY, 1, portion="/~sec_3"), f"{ON_DAY}/~sec_3"),
        seen("ada", answer('["2.1"]', SECOND, DAY, 2, portion="/~sec_2"), f"{ON_DAY}/~sec_2"),
    ],
    "a work that nobody enacts": [
        unseen("ada", ON_DAY, 1, ONE),
        broken(add("ada", 1, THIRD_GOES), 3, ONE),
        holds("ada"),
        unseen("ada", ON_DAY, 1, ONE),
        accepted(ENACTED, law(1)),
        unseen("ada", f"{TWO}/eng@{DAY}", 1, TWO),
    ],
    "of two rules of a question the first": [
        accepted(ENACTED, law(1)),
        accepted(add("ada", 2, THIRD_GOES), draft(1)),
        unseen("ada", f"{ONE}/fra@2010-04-30", 3, "2010-05-01"),
        unseen("ada", f"{ONE}/fra@{DAY}/~sec_9", 4, "eng"),
        unseen("ada", f"{TWO}/fra@2010-04-30/~sec_9", 1, TWO),
    ],
    "an item directed at what is recorded": [
        accepted(ENACTED, law(1)),
        accepted(record("bob", 1, THIRD_GOES), law(2)),
        accepted(add("ada", 2, ON_ENTRY), draft(1)),
        seen("ada", without('["2.1"]', FIRST, SECOND, viewpoint=3, day="2010-10-01"), f"{ONE}/eng@2010-10-01"),
        seen("bob", without("[]", *ALL, viewpoint=2, day="2010-10-01"), f"{ONE}/eng@2010-10-01"),
        holds("ada", item(1, ON_ENTRY)),
    ],
    "both readings": [
        accepted(ENACTED, law(1)),
        accepted(add("ada", 2, THIRD_GOES), draft(1)),
        seen("ada", answer('["2.1"]', f"{FIRST},{SECOND}", DAY, 2, "efficacy"), reading="efficacy"),
        seen("ada", answer('["2.1"]', f"{FIRST},{SECOND}", DAY, 2), reading="force"),
    ],
    "an item whose target is gone by then is not applied": [
        accepted(ENACTED, law(1)),
        accepted(record("bob", 1, EARLY), law(2)),
        accepted(add("ada", 2, THIRD_GOES), draft(1)),
        seen("ada", compact({"applied": ["2.1"], "bears": True, "body": [printed("section", 1, "One."), printed("section", 2, "Two two.")],
                             "expression": ON_DAY, "reading": "force", "unapplied": [{"cause": "TargetMissing", "id": "3.1"}], "viewpoint": 3})),
    ],
    "a refused item is none, and takes no number": [
        accepted(ENACTED, law(1)),
        broken(add("ada", 2, repeal("sec_3", "2011-01-01", until="2011-01-01")), 7, 1),
        broken(add("ada", 3, force(destination=to("9.1"), on=DAY, date=DAY)), 8, "9.1"),
        holds("ada"),
        accepted(add("ada", 4, THIRD_GOES), draft(1)),
    ],
    "a repeat adds nothing": [
        accepted(ENACTED, law(1)),
        accepted(add("ada", 2, THIRD_GOES), draft(1)),
        accepted(add("ada", 2, THIRD_GOES), draft(1)),
        holds("ada", item(1, THIRD_GOES)),
        broken(add("ada", 2, SECOND_GOES), 1, 1),
        holds("ada", item(1, THIRD_GOES)),
    ],
    "an item of a correction, a withdrawal and a restoring in between": [
        accepted(ENACTED, law(1)),
        accepted(record("bob", 1, SECOND_GOES), law(2)),
        accepted(add("ada", 2, THIRD_GOES), draft(1)),
        seen("ada", without('["2.1","3.1"]', FIRST, viewpoint=3)),
        accepted(withdraw("bob", 2, "2.1"), law(3)),
        seen("ada", without('["4.1"]', FIRST, SECOND, viewpoint=4)),
        accepted(restore("bob", 3, "2.1"), law(4)),
        seen("ada", without('["2.1","5.1"]', FIRST, viewpoint=5)),
        accepted(correct("bob", 4, "2.1", FIRST_GOES), law(5)),
        seen("ada", without('["2.1","6.1"]', SECOND, viewpoint=6)),
    ],
    "a preview names the drafter by his whole name": [
        accepted(ENACTED, law(1)),
        accepted(add("ada", 2, THIRD_GOES), draft(1)),
        holds("ad"),
        holds("ada2"),
        seen("ad", without("[]", *ALL, viewpoint=1)),
        seen("ada.", without("[]", *ALL, viewpoint=1)),
    ],
    "a draft over the end of a stream's first half": [
        accepted(ENACTED, law(1)),
        accepted(add("bob", 1, THIRD_GOES), draft(1)),
        holds("bob", item(1, THIRD_GOES)),
        accepted(file("bob", 2, 1), law(2)),
        accepted(add("bob", 3, SECOND_GOES), draft(2)),
        seen("bob", without('["2.1","3.1"]', FIRST, viewpoint=3)),
        holds("bob", item(2, SECOND_GOES)),
    ],
}


def numbered(count):
    """So many items, each a repeal of another day."""
    return [repeal("sec_3", f"20{11 + k // 28}-01-{k % 28 + 1:02}") for k in range(count)]


FULL = ([accepted(ENACTED, law(1))] + [accepted(add("ada", k + 2, m), draft(k + 1)) for k, m in enumerate(numbered(64))]
        + [broken(add("ada", 100, THIRD_GOES), 14, 64),
           holds("ada", *[item(k + 1, m) for k, m in enumerate(numbered(64))]),
           accepted(add("bob", 1, SECOND_GOES), draft(1)),
           accepted(drop("ada", 101, 64), draft(64)),
           accepted(add("ada", 102, SECOND_GOES), draft(65)),
           broken(add("ada", 103, THIRD_GOES), 14, 64),
           seen("ada", without('["2.1","2.64"]', FIRST, viewpoint=2))])

# What is wrong about the query of a path: the keys first, then the drafter, the expression, the day and the reading.
WRONG = [
    ("no query", "/preview", 2),
    ("no drafter", f"/preview?expression={ON_DAY}", 2),
    ("no expression", "/preview?drafter=ada", 2),
    ("a viewpoint", preview("ada") + "&viewpoint=1", 2),
    ("a drafter twice", preview("ada") + "&drafter=ada", 2),
    ("a reading twice", preview("ada", reading="force") + "&reading=force", 2),
    ("an unknown key", preview("ada") + "&x=1", 2),
    ("no version day", preview("ada", f"{ONE}/eng@"), 4),
    ("no version day, and no reading", preview("ada", f"{ONE}/eng@", "x"), 4),
    ("no drafter's name", preview("Ada"), 3),
    ("an empty drafter", preview(""), 3),
    ("a drafter of 33 bytes", preview("a" * 33), 3),
    ("no drafter's name, and no version day", preview("Ada", f"{ONE}/eng@"), 3),
    ("no expression's name", preview("ada", ONE), 3),
    ("no expression's name, and no reading", preview("ada", ONE, "x"), 3),
    ("no reading", preview("ada", reading="x"), 7),
    ("no query for a draft", "/draft", 2),
    ("an empty key of a draft", "/draft?=ada", 2),
    ("an expression for a draft", f"/draft?drafter=ada&expression={ON_DAY}", 2),
    ("a draft twice", "/draft?drafter=ada&drafter=ada", 2),
    ("a draft of no drafter's name", "/draft?drafter=a%20b", 3),
    ("a draft of an empty name", "/draft?drafter=", 3),
    ("a draft of 33 bytes", "/draft?drafter=" + "a" * 33, 3),
]


def histories():
    """Each history in one piece and byte by byte, and the draft that is full."""
    for name, rows in ROWS.items():
        given, wanted = b"".join(given for given, _ in rows), b"".join(wanted for _, wanted in rows)
        check_written(f"drafts, {name}", batch(given), (0, wanted))
        check_written(f"drafts, {name}, byte by byte", batch(given, bytewise), (0, wanted))
    given, wanted = b"".join(given for given, _ in FULL), b"".join(wanted for _, wanted in FULL)
    check_written("drafts, a full draft", batch(given), (0, wanted))


def queries():
    """Queries of both paths that are refused, and methods that they do not have."""
    begun, reply = accepted(ENACTED, law(1))
    rows = [(name, get(target), bad_form(rule)) for name, target, rule in WRONG]
    rows += [(f"{path} by POST", post(path, b""), refused(7, "GET")) for path in ("/preview", "/draft?drafter=ada", "/preview?x")]
    rows += [(path, get(path), refused(6)) for path in ("/previews", "/draft/", "/Draft?drafter=ada", "/preview/?drafter=ada")]
    rows += [("a longest name", get("/draft?drafter=" + "a" * 32), NOBODY), ("an encoded key", get("/draft?%64rafter=a%64a"), NOBODY)]
    for name, given, wanted in rows:
        check_written(f"drafts, {name}", batch(begun + given), (0, reply + wanted))


def responses(written):
    """The responses of a stream, one after another."""
    found, place = [], 0
    while place < len(written):
        behind = written.index(b"\r\n\r\n", place) + 4
        fields = dict(line.split(b": ", 1) for line in written[place:behind].split(b"\r\n")[1:] if line)
        end = behind + int(fields[b"Content-Length"])
        found.append(written[place:end])
        place = end
    return found


DAYS = ["2010-05-01", "2010-07-01", "2010-12-31", DAY, "2011-06-01", "2012-01-01"]


def some_modification(chance):
    return chance.choice([
        repeal(chance.choice(["sec_1", "sec_2", "sec_3"]), chance.choice(DAYS)),
        substituted(chance.choice(["Ten", "Law"]), "sec_2", old=chance.choice(["Two", "two"]), occurrence=1, force={"from": chance.choice(DAYS)}),
        force(destination=to(chance.choice(["2.1", "3.1"])), on=DAY, date=chance.choice(DAYS)),
    ])


def some_draft_command(chance, drafter, number):
    """A command on a draft, or one that is refused: none of them makes a law entry."""
    made = chance.randrange(5)
    if made < 3:
        return command(add(drafter, number, some_modification(chance), chance.choice([ONE, ONE, TWO])))
    if made == 3:
        return command(drop(drafter, number, chance.randrange(1, 5)))
    return command(file(drafter, number, 0))


def some_question(chance, drafter):
    day = f"{chance.choice([ONE, ONE, TWO])}/eng@{chance.choice(DAYS)}"
    return chance.choice([get(f"/draft?drafter={drafter}"), get(preview(drafter, day)), get(preview(drafter, day, "efficacy")), get(text(day)),
                          get("/front")])


def some_own(chance, number):
    """What one drafter asks, among it commands that make law entries."""
    made = chance.randrange(8)
    if made < 3:
        return some_draft_command(chance, "ada", number)
    if made == 3:
        return command(file("ada", number, chance.randrange(1, 9), chance.choice([ONE, TWO])))
    if made == 4:
        return command(chance.choice([record("ada", number, some_modification(chance)), withdraw("ada", number, "2.1"), restore("ada", number, "2.1")]))
    return some_question(chance, "ada")


def apart():
    """What one drafter is answered is, byte for byte, what he is answered where the other sends nothing: 500 times, and each time both send
    their requests in another order."""
    chance, differing = random.Random(9), []
    for number in range(500):
        own = [command(ENACTED), command(OTHER_ACT)] + [some_own(chance, k) for k in range(3, 25)]
        others = [some_draft_command(chance, "bob", k) if chance.randrange(3) else some_question(chance, "bob") for k in range(1, 25)]
        mixed = [(place, True, given) for place, given in zip(sorted(chance.random() for _ in own), own)]
        mixed += [(chance.random(), False, given) for given in others]
        mixed.sort(key=lambda one: one[0])
        status, written = batch(b"".join(given for _, _, given in mixed))
        alone = batch(b"".join(own))
        told = [reply for reply, (_, is_own, _) in zip(responses(written), mixed) if is_own]
        if (status, b"".join(told)) != alone:
            differing.append(number)
    check("drafts, each drafter answered as if alone", differing, [])
