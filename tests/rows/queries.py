"""Targets of questions, and commands, with what is wrong about them: each key of a query and each value, and each number at its limit and
one past it. They were written by hand, from docs/PROTOCOL.md and docs/FORMS.md.

All is asked on a desk with one act of three sections. A row is (name, request, response).
"""
from urllib.parse import quote

from clients.messages import bad_form, command, front, get, response
from rows.dossiers import repeal
from rows.histories import ENACTED, accepted, broken, text, unanswered
from rows.register import FIRST, ONE, SECOND, SECTIONS, THIRD, TWO, add, answer, asked, correct, drop, enact, file, law, record, withdraw

DAY = ONE + "/eng@2010-06-01"
WHOLE = response(200, answer("[]", f"{FIRST},{SECOND},{THIRD}", "2010-06-01", 1))
IN_EFFECT = response(200, answer("[]", f"{FIRST},{SECOND},{THIRD}", "2010-06-01", 1, "efficacy"))
ENCODED = quote(DAY, safe="")
EACH_BYTE = "".join(f"%{byte:02x}" for byte in DAY.encode())

ENACTED_FIRST = accepted(ENACTED, law(1))

# The set of keys: none is unknown, none is there twice, and the expression is there.
KEYS = [
    ("no query", "/text"),
    ("an empty query", "/text?"),
    ("a query of no pairs", "/text?&&"),
    ("no expression", "/text?viewpoint=1&reading=force"),
    ("an unknown key", text(DAY) + "&day=2010-06-01"),
    ("an unknown key without a value", text(DAY) + "&x"),
    ("a key of another path", text(DAY) + "&drafter=ada"),
    ("an empty key", text(DAY) + "&=1"),
    ("a key in another case", f"/text?Expression={DAY}"),
    ("a key with a blank", f"/text?expression+={DAY}"),
    ("a key that is no UTF-8", text(DAY) + "&%ff=1"),
    ("a key with a replacement character in it", f"/text?expressio%6e%80={DAY}"),
    ("an expression twice", text(DAY) + "&expression=" + DAY),
    ("an expression twice, once encoded", text(DAY) + "&%65xpression=" + DAY),
    ("a viewpoint twice", text(DAY, 1) + "&viewpoint=1"),
    ("a reading twice", text(DAY, 1, "force") + "&reading=force"),
    ("an unknown key twice", text(DAY) + "&x&x"),
    # and a value is wrong
    ("an unknown key, and no name", text("x") + "&y"),
    ("an expression twice, of which none is a name", "/text?expression=x&expression=y"),
    ("no expression, and no viewpoint", "/text?viewpoint=x"),
]

# Names: what the grammar of an expression has not.
NO_NAMES = [
    "", "x", "/", ONE, ONE + "/", ONE + "/eng", ONE + "/en@2010-06-01", ONE + "/Eng@2010-06-01", ONE + "/engl@2010-06-01", DAY + "/", DAY + "~sec_1",
    ONE + "/eng@2010-6-1", ONE + "/eng@2010-06-31", ONE + "/eng@2010", ONE + "/eng@0000-01-01", DAY + "/!other", DAY + "/!main/", DAY + "/~",
    DAY + "/~sec.1", DAY + "/~sec_1/~sec_2", DAY + "/~s\u00e9c_1", DAY + "/~" + "s" * 513, "/akn/gb/act/2010-05-01/" + "7" * 65 + "/eng@",
    "/akn/GB/act/2010-05-01/7/eng@", "/akn/gb-/act/2010-05-01/7/eng@", "/akn/gb-123456789/act/2010-05-01/7/eng@", "/akn/gb/bill/2010-05-01/7/eng@",
    "/akn/gb/act/" + "w" * 33 + "/2010/7/eng@", "/akn/gb/act/a/b/c/2010/7/eng@", "akn/gb/act/2010-05-01/7/eng@", " " + DAY, DAY + " ", DAY + "\x00",
    DAY + "?x", DAY + ";viewpoint=1",
]
NO_VIEWPOINTS = ["", "x", "-1", "+1", "1 ", " 1", "01", "00", "1.0", "1e0", "0x1", "\u0661", "4294967296", "18446744073709551616", "9" * 30, "1,0"]
NO_READINGS = ["", "Force", "EFFICACY", "force ", "effect", "forc\u00e9", "force,efficacy", "1"]

FAULTS = (
    [(f"the query {name}", get(target), bad_form(2)) for name, target in KEYS]
    + [(f"the expression '{name}'", get(f"/text?expression={quote(name)}"), bad_form(3)) for name in NO_NAMES]
    + [(f"the viewpoint '{value}'", get(text(DAY, value)), bad_form(6)) for value in NO_VIEWPOINTS]
    + [(f"the reading '{value}'", get(text(DAY, 1, value)), bad_form(7)) for value in NO_READINGS]
    + [
        ("what was a plus", get(f"/text?expression={DAY}&viewpoint=+1"), bad_form(6)),
        ("an expression that is no UTF-8", get("/text?expression=%ff"), bad_form(3)),
        ("a portion that is no UTF-8", get(text(DAY) + "/~sec_1%ff"), bad_form(3)),
        ("a part of a character", get(text(DAY) + "/~sec_1%c3"), bad_form(3)),
        ("a viewpoint that is no UTF-8", get(text(DAY) + "&viewpoint=1%80"), bad_form(6)),
        ("a reading that is no UTF-8", get(text(DAY) + "&reading=%ffforce"), bad_form(7)),
        ("a percent sign alone", get(text(DAY) + "%"), bad_form(3)),
        ("a percent sign and no digits", get("/text?expression=%zz" + DAY), bad_form(3)),
        ("a percent sign and one digit", get("/text?expression=%2" + DAY[1:]), bad_form(3)),
        ("what is encoded twice", get("/text?expression=%252Fakn" + DAY[4:]), bad_form(3)),
        ("a query behind two question marks", get("/text??expression=" + DAY), bad_form(2)),
        # the values are judged in one order, whatever theirs is in the query
        ("no name, no viewpoint, no reading", get(text("x", "x", "x")), bad_form(3)),
        ("no reading, no viewpoint, no name", get("/text?reading=x&viewpoint=x&expression=x"), bad_form(3)),
        ("no name, and no reading", get(text("x", None, "x")), bad_form(3)),
        ("no viewpoint, and no reading", get(text(DAY, "x", "x")), bad_form(6)),
        ("no reading, and no viewpoint", get(f"/text?reading=x&viewpoint=x&expression={DAY}"), bad_form(6)),
        # and so before the rules of questions
        ("no reading, and an unknown work", get(text(TWO + "/eng@2010-06-01", None, "x")), bad_form(7)),
        ("no viewpoint, and one of no answer", get(text(ONE + "/fra@2000-01-01", "4294967296")), bad_form(6)),
    ])

ANSWERED = [
    ("a question", get(text(DAY)), WHOLE),
    ("all its bytes encoded that may be", get(f"/text?expression={ENCODED}"), WHOLE),
    ("each byte encoded", get(f"/text?expression={EACH_BYTE}"), WHOLE),
    ("digits in the other case", get(f"/text?expression={ENCODED.lower()}"), WHOLE),
    ("a key that is encoded", get(f"/text?%65xpression={DAY}&view%70oint=%31"), WHOLE),
    ("an expression with its component", get(text(DAY + "/!main")), WHOLE),
    ("its keys in another order", get(f"/text?reading=force&viewpoint=1&expression={DAY}"), WHOLE),
    ("pairs that are empty", get(f"/text?&expression={DAY}&&viewpoint=1&"), WHOLE),
    ("the other reading", get(text(DAY, 1, "efficacy")), IN_EFFECT),
    ("the other reading, encoded", get(text(DAY) + "&reading=%65fficac%79"), IN_EFFECT),
    ("a body, which is not read", get(text(DAY), "Content-Length: 2") + b"{}", WHOLE),
    ("the front", get("/front"), front(1)),
    ("the greatest viewpoint", *unanswered(DAY, 2, 1, 4294967295)),
    ("the least viewpoint", *unanswered(DAY, 1, ONE, 0)),
    ("a viewpoint one past the front", *unanswered(DAY, 2, 1, 2)),
    ("a day before that of the act", *unanswered(ONE + "/eng@2010-04-30", 3, "2010-05-01")),
    ("another language", *unanswered(ONE + "/fra@2010-06-01", 4, "eng")),
    ("the longest portion", *unanswered(DAY + "/~" + "s" * 512, 5, "s" * 512)),
    ("the longest number", *unanswered(f"/akn/gb/act/2010/{'7' * 64}/eng@", 1, f"/akn/gb/act/2010/{'7' * 64}")),
    ("the longest words", *unanswered(f"/akn/gb-12345678/act/{'w' * 32}/{'v' * 32}/2010/7/eng@", 1,
                                      f"/akn/gb-12345678/act/{'w' * 32}/{'v' * 32}/2010/7")),
    ("an unknown work, at a viewpoint past the front", *unanswered(TWO + "/eng@2010-06-01", 1, TWO, 2)),
]

# Commands: each rule's status, and each number of the form at its limit and one past it. None of them is accepted.
NONE = "/akn/gb/act/2010-05-01/99"
TWICE = SECTIONS[:1] + SECTIONS[:1]
COMMANDS = [
    ("an unknown work", *broken(record("ada", 2, repeal(), work=NONE), 3, NONE)),
    ("a work that exists", *broken(enact("bob", 1), 4, 1)),
    ("a bad tree", *broken(enact("ada", 2, NONE, body=TWICE), 5, 1)),
    ("a bad modification", *broken(record("ada", 2), 6, 0)),
    ("a bad period", *broken(record("ada", 2, repeal(until="2011-01-01")), 7, 1)),
    ("an unknown modification", *broken(withdraw("ada", 2, "2.1"), 8, "2.1")),
    ("a draft that is empty", *broken(file("ada", 2, 1), 13, ONE)),
    ("a draft that is stale", *broken(file("ada", 2, 0), 12, 1)),
    ("a request number that was used", *broken(record("ada", 1, repeal()), 1, 1)),
    ("the longest name of a drafter", *broken(withdraw("d" * 32, 1, "9.1"), 8, "9.1")),
    ("a longer name of a drafter", command(withdraw("d" * 33, 1, "9.1")), bad_form(3)),
    ("the greatest request number", *broken(withdraw("ada", 2 ** 64 - 1, "9.1"), 8, "9.1")),
    ("a greater request number", command(withdraw("ada", 2 ** 64, "9.1")), bad_form(6)),
    ("the greatest id", *broken(withdraw("ada", 2, "4294967295.65535"), 8, "4294967295.65535")),
    ("a greater law number", command(withdraw("ada", 2, "4294967296.1")), bad_form(3)),
    ("a greater item of an id", command(withdraw("ada", 2, "1.65536")), bad_form(3)),
    ("the greatest item", *broken(drop("ada", 2, 4294967295), 8, "0.4294967295")),
    ("a greater item", command(drop("ada", 2, 4294967296)), bad_form(6)),
    ("the greatest number seen", *broken(file("ada", 2, 4294967295), 13, ONE)),
    ("a greater number seen", command(file("ada", 2, 4294967296)), bad_form(6)),
    ("a fault in the second modification", command(record("ada", 2, repeal(), {"textualMod": {}})), bad_form(2, 2)),
    ("a fault in the one modification", command(correct("ada", 2, "2.1", repeal(start="2011-02-29"))), bad_form(4, 1)),
    ("a fault in a draft's modification", command(add("ada", 2, repeal(place=65536))), bad_form(6, 1)),
    ("an act whose element is none", command(enact("ada", 2, NONE, body=[{"element": "x", "num": "1"}])), bad_form(5)),
    ("an act whose day is another", command(enact("ada", 2, NONE, FRBRdate="2010-05-02")), bad_form(8)),
    ("an unknown command", command(asked("ada", 2, "repeal")), bad_form(7)),
    ("a key twice, the last of which counts", command('{"drafter":"ada","request":2,"command":"withdraw","id":"x","id":"9.1"}'),
     broken(withdraw("ada", 2, "9.1"), 8, "9.1")[1]),
]

ROWS = FAULTS + ANSWERED + COMMANDS
