"""Dossiers with what the desk writes of them: each part of the form and each rule, kept and broken, and each limit at its
number and one past it. The lines were written by hand, from docs/FORMS.md and docs/MODEL.md.

Each table is a list of (name, dossier, line), or of (name, dossier) where the dossier is answered.
"""
import json

from checks import read

LIMIT = 8_388_608
IRI = "/akn/gb/act/2010-05-01/7"
SOURCE = "/akn/gb/act/2010-12-01/20"

FORM_RULES = {1: "NotJson", 2: "WrongShape", 3: "BadName", 4: "BadDay", 5: "BadElement", 6: "BadNumber", 7: "UnknownWord",
              8: "DateDiffers", 9: "TooLong"}
RULES = {5: "BadTree", 6: "BadModification", 7: "BadPeriod", 8: "UnknownModification", 11: "WrongKind", 15: "WorkFull"}
FORCE_TYPES = ["entryIntoForce", "postponementOfEntryIntoForce", "endOfEnactment", "prorogationOfForce", "reEnactment"]
DATED_TYPES = ["entryIntoEfficacy", "endOfEfficacy", "postponementOfEfficacy", "prorogationOfEfficacy"]


def form(rule, place=0):
    """The line of a form fault."""
    return f'{{"form":{rule},"name":"{FORM_RULES[rule]}","place":{place}}}\n'.encode()


def refused(rule, kept):
    """The line of a command that is refused."""
    return f'{{"kept":{json.dumps(kept)},"name":"{RULES[rule]}","rule":{rule}}}\n'.encode()


def act(**changes):
    """A small act, with changes; a change to None takes the key away."""
    whole = {
        "FRBRuri": IRI,
        "FRBRdate": "2010-05-01",
        "FRBRlanguage": "eng",
        "force": {"from": "2010-06-01"},
        "body": [{"element": "section", "num": "1", "content": "One."}],
    }
    whole.update(changes)
    return {key: value for key, value in whole.items() if value is not None}


def textual(**changes):
    """A repeal as a dossier spells it, with changes; a change to None takes the key away."""
    mod = {
        "type": "repeal",
        "source": {"href": SOURCE, "place": 1},
        "force": {"from": "2011-01-01"},
        "destination": {"wId": "sec_1"},
    }
    mod.update(changes)
    return {"textualMod": {key: value for key, value in mod.items() if value is not None}}


def repeal(wid="sec_1", start="2011-01-01", href=SOURCE, place=1, until=None, provision=None):
    force = {"from": start} if until is None else {"from": start, "until": until}
    source = {"href": href, "place": place, **({"provision": provision} if provision is not None else {})}
    return textual(source=source, force=force, destination={"wId": wid})


def substituted(new, wid="sec_1", **rest):
    """Nodes or a text in the place of what was there."""
    return textual(type="substitution", destination={"wId": wid}, new=new, **rest)


def inserted(new, wid="body", pos="end", **rest):
    """Nodes or a text at a place."""
    return textual(type="insertion", destination={"wId": wid, "pos": pos}, new=new, **rest)


def renumbered(wids):
    """A renumbering of these provisions."""
    return textual(type="renumbering", destination=None, renumber=[{"wId": wid, "num": "9"} for wid in wids])


def split(wid="sec_1", num="2", **rest):
    return textual(type="split", destination={"wId": wid}, num=num, **rest)


def joined(wid="sec_1", second="sec_2", **rest):
    return textual(type="join", destination={"wId": wid}, second=second, **rest)


def directed(kind, type, **changes):
    """A modification of force or efficacy as a dossier spells it, with changes; a change to None takes the key away."""
    mod = {
        "type": type,
        "source": {"href": SOURCE, "place": 1},
        "destination": {"wId": "sec_1"},
        "on": "2011-01-01",
        "date": "2011-02-01",
    }
    mod.update(changes)
    return {kind: {key: value for key, value in mod.items() if value is not None}}


def force(type="entryIntoForce", **changes):
    return directed("forceMod", type, **changes)


def efficacy(type="entryIntoEfficacy", **changes):
    return directed("efficacyMod", type, **changes)


def inapplied(**changes):
    """An inapplication, which has days in the place of a date."""
    return efficacy("inapplication", **{"date": None, "days": {"from": "2011-02-01", "until": "2011-03-01"}, **changes})


def to(id):
    return {"modification": id}


def node(element="section", num="1", **rest):
    return {"element": element, "num": num, **rest}


def sections(count, content=""):
    return [node(num=str(k), content=content) for k in range(1, count + 1)]


def nested(depth):
    """One paragraph in another, so many deep."""
    inner = node("paragraph")
    for _ in range(depth - 1):
        inner = node("paragraph", children=[inner])
    return [inner]


def refs(count, href=IRI + "/eng@"):
    return [node(refs=[href] * count)]


def dossier(whole=None, mods=()):
    return json.dumps({"act": act() if whole is None else whole, "modifications": list(mods)}).encode()


def padded(length):
    """A dossier of this many bytes: blanks behind it."""
    text = dossier()
    return text + b" " * (length - len(text))


# What is said of all words that are no form, behind the line that says which word is wrong: the script shows this file, and the program says
# the same.
USAGE = read("crates", "lawdesk", "usage.txt")

DAY = "text wants a day, as 2011-01-01"
READING = "text wants a reading, force or efficacy"
SEED = "generate wants a seed, from 0 to 18446744073709551615"
COUNT = "generate wants a count, from 1 to 2000"
WORK = "report wants the IRI of an act, as /akn/gb/act/2010-05-01/7"
TABLE = "report wants a table, lifecycle, correspondence, unapplied or dangling"
MONTH = "report wants a day, as 2011-01-01"
LIFE = ["report", "lifecycle", IRI]
BOTH = ["report", "correspondence", IRI]

# Words that are no form of the command line, and what is said of the one that is wrong.
WRONG_WORDS = [
    ([], "no command is given"), ([""], "the 1st word is no command"), (["\x1b[2J"], "the 1st word is no command"),
    (["x" * 40], f"{'x' * 40} is no command"), (["x" * 41], "the 1st word is no command"),
    (["text"], DAY), (["text", "2010-05-01 "], f"{DAY}, and not the 2nd word"), (["text", "2010-05-01\n"], f"{DAY}, and not the 2nd word"),
    (["text", b"2010-05-0\xff"], "a word is no text in UTF-8"), (["text", "force", "2010-05-01"], f"{DAY}, and not force"),
    (["text", "--", "2010-05-01"], f"{DAY}, and not --"), (["text", "2010-05-01", ""], f"{READING}, and not the 3rd word"),
    (["text", "2010-05-01", "force", "force"], "text wants no more words, and not force"),
    (["check", ""], "check wants no more words, and not the 2nd word"), (["batch", ""], "batch wants no more words, and not the 2nd word"),
    (["generate"], SEED), (["generate", "1"], COUNT), (["generate", "1", "1", "1"], "generate wants no more words, and not 1"),
    (["generate", "", "1"], f"{SEED}, and not the 2nd word"), (["generate", "1", ""], f"{COUNT}, and not the 3rd word"),
    (["generate", "1", "1 "], f"{COUNT}, and not the 3rd word"),
    (["report"], TABLE), (["report", "life", IRI], f"{TABLE}, and not life"), (["report", "lifecycle"], WORK),
    (["report", "lifecycle", "2010-05-01"], f"{WORK}, and not 2010-05-01"), (["report", "unapplied"], MONTH),
    (["report", "unapplied", IRI], f"{MONTH}, and not {IRI}"), (["report", "dangling"], MONTH),
    (["report", "dangling", "2010-02-29"], f"{MONTH}, and not 2010-02-29"), (["report", "dangled", "2010-05-01"], f"{TABLE}, and not dangled"),
    (["report", "dangling", "2010-05-01", "force"], "report wants no more words, and not force"), (LIFE + ["2010-05-01"], "report wants no more words, and not 2010-05-01"),
    (BOTH, MONTH), (BOTH + ["2010-05-01"], MONTH), (BOTH + ["2010-05-01", "2010-05-32"], f"{MONTH}, and not 2010-05-32"),
    (BOTH + ["2010-05-01", "2010-05-01", "2010-05-01\t"], "report wants no more words, and not the 6th word"),
    *((["text", day], f"{DAY}, and not {day}") for day in (
        "2010-13-01 force 20100501 2010-05-1 0000-01-01 2010-02-29 1900-02-29 2010-04-31 2010-00-10 2010-10-00 2010-10-32 +010-05-01 batch"
    ).split()),
    *((["text", "2010-05-01", reading], f"{READING}, and not {reading}") for reading in ("Force", "inForce")),
    *(([word, *more], f"{word} is no command") for word, *more in (
        ("Text", "2010-05-01"), ("--help",), ("help",), ("Check",), ("checks",), ("--check",), ("Batch",), ("batches",), ("--batch",),
        ("Generate", "1", "1"), ("generates", "1", "1"), ("reports", "unapplied", "2010-05-01"))),
    (["move", "now"], "move stands alone"), (["sql"], "no command is given"), (["sql", "move"], "move stands alone"),
    (["sql", "checks"], "checks is no command"), (["sql", "sql", "check"], "sql is no command"),
    (["sql", "text", "2010-05-01", ""], f"{READING}, and not the 3rd word"),
    *(([word, more], f"{word} wants no more words, and not {more}") for word in ("check", "batch") for more in (word, "2010-05-01")),
    *((["generate", seed, "1"], f"{SEED}, and not {seed}") for seed in ("01", "00", "18446744073709551616", "-1", "+1", "0x1")),
    *((["generate", "1", count], f"{COUNT}, and not {count}") for count in ("01", "0", "2001", "18446744073709551617")),
]

NO_WORDS = [words for words, _ in WRONG_WORDS]


def of_words(line):
    """What is said on standard error of words of which this is said."""
    return b"lawdesk: " + line.encode() + b"\n" + USAGE


# Dossiers that are answered, each at a limit or with a part that may be so.
FITS = [
    ("4,096 sections", dossier(act(body=sections(4096)))),
    ("4,096 provisions, each part of 15 sections", dossier(act(body=[
        node("part", str(p), children=[node(num=f"{p}-{k}") for k in range(15)]) for p in range(256)]))),
    ("no sections", dossier(act(body=[]))),
    ("12 levels", dossier(act(body=nested(12)))),
    ("a content of 16,384 bytes", dossier(act(body=sections(1, "é" * 8192)))),
    ("a heading of 16,384 bytes", dossier(act(body=[node(heading="h" * 16384)]))),
    ("a content of 16,384 bytes at depth 3", dossier(act(body=[
        node("part", children=[node(children=[node("paragraph", "a", content="c" * 16384)])])]))),
    ("16 refs", dossier(act(body=refs(16)))),
    ("16 refs at depth 2, and 16 above", dossier(act(body=[node("part", refs=[IRI + "/eng@"] * 16, children=refs(16))]))),
    ("512 repeals", dossier(mods=[repeal(place=k) for k in range(512)])),
    ("a wId of 512 bytes", dossier(mods=[repeal(wid="w" * 512)])),
    ("a wId of one byte", dossier(mods=[repeal(wid="w")])),
    ("a num of 16 bytes", dossier(act(body=[node(num="1-" + "Az" * 7)]))),
    ("nums that differ in case alone", dossier(act(body=[node(num="2a"), node(num="2A")]))),
    ("each element", dossier(act(body=[node(name) for name in (
        "article section chapter paragraph subparagraph subsection clause subclause alinea part title book point indent"
    ).split()]))),
    ("children, refs and numbering with nothing in them", dossier(act(numbering=[], body=[node(children=[], refs=[])]))),
    ("an element numbered twice", dossier(act(numbering=["part", "part"]))),
    ("paragraphs of one num below two sections", dossier(act(body=[
        node(num="1", children=[node("paragraph", "a")]), node(num="2", children=[node("paragraph", "a")])]))),
    ("an act's end", dossier(act(force={"from": "2010-06-01", "until": "2010-06-02"}))),
    ("an IRI's number of 64 bytes", dossier(act(FRBRuri="/akn/gb/act/2010-05-01/" + "a-._" * 16))),
    ("an IRI with a word", dossier(act(FRBRuri="/akn/gb/act/asp/2010-05-01/7"))),
    ("an IRI with two words of 32 bytes", dossier(act(FRBRuri=f"/akn/gb/act/{'w' * 32}/{'a.-_' * 8}/2010-05-01/7"))),
    ("an IRI with a jurisdiction of 11 bytes", dossier(act(FRBRuri="/akn/gb-sct45678/act/2010-05-01/7"))),
    ("an IRI of a year, and its first day", dossier(act(FRBRuri="/akn/gb/act/2010/7", FRBRdate="2010-01-01"))),
    ("a source of a year", dossier(mods=[repeal(href="/akn/gb/act/1999/1")])),
    ("two sources", dossier(mods=[repeal(), repeal(href="/akn/gb/act/2010-12-01/21")])),
    ("a ref to a version, a component and a portion", dossier(act(body=[node(refs=[
        IRI + "/eng@2011-01-01/!main/~sec_1", IRI + "/eng@/!main~sec_1", IRI + "/eng@/!main", IRI + "/eng@/~" + "p" * 512])]))),
    ("place 65535", dossier(mods=[repeal(place=65535)])),
    ("place 0", dossier(mods=[repeal(place=0)])),
    ("8,388,608 bytes", padded(LIMIT)),
    ("64 sections in the place of one", dossier(mods=[substituted(sections(64))])),
    ("64 sections are inserted", dossier(mods=[inserted(sections(64))])),
    ("4,096 provisions are inserted", dossier(mods=[inserted([node("part", children=sections(4095))])])),
    ("12 levels are inserted", dossier(mods=[inserted(nested(12))])),
    ("a content of 16,384 bytes is inserted", dossier(mods=[inserted(sections(1, "c" * 16384))])),
    ("16 refs are inserted", dossier(mods=[inserted(refs(16))])),
    ("the wIds of what is substituted and inserted have 512 bytes", dossier(mods=[
        substituted(sections(1), "w" * 512), substituted("", "w" * 512, old="o"), inserted(sections(1), "w" * 512),
        inserted("", "w" * 512)])),
    ("one section twice below two parts that are inserted, in an act that numbers sections throughout", dossier(
        act(numbering=["section"]), [inserted([node("part", "1", children=sections(1)), node("part", "2", children=sections(1))])])),
    ("texts of 16,384 bytes, one in the place of the other", dossier(mods=[substituted("n" * 16384, old="o" * 16384)])),
    ("texts of 16,384 bytes, one behind the other", dossier(mods=[inserted("n" * 16384, "sec_1", "after", old="o" * 16384)])),
    ("a text of 16,384 bytes at the start", dossier(mods=[inserted("n" * 16384, "sec_1", "start")])),
    ("occurrences 1 and 65,535", dossier(mods=[
        substituted("n", old="o", occurrence=1), inserted("n", "sec_1", "before", old="o", occurrence=65535)])),
    ("64 pairs", dossier(mods=[renumbered([f"sec_{k}" for k in range(64)])])),
    ("a pair with a wId of 512 bytes", dossier(mods=[renumbered(["w" * 512])])),
    ("a split at a text of 16,384 bytes, with a heading of as many", dossier(mods=[
        split("w" * 512, old="o" * 16384, occurrence=65535, heading="h" * 16384)])),
    ("a split at a child with a wId of 512 bytes", dossier(mods=[split(child="c" * 512)])),
    ("a join of wIds of 512 bytes, with a separator of 16,384", dossier(mods=[
        joined("w" * 512, "v" * 512, separator="s" * 16384)])),
    *[(f"{type} of a provision", dossier(mods=[force(type)])) for type in FORCE_TYPES],
    *[(f"{type} of a provision", dossier(mods=[efficacy(type)])) for type in DATED_TYPES],
    ("retroactivity, which has no day from which it counts", dossier(mods=[efficacy("retroactivity", on=None)])),
    ("extraefficacy, which has no date", dossier(mods=[efficacy("extraefficacy", date=None)])),
    ("inapplication, which has days", dossier(mods=[inapplied()])),
    ("inapplication without an end", dossier(mods=[inapplied(days={"from": "2011-02-01"})])),
    ("the force of the act, and of what is not there", dossier(mods=[force(destination={"wId": "body"}), force(destination={"wId": "none"})])),
    ("the force and the efficacy of a modification", dossier(mods=[repeal(), force(destination=to("2.1")), efficacy(destination=to("2.1"))])),
    ("512 modifications, the last of efficacy", dossier(mods=[repeal(place=k) for k in range(511)] + [efficacy(destination=to("512.1"))])),
    ("a date before the day from which it counts", dossier(mods=[force(date="0001-01-01", on="9999-12-31")])),
    ("a key twice: the last counts", dossier().replace(b'"modifications": []', b'"modifications": 1, "modifications": []')),
]

# The first fault of bytes that are no JSON text, or too long.
BYTES = [
    ("nothing", b"", form(1)),
    ("half a dossier", dossier()[:-1], form(1)),
    ("bytes behind the dossier", dossier() + b"x", form(1)),
    ("bytes that are no text", b'{"act": "\xff"}', form(1)),
    ("a text of 8,388,608 bytes that is no JSON", b"x" * LIMIT, form(1)),
    ("lists 128 deep", b"[" * 128 + b"]" * 128, form(1)),
    ("lists 127 deep", b"[" * 127 + b"]" * 127, form(2)),
    ("8,388,609 bytes", padded(LIMIT + 1), form(9)),
    ("8,388,609 bytes of no JSON", b"x" * (LIMIT + 1), form(9)),
]

# The IRI of a work that breaks its rule, by the first part that does.
WORKS = [
    ("nothing", ""),
    ("no slash first", "akn/gb/act/2010-05-01/7"),
    ("another first part", "/eli/gb/act/2010-05-01/7"),
    ("a jurisdiction of three letters", "/akn/gbr/act/2010-05-01/7"),
    ("a jurisdiction of capitals", "/akn/GB/act/2010-05-01/7"),
    ("a jurisdiction with nothing behind its dash", "/akn/gb-/act/2010-05-01/7"),
    ("a jurisdiction with nine letters behind its dash", "/akn/gb-abcdefghi/act/2010-05-01/7"),
    ("a bill", "/akn/gb/bill/2010-05-01/7"),
    ("a day that is none", "/akn/gb/act/2010-02-30/7"),
    ("the year 0000", "/akn/gb/act/0000/7"),
    ("three words", "/akn/gb/act/one/two/three/2010-05-01/7"),
    ("a word of 33 bytes", f"/akn/gb/act/{'w' * 33}/2010-05-01/7"),
    ("no date", "/akn/gb/act/asp"),
    ("no number", "/akn/gb/act/2010-05-01"),
    ("an empty number", "/akn/gb/act/2010-05-01/"),
    ("a number of 65 bytes", "/akn/gb/act/2010-05-01/" + "a" * 65),
    ("a number with a slash", "/akn/gb/act/2010-05-01/7/8"),
    ("an expression", IRI + "/eng@"),
]

# The IRI of an expression that breaks its rule behind that of its work.
EXPRESSIONS = [
    ("a work", IRI),
    ("a language of two letters", IRI + "/en@"),
    ("a language of capitals", IRI + "/ENG@"),
    ("no sign", IRI + "/eng"),
    ("a version that is no day", IRI + "/eng@2010-02-30"),
    ("a version of a year", IRI + "/eng@2010"),
    ("another component", IRI + "/eng@/!annex"),
    ("a portion without its sign", IRI + "/eng@/sec_1"),
    ("an empty portion", IRI + "/eng@/~"),
    ("a portion of 513 bytes", IRI + "/eng@/~" + "p" * 513),
    ("a portion with a dot", IRI + "/eng@/~sec.1"),
    ("a portion right behind the version", IRI + "/eng@2010-05-01~sec_1"),
    ("more behind the component", IRI + "/eng@/!main/x"),
]

NAMES = (
    [(f"the act's IRI: {name}", dossier(act(FRBRuri=iri)), form(3)) for name, iri in WORKS]
    + [(f"a source's IRI: {name}", dossier(mods=[repeal(), repeal(href=iri)]), form(3, 2)) for name, iri in WORKS]
    + [(f"a ref: {name}", dossier(act(body=[node(children=[node("paragraph", refs=[IRI + "/eng@", iri])])])), form(3))
       for name, iri in EXPRESSIONS]
    + [
        ("a language of two letters", dossier(act(FRBRlanguage="en")), form(3)),
        ("a language of capitals", dossier(act(FRBRlanguage="ENG")), form(3)),
        ("a language of four letters", dossier(act(FRBRlanguage="engl")), form(3)),
    ]
)

# A num or an element that breaks its rule.
LEVELS = [
    ("a num of 17 bytes", dossier(act(body=[node(num="12345678901234567")])), form(5)),
    ("an empty num", dossier(act(body=[node(num="")])), form(5)),
    ("a num with a blank", dossier(act(body=[node(num="1 A")])), form(5)),
    ("a num with a low line", dossier(act(body=[node(num="1_A")])), form(5)),
    ("a num of a letter that is not of ASCII", dossier(act(body=[node(num="é")])), form(5)),
    ("an element in capitals", dossier(act(body=[node("Section")])), form(5)),
    ("an element by its word in eIds", dossier(act(body=[node("sec")])), form(5)),
    ("an element below another", dossier(act(body=[node(children=[node("annex")])])), form(5)),
    ("the root as an element", dossier(act(body=[node("body")])), form(5)),
    ("an element that is numbered", dossier(act(numbering=["section", "annex"])), form(5)),
]

# Values of another kind, keys that are missing or unknown, days, numbers and words, each with its place.
SHAPES = [
    ("a list", b"[]", form(2)),
    ("a dossier without an act", json.dumps({"modifications": []}).encode(), form(2)),
    ("no modifications", json.dumps({"act": act()}).encode(), form(2)),
    ("modifications of no list", json.dumps({"act": act(), "modifications": {}}).encode(), form(2)),
    ("an act of no object", dossier([]), form(2)),
    ("an act's key too many", dossier(act(title="Act")), form(2)),
    ("an act without a day", dossier(act(FRBRdate=None)), form(2)),
    ("an unknown key comes before a bad IRI", dossier(act(title="Act", FRBRuri="")), form(2)),
    ("an IRI that is a number", dossier(act(FRBRuri=7)), form(2)),
    ("a force of no object", dossier(act(force="2010-06-01")), form(2)),
    ("a force without a start", dossier(act(force={"until": "2010-06-01"})), form(2)),
    ("an end that is null", dossier(act(force={"from": "2010-06-01", "until": None})), form(2)),
    ("numbering that is a text", dossier(act(numbering="section")), form(2)),
    ("a body of no list", dossier(act(body={})), form(2)),
    ("a node of no object", dossier(act(body=["section"])), form(2)),
    ("a node without a num", dossier(act(body=[{"element": "section"}])), form(2)),
    ("a node with a wId", dossier(act(body=[node(wId="sec_1")])), form(2)),
    ("a content that is null", dossier(act(body=[node(content=None)])), form(2)),
    ("a heading that is a number", dossier(act(body=[node(heading=1)])), form(2)),
    ("refs that are a text", dossier(act(body=[node(refs=IRI + "/eng@")])), form(2)),
    ("children of no list", dossier(act(body=[node(children={})])), form(2)),
    ("a num that is a number, below", dossier(act(body=[node(children=[node(num=1)])])), form(2)),
    ("a day that is none", dossier(act(FRBRdate="2010-05-1")), form(4)),
    ("a day that is a number", dossier(act(FRBRdate=20100501)), form(2)),
    ("a start that is no day", dossier(act(force={"from": "2010-06-31"})), form(4)),
    ("an end that is no day", dossier(act(force={"from": "2010-06-01", "until": "never"})), form(4)),
    ("a day that is not the IRI's", dossier(act(FRBRdate="2010-05-02")), form(8)),
    ("a day that is not in the IRI's year", dossier(act(FRBRuri="/akn/gb/act/2010/7", FRBRdate="2011-01-01")), form(8)),
    ("the IRI is judged before the day", dossier(act(FRBRuri="/akn/gb/act/2010-02-30/7", FRBRdate="2010-02-30")), form(3)),
    ("the day is judged before the language", dossier(act(FRBRdate="2010-05-02", FRBRlanguage="en")), form(8)),
    ("the act is judged before the modifications", dossier(act(FRBRlanguage="en"), [1]), form(3)),
    ("a modification of no object", dossier(mods=[1]), form(2, 1)),
    ("a modification of two keys", dossier(mods=[{**repeal(), "forceMod": {}}]), form(2, 1)),
    ("a modification of no key", dossier(mods=[repeal(), {}]), form(2, 2)),
    ("a modification of an unknown key", dossier(mods=[{"scopeMod": {}}]), form(2, 1)),
    ("a modification of force of no object", dossier(mods=[repeal(), repeal(), {"forceMod": 1}]), form(2, 3)),
    ("a modification of efficacy of no key", dossier(mods=[{"efficacyMod": {}}]), form(2, 1)),
    ("a force type of a number", dossier(mods=[force(1)]), form(2, 1)),
    ("a force type that is not listed", dossier(mods=[force("entryIntoEfficacy")]), form(7, 1)),
    ("a force type that is not listed comes before the keys", dossier(mods=[force("repeal", on=None)]), form(7, 1)),
    ("an efficacy type that is not listed", dossier(mods=[repeal(), efficacy("entryIntoForce")]), form(7, 2)),
    ("a modification of force without its day", dossier(mods=[force(on=None)]), form(2, 1)),
    ("a modification of force without a date", dossier(mods=[force(date=None)]), form(2, 1)),
    ("a modification of force with days", dossier(mods=[force(days={"from": "2011-01-01"})]), form(2, 1)),
    ("a modification of force with a force", dossier(mods=[force(force={"from": "2011-01-01"})]), form(2, 1)),
    ("a retroactivity with a day from which it counts", dossier(mods=[efficacy("retroactivity")]), form(2, 1)),
    ("an extraefficacy with a date", dossier(mods=[efficacy("extraefficacy")]), form(2, 1)),
    ("an inapplication with a date", dossier(mods=[inapplied(date="2011-02-01")]), form(2, 1)),
    ("an inapplication without days", dossier(mods=[inapplied(days=None)]), form(2, 1)),
    ("an inapplication of days that are a text", dossier(mods=[inapplied(days="2011-02-01")]), form(2, 1)),
    ("an inapplication of days without a start", dossier(mods=[inapplied(days={"until": "2011-02-01"})]), form(2, 1)),
    ("an inapplication of days that are none", dossier(mods=[inapplied(days={"from": "2011-02-30"})]), form(4, 1)),
    ("the source comes before the destination", dossier(mods=[force(source={"href": SOURCE, "place": 65536}, destination=1)]), form(6, 1)),
    ("the source's IRI", dossier(mods=[efficacy(source={"href": "", "place": 1})]), form(3, 1)),
    ("a destination of two keys", dossier(mods=[force(destination={"wId": "sec_1", "modification": "2.1"})]), form(2, 1)),
    ("a destination of no key", dossier(mods=[force(destination={})]), form(2, 1)),
    ("a destination that is a text", dossier(mods=[efficacy(destination="2.1")]), form(2, 1)),
    ("a destination's wId that is a number", dossier(mods=[force(destination={"wId": 1})]), form(2, 1)),
    ("a destination's id that is a number", dossier(mods=[force(destination=to(2.1))]), form(2, 1)),
    *[(f"the id '{id}'", dossier(mods=[repeal(), force(destination=to(id))]), form(3, 2)) for id in (
        "", "2", "2.", ".1", "2.1.1", "02.1", "2.01", "+2.1", "2.-1", " 2.1", "2,1", "4294967296.1", "2.65536")],
    ("the destination comes before the day", dossier(mods=[force(destination=to("x"), on="x")]), form(3, 1)),
    ("a day from which it counts that is none", dossier(mods=[force(on="2011-02-29", date="x")]), form(4, 1)),
    ("a date that is none", dossier(mods=[repeal(), efficacy(date="2011-00-01")]), form(4, 2)),
    ("a date that is a number", dossier(mods=[efficacy("retroactivity", on=None, date=20110101)]), form(2, 1)),
    ("a textual modification of no object", dossier(mods=[{"textualMod": []}]), form(2, 1)),
    ("no type", dossier(mods=[textual(type=None)]), form(2, 1)),
    ("a type that is a number", dossier(mods=[textual(type=1)]), form(2, 1)),
    ("a type that is not listed", dossier(mods=[repeal(), textual(type="Repeal")]), form(7, 2)),
    ("the keys of a join", dossier(mods=[textual(type="join", source=None)]), form(2, 1)),
    ("a type that is not listed comes before the keys", dossier(mods=[textual(type="merge", source=None)]), form(7, 1)),
    ("a modification's key too many", dossier(mods=[textual(until="2011-01-01")]), form(2, 1)),
    ("a modification without a source", dossier(mods=[repeal(), textual(source=None)]), form(2, 2)),
    ("a source without a place", dossier(mods=[textual(source={"href": SOURCE})]), form(2, 1)),
    ("a place that is a text", dossier(mods=[repeal(place="1")]), form(2, 1)),
    ("place 65536", dossier(mods=[repeal(place=65536)]), form(6, 1)),
    ("a place that is no whole number", dossier(mods=[repeal(place=1.0)]), form(6, 1)),
    ("a place below 0", dossier(mods=[repeal(), repeal(place=-1)]), form(6, 2)),
    ("a modification's day that is none", dossier(mods=[repeal(start="2011-02-29")]), form(4, 1)),
    ("a modification's end that is none", dossier(mods=[repeal(until="2011-02-29")]), form(4, 1)),
    ("a destination of no object", dossier(mods=[textual(destination="sec_1")]), form(2, 1)),
    ("a destination that is an id", dossier(mods=[textual(destination={"modification": "2.1"})]), form(2, 1)),
    ("a wId that is a number", dossier(mods=[repeal(wid=1)]), form(2, 1)),
    ("the 600th modification", dossier(mods=[repeal()] * 599 + [1]), form(2, 600)),
]

# The first rule that the first refused command breaks.
COMMANDS = [
    ("one eId twice", dossier(act(body=sections(2) + sections(1))), refused(5, 1)),
    ("one section twice below two parts", dossier(act(body=[
        node("part", "1", children=sections(1)), node("part", "2", children=sections(1))])), refused(5, 1)),
    ("13 levels", dossier(act(body=nested(13))), refused(5, 2)),
    ("4,097 sections", dossier(act(body=sections(4097))), refused(5, 3)),
    ("4,097 provisions at two depths", dossier(act(body=[node("part", children=sections(4096))])), refused(5, 3)),
    ("a content of 16,385 bytes", dossier(act(body=sections(1, "é" * 8192 + "e"))), refused(5, 4)),
    ("a heading of 16,385 bytes at depth 2", dossier(act(body=[node(children=[node("paragraph", heading="h" * 16385)])])), refused(5, 4)),
    ("the lowest fault of a tree", dossier(act(body=sections(1, "c" * 16385) + nested(13))), refused(5, 2)),
    ("17 refs", dossier(act(body=refs(17))), refused(6, 0)),
    ("17 refs at depth 2", dossier(act(body=[node("part", children=refs(17))])), refused(6, 0)),
    ("17 refs on the last of two nodes", dossier(act(body=sections(1) + [node(num="2", refs=[IRI + "/eng@"] * 17)])), refused(6, 0)),
    ("an act that ends as it starts", dossier(act(force={"from": "2010-06-01", "until": "2010-06-01"})), refused(7, 0)),
    ("an act that ends before", dossier(act(force={"from": "2010-06-01", "until": "2010-05-31"})), refused(7, 0)),
    ("the tree comes before the refs", dossier(act(body=refs(17) + sections(1))), refused(5, 1)),
    ("the refs come before the period", dossier(act(body=refs(17), force={"from": "2010-06-01", "until": "2010-06-01"})), refused(6, 0)),
    ("an empty wId", dossier(mods=[repeal(), repeal(wid="")]), refused(6, 1)),
    ("a wId of 513 bytes", dossier(mods=[repeal(wid="w" * 513)]), refused(6, 1)),
    ("a wId of 257 letters of two bytes", dossier(mods=[repeal(wid="é" * 257)]), refused(6, 1)),
    ("a modification that ends as it starts", dossier(mods=[repeal(until="2011-01-01")]), refused(7, 1)),
    ("a modification that ends before", dossier(mods=[repeal(), repeal(until="2010-12-31")]), refused(7, 1)),
    ("the wId comes before the period", dossier(mods=[repeal(wid="", until="2011-01-01")]), refused(6, 1)),
    ("the first refused command counts", dossier(mods=[repeal(until="2011-01-01"), repeal(wid="")]), refused(7, 1)),
    ("the act comes before its modifications", dossier(act(force={"from": "2010-06-01", "until": "2010-06-01"}), [repeal(wid="")]), refused(7, 0)),
    ("one section twice is inserted", dossier(mods=[inserted(sections(2) + sections(1))]), refused(5, 1)),
    ("one section twice in the place of another", dossier(mods=[repeal(), substituted(sections(2) + sections(1))]), refused(5, 1)),
    ("13 levels are inserted", dossier(mods=[inserted(nested(13))]), refused(5, 2)),
    ("4,097 provisions are inserted", dossier(mods=[inserted([node("part", children=sections(4096))])]), refused(5, 3)),
    ("a content of 16,385 bytes is inserted", dossier(mods=[inserted(sections(1, "c" * 16385))]), refused(5, 4)),
    ("the lowest fault of what is inserted", dossier(mods=[inserted(sections(1, "c" * 16385) + nested(13))]), refused(5, 2)),
    ("the nodes come before the wId", dossier(mods=[inserted(sections(1) + sections(1), "")]), refused(5, 1)),
    ("the nodes come before their number", dossier(mods=[substituted(sections(64) + sections(1))]), refused(5, 1)),
    ("the nodes come before the period", dossier(mods=[
        inserted(nested(13), force={"from": "2011-01-01", "until": "2011-01-01"})]), refused(5, 2)),
    ("the nodes of the 513th modification", dossier(mods=[repeal()] * 512 + [inserted(nested(13))]), refused(5, 2)),
    ("a modification that is refused before the nodes of the next", dossier(mods=[repeal(wid=""), inserted(nested(13))]), refused(6, 1)),
    ("no node is inserted", dossier(mods=[inserted([])]), refused(6, 1)),
    ("no node in the place of a section", dossier(mods=[substituted([])]), refused(6, 1)),
    ("65 sections are inserted", dossier(mods=[inserted(sections(65))]), refused(6, 1)),
    ("65 sections in the place of one", dossier(mods=[substituted(sections(65))]), refused(6, 1)),
    ("17 refs are inserted", dossier(mods=[inserted([node("part", children=refs(17))])]), refused(6, 1)),
    ("an insertion of nodes at a wId of 513 bytes", dossier(mods=[inserted(sections(1), "w" * 513)]), refused(6, 1)),
    ("an insertion of a text at no wId", dossier(mods=[inserted("n", "")]), refused(6, 1)),
    ("a substitution of nodes at a wId of 513 bytes", dossier(mods=[substituted(sections(1), "w" * 513)]), refused(6, 1)),
    ("a substitution of a text at no wId", dossier(mods=[substituted("n", "", old="o")]), refused(6, 1)),
    ("a text of 16,385 bytes in the place of another", dossier(mods=[substituted("n" * 16385, old="o")]), refused(6, 1)),
    ("a text in the place of one of 16,385 bytes", dossier(mods=[substituted("n", old="o" * 16385)]), refused(6, 1)),
    ("a text in the place of no text", dossier(mods=[substituted("n", old="")]), refused(6, 1)),
    ("a text in the place of occurrence 0", dossier(mods=[substituted("n", old="o", occurrence=0)]), refused(6, 1)),
    ("a text of 16,385 bytes at the end", dossier(mods=[inserted("n" * 16385, "sec_1")]), refused(6, 1)),
    ("a text before one of 16,385 bytes", dossier(mods=[inserted("n", "sec_1", "before", old="o" * 16385)]), refused(6, 1)),
    ("a text behind no text", dossier(mods=[inserted("n", "sec_1", "after", old="")]), refused(6, 1)),
    ("a text behind occurrence 0", dossier(mods=[inserted("n", "sec_1", "after", old="o", occurrence=0)]), refused(6, 1)),
    ("no pair", dossier(mods=[renumbered([])]), refused(6, 1)),
    ("65 pairs", dossier(mods=[renumbered([f"sec_{k}" for k in range(65)])]), refused(6, 1)),
    ("a pair of no wId", dossier(mods=[renumbered(["sec_1", ""])]), refused(6, 1)),
    ("a pair with a wId of 513 bytes", dossier(mods=[renumbered(["w" * 513])]), refused(6, 1)),
    ("one wId in two pairs", dossier(mods=[renumbered(["sec_1", "sec_2", "sec_1"])]), refused(6, 1)),
    ("a split of no wId", dossier(mods=[split("", old="o")]), refused(6, 1)),
    ("a split at no text", dossier(mods=[split(old="")]), refused(6, 1)),
    ("a split at a text of 16,385 bytes", dossier(mods=[split(old="o" * 16385)]), refused(6, 1)),
    ("a split at occurrence 0", dossier(mods=[split(old="o", occurrence=0)]), refused(6, 1)),
    ("a split at a child of no wId", dossier(mods=[split(child="")]), refused(6, 1)),
    ("a split at a child with a wId of 513 bytes", dossier(mods=[split(child="c" * 513)]), refused(6, 1)),
    ("a split with a heading of 16,385 bytes", dossier(mods=[split(old="o", heading="h" * 16385)]), refused(6, 1)),
    ("a join of a section with itself", dossier(mods=[joined("sec_1", "sec_1")]), refused(6, 1)),
    ("a join of no wId", dossier(mods=[joined("")]), refused(6, 1)),
    ("a join with no wId", dossier(mods=[joined("sec_1", "")]), refused(6, 1)),
    ("a join with a wId of 513 bytes", dossier(mods=[joined("sec_1", "w" * 513)]), refused(6, 1)),
    ("a join with a separator of 16,385 bytes", dossier(mods=[joined(separator="s" * 16385)]), refused(6, 1)),
    ("a force modification of no wId", dossier(mods=[force(destination={"wId": ""})]), refused(6, 1)),
    ("an efficacy modification of a wId of 513 bytes", dossier(mods=[repeal(), efficacy(destination={"wId": "w" * 513})]), refused(6, 1)),
    ("days that end as they start", dossier(mods=[inapplied(days={"from": "2011-02-01", "until": "2011-02-01"})]), refused(7, 1)),
    ("the wId comes before the days", dossier(mods=[
        inapplied(destination={"wId": ""}, days={"from": "2011-02-01", "until": "2011-01-01"})]), refused(6, 1)),
    ("the force of what comes later", dossier(mods=[force(destination=to("3.1")), repeal()]), refused(8, "3.1")),
    ("the force of itself", dossier(mods=[repeal(), force(destination=to("3.1"))]), refused(8, "3.1")),
    ("the force of a second item", dossier(mods=[repeal(), force(destination=to("2.2"))]), refused(8, "2.2")),
    ("the force of the act's entry", dossier(mods=[repeal(), force(destination=to("1.1"))]), refused(8, "1.1")),
    ("the efficacy of item 0", dossier(mods=[repeal(), efficacy(destination=to("2.0"))]), refused(8, "2.0")),
    ("the efficacy of entry 0", dossier(mods=[repeal(), efficacy(destination=to("0.1"))]), refused(8, "0.1")),
    ("the efficacy of the last id there may be", dossier(mods=[efficacy(destination=to("4294967295.65535"))]), refused(8, "4294967295.65535")),
    ("the days come before what is not recorded", dossier(mods=[
        inapplied(destination=to("9.1"), days={"from": "2011-02-01", "until": "2011-02-01"})]), refused(7, 1)),
    ("the force of a modification of force", dossier(mods=[force(), force(destination=to("2.1"))]), refused(11, "2.1")),
    ("the efficacy of a modification of efficacy", dossier(mods=[repeal(), efficacy(), efficacy(destination=to("3.1"))]), refused(11, "3.1")),
    ("what is not recorded, in a full work", dossier(mods=[repeal()] * 512 + [force(destination=to("999.1"))]), refused(8, "999.1")),
    ("another kind, in a full work", dossier(mods=[force()] * 512 + [force(destination=to("2.1"))]), refused(11, "2.1")),
    ("513 repeals", dossier(mods=[repeal()] * 513), refused(15, 512)),
    ("the 513th of 600 repeals", dossier(mods=[repeal()] * 513 + [repeal(wid="")] * 87), refused(15, 512)),
    ("the wId of the 513th repeal", dossier(mods=[repeal()] * 512 + [repeal(wid="")]), refused(6, 1)),
    ("the period of the 513th repeal", dossier(mods=[repeal()] * 512 + [repeal(until="2011-01-01")]), refused(7, 1)),
    ("a tree before 513 repeals", dossier(act(body=nested(13)), [repeal()] * 513), refused(5, 2)),
    ("a form fault comes before all rules", dossier(act(body=nested(13)), [repeal(until="2011-01-01"), 1]), form(2, 2)),
]

# Modifications that come to a limit of the tree, and those that pass it: what is applied on their day, and what is not.
LEAF = "__".join(["para_1"] * 11)
REACHED = [
    ("4,095 sections and one more", dossier(act(body=sections(4095)), [inserted([node(num="5000")])]), ["2.1"], []),
    ("4,096 sections and one more", dossier(act(body=sections(4096)), [inserted([node(num="5000")])]), [], ["TooManyNodes"]),
    ("4,096 sections, one of them in the place of another", dossier(act(body=sections(4096)), [
        substituted([node(num="5000")], "sec_7")]), ["2.1"], []),
    ("4,096 sections, two others in the place of one", dossier(act(body=sections(4096)), [
        substituted([node(num="5000"), node(num="5001")], "sec_7")]), [], ["TooManyNodes"]),
    ("a section of its num in the place of one", dossier(act(body=sections(2)), [substituted([node(num="1")], "sec_1")]),
     ["2.1"], []),
    ("a section of the next one's num in the place of one", dossier(act(body=sections(2)), [
        substituted([node(num="2")], "sec_1")]), [], ["NumberTaken"]),
    ("another of the 12th level in the place of one", dossier(act(body=nested(12)), [
        substituted(nested(1), LEAF + "__para_1")]), ["2.1"], []),
    ("two levels in the place of the 12th", dossier(act(body=nested(12)), [
        substituted(nested(2), LEAF + "__para_1")]), [], ["TooDeep"]),
    ("11 levels and one more", dossier(act(body=nested(11)), [inserted(nested(1), LEAF)]), ["2.1"], []),
    ("12 levels and one more", dossier(act(body=nested(12)), [inserted(nested(1), LEAF + "__para_1")]), [], ["TooDeep"]),
    ("16,383 bytes and one more", dossier(act(body=sections(1, "c" * 16383)), [inserted("c", "sec_1")]), ["2.1"], []),
    ("16,384 bytes and one more", dossier(act(body=sections(1, "c" * 16384)), [inserted("c", "sec_1")]), [], ["TextTooLong"]),
    ("the num comes before the depth", dossier(act(body=nested(12)), [inserted(nested(2), LEAF)]), [], ["NumberTaken"]),
    ("articles are no next siblings of one element", dossier(act(body=[node(), node("article")]), [joined("sec_1", "art_1")]),
     [], ["KindsDiffer"]),
]
