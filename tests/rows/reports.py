"""Reports over registers that commands made: each table as it is to be written, and read back by Python's csv module. The tables were
written by hand, from docs/REPORTS.md, docs/EDITS.md and docs/MODEL.md.

A row is (name, commands, words, table): the commands make the register, and the table is a list of rows without its first, or a refusal.
"""
import csv
import io
import os
import subprocess

import checks
from checks import check
from clients.messages import command, compact
from devices.journal_file import JOURNAL, NEW, called, kept
from rows import dangling
from rows.dossiers import SOURCE, efficacy, force, inserted, joined, node, repeal, split, substituted, textual, to
from rows.held import TABLES as OF_PROVISIONS
from rows.histories import QUERY_NAMES
from rows.register import NONE, ONE, SECTIONS, TWO, add, correct, enact, file, record, restore, withdraw

NAMES = {"lifecycle": ["date", "type", "source", "id"], "correspondence": ["wId", "first", "second"], "unapplied": ["work", "id", "cause"],
         "dangling": ["work", "eId", "ref", "cause"]}
TEN = "/akn/gb/act/2010-05-01/10"
OTHER = "/akn/gb/act/2010-11-01/19"
OLD = "/akn/gb/act/1999/1"
ENACTED = enact("ada", 1, body=SECTIONS)
GENERATION = ["2010-05-01", "generation", ONE, "1"]
# Two parts with a section of two subsections, and a section.
NESTED = [node("part", "1", children=[node(num="1", children=[node("subsection", "a"), node("subsection", "b")])]),
          node("part", "2", children=[node(num="2")])]
ALL_OF_NESTED = ["part_1", "sec_1", "sec_1__subsec_a", "sec_1__subsec_b", "part_2", "sec_2"]


def on_act(kind, date, on="2011-01-01", **rest):
    """A modification of the force of the act itself."""
    return force(kind, destination={"wId": "body"}, on=on, date=date, **rest)


def renumbered(*pairs, start="2011-01-01"):
    """A renumbering by these pairs of a wId and a num."""
    return textual(type="renumbering", destination=None, force={"from": start}, renumber=[{"wId": wid, "num": num} for wid, num in pairs])


def refused(rule, kept):
    """The line of a report that is refused."""
    return compact({"kept": kept, "name": QUERY_NAMES[rule], "query": rule}) + "\n"


def recorded(*mods):
    """The act of three sections, and each modification by a record of its own."""
    return [ENACTED] + [record("ada", number, mod) for number, mod in enumerate(mods, 2)]


def amended(date, id, source=SOURCE, kind="amendment"):
    return [date, kind, source, id]


def life(work=ONE):
    return ["lifecycle", work]


LIVES = [
    ("an act as enacted", [ENACTED], life(), [GENERATION]),
    ("one repeal of a section", recorded(repeal("sec_3")), life(), [GENERATION, amended("2011-01-01", "2.1")]),
    ("the repeal of all", recorded(repeal("body")), life(), [GENERATION, amended("2011-01-01", "2.1", kind="repeal")]),
    ("the text of all in other words", recorded(substituted([node(num="1")], "body")), life(), [GENERATION, amended("2011-01-01", "2.1")]),
    ("a new section, a split and a renumbering", recorded(inserted([node(num="4")]), split("sec_2", "2A", old=" two"), renumbered(("sec_1", "9"))),
     life(), [GENERATION, amended("2011-01-01", "2.1"), amended("2011-01-01", "3.1"), amended("2011-01-01", "4.1")]),
    ("the end of the enactment of the act", recorded(on_act("endOfEnactment", "2012-02-29")), life(),
     [GENERATION, amended("2012-02-29", "2.1", kind="repeal")]),
    ("the end of the enactment of a section", recorded(force("endOfEnactment", destination={"wId": "sec_2"})), life(), [GENERATION]),
    ("the end of the enactment of a modification", recorded(repeal("sec_3"), force("endOfEnactment", destination=to("2.1"))), life(),
     [GENERATION, amended("2011-01-01", "2.1")]),
    ("other modifications of the force of the act",
     recorded(*(on_act(kind, "2012-01-01") for kind in ("entryIntoForce", "postponementOfEntryIntoForce", "prorogationOfForce", "reEnactment"))),
     life(), [GENERATION]),
    ("an end of efficacy", recorded(efficacy("endOfEfficacy", destination={"wId": "body"})), life(), [GENERATION]),
    ("a postponement of a repeal", recorded(repeal("sec_3"), force("postponementOfEntryIntoForce", destination=to("2.1"), date="2013-01-01")), life(),
     [GENERATION, amended("2011-01-01", "2.1")]),
    ("a withdrawn repeal", recorded(repeal("sec_3")) + [withdraw("ada", 9, "2.1")], life(), [GENERATION]),
    ("a withdrawn repeal of all, beside another", recorded(repeal("body"), repeal("sec_1")) + [withdraw("ada", 9, "2.1")], life(),
     [GENERATION, amended("2011-01-01", "3.1")]),
    ("a restored repeal", recorded(repeal("sec_3")) + [withdraw("ada", 8, "2.1"), restore("ada", 9, "2.1")], life(),
     [GENERATION, amended("2011-01-01", "2.1")]),
    ("a corrected repeal", recorded(repeal("sec_3")) + [correct("ada", 9, "2.1", repeal("body", "2012-01-01", OTHER))], life(),
     [GENERATION, amended("2012-01-01", "2.1", OTHER, "repeal")]),
    ("a later entry of an earlier day", recorded(repeal("sec_3", "2012-01-01"), repeal("sec_2", "2011-01-01", OTHER)), life(),
     [GENERATION, amended("2011-01-01", "3.1", OTHER), amended("2012-01-01", "2.1")]),
    ("one day, by ids", recorded(repeal("sec_3", href=SOURCE), repeal("sec_2", href=OLD)), life(),
     [GENERATION, amended("2011-01-01", "2.1"), amended("2011-01-01", "3.1", OLD)]),
    ("items of one entry, by ids", [ENACTED, record("ada", 2, *(repeal(f"sec_{k % 3 + 1}", place=k) for k in range(11)))], life(),
     [GENERATION] + [amended("2011-01-01", f"2.{k}") for k in range(1, 12)]),
    ("before the enactment, and on its day", recorded(repeal("sec_3", "2010-04-30"), repeal("sec_2", "2010-05-01")), life(),
     [amended("2010-04-30", "2.1"), GENERATION, amended("2010-05-01", "3.1")]),
    ("an act enacted by a later entry", [enact("ada", 1, uri=TWO), enact("ada", 2), record("ada", 3, repeal(), work=TWO)], life(),
     [["2010-05-01", "generation", ONE, "2"]]),
    ("entries of a draft that are no law", [add("ada", 1, repeal(), work=ONE), ENACTED.replace('"request":1', '"request":2'),
                                            add("ada", 3, repeal("sec_3")), file("ada", 4, 1)], life(),
     [GENERATION, amended("2011-01-01", "2.1")]),
    ("the life of a work that is not known", [ENACTED], life(NONE), refused(1, NONE)),
    ("the life of a work in an empty register", [], life(), refused(1, ONE)),
]


def matched(first, second, work=ONE):
    return ["correspondence", work, first, second]


def same(*wids):
    """Provisions that have their wIds as eIds on both days."""
    return [[wid, wid, wid] for wid in wids]


PAIRS = [
    ("an act as enacted, on two days", [ENACTED], matched("2010-06-01", "2011-01-01"), same("sec_1", "sec_2", "sec_3")),
    ("an act on its own day, twice", [ENACTED], matched("2010-05-01", "2010-05-01"), same("sec_1", "sec_2", "sec_3")),
    ("two nums changed for one another", recorded(renumbered(("sec_1", "2"), ("sec_2", "1"))), matched("2010-06-01", "2011-01-01"),
     [["sec_1", "sec_1", "sec_2"], ["sec_2", "sec_2", "sec_1"], ["sec_3", "sec_3", "sec_3"]]),
    ("the same, on the day before and on the day after", recorded(renumbered(("sec_1", "2"), ("sec_2", "1"))), matched("2010-12-31", "2010-12-31"),
     same("sec_1", "sec_2", "sec_3")),
    ("the same, the later day first", recorded(renumbered(("sec_1", "2"), ("sec_2", "1"))), matched("2011-01-01", "2010-12-31"),
     [["sec_1", "sec_2", "sec_1"], ["sec_2", "sec_1", "sec_2"], ["sec_3", "sec_3", "sec_3"]]),
    ("a section that goes", recorded(repeal("sec_2")), matched("2010-12-31", "2011-01-01"),
     [["sec_1", "sec_1", "sec_1"], ["sec_2", "sec_2", ""], ["sec_3", "sec_3", "sec_3"]]),
    ("a section that comes", recorded(inserted([node(num="2A")], "sec_2", "after")), matched("2010-12-31", "2011-01-01"),
     same("sec_1", "sec_2", "sec_3") + [["m2-1__sec_2A", "", "sec_2A"]]),
    ("a section that came, the later day first", recorded(inserted([node(num="2A")], "sec_2", "after")), matched("2011-01-01", "2010-12-31"),
     [["sec_1"] * 3, ["sec_2"] * 3, ["m2-1__sec_2A", "sec_2A", ""], ["sec_3"] * 3]),
    ("all goes", recorded(repeal("body")), matched("2010-12-31", "2011-01-01"), [[f"sec_{k}", f"sec_{k}", ""] for k in (1, 2, 3)]),
    ("all goes, the later day first", recorded(repeal("body")), matched("2011-01-01", "2010-12-31"), [[f"sec_{k}", "", f"sec_{k}"] for k in (1, 2, 3)]),
    ("nothing is left on either day", recorded(repeal("body")), matched("2011-01-01", "2012-01-01"), []),
    ("a section in the place of another", recorded(substituted([node(num="2", content="New.")], "sec_2")), matched("2010-12-31", "2011-01-01"),
     [["sec_1"] * 3, ["sec_2", "sec_2", ""], ["sec_3"] * 3, ["m2-1__sec_2", "", "sec_2"]]),
    ("what comes and goes between the days", recorded(repeal("sec_3", "2011-01-01", until="2011-07-01")), matched("2010-12-31", "2011-07-01"),
     same("sec_1", "sec_2", "sec_3")),
    ("a nested act", [enact("ada", 1, body=NESTED)], matched("2010-05-01", "2011-01-01"), same(*ALL_OF_NESTED)),
    ("a section above others gets another num", [enact("ada", 1, body=NESTED), record("ada", 2, renumbered(("sec_1", "1A")))],
     matched("2010-05-01", "2011-01-01"),
     [["part_1"] * 3, ["sec_1", "sec_1", "sec_1A"], ["sec_1__subsec_a", "sec_1__subsec_a", "sec_1A__subsec_a"],
      ["sec_1__subsec_b", "sec_1__subsec_b", "sec_1A__subsec_b"], ["part_2"] * 3, ["sec_2"] * 3]),
    ("a part goes with all beneath it", [enact("ada", 1, body=NESTED), record("ada", 2, repeal("part_1"))], matched("2010-05-01", "2011-01-01"),
     [[wid, wid, wid if wid in ("part_2", "sec_2") else ""] for wid in ALL_OF_NESTED]),
    ("new sections stand in the order of the second text",
     [enact("ada", 1, body=NESTED), record("ada", 2, inserted([node(num="9", children=[node("subsection", "z")])], "part_2", "end")),
      record("ada", 3, inserted([node("part", "0")], "body", "start"))],
     matched("2010-05-01", "2011-01-01"),
     same(*ALL_OF_NESTED) + [["m3-1__part_0", "", "part_0"], ["m2-1__sec_9", "", "sec_9"], ["m2-1__sec_9__subsec_z", "", "sec_9__subsec_z"]]),
    ("a work that is not known, on days before any", [ENACTED], matched("0001-01-01", "0001-01-01", NONE), refused(1, NONE)),
    ("a first day before the act", [ENACTED], matched("2010-04-30", "2010-05-01"), refused(3, "2010-05-01")),
    ("a second day before the act", [ENACTED], matched("2010-05-01", "2010-04-30"), refused(3, "2010-05-01")),
    ("both days before the act", [ENACTED], matched("2010-04-30", "2010-04-29"), refused(3, "2010-05-01")),
]


def held(day):
    return ["unapplied", day]


LOST = repeal("sec_9")
LEFT_OVERS = [
    ("an empty register", [], held("2011-01-01"), []),
    ("everything was applied", recorded(repeal("sec_3")), held("2011-01-01"), []),
    ("a target that an earlier source took away",
     recorded(textual(type="substitution", destination={"wId": "sec_2"}, old="Two", new="Ten"), repeal("sec_2", href=OTHER)),
     held("2011-01-01"), [[ONE, "2.1", "TargetMissing"]]),
    ("the same on the day before", recorded(LOST), held("2010-12-31"), []),
    ("the same once it has ended", recorded(repeal("sec_9", until="2011-07-01")), held("2011-07-01"), []),
    ("a withdrawn one", recorded(LOST) + [withdraw("ada", 9, "2.1")], held("2011-01-01"), []),
    ("several causes, in the order in which they were tried",
     recorded(joined("sec_1", "sec_3", separator=""), renumbered(("sec_1", "2")),
              textual(type="substitution", destination={"wId": "sec_1"}, old="Two", new="Ten", source={"href": OLD, "place": 1}), LOST),
     held("2011-01-01"),
     [[ONE, "4.1", "OldTextMissing"], [ONE, "2.1", "AnchorMissing"], [ONE, "3.1", "NumberTaken"], [ONE, "5.1", "TargetMissing"]]),
    ("several works, in the order of their bytes",
     [enact("ada", 1, uri=TWO), enact("ada", 2, uri=ONE), enact("ada", 3, uri=TEN)]
     + [record("ada", number, LOST, work=work) for number, work in ((4, TWO), (5, TEN), (6, ONE), (7, TWO))],
     held("2011-01-01"),
     [[TEN, "5.1", "TargetMissing"], [ONE, "6.1", "TargetMissing"], [TWO, "4.1", "TargetMissing"], [TWO, "7.1", "TargetMissing"]]),
    ("a work whose act is of a later day",
     [ENACTED, enact("ada", 2, uri="/akn/gb/act/2012-01-01/1", FRBRdate="2012-01-01"), record("ada", 3, LOST),
      record("ada", 4, LOST, work="/akn/gb/act/2012-01-01/1")],
     held("2011-12-31"), [[ONE, "3.1", "TargetMissing"]]),
    ("the same on its own day",
     [ENACTED, enact("ada", 2, uri="/akn/gb/act/2012-01-01/1", FRBRdate="2012-01-01"), record("ada", 3, LOST),
      record("ada", 4, LOST, work="/akn/gb/act/2012-01-01/1")],
     held("2012-01-01"), [[ONE, "3.1", "TargetMissing"], ["/akn/gb/act/2012-01-01/1", "4.1", "TargetMissing"]]),
    ("what has efficacy alone is not looked at", recorded(repeal("sec_9", "2012-01-01"), efficacy("retroactivity", destination=to("2.1"), on=None, date="2011-01-01")),
     held("2011-06-01"), []),
    ("works without modifications", [enact("ada", 1, uri=TWO), enact("ada", 2)], held("9999-12-31"), []),
]

WORDS = [
    [], ["lifecycle"], ["lifecycle", "x"], ["lifecycle", ONE, ONE], ["lifecycle", ONE + "/eng"], ["Lifecycle", ONE], ["lifecycles", ONE],
    ["lifecycle", "--help"], ["--help"], ["-h"], ["--", "lifecycle", ONE], ["lifecycle", "-" + ONE], ["correspondence", ONE],
    ["correspondence", ONE, "2011-01-01"], ["correspondence", ONE, "2011-01-01", "2011-13-01"], ["correspondence", ONE, "2011-02-30", "2011-01-01"],
    ["correspondence", "x", "2011-01-01", "2011-01-01"], ["correspondence", ONE, "2011-01-01", "2011-01-01", "force"],
    ["lifecycle", ONE, "2011-01-01", "2011-01-01"], ["unapplied"], ["unapplied", ONE], ["unapplied", "2011-1-1"], ["unapplied", "2011-01-01", "force"],
    ["unapplied", "-2011-01-01"], [""], ["unapplied", ""],
]


def text_of(words, table):
    """The bytes of a table, as Python's csv module writes them, or of a refusal."""
    if isinstance(table, str):
        return 9, table.encode()
    out = io.StringIO()
    csv.writer(out, lineterminator="\n").writerows([NAMES[words[0]]] + table)
    return 0, out.getvalue().encode()


def reported(folder, words, given=b""):
    """The status of a report, and what it wrote."""
    done = subprocess.run([checks.PROGRAM, "report"] + words, input=given, stdout=subprocess.PIPE, stderr=subprocess.PIPE, cwd=folder, timeout=60)
    return done.returncode, done.stdout


def of_registers():
    """Each table is exactly the wanted bytes, is read back as its rows, and leaves the file as it was."""
    for name, commands, words, table in LIVES + PAIRS + LEFT_OVERS + dangling.ROWS + OF_PROVISIONS:
        with checks.folder() as folder:
            given = b"".join(command(line) for line in commands)
            called(folder, "batch", given)
            before = kept(folder)
            status, got = reported(folder, words)
            check(f"report, {name}", (status, got), text_of(words, table))
            if status == 0:
                check(f"report, {name}, read back", list(csv.reader(io.StringIO(got.decode(), newline="")))[1:], table)
            check(f"report, {name}, the file", kept(folder), before)


def of_words():
    """Words that ask for no table end with 2, with nothing written and no file made."""
    for words in WORDS + dangling.WORDS:
        with checks.folder() as folder:
            check(f"report {words}", (reported(folder, words), os.listdir(folder)), ((2, b""), []))


def of_files():
    """A folder without a register gets an empty one; what is damaged is told as by `check`; a sink that fails ends it with 4."""
    with checks.folder() as folder:
        check("report, no register yet", reported(folder, held("2011-01-01")), (0, b"work,id,cause\n"))
        check("report, no register yet, the file", kept(folder), NEW)
    for name, data in (("no journal", b"x" * 20), ("no entry", NEW[:-1] + b"\x01\x00\x00\x00\x01\x41\x00")):
        with checks.folder() as folder:
            with open(os.path.join(folder, JOURNAL), "wb") as out:
                out.write(data)
            check(f"report, {name}", reported(folder, life()), called(folder, "check"))
            check(f"report, {name}, the status", reported(folder, life())[0], 6)
            check(f"report, {name}, what dangles", reported(folder, dangling.dangling()), called(folder, "check"))
    with checks.folder() as folder:
        line = [checks.PROGRAM, "report"] + held("2011-01-01")
        check("report, a full device", checks.said_to_a_full_device(line, b"", cwd=folder), (4, checks.SAID[4]))
        check("report, a folder as input", checks.over_a_folder(line, cwd=folder), (0, b"work,id,cause\n"))
        line = [checks.PROGRAM, "report"] + dangling.dangling()
        check("report, what dangles, a full device", checks.said_to_a_full_device(line, b"", cwd=folder), (4, checks.SAID[4]))
        check("report, what dangles, a folder as input", checks.over_a_folder(line, cwd=folder), (0, b"work,eId,ref,cause\n"))
