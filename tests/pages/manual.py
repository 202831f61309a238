"""The manual page docs/lawdesk.1: it is shown without a warning, its table of statuses is that of README.md, each form ends with the statuses
that it names for it, its limits are those of the code and of docs/, and each of its examples ends with the status that it says.
"""
import os
import re
import shutil
import socket
import sqlite3
import subprocess
import time

import checks
from checks import TOP, check, over_a_folder, read, run, to_a_full_device
from devices.journal_file import JOURNAL
from rows.dossiers import dossier
from rows.histories import FRONT

PAGE = os.path.join(TOP, "docs", "lawdesk.1")
ESCAPES = {"\\-": "-", "\\(aq": "'", "\\(rs": "\\", "\\fB": "", "\\fI": "", "\\fR": "", "\\fP": ""}
# Macros that set their words one after another with nothing between them, and with a blank.
JOINED, SPACED = {"BR", "RB", "IR", "RI", "BI", "IB"}, {"B", "I"}


def plain(line):
    """What a line of the page says, without its macro and its escapes."""
    macro = re.match(r"\.([A-Z]+) (.*)", line)
    if macro and macro[1] in JOINED | SPACED:
        # A quote makes a word of several only where it stands at a word's front.
        words = [quoted or bare for quoted, bare in re.findall(r'(?:^| )(?:"([^"]*)"|([^ "][^ ]*))', macro[2])]
        line = ("" if macro[1] in JOINED else " ").join(words)
    return re.sub(r"\\(?:-|\(aq|\(rs|f[BIRP])", lambda found: ESCAPES[found[0]], line)


def section(name):
    """The lines of a section."""
    text = re.search(rf"^\.SH {name}\n(.*?)(?=^\.SH |\Z)", read("docs", "lawdesk.1").decode(), re.MULTILINE | re.DOTALL)
    return text[1].split("\n")[:-1]


def items(lines):
    """The paragraphs of a section that have a tag, as the tag and their lines."""
    found = []
    for line in lines:
        if line.startswith(".TP"):
            found.append(None)
        elif line in (".PP", ".RS", ".RE"):
            found.append("")
        elif found and found[-1] is None:
            found[-1] = (plain(line), [])
        elif found and found[-1]:
            found[-1][1].append(line)
    return [one for one in found if one]


def shown():
    """The page as `man` and `mandoc` show it: no warning."""
    env = {**os.environ, "LC_ALL": "C.UTF-8", "MANWIDTH": "80"}
    lines = {"man": ["man", "--warnings", "-l", PAGE], "groff": ["groff", "-man", "-Tutf8", "-ww", PAGE], "mandoc": ["mandoc", "-T", "lint", PAGE]}
    there = [tool for tool in lines if shutil.which(tool)]
    if not there:
        checks.skip("the manual page as it is shown", "neither man nor groff nor mandoc is installed")
    for tool in there:
        done = subprocess.run(lines[tool], capture_output=True, timeout=60, env=env)
        check(f"the manual page by {tool}", (done.returncode, done.stderr, tool == "mandoc" and done.stdout), (0, b"", tool == "mandoc" and b""))


def statuses():
    """The table of statuses, row by row, against that of README.md."""
    table = read("README.md").decode().split("## What the program does")[1].split("\n## ")[0]
    wanted = [row.replace("`", "") for row in re.findall(r"^\| ([0-9]+ \| .*) \|$", table, re.MULTILINE)]
    got = []
    for tag, lines in items(section("EXIT STATUS")):
        if tag.isdigit():
            where, written = " ".join(map(plain, lines)).split(" .br Written: ")
            got.append(" | ".join([tag, where.removesuffix("."), written.removesuffix(".")]))
    check("the statuses of the manual page", got, wanted)


def bad_journal(folder):
    with open(os.path.join(folder, JOURNAL), "wb") as out:
        out.write(b"x" * 20)


def other_table(folder):
    base = sqlite3.connect(os.path.join(folder, "lawdesk.db"))
    with base:
        base.execute("CREATE TABLE entry (number INTEGER PRIMARY KEY, payload BLOB NOT NULL) STRICT")
        base.execute("INSERT INTO entry VALUES (1, x'00')")
    base.close()


def no_file(folder):
    os.mkdir(os.path.join(folder, JOURNAL))


TEXT, BATCH, LIFE = ["text", "2011-01-01"], ["batch"], ["report", "lifecycle", "/akn/gb/act/2010-05-01/7"]
HELD, MADE = ["report", "unapplied", "2011-01-01"], ["generate", "1", "1"]
EXPORT, FOLLOW, MOVE = ["export", "0"], ["follow"], ["move"]
PORT = 20000 + os.getpid() % 10000
SERVE = ["serve", str(PORT), "1"]
# How each form ends with each status but 7: its words, what it is given (a folder and a full device are devices that fail), and the file.
FOLDER, FULL, CALLERS, TAKEN = "a folder as input", "a full device", "four connections", "a port in use"
ENDS = {
    ("text", 0): (TEXT, dossier(), None), ("text", 3): (TEXT, FOLDER, None), ("text", 4): (TEXT, FULL, None),
    ("text", 9): (["text", "2010-04-30"], dossier(), None), ("text", 10): (TEXT, b"{", None),
    ("check", 0): (["check"], b"", None), ("check", 4): (["check"], FULL, None), ("check", 5): (["check"], b"", no_file),
    ("check", 6): (["check"], b"", bad_journal),
    ("batch", 0): (BATCH, FRONT, None), ("batch", 1): (BATCH, b"GET", None), ("batch", 3): (BATCH, FOLDER, None), ("batch", 4): (BATCH, FULL, None),
    ("batch", 5): (BATCH, FRONT, no_file), ("batch", 6): (BATCH, FRONT, bad_journal),
    ("serve", 0): (SERVE, CALLERS, None), ("serve", 4): (SERVE, FULL, bad_journal), ("serve", 5): (SERVE, b"", no_file),
    ("serve", 6): (SERVE, b"", bad_journal), ("serve", 8): (SERVE, TAKEN, None),
    ("report", 0): (HELD, b"", None), ("report", 4): (HELD, FULL, None), ("report", 5): (HELD, b"", no_file), ("report", 6): (HELD, b"", bad_journal),
    ("report", 9): (LIFE, b"", None),
    ("generate", 0): (MADE, b"", None), ("generate", 4): (MADE, FULL, None),
    ("export", 0): (EXPORT, b"", None), ("export", 4): (EXPORT, FULL, bad_journal), ("export", 5): (EXPORT, b"", no_file),
    ("export", 6): (EXPORT, b"", bad_journal),
    ("follow", 0): (FOLLOW, b"", None), ("follow", 3): (FOLLOW, FOLDER, None), ("follow", 4): (FOLLOW, FULL, None),
    ("follow", 5): (FOLLOW, b"", no_file), ("follow", 6): (FOLLOW, b"", bad_journal), ("follow", 12): (FOLLOW, b"{", None),
    ("move", 0): (MOVE, b"", None), ("move", 4): (MOVE, FULL, bad_journal), ("move", 5): (MOVE, b"", no_file), ("move", 6): (MOVE, b"", bad_journal),
    ("move", 11): (MOVE, b"", other_table),
}


def to_callers(line, folder):
    """The status of a run that four connections come to, one after another."""
    with subprocess.Popen(line, cwd=folder, stdin=subprocess.DEVNULL, stdout=subprocess.DEVNULL, stderr=subprocess.DEVNULL) as server:
        for _ in range(4):
            for _ in range(200):
                try:
                    with socket.create_connection(("127.0.0.1", PORT), timeout=10) as link:
                        link.sendall(FRONT)
                        link.shutdown(socket.SHUT_WR)
                        while link.recv(4096):
                            pass
                    break
                except ConnectionRefusedError:
                    time.sleep(0.05)
        return server.wait(timeout=60)


def ended(words, given, spoil):
    """The status of a run in a folder of its own."""
    with checks.folder() as folder:
        if spoil:
            spoil(folder)
        line = [checks.PROGRAM, *words]
        if given == FOLDER:
            return over_a_folder(line, cwd=folder)[0]
        if given == CALLERS:
            return to_callers(line, folder)
        if given == TAKEN:
            with socket.create_server(("127.0.0.1", PORT)):
                return run(words, b"", cwd=folder)[0]
        if given == FULL:
            return to_a_full_device(line, FRONT if words == BATCH else dossier(), cwd=folder)
        return run(words, given, cwd=folder)[0]


def forms():
    """The statuses of each form are 7, which tests/devices/want_of_memory.py shows, and those with which it is seen to end here."""
    told = {tag: [int(status) for status in plain(lines[0]).split(", ")] for tag, lines in items(section("EXIT STATUS")) if not tag.isdigit()}
    wanted = {form: sorted([7] + [status for name, status in ENDS if name == form]) for form in ("text", "check", "batch", "serve", "report", "generate", "export", "follow", "move")}
    check("the statuses of each form in the manual page", told, wanted)
    for (form, status), way in ENDS.items():
        check(f"{form} ends with {status}", ended(*way), status)


# The numbers of each limit: constants of the code, or words of a page.
LIMITS = {
    "A dossier; the body of a request": ["akn_json/src/reading/bytes.rt MAX_DOSSIER_BYTES"],
    "The head of a request": ["law_http/src/cutting.rt MAX_HEAD", "law_http/src/head.rt MAX_FIELDS"],
    "JSON": ["REFUSALS.md nests past"],
    "The text of an act": ["act_tree/src/limits.rt MAX_NODES", "act_tree/src/limits.rt MAX_WIDE_NODES", "act_tree/src/limits.rt MAX_DEPTH"],
    "What a modification brings": ["act_tree/src/limits.rt MAX_NODES", "act_tree/src/limits.rt MAX_DEPTH"],
    "A heading, a content, a text that an edit brings or looks for": ["act_tree/src/limits.rt MAX_TEXT_BYTES"],
    "Refs of a provision": ["act_tree/src/limits.rt MAX_REFS"],
    "A wId": ["act_tree/src/limits.rt MAX_WID_BYTES"],
    "A num": ["FORMS.md A **num** is 1 to"],
    "Nodes side by side that a modification brings; pairs of a renumbering": ["textual_mods/src/fitting.rt MAX_ITEMS"] * 2,
    "Items of one record; items of a draft": ["RULES.md lists, names, occurrences and texts keep their bounds |",
                                              "law_register/src/register/limits.rt MOST_DRAFT_ITEMS"],
    "Modifications of a work": ["law_register/src/register/limits.rt MOST_IDS"],
    "Law entries": ["law_register/src/register/limits.rt MOST_LAWS"],
    "Drafters": ["law_register/src/register/limits.rt MOST_DRAFTERS"],
    "An entry; all entries": ["law_register/src/register/limits.rt MOST_ENTRY_BYTES", "law_register/src/register/limits.rt MOST_REGISTER_BYTES"],
}


def number(place):
    """The number that a constant of the code has, or that stands behind words of a page."""
    file, _, words = place.partition(" ")
    path = ["docs", file] if file.endswith(".md") else ["crates", *file.split("/")]
    pattern = re.escape(words) + (r" ([0-9,]*[0-9])" if file.endswith(".md") else r": [a-z0-9]+ = ([0-9_]+);")
    return int(re.search(pattern, read(*path).decode())[1].replace(",", "").replace("_", ""))


def limits():
    """Each limit is the number of the code, or that of another page."""
    told = {tag: [int(n.replace(",", "")) for n in re.findall(r"[0-9][0-9,]*", plain(lines[0]))] for tag, lines in items(section("LIMITS"))}
    check("the limits of the manual page", told, {tag: [number(place) for place in places] for tag, places in LIMITS.items()})


def examples():
    """Each example, one after another in one folder, typed as it stands: it ends with its status and says nothing else."""
    with checks.folder() as folder:
        os.makedirs(os.path.join(folder, "bin"))
        os.symlink(checks.PROGRAM, os.path.join(folder, "bin", "lawdesk"))
        os.symlink(os.path.join(TOP, "examples"), os.path.join(folder, "examples"))
        env = {"PATH": os.path.join(folder, "bin") + ":/usr/bin:/bin"}
        rows = items(section("EXAMPLES"))
        check("the manual page has examples", len(rows) >= 10, True)
        for line, said in rows:
            status = int(re.fullmatch(r"\[([0-9]+)\]", said[-1])[1])
            done = subprocess.run(["sh", "-c", line], stdin=subprocess.DEVNULL, capture_output=True, timeout=60, cwd=folder, env=env)
            check(f"the example {line}", (done.returncode, bool(done.stderr)), (status, status == 2))
