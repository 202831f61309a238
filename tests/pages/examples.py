"""What pages of docs/ show: requests with their responses, and commands of a shell with what they write."""
import os
import re
import shutil
import subprocess

import checks
from checks import TOP, check, read
from clients.messages import batch, check_written

FILTER = re.compile(r"`jq '(.*?)'`", re.DOTALL)
BLOCK = re.compile(r"^```http\n(.*?)^```$", re.DOTALL | re.MULTILINE)
# Commands of a shell, and what they write, where a block of text stands right behind them.
TYPED = re.compile(r"^```(?:sh|bash)\n(.*?)^```$(?:\n\n```text\n(.*?)^```$)?", re.DOTALL | re.MULTILINE)
CAUSES = re.compile(r"^\| `([A-Za-z]+)` \|", re.MULTILINE)
REPEATED = re.compile(r"\{(\d+) × (.)\}")


def spelled(block):
    """The bytes that a block shows: lines of a head, which end in CR LF, and what stands behind an empty line is a body; or a part of a head."""
    head, empty_line, body = block.partition("\n\n")
    head = REPEATED.sub(lambda found: found[2] * int(found[1]), head).replace("\n", "\r\n")
    return (head + "\r\n\r\n" + body.removesuffix("\n") if empty_line else head.removesuffix("\r\n")).encode()


def protocol():
    """Each example of docs/PROTOCOL.md. Those after which the stream goes on are sent to one desk; each of the others behind those before it."""
    blocks = [spelled(block) for block in BLOCK.findall(read("docs", "PROTOCOL.md").decode())]
    examples = list(zip(blocks[::2], blocks[1::2], strict=True))
    shown = b"".join(response for _, response in examples)
    check("refusals without an example", [number for number in range(1, 10) if b'"http":%d,' % number not in shown], [])
    given, wanted = b"", b""
    for request, response in examples:
        closes = b"\r\nConnection: close\r\n" in response
        status = 1 if closes and b'{"http":' in response else 0
        check_written("the example " + request[:70].decode().split("\r\n")[0], batch(given + request), (status, wanted + response))
        if not closes:
            given, wanted = given + request, wanted + response
    check_written("the examples of the protocol in one stream", batch(given), (0, wanted))


def desk():
    """The streams that docs/START.md sends to a desk."""
    given, wanted = b"", b""
    for name in ("desk", "desk.acts", "desk.made"):
        check(f"the page of {name}", f"./lawdesk batch < examples/{name}.http".encode() in read("docs", "START.md"), True)
        given, wanted = given + read("examples", name + ".http"), wanted + read("examples", name + ".out")
        check_written(f"the example {name}", batch(given), (0, wanted))


def typed(shell, page):
    """Types the commands of a page, one block after another in one folder, as a shell takes them. Each block writes what the page shows of it,
    as lines, and nothing on standard error."""
    blocks = TYPED.findall(read("docs", page).decode())
    check(f"blocks of {page}", len(blocks) >= 12, True)
    with checks.folder() as folder:
        os.symlink(checks.SCRIPT, os.path.join(folder, "lawdesk"))
        os.symlink(os.path.join(TOP, "examples"), os.path.join(folder, "examples"))
        for number, (line, shown) in enumerate(blocks, 1):
            done = subprocess.run([shell, "-c", line], stdin=subprocess.DEVNULL, capture_output=True, timeout=60, cwd=folder)
            lines = done.stdout.replace(b"\r\n", b"\n").decode()
            lines += "\n" * (not lines.endswith("\n") and lines != "")
            check_written(f"{page}, block {number}", (done.stderr, lines.encode()), (b"", shown.encode()))


def start():
    """docs/START.md, as it is typed."""
    typed("sh", "START.md")


def recipes():
    """docs/RECIPES.md, as it is typed, and a word for each cause in the filter that it shows."""
    causes = CAUSES.findall(read("docs", "EDITS.md").decode())
    words = re.findall(r'^  "([A-Za-z]+)": "', read("examples", "causes.jq").decode(), re.MULTILINE)
    check("the causes in plain words", (words, len(words)), (causes, 8))
    missing = [tool for tool in ("bash", "jq", "diff", "curl", "sqlite3") if not shutil.which(tool)]
    if missing:
        checks.skip("docs/RECIPES.md", f"{missing[0]} is not installed")
        return
    typed("bash", "RECIPES.md")


def filters():
    """Each filter for jq that docs/REFUSALS.md shows reads a dossier."""
    if not shutil.which("jq"):
        checks.skip("the filters of docs/REFUSALS.md", "jq is not installed")
        return
    for shown in FILTER.findall(read("docs", "REFUSALS.md").decode()):
        words = shown.replace("K - 1", "0").replace("n - 2", "0")
        done = subprocess.run(["jq", words, os.path.join(TOP, "examples", "edits.json")], capture_output=True, timeout=60)
        check(f"the filter {shown[:60]}", (done.returncode, done.stderr), (0, b""))
