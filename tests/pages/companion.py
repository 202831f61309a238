"""The companion's own checks (deskside/tests/run), over the built program: documents in and out, pages, and what the page on Akoma Ntoso says."""
import os
import re
import subprocess

import checks
from checks import TOP, check, skip


def whole():
    python = "/usr/bin/python3"
    if not os.path.exists(python) or subprocess.run([python, "-c", "import lxml"], stderr=subprocess.DEVNULL).returncode:
        return skip("the companion", "Debian's python3-lxml is not there")
    done = subprocess.run([python, os.path.join(TOP, "deskside", "tests", "run")], stdout=subprocess.PIPE, stderr=subprocess.STDOUT, text=True, timeout=900)
    lines = done.stdout.rstrip("\n").split("\n")
    found = re.fullmatch(r"(\d+) passed, (\d+) failed", lines[-1])
    for line in lines[:-1]:
        if line.startswith("FAILED"):
            print(line)
        elif " is not there" in line:
            skip("a part of the companion's checks", line.removeprefix("deskside: "))
    check("the companion's checks end", bool(found) and done.returncode == (found[2] != "0"), True)
    if found:
        checks.passed += int(found[1])
        checks.failed += int(found[2])
    return None
