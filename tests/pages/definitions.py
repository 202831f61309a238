"""No dead definition: each definition and lemma of the crates is reached from the code, or from an answer of a proof file.

A file of definitions names its own and those that its `use` lines bring in; a definition reaches what its text names, and what is named as
`module.name`. What the prover takes from a proof file by itself is of a type that begins with `goal.`.
"""
import os
import re

from checks import TOP, check

# What is neither a blank, a bracket nor a mark between names.
NAME = r"(?:[^\s(){}\[\],;.@\"«»|λ:]|::)+"
TOKEN = re.compile(r"[^\s(){}\[\],;@\"«»|]+")
COMMENT = re.compile(r"(?<![^ \n(){}.;,@\"»])--[^\n]*|\{-.*?-\}", re.DOTALL)
USE = re.compile(r"^[ \t]*(?:pub )?use ([\w.·+-]+?)(?:\.\{([^}]*)\}|\s+as\s+([^\s;]+))?[ \t]*$", re.MULTILINE)
GHOST_USE = re.compile(r"ghost use ([\w.·+-]+?)(?:\.\{([^}]*)\}|\s+as\s+([^\s;]+))?\s*;")
# A name as code writes it, in an attribute: `crate::proofs::File::name`.
PATH = re.compile(r"\b(\w+)::((?:proofs|specs)(?:::\w+)*)::([^\s:,(){}]+)")
HEAD = r"^(?:(?:abbrev|unfoldable|pub)\s+)*"
BLOCK = re.compile(HEAD + r"(?:mutual$|module\s)")
KIND = re.compile(HEAD + rf"(?:record|data|ruleset)\s+({NAME})")
TYPED = re.compile(HEAD + rf"({NAME})\s+:(?:\s|$)")
BARE = re.compile(HEAD + rf"({NAME})$")
ANSWER = re.compile(r"\s:\s+goal\.")
PASSED_OVER = ("mod ", "pub mod ", "infix")


def blanked(found):
    """Blanks in the place of a text, line by line."""
    return re.sub(r"[^\n]", " ", found[0])


def indent_of(line):
    return len(line) - len(line.lstrip())


class Definition:
    def __init__(self, module, name, place, text):
        self.module, self.name, self.place, self.text = module, name, place, text
        self.is_answer = bool(ANSWER.search(" ".join(text[-2:])))


class File:
    """What a file names: its own definitions, what it brings in by name, and modules under a name."""

    def __init__(self, module):
        self.module, self.defined, self.names, self.modules = module, {}, {}, {}

    def bring(self, module, names, alias):
        if names is None:
            self.modules.setdefault(alias or module.split(".")[-1], set()).add(module)
        for each in (names or "").split(","):
            name, _, other = each.strip().partition(" as ")
            if name:
                self.names.setdefault((other or name).strip(), set()).add((module, name.strip()))


class Definitions(File):
    """A file of specs/ or proofs/, which is read line by line. A block is `mutual` or a module with premises; what its head names counts for
    each definition in it."""

    def __init__(self, path, crate):
        inside = os.path.relpath(path, os.path.join(TOP, "crates", crate))[: -len(".antt")]
        super().__init__(f"Rattle.{crate}." + inside.replace("/", "."))
        self.path, self.blocks, self.now, self.before = os.path.relpath(path, TOP), [(0, [])], None, []
        with open(path, encoding="utf-8") as file:
            text = COMMENT.sub(blanked, file.read())
        for found in USE.finditer(text):
            self.bring(*found.groups())
        lines = USE.sub(blanked, text).split("\n")
        for number, line in enumerate(lines, 1):
            if line.strip():
                follows = next((next_line for next_line in lines[number:] if next_line.strip()), "")
                self.take(number, line, follows.lstrip().startswith(":"))

    def take(self, number, line, is_typed_below):
        """Takes a line: the head of a block, a definition's first line, or what belongs to one."""
        while len(self.blocks) > 1 and indent_of(line) < self.blocks[-1][0]:
            self.blocks.pop()
            self.now = None
        body = line.strip()
        if indent_of(line) > self.blocks[-1][0] or body.startswith(PASSED_OVER):
            self.add(body)
        elif BLOCK.match(body):
            self.blocks.append((indent_of(line) + 2, [body]))
            self.now = None
        elif body.startswith("unfolding "):
            self.before, self.now = [body], None
        elif found := KIND.match(body) or TYPED.match(body) or (is_typed_below and BARE.match(body)):
            heads = [each for _, head in self.blocks for each in head]
            self.now = Definition(self.module, found[1], f"{self.path}:{number}: {found[1]}", heads + self.before + [body])
            self.before = []
            self.defined.setdefault(found[1], []).append(self.now)
        else:
            self.now = self.defined.get(re.split(r"[\s({]", body, maxsplit=1)[0], [self.now])[-1]
            self.add(body)

    def add(self, body):
        if self.now is not None:
            self.now.text.append(body)
            self.now.is_answer |= len(self.now.text) < 4 and body.startswith(": goal.")
        elif self.before:
            self.before.append(body)
        elif len(self.blocks) > 1:
            self.blocks[-1][1].append(body)


class Walk:
    """What is reached, and what of it is still to be gone through."""

    def __init__(self, files):
        self.files, self.reached, self.left = files, set(), []

    def reach(self, module, name):
        for each in self.files[module].defined.get(name, ()) if module in self.files else ():
            if each not in self.reached:
                self.reached.add(each)
                self.left.append(each)

    def word(self, file, first, second):
        self.reach(file.module, first)
        for module, name in file.names.get(first, ()):
            self.reach(module, name)
            self.reach(f"{module}.{name}", second)
        for module in file.modules.get(first, ()):
            self.reach(module, second)

    def text(self, file, text):
        """Reaches all that a text of a file names: words, words with a point or a colon between them, and operators."""
        words = set(TOKEN.findall(text))
        for word in words:
            parts = [part.lstrip("!λ") for part in re.split(r"[.:]", word)]
            for first, second in zip([word, *parts], ["", *parts[1:], ""]):
                self.word(file, first, second)
        for name in {*file.defined, *file.names}:
            if "◌" in name and (set(name.split("◌")) - {""} <= words or (name.startswith("◌>>") and "do" in words)):
                self.word(file, name, "")

    def code(self, path, crate):
        with open(path, encoding="utf-8") as file:
            text = re.sub(r"//[^\n]*", "", file.read())
        names = File(None)
        for found in GHOST_USE.finditer(text):
            names.bring(*found.groups())
        text = GHOST_USE.sub(" ", text)
        for owner, way, name in PATH.findall(text):
            self.reach(f"Rattle.{crate if owner == 'crate' else owner}." + way.replace("::", "."), name)
        self.text(names, text)

    def go(self):
        while self.left:
            each = self.left.pop()
            self.text(self.files[each.module], "\n".join(each.text))


def sources():
    """Each file of a crate: its path, and the crate's name."""
    for crate in sorted(os.listdir(os.path.join(TOP, "crates"))):
        for folder in ("specs", "proofs", "src"):
            for at, _, names in os.walk(os.path.join(TOP, "crates", crate, folder)):
                yield from ((os.path.join(at, name), crate) for name in sorted(names))


def walked():
    """All definitions, and those that are reached."""
    files = [Definitions(path, crate) for path, crate in sources() if path.endswith(".antt")]
    walk = Walk({file.module: file for file in files})
    every = [each for file in files for same in file.defined.values() for each in same]
    for path, crate in sources():
        if path.endswith(".rt"):
            walk.code(path, crate)
    for each in every:
        if each.is_answer:
            walk.reach(each.module, each.name)
    walk.go()
    return every, walk.reached


# What nothing cites and still stands: each goes with the next proof of its crate, and its name from here with it.
LEFT = {}


def cited():
    every, reached = walked()
    check("definitions and answers of proof files", len(every) > 5000 and sum(each.is_answer for each in every) > 500, True)
    left = sorted(f"Rattle.{file.replace('/', '.')} {name}" for file, names in LEFT.items() for name in names.split())
    check("definitions that nothing cites", sorted(f"{each.module} {each.name}" for each in every if each not in reached), left)
