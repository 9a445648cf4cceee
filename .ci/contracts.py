"""What crates promise: their contracts, and the definitions in specs/.

The contracts of a .rt file are all that stands in it but the bodies of functions, comments, the attributes that say how a proof is
found, and the imports that nothing else of them names. White space is one blank, wherever some stands.
"""
import functools
import hashlib
import os
import re

TOKEN = re.compile(
    r"(?P<space>(?:\s|//[^\n]*|/\*.*?\*/)+)"
    r"|b?r(?P<hash>#*)\".*?\"(?P=hash)"  # a raw string
    r"|[bc]?\"(?:\\.|[^\"\\])*\""
    r"|b?'(?:\\(?:u\{\w+\}|x\w\w|.)|[^\\'\n])'"  # a char; the ' of a lifetime is a token of its own
    r"|\w+'*"
    r"|[^\w\s\"'/()\[\]{};#]+"
    r"|.",
    re.S,
)
OPENING, CLOSING = {"(", "[", "{"}, {")", "]", "}"}
CLAUSES = {"requires", "ensures", "decreases", "ghost"}
HINTS = {"tactic", "cycle", "inline"}  # attributes on which no contract depends
BEFORE_FN = {" ", "const", "unsafe", "extern", '"C"'}


def behind(tokens, at):
    """The index behind the bracket that closes the one at this index."""
    depth = 0
    for index in range(at, len(tokens)):
        depth += (tokens[index] in OPENING) - (tokens[index] in CLOSING)
        if depth == 0:
            return index + 1
    raise ValueError("a bracket is not closed")


def paths_of(tree, front=""):
    """The paths that the tree of a `use` imports."""
    found, part, depth = [], "", 0
    for char in f"{tree},":
        if char == "," and depth == 0:
            head, brace, inner = part.strip().partition("{")
            found += paths_of(inner.rstrip()[:-1], front + head) if brace else [front + head] if head else []
            part = ""
        else:
            depth += (char == "{") - (char == "}")
            part += char
    return found


def is_named(path, text, words):
    """Whether the text names what a path imports; of an operator, its parts."""
    name = re.split(r" as |::|\.", path.removesuffix("::self"))[-1]
    return name == "*" or all(it in words if re.fullmatch(r"\w+", it) else it in text for it in name.split("◌"))


class Source:
    """A .rt file: what is kept of it, what it imports, and how many of its public functions have a clause, and a body that does
    something."""

    def __init__(self, text):
        self.tokens = [" " if found["space"] else found[0] for found in TOKEN.finditer(text)]
        self.kept, self.imports, self.promises, at = [], [], 0, 0
        while at < len(self.tokens):
            at = self.step(at)

    def step(self, at):
        """Takes what begins at this index, and returns the index behind it."""
        two, start = self.tokens[at : at + 2], at + 2 if self.tokens[at : at + 2] == ["#", "!"] else at + 1
        if two == ["fn", " "]:  # not a type fn(..)
            return self.function(at)
        if two == ["use", " "] and self.word_before() not in ("pub", ")"):
            return self.use(at)
        if two[0] == "#" and self.tokens[start : start + 1] == ["["] and self.tokens[start + 1] in HINTS:
            return behind(self.tokens, start)
        self.kept.append(two[0])
        return at + 1

    def word_before(self):
        return next((it for it in reversed(self.kept) if it not in BEFORE_FN), "")

    def use(self, at):
        end = self.tokens.index(";", at)
        self.imports += paths_of("".join(self.tokens[at + 2 : end]))
        if self.kept[-2:] == ["ghost", " "]:
            del self.kept[-2:]
        return end + 1

    def function(self, at):
        """Takes a function: its head with its clauses, and {} in the place of its body."""
        is_public, has_clause, in_clause = self.word_before() == "pub", False, False
        while self.tokens[at] != ";":
            token, end = self.tokens[at], at + 1
            if token in CLAUSES:
                has_clause = in_clause = True
            elif token in OPENING:
                end = behind(self.tokens, at)
                if token == "{" and not in_clause:
                    has_body = any(it != " " for it in self.tokens[at + 1 : end - 1])
                    self.promises += is_public and has_clause and has_body
                    self.kept.append("{}")
                    return end
                in_clause = in_clause and token != "{"
            self.kept += self.tokens[at:end]
            at = end
        return at  # a call of a trait, with no body: its ; is kept next

    def contracts(self):
        text = "".join(it for it, last in zip(self.kept, ["", *self.kept]) if it != " " or last != " ").strip()
        words = set(re.findall(r"\w+", text))
        return "\n".join([*sorted({path for path in self.imports if is_named(path, text, words)}), text])


def definitions_of(text):
    """A file of specs/ without comments and blank lines."""
    bare = (line.rstrip() if '"' in line else re.sub(r"(^|\s+)-- .*|\s+$", "", line) for line in text.split("\n"))
    return "\n".join(line for line in bare if line and not line.lstrip().startswith("--"))


@functools.lru_cache(maxsize=None)
def text_of(path):
    with open(path, encoding="utf-8") as it:
        return it.read()


@functools.lru_cache(maxsize=None)
def source_of(path):
    return Source(text_of(path))


def sum_of(texts):
    return hashlib.sha256("\0".join(texts).encode()).hexdigest()[:16]


class Crate:
    """A crate of the repository at `top`, by its line of crates.txt."""

    def __init__(self, line, top):
        head, _, uses = line.partition(":")
        self.name, self.line, self.uses, self.top = head.split()[0], line.strip(), uses.split(), top
        self.folder = f"{top}/crates/{self.name}"

    def files(self, part):
        found = [f"{at}/{name}" for at, _, names in os.walk(f"{self.folder}/{part}") for name in names]
        return sorted(it for it in found if it.endswith((".rt", ".antt", ".edit")))

    def texts(self, part, text=text_of):
        return [f"{os.path.relpath(it, self.top)}\n{text(it)}\n" for it in self.files(part)]

    @functools.cached_property
    def definitions(self):
        return self.texts("specs", lambda it: definitions_of(text_of(it)))

    @functools.cached_property
    def contracts(self):
        return self.texts("src", lambda it: source_of(it).contracts())

    def makes_promises(self):
        """Whether a public function of a library has a clause, and a body that may be wrong."""
        return os.path.isfile(f"{self.folder}/src/lib.rt") and any(source_of(it).promises for it in self.files("src"))

    def below(self, crates):
        """The crates below it."""
        found, left = {}, [*self.uses]
        while left:
            name = left.pop()
            if name in crates and name not in found:
                found[name] = crates[name]
                left += crates[name].uses
        return [found[it] for it in sorted(found)]


def crates_of(top):
    lines = [it.partition("#")[0] for it in text_of(f"{top}/crates.txt").split("\n")]
    found = [Crate(it, top) for it in lines if it.strip()]
    return {it.name: it for it in found}
