"""Worked rows: runs over tables, and all that they answer and print. A file of rows/, or of survey-rows/, is a list of them,
parted by blank lines:

    row: what the row shows
    run: the words, parted by spaces ('' is an empty one), or `every order:` for each order of the files behind the first
    a: what a file of the run holds: `DSDT` or `SSDT` and the code of such a table in hexadecimal, `bytes` and all of its
       bytes, `text` and a text in quotation marks, or `example` and the name of a file of examples/
    before: what the file `out` holds before the run
    status: the status, if it isn't 0
    adds: a line that `list` prints beside those of the predefined objects
    tells: a line behind those of the objects: a problem or a note of a survey
    out: a line of standard output
    err: a line of standard error
    written: what `out` holds behind the run; several lines stand one after another
"""
import ast
import glob
import itertools
import os
from dataclasses import dataclass, field

HERE = os.path.dirname(os.path.abspath(__file__))
# What `list` prints where no table declares anything.
PREDEFINED = [
    "\\ Root", "\\_GL_ Mutex 00", "\\_GPE Scope", "\\_OSI Method 1", "\\_OS_ Predefined",
    "\\_PR_ Scope", "\\_REV Predefined", "\\_SB_ Scope", "\\_SI_ Scope", "\\_TZ_ Scope",
]
OUT = "out"


def table(signature, code):
    """A table of revision 2 with the right length and checksum, and zeros in the rest of its header."""
    header = signature.encode() + (36 + len(code)).to_bytes(4, "little") + b"\x02" + bytes(27)
    checksum = -sum(header + code) % 256
    return header[:9] + bytes([checksum]) + header[10:] + code


@dataclass
class Kept:
    """What a file holds: the code of a table with this signature, or bytes."""

    signature: str
    code: bytes

    def bytes(self):
        return table(self.signature, self.code) if self.signature else self.code


def kept(text):
    kind, _, rest = text.partition(" ")
    if kind == "text":
        return Kept("", ast.literal_eval(rest).encode())
    if kind == "example":
        with open(f"{HERE}/../examples/{rest}", "rb") as handle:
            return Kept("", handle.read())
    return Kept("" if kind == "bytes" else kind, bytes.fromhex(rest))


@dataclass
class Answer:
    """What a run answers: its status, what stands on the two streams, what `out` holds then, if it is there, and the names of
    other files that it left."""

    status: int
    out: bytes
    err: bytes
    written: bytes = None
    more: list = field(default_factory=list)


@dataclass
class Row:
    shows: str
    words: list
    files: dict = field(default_factory=dict)
    before: bytes = None
    answer: Answer = None

    def held(self):
        """The bytes of each file."""
        held = {name: it.bytes() for name, it in self.files.items()}
        return held if self.before is None else {**held, OUT: self.before}

    def right(self):
        """The answer, where `out` stays as it was unless the row says more."""
        it = self.answer
        return Answer(it.status, it.out, it.err, it.written if it.written is not None else self.before)

    def is_in_order(self):
        """Whether the files stand in the words in the order in which the row has them."""
        named = [it for it in self.files if it in self.words]
        return named == sorted(named, key=self.words.index)


def in_order(lines):
    """Lines of a listing in the order of their paths."""
    return sorted(lines, key=lambda line: [it for it in line.split(" ")[0][1:].split(".") if it])


def lines_of(lines):
    return "".join(f"{it}\n" for it in lines).encode()


def row_of(text, front):
    """The row of these lines. A name `.. so` goes on with the name before it."""
    found = {}
    for line in text.split("\n"):
        key, _, value = line.partition(":")
        found.setdefault(key, []).append(value.removeprefix(" "))
    shows = found.pop("row")[0]
    words = found.pop("run", None) or found.pop("every order")
    printed = found.pop("out", [])
    if "adds" in found:
        printed = in_order(PREDEFINED + [it for it in found.pop("adds") if it]) + found.pop("tells", [])
    answer = Answer(int(found.pop("status", ["0"])[0]), lines_of(printed), lines_of(found.pop("err", [])))
    if "written" in found:
        answer.written = b"".join(kept(it).bytes() for it in found.pop("written"))
    before = found.pop("before", None)
    row = Row(f"{front},{shows[2:]}" if shows.startswith("..") else shows, [it if it != "''" else "" for it in words[0].split(" ")])
    row.answer, row.before = answer, kept(before[0]).bytes() if before else None
    row.files = {name: kept(it[0]) for name, it in found.items()}
    return row


def rows_of(name, folder="rows"):
    """The rows of a file of rows/, or of another folder."""
    rows, front = [], ""
    with open(f"{HERE}/{folder}/{name}.rows", encoding="utf-8") as handle:
        parts = handle.read().strip("\n").split("\n\n")
    for part in parts:
        text = "\n".join(it for it in part.strip("\n").split("\n") if not it.startswith("#"))
        if not text:
            continue
        row = row_of(text, front)
        front = front if text.startswith("row: ..") else row.shows.rpartition(", ")[0] or row.shows
        if "\nevery order:" in text:
            rows += orders(row)
        else:
            rows.append(row)
    return rows


def orders(row):
    """The row in each order of its files behind the first, which are the last words."""
    first = len(row.words) - len(row.files) + 1
    for order in itertools.permutations(row.words[first:]):
        yield Row(f"{row.shows}: {' '.join(order)}", [*row.words[:first], *order], row.files, row.before, row.answer)


def all_rows(folder="rows"):
    names = sorted(os.path.basename(it)[:-5] for it in glob.glob(f"{HERE}/{folder}/*.rows"))
    return [row for name in names for row in rows_of(name, folder)]


def packages(levels, opcode, first, inner=b""):
    """So many packages in one another: the opcode, a length in four bytes, and what stands before the next one."""
    for _ in range(levels):
        length = 4 + len(first) + len(inner)
        inner = opcode + bytes([0xC0 | length & 15]) + (length >> 4).to_bytes(3, "little") + first + inner
    return inner


def negations(count, depth, is_read):
    """A method that returns so many LNot of one another, shown."""
    body = b"\xA4" + b"\x92" * count + b"\x60"
    length = 2 + 5 + len(body)
    method = b"\x14" + bytes([0x40 | length & 15, length >> 4]) + b"M001\x00" + body
    shown = "Return(" + "LNot(" * count + "Local0" + ")" * count + ")"
    opaque = ["Opaque " + " ".join(f"{it:02X}" for it in body), f"At {depth}: B11 TooDeep"]
    row = Row(f"{count} LNot in one another at depth {depth}", ["show", "--depth", str(depth), "\\M001", "a"])
    row.files = {"a": Kept("DSDT", method)}
    row.answer = Answer(0, lines_of(["\\M001 Method 0", *([shown] if is_read else opaque)]), b"")
    return row


def deep_rows():
    """Rows whose tables or texts are too long to be written down."""
    rows = [negations(*it) for it in [(510, 512, True), (511, 512, False), (511, 513, True), (1022, 1024, True), (1023, 1024, False), (1023, 1025, True)]]
    for levels, words in ((1024, []), (1025, []), (1025, ["--depth", "1025"])):
        row = Row(f"{levels} Scopes in one another {' '.join(words)}", ["list", *words, "a"])
        row.files = {"a": Kept("DSDT", packages(levels, b"\x10", b"\x5C\x00"))}
        row.answer = Answer(0, lines_of(PREDEFINED), b"")
        if levels == 1025 and not words:
            row.answer = Answer(1, b"", b"acpins: table 0: K12 TooDeep at 7204\n")
        rows.append(row)
    return rows
