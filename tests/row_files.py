"""Reads the worked rows of tests/rows: what the program is called with, and what it must answer. tests/README.md has the form
of these files."""

import re
from dataclasses import dataclass, field
from typing import Dict, List, Optional, Tuple

NAME = r"[a-z][a-z0-9]*"
PLACEHOLDER = re.compile(r"\{([A-Z]+)\}")
FREE = re.compile(r"<([A-Z]+|\.\.\.)>")
ANY = "..."
CYCLES_A_TICK = 2048
ESCAPE = re.compile(r"\\(x[0-9A-Fa-f]{2}|[nrt0\\]|$)|\\")
ESCAPED = {"n": b"\n", "r": b"\r", "t": b"\t", "0": b"\0", "\\": b"\\", "": b""}


class RowFault(Exception):
    """A line of a file of rows that has no meaning."""

    def __init__(self, path, line, why):
        super().__init__(f"{path}:{line}: {why}")


def unescaped(text):
    """The bytes of a text: \\n, \\r, \\t, \\0, \\\\ and \\xHH are one byte each, and a \\ at the end of a line is nothing."""
    pieces, at = [], 0
    for found in ESCAPE.finditer(text):
        code = found[1]
        if code is None:
            raise ValueError(f"no escape begins with {text[found.start():found.start() + 2]}")
        pieces.append(text[at:found.start()].encode("utf-8"))
        pieces.append(bytes([int(code[1:], 16)]) if code[:1] == "x" else ESCAPED[code])
        at = found.end()
    return b"".join(pieces) + text[at:].encode("utf-8")


def ends_open(line):
    """Whether a line's last character is a \\ that escapes the line's end."""
    return (len(line) - len(line.rstrip("\\"))) % 2 == 1


def text_of(lines):
    """The bytes of these lines, each with its line feed, but where its end is escaped."""
    return b"".join(unescaped(line) + (b"" if ends_open(line) else b"\n") for line in lines)


@dataclass(frozen=True)
class Piece:
    """A part of a file: some lines, so many times; a file of the repository; or what the program prints for some words."""

    lines: Tuple[str, ...] = ()
    times: int = 1
    path: Optional[str] = None
    words: Optional[Tuple[str, ...]] = None


Files = Dict[str, List[Piece]]


@dataclass(frozen=True)
class Expected:
    """The exit status, and the text on standard output. A line ... of it is any lines, <...> is any part of a line, and <N> any
    decimal number, the same wherever N is written."""

    status: int
    lines: Tuple[str, ...]
    in_ticks: bool = False
    # The lines that begin so are these, and no others.
    only_from: Tuple[Tuple[str, Tuple[str, ...]], ...] = ()

    def pattern(self):
        """The texts that fit, as a regular expression."""
        named, parts = set(), []
        for line in self.lines:
            if line == ANY:
                parts.append(rb"(?:[^\n]*\n)*?")
                continue
            at = 0
            for found in FREE.finditer(line):
                name = found[1]
                parts.append(re.escape(unescaped(line[at:found.start()])))
                if name == ANY:
                    parts.append(rb"[^\n]*")
                else:
                    parts.append((f"(?P={name})" if name in named else f"(?P<{name}>[0-9]+)").encode())
                    named.add(name)
                at = found.end()
            parts.append(re.escape(text_of([line[at:]])))
        return re.compile(b"".join(parts))

    def difference(self, status, text):
        """What is wrong with an answer, or nothing."""
        if status != self.status:
            return f"ended with {status} instead of {self.status}, and printed {shown(text)}"
        printed = stamps_as_ticks(text) if self.in_ticks else text
        if not self.pattern().fullmatch(printed):
            return f"printed {shown(printed)} instead of {shown(chr(10).join(self.lines))}"
        for start, lines in self.only_from:
            begins = unescaped(start)
            found = b"".join(line for line in printed.splitlines(keepends=True) if line.startswith(begins))
            if found != text_of(lines):
                return f"has these lines from {start}: {shown(found)} instead of {shown(chr(10).join(lines))}"
        return None


def stamps_as_ticks(text):
    """The text with the number of its tick in place of the stamp that begins each line."""
    lines = []
    for line in text.splitlines(keepends=True):
        stamp, space, rest = line.partition(b" ")
        if re.fullmatch(rb"-?[0-9]+", stamp):
            stamp = str(int(stamp) // CYCLES_A_TICK).encode()
        lines.append(stamp + space + rest)
    return b"".join(lines)


def shown(text):
    """A text for a line of a report: one line, and not too long."""
    text = repr(text)
    return text if len(text) <= 400 else f"{text[:250]} .. {text[-120:]}"


@dataclass(frozen=True)
class Case:
    """One case of a row: its calls, over the same files, have the same answer."""

    group: str
    title: str
    calls: Tuple[Tuple[str, ...], ...]
    files: Dict[str, Tuple[Piece, ...]]
    expected: Expected
    # It takes an unproved build, which checks itself, a minute or more.
    is_large: bool


@dataclass
class Row:
    """A row as it is written."""

    title: str
    line: int
    calls: List[str] = field(default_factory=list)
    files: Files = field(default_factory=dict)
    columns: Tuple[str, ...] = ()
    table: List[str] = field(default_factory=list)
    status: Optional[int] = None
    in_ticks: bool = False
    text: List[str] = field(default_factory=list)
    only_from: List[Tuple[str, List[str]]] = field(default_factory=list)
    is_large: bool = False


class Reader:
    """Reads one file of rows."""

    def __init__(self, path, group):
        self.path, self.group = path, group
        self.texts: Dict[str, str] = {}
        self.files: Files = {}
        self.rows: List[Row] = []
        with open(path, encoding="utf-8") as file:
            self.lines = file.read().split("\n")
        self.at = 0

    def fault(self, why, line=None):
        return RowFault(self.path, self.at if line is None else line, why)

    def block(self):
        """The indented lines that follow, without their indent."""
        lines = []
        while self.at < len(self.lines) and self.lines[self.at].startswith("  "):
            lines.append(self.lines[self.at][2:])
            self.at += 1
        return lines

    def text(self, beside):
        """The text of a heading: what stands beside it, or else the indented lines that follow."""
        if beside:
            return [beside[1:]]
        return self.block()

    def row(self):
        """The row that is being read."""
        if not self.rows:
            raise self.fault("there is no row yet: a row begins with ==")
        return self.rows[-1]

    def piece(self, name, piece):
        """Adds a part of a file, which belongs to the row, or to all rows where none has begun."""
        files = self.rows[-1].files if self.rows else self.files
        files.setdefault(name, []).append(piece)

    def heading(self, line):
        """Reads one line at the left edge, with the text that belongs to it."""
        if found := re.fullmatch(r"== (\S.*)", line):
            if any(row.title == found[1] for row in self.rows):
                raise self.fault(f"two rows are called {found[1]}")
            self.rows.append(Row(found[1], self.at))
        elif found := re.fullmatch(r"\$( .+)?", line):
            self.row().calls.append((found[1] or "")[1:])
        elif found := re.fullmatch(r"exit ([0-9]+)( in ticks)?:( .*)?", line):
            row = self.row()
            if row.status is not None:
                raise self.fault("the row has two exits")
            row.status, row.in_ticks, row.text = int(found[1]), bool(found[2]), self.text(found[3])
        elif line == "large":
            self.row().is_large = True
        elif found := re.fullmatch(r"lines from (\S.*):", line):
            self.row().only_from.append((found[1], self.block()))
        elif found := re.fullmatch(r"for ([A-Z]+(?: [A-Z]+)*):", line):
            row = self.row()
            row.columns, row.table = tuple(found[1].split(" ")), self.block()
        elif found := re.fullmatch(r"let ([A-Z]+):( .*)?", line):
            self.texts[found[1]] = "\n".join(self.text(found[2]))
        elif found := re.fullmatch(rf"({NAME})(?: \(([0-9]+) times\))?:( .*)?", line):
            self.piece(found[1], Piece(tuple(self.text(found[3])), int(found[2] or 1)))
        elif found := re.fullmatch(rf"({NAME}) = (\S+)", line):
            self.piece(found[1], Piece(path=found[2]))
        elif found := re.fullmatch(rf"({NAME}) <- (.+)", line):
            self.piece(found[1], Piece(words=tuple(found[2].split(" "))))
        else:
            raise self.fault("a line at the left edge is ==, $, exit, for, let, lines from, large, or a file")

    def read(self):
        """Reads the file, and answers its cases."""
        while self.at < len(self.lines):
            line = self.lines[self.at]
            self.at += 1
            if line.strip() == "" or line.startswith("#"):
                continue
            self.heading(line)
        return [case for row in self.rows for case in self.cases(row)]

    def cases(self, row):
        """The cases of a row: one for each line of its table, or one where it has none."""
        if not row.calls or row.status is None:
            raise self.fault("the row needs a $ line and an exit", row.line)
        if row.columns and not row.table:
            raise self.fault("the row's table is empty", row.line)
        for line in row.table or [""]:
            cells = [cell.strip(" ") for cell in line.split("|")] if len(row.columns) > 1 else [line]
            if row.columns and len(cells) != len(row.columns):
                raise self.fault(f"{len(row.columns)} columns, but {line}", row.line)
            yield self.case(row, dict(zip(row.columns, cells)), line)

    def case(self, row, cells, line):
        """The row with these cells in their places."""
        texts = {**self.texts, **cells}
        used = set()

        def value(found):
            if found[1] not in texts:
                raise self.fault(f"{{{found[1]}}} has no value", row.line)
            used.add(found[1])
            return texts[found[1]]

        def filled(lines):
            return tuple("\n".join(PLACEHOLDER.sub(value, line) for line in lines).split("\n")) if lines else ()

        def words(call):
            return tuple(PLACEHOLDER.sub(value, call).split(" ")) if call else ()

        files = {
            name: tuple(Piece(filled(it.lines), it.times, it.path, it.words and words(" ".join(it.words))) for it in pieces)
            for name, pieces in {**self.files, **row.files}.items()
        }
        only = tuple((start, filled(lines)) for start, lines in row.only_from)
        expected = Expected(row.status, filled(row.text), row.in_ticks, only)
        calls = tuple(words(call) for call in row.calls)
        if unused := set(cells) - used:
            raise self.fault(f"no line of the row has {{{sorted(unused)[0]}}}", row.line)
        title = f"{row.title} [{line}]" if cells else row.title
        case = Case(self.group, title, calls, files, expected, row.is_large)
        try:
            expected.pattern()
            for pieces in files.values():
                for piece in pieces:
                    text_of(piece.lines)
        except ValueError as error:
            raise self.fault(str(error), row.line) from error
        return case


def read_rows(path, group):
    """The cases of one file of rows."""
    return Reader(path, group).read()
