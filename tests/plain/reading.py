"""Lines are cut into tokens and read. What is refused in reading is refused at the byte that is due."""

import re
from dataclasses import dataclass, field

from plain import tables
from plain.operators import MOST_DEPTH, MOST_PROPERTIES, OPERATORS, Expression, names_of

Refused = tables.Refused

MOST_NAME, MOST_DIGITS, MOST_LINE, MOST_NOTE, MOST_BRACES, MOST_OPERATORS = 31, 20, 1_048_576, 255, 8, 15


@dataclass
class Token:
    at: int
    kind: str
    value: object


RUN = re.compile(rb"[A-Za-z0-9_]+")
NUMBER = re.compile(rb"0|-?[1-9][0-9]*")
TEXT = re.compile(rb'"(?:[^"\\\n\0]|\\["\\n])*"')
BYTES = re.compile(rb'x"((?:[0-9a-f]{2})*)"')
SIGNS = b"(){},:/=-"
ESCAPES = {"\\n": "\n", '\\"': '"', "\\\\": "\\"}


def is_number(text):
    return len(text) <= MOST_DIGITS and NUMBER.fullmatch(text) is not None and -2**63 <= int(text) < 2**63


def is_name(text):
    return not text[:1].isdigit() and len(text) <= MOST_NAME


def token_at(line, at):
    """The longest token that begins at a place, and its end; none where there is none."""
    digits = RUN.match(line, at + 1) if line[at:at + 1] == b"-" and line[at + 1:at + 2].isdigit() else None
    run = RUN.match(line, at)
    found = BYTES.match(line, at)
    if found:
        return Token(at, "bytes", bytes.fromhex(found[1].decode())), found.end()
    if run and run[0] == b"x" and line[run.end():run.end() + 1] == b'"':
        return None
    if run or digits:
        end = (run or digits).end()
        if is_number(line[at:end]):
            return Token(at, "number", int(line[at:end])), end
        return (Token(at, "word", line[at:end].decode()), end) if run and is_name(run[0]) else None
    found = TEXT.match(line, at)
    if found:
        inner = re.sub(r'\\["\\n]', lambda escape: ESCAPES[escape[0]], found[0][1:-1].decode())
        return Token(at, "text", inner), found.end()
    return (Token(at, chr(line[at]), None), at + 1) if line[at] in SIGNS else None


def tokens_of(line):
    """The tokens up to the first piece that is none, and the place of that piece, or none."""
    tokens, at = [], 0
    while at < len(line):
        if line[at:at + 1] == b" ":
            at += 1
            continue
        found = token_at(line, at)
        if not found:
            return tokens, at
        tokens.append(found[0])
        at = found[1]
    return tokens, None


class NoFurther(Exception):
    """No command can go on at the next token."""


class TooDeep(Exception):
    """The operator at the next token would make an expression too deep."""


@dataclass
class Reader:
    """Reads what stands behind the last token that was taken."""

    tokens: list
    taken: int = 0

    def kind(self, ahead=0):
        at = self.taken + ahead
        return self.tokens[at].kind if at < len(self.tokens) else None

    def take(self, *kinds):
        if self.kind() not in kinds:
            raise NoFurther
        self.taken += 1
        return self.tokens[self.taken - 1].value

    def has(self, sign):
        """Takes the sign where it comes next."""
        found = self.kind() == sign
        self.taken += found
        return found

    def several(self, one):
        found = [one()]
        while self.has(","):
            found.append(one())
        return found

    def name(self):
        return self.take("word")

    def names(self):
        return self.several(self.name)

    def number(self):
        if self.kind() == "number" and self.tokens[self.taken].value < 0:
            raise NoFurther
        return self.take("number")

    def step(self):
        return self.take("number")

    def literal(self, braces=0):
        if self.kind() != "{":
            return self.take("number", "text", "bytes")
        if braces == MOST_BRACES:
            raise NoFurther
        self.take("{")
        rows = [] if self.kind() == "}" else self.several(lambda: self.row(braces + 1))
        self.take("}")
        return rows

    def row(self, braces):
        self.take("(")
        cells = self.several(lambda: self.literal(braces))
        self.take(")")
        return cells

    def literals(self):
        found = []
        while self.kind() is not None:
            found.append(self.literal())
        return found

    def criteria(self):
        return self.several(self.criterion)

    def criterion(self):
        name = self.name()
        self.take("=")
        return name, self.literal()

    def bounds(self):
        return self.several(self.bound)

    def bound(self):
        name, low = self.criterion()
        self.take(":")
        return name, low, self.literal()

    def keys(self):
        return self.several(self.key)

    def key(self):
        down = self.has("-")
        return self.name(), down

    def path(self):
        steps = [self.name()]
        while self.has("/"):
            row = self.number()
            self.take("/")
            steps.append((row, self.name()))
        return tuple(steps)

    def expression(self, around=0):
        """An expression that so many operators stand around."""
        word = self.tokens[self.taken].value if self.kind() == "word" else None
        if word not in OPERATORS or self.kind(1) != "(":
            return self.path()
        if around == MOST_OPERATORS:
            raise TooDeep
        self.taken += 2
        bases = [self.expression(around + 1)]
        for _ in range(OPERATORS[word].bases - 1):
            self.take(",")
            bases.append(self.expression(around + 1))
        return self.ended(word, bases)

    def operation(self):
        """An operator that may be watched, of a name alone."""
        if self.kind() != "word" or self.tokens[self.taken].value not in WATCHED:
            raise NoFurther
        word = self.take("word")
        self.take("(")
        return self.ended(word, [(self.name(),)])

    def ended(self, word, bases):
        """The operator of these tables, once what stands behind them is read."""
        given = [[]] if word == "sort" and self.kind() != "," else self.given(OPERATORS[word])
        self.take(")")
        return Expression(word, bases, given)

    def given(self, operator):
        """The arguments behind the tables."""
        found = []
        for part in operator.parts:
            self.take(",")
            if part == "names:name":
                found.append(self.names())
                self.take(":")
                part = "name"
            found.append(getattr(self, part)())
        return found

    def note(self):
        if self.kind() == "text" and len(self.tokens[self.taken].value.encode()) > MOST_NOTE:
            raise NoFurther
        return self.take("text") if self.kind() is not None else ""


WATCHED = ("select", "range", "sort", "counts", "keep")

# The parts that stand behind the word of each command, of which `getas` is read apart.
COMMANDS = {
    "getas": (), "drop": ("name",), "struct": (), "add": ("path", "literals"), "insert": ("path", "number", "number", "literals"),
    "set": ("path", "number", "name", "literal"), "remove": ("path", "number", "number"), "size": ("expression",), "show": ("expression",),
    "find": ("expression", "number", "criteria"), "search": ("expression", "criteria"), "locate": ("expression", "criteria"),
    "dup": ("name", "expression"), "undup": ("name",), "watch": ("name", "operation"), "unwatch": ("name",), "hash": ("name", "number"), "ordered": ("name", "number"), "unmap": ("name",),
    "cursor": ("name", "name"), "uncursor": ("name",), "next": ("name",), "prev": ("name",),
    "row": ("name",), "commit": ("note",), "log": (), "rollback": (), "revert": (), "reopen": (), "space": (), "quit": (),
}


def syntax(at):
    return Refused(f"2 syntax {at}")


def read_line(line):
    """The word of the command and what it is given; none where the line is blank."""
    if len(line) > MOST_LINE:
        raise Refused("8 limit")
    try:
        line.decode()
    except UnicodeDecodeError as error:
        raise syntax(error.start)
    if not line.strip(b" "):
        return None
    begin = len(line) - len(line.lstrip(b" "))
    first = RUN.match(line, begin)
    return read_getas(line, begin) if first and first[0] == b"getas" else read_tokens(line)


def read_tokens(line):
    tokens, broken = tokens_of(line)
    reader = Reader(tokens)
    try:
        word = reader.take("word")
        if word not in COMMANDS:
            reader.taken = 0
            raise NoFurther
        given = [getattr(reader, part)() for part in COMMANDS[word]]
        if broken is None and reader.kind() is None:
            return word, given
    except TooDeep:
        raise Refused("8 limit")
    except NoFurther:
        pass
    if broken is not None:
        raise syntax(broken)
    raise syntax(tokens[reader.taken].at if reader.taken < len(tokens) else len(line))


def read_getas(line, begin):
    at = begin + len("getas")
    if line[at:at + 1] not in (b"", b" "):
        raise syntax(begin)
    rest = line[at:].lstrip(b" ")
    at = len(line) - len(rest)
    return "getas", StructureReader(rest.rstrip(b" ").decode(), at).whole()


@dataclass
class StructureReader:
    """Reads a structure text, and notes the offences on the way. That furthest left is told, of two at one place the first that was noted."""

    text: str
    begin: int
    at: int = 0
    offences: list = field(default_factory=list)

    def whole(self):
        try:
            name, props = self.name([], 0), self.props(1)
            if self.at < len(self.text):
                raise NoFurther
        except NoFurther:
            self.note("2 syntax {}", self.at)
        if self.offences:
            at, refusal = min(self.offences, key=lambda offence: offence[0])
            raise Refused(refusal.format(self.begin + len(self.text[:at].encode())))
        return name, props

    def note(self, refusal, at):
        self.offences.append((at, refusal))

    def sign(self, sign):
        if self.text[self.at:self.at + 1] != sign:
            raise NoFurther
        self.at += 1

    def name(self, before, count):
        found = re.compile(r"[A-Za-z_][A-Za-z0-9_]*").match(self.text, self.at)
        if not found:
            raise NoFurther
        if count == MOST_PROPERTIES or len(found[0]) > MOST_NAME:
            self.note("8 limit", self.at)
        if found[0] in before:
            self.note("4 exists", self.at)
        self.at = found.end()
        return found[0]

    def props(self, deep):
        if deep > MOST_DEPTH and self.text[self.at:self.at + 1] == "[":
            self.note("8 limit", self.at)
        self.sign("[")
        found = []
        while True:
            name = self.name(names_of(found), len(found))
            found.append((name, self.kind(deep)))
            if self.text[self.at:self.at + 1] != ",":
                break
            self.at += 1
        self.sign("]")
        return tuple(found)

    def kind(self, deep):
        if self.text[self.at:self.at + 1] == "[":
            return self.props(deep + 1)
        self.sign(":")
        letter = self.text[self.at:self.at + 1]
        if letter in ("F", "D"):
            self.note("13 floating {}", self.at)
        elif letter not in ("I", "L", "S", "B"):
            raise NoFurther
        self.at += 1
        return letter
