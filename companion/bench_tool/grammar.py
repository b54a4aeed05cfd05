"""How a line is read as a command, and where it stops being one. The forms are those of LANGUAGE's table of commands."""
import re
from functools import lru_cache
from itertools import repeat
from typing import Any, Collection, NamedTuple, Optional

from . import language
from .numpy_rules import phrase

LITERAL, ARRAY = "a literal, as 1, True or b'x'", "the name of an array"
ARGUMENT = f"{ARRAY} or {LITERAL}"
VERB, COMMAND, END = "an array, or a word such as zeros, add or sum", "a command, or a name and `=`", "the end of the line"
TYPE, OPERATION, ORDER = "a type, as <i4", "an operation, as add", "`C` or `F`"
ENTRY = "an integer, a slice as 1:3, `...`, None or an array of integers or bools"
FIELD, FILE = "a name in quotes", "a file name in quotes: letters, digits, `_`, `-` and `.`, no folder"
OPENING = re.compile(r"[ \t]*(\w*)[ \t]*(?:=[ \t]*(\w*))?", re.ASCII)
PARTED = r"(?=b'|[^\w+-]|$)"  # behind a word or a number no other begins at once, but a byte string
INTEGER = rf"[+-]?[0-9]{{1,30}}{PARTED}"
RECORD = re.compile(r"[@=<>!^]*T\{")
PIECE = re.compile(r'[XY]\[i[xy]\]|L\.\.|"f"|\(axes\)|\[\w+\]|=|\w+')
# The word of a form, a piece of it, and what that piece is there: Y[?] may have an index, a length of S- a sign, "field" any letter.
SPECIAL = [("OP", "Y", "Y[?]"), ("UN", "Y", "Y[?]"), ("reshape", "S", "S-"), ("field", '"f"', '"field"')]


class Part(NamedTuple):
    """A piece of a form, its text in a line, and the tree of its rule there: of a token the text, of a list the tree of the rule that
    holds, of `Many` and of a tuple a list of trees."""

    piece: str
    text: str
    tree: Any


class Token(NamedTuple):
    """A pattern, and its name in messages that say it is missing; one without a name is never missed. `is_glued`: no blank before it."""

    pattern: str
    what: str = ""
    is_glued: bool = False


class Many(NamedTuple):
    """A rule any number of times."""

    rule: Any


Form = list[tuple[str, Any]]  # pieces, each with its rule


# A rule is a token, a tuple of rules one behind another, a list of rules of which the first that fits holds, `Many`, or TYPE.
def maybe(rule: Any) -> list[Any]:
    return [rule, ()]


def mark(text: str, is_glued: bool = False) -> Token:
    return Token(re.escape(text), f"`{text}`", is_glued)


def word(words: Collection[str], what: str) -> Token:
    return Token(rf"(?:{'|'.join(words)})(?!\w){PARTED}", what)


def listed(item: Any) -> Any:
    return item, Many((mark(","), item))


def literal(what: str) -> Any:
    """A number, a bool, a byte string, or a record of these, up to four levels deep."""
    scalars: list[Any] = [Token(r"b'(?:[ -&(-\[\]-~]|\\x[0-9A-Fa-f]{2})*'", what), word(("True", "False"), what), Token(INTEGER, what)]
    inner = scalars
    for _ in range(4):
        inner = [*scalars, (Token(r"\("), listed(inner), maybe(mark(",")), mark(")"))]
    return inner


def shape(length: str) -> Any:
    return Token(r"\(", "a shape, as (2,3)"), maybe((*listed(Token(length, "a length")), maybe(mark(",")))), mark(")")


def index() -> Any:
    """An index, directly after the name: entries of which at most one is `...`."""
    number = maybe(Token(INTEGER))
    entry = [(number, Token(":"), number, maybe((Token(":"), number))), Token(INTEGER, ENTRY), Token(rf"None(?!\w){PARTED}"), name(ENTRY)]
    more, dots = Many((mark(","), entry)), Token(r"\.\.\.")
    return mark("[", True), [(dots, more), (entry, more, maybe((mark(","), dots, more)))], mark("]")


@lru_cache(None)
def reserved() -> frozenset[str]:
    """The words that cannot be names."""
    verbs = [*language.verbs(True), *language.verbs(False), *(word for words in language.operations().values() for word in words)]
    return frozenset([*verbs, "True", "False", "None"])


def name(what: str) -> Token:
    return Token(rf"(?!(?:{'|'.join(sorted(reserved()))})(?!\w))[A-Za-z_]\w{{0,31}}(?!\w){PARTED}", what)


def rule_of(piece: str, what: str) -> Any:
    """The rule for a piece of a form; `what` is the name of an array or of a word there."""
    rules: dict[str, Any] = {
        "=": mark("="), "X": name(what), "Y": name(what), "D": TYPE, "S": shape(INTEGER.replace("[+-]?", "")), "S-": shape(INTEGER),
        "(axes)": shape(INTEGER), "L": literal(LITERAL), "L..": Many(literal(LITERAL)), "a": Token(INTEGER, "the first integer"),
        "b": Token(INTEGER, "the end, an integer"), "s": Token(INTEGER, "the step, an integer"), "[axis]": maybe(Token(INTEGER, "an axis")),
        "[keep]": maybe(word(["keep"], "keep")), "Y[?]": (name(what), maybe(index())), '"field"': Token('"[^"]*"', FIELD),
        '"f"': Token(r'"\w[\w.-]{0,63}"', FILE), "Z": [literal(ARGUMENT), (name(ARGUMENT), maybe(index()))],
        "C": word("C", ORDER), "F": word("F", ORDER),
    }
    if piece not in rules and piece[1:2] == "[":
        return name(what), index()
    return rules.get(piece) or word(language.operations().get(piece, [piece]), what if what != ARRAY else OPERATION)


@lru_cache(None)
def forms() -> list[Form]:
    """The pieces of each form of a command, each with its rule."""
    made = []
    for form in (form for command in language.commands() for form in command.forms):
        found = [next((new for word, old, new in SPECIAL if word in form and piece == old), piece) for piece in PIECE.findall(form)]
        first = 2 if found[1:2] == ["="] else 0  # the place of what a command begins with, behind `X =`
        made.append([(piece, rule_of(piece, COMMAND if k == 0 else VERB if k == first else ARRAY)) for k, piece in enumerate(found)])
    return made


@lru_cache(None)
def openings() -> dict[str, list[Form]]:
    """The forms by the word that they begin with, at once or behind `X =`; those of `X = Y` by no word."""
    found: dict[str, list[Form]] = {}
    for form in forms():
        first = form[2 if form[1:2] and form[1][0] == "=" else 0][0]
        for word in language.operations().get(first, [first if first.islower() else ""]):
            found.setdefault(word, []).append(form)
    return found


@lru_cache(None)
def compiled(pattern: str) -> "re.Pattern[str]":
    return re.compile(pattern, re.ASCII)


class Reading:
    """A line, matched against each form: `found`, all pieces of the form that it matches as a whole, and `parts`, those that are there;
    otherwise `far`, the place up to which it matches some form, and `wanted`, what could come there, each with the remaining pieces of
    the form. If `names` are given, only these are arrays."""

    def __init__(self, line: str, names: Optional[Collection[str]] = None):
        self.line, self.names = line, names
        first, value = OPENING.match(line).groups()  # type: ignore[union-attr]
        likely = openings().get(first if value is None else value) or openings()[""]
        self.found = self._matched(likely) or self._matched(forms())
        self.parts = [part for part in self.found if part.text]

    def _matched(self, tried: list[Form]) -> list[Part]:
        """The parts of the line by the first form that it matches, if there is one."""
        self.far, self.wanted = 0, dict[str, list[str]]()
        self._behind: Form = []
        return next(filter(None, map(self._form, tried)), [])

    def _form(self, form: Form) -> list[Part]:
        at, parts = 0, []
        for k, (piece, rule) in enumerate(form):
            self._behind = form[k:]
            found = self._read(rule, at)
            if found is None:
                return []
            end, tree = found
            parts.append(Part(piece, self.line[self._skip(at):end], tree))
            at = end
        self._behind = []
        if self._skip(at) < len(self.line):
            self._want(at, END)
            return []
        return parts

    def _read(self, rule: Any, at: int) -> Optional[tuple[int, Any]]:
        """The end of a rule that begins at a place, and the tree of what it reads."""
        if isinstance(rule, Token):
            return self._token(rule, at)
        if rule is TYPE:
            return self._type(at)
        if isinstance(rule, list):
            return next(filter(None, (self._read(each, at) for each in rule)), None)
        trees: list[Any] = []
        for each in repeat(rule.rule) if isinstance(rule, Many) else rule:
            if (found := self._read(each, at)) is None:
                return (at, trees) if isinstance(rule, Many) else None
            at = found[0]
            trees.append(found[1])
        return at, trees

    def _token(self, token: Token, at: int) -> Optional[tuple[int, str]]:
        begin = at if token.is_glued else self._skip(at)
        found = compiled(token.pattern).match(self.line, begin)
        if found and (self.names is None or not self._is_unbound(token, found[0])):
            return found.end(), found[0]
        is_apart = token.is_glued and self.line.startswith("[", self._skip(at))
        return self._want(at, token.what + " at once behind the name" * is_apart)

    def _is_unbound(self, token: Token, text: str) -> bool:
        is_array = token.what in (ARRAY, VERB, ARGUMENT) and text.isidentifier() and text not in reserved()
        return is_array and text not in (self.names or ())

    def _type(self, at: int) -> Optional[tuple[int, str]]:
        """A type: after a blank, up to the next blank or the brace that closes a record."""
        begin = self._skip(at)
        if begin == at or begin == len(self.line):
            return self._want(at, TYPE)
        if not (found := RECORD.match(self.line, begin)):
            text = re.split(r"[ \t]", self.line[begin:])[0]
            return begin + len(text), text
        depth, is_named, end = 1, False, found.end()
        while depth:
            if end == len(self.line):
                return self._want(end, "`}`")
            letter, end = self.line[end], end + 1
            depth += 0 if is_named else {"{": 1, "}": -1}.get(letter, 0)
            is_named ^= letter == ":"
        return (end, self.line[begin:end]) if compiled(PARTED).match(self.line, end) else self._want(end, "a blank")

    def _want(self, at: int, what: str) -> Optional[tuple[int, str]]:
        """Notes that something is missing at a place, where nothing is read then."""
        at = self._skip(at)
        if what and at > self.far:
            self.far, self.wanted = at, {}
        if what and at == self.far:
            self.wanted.setdefault(what, [piece for piece, _ in self._behind])
        return None

    def _skip(self, at: int) -> int:
        while at < len(self.line) and self.line[at] in " \t":
            at += 1
        return at

    def stop(self) -> tuple[int, str]:
        """The place where the line stops being a command, and what could come there."""
        begin = self._skip(0)
        first, behind = re.match(r"(\w*)\s*(.?)", self.line[begin:]).groups()  # type: ignore[union-attr]
        if self.far == begin and first in reserved():
            return begin, phrase("reserved" if behind == "=" else "before", first)
        if self.far == begin and len(first) > 32:
            return begin, phrase("long name")
        if list(self.wanted) == ["`=`"] and first not in ("set", "upd") and re.match("[\\w\"']|$", behind):
            return begin, COMMAND
        wanted = [what for what in self.wanted if what != "`[`" or len(self.wanted) == 1]
        return self.far, " or ".join([", ".join(wanted[:-1]), wanted[-1]] if len(wanted) > 1 else wanted)

    def place(self) -> list[str]:
        """The line, cut around the place where it stops being a command, and below it a caret and what could come there."""
        far, wanted = self.stop()
        begin = max(0, far - 50)
        cut = self.line[begin:begin + 70].rstrip()
        return [cut, " " * min(far - begin, len(cut) + 1) + "^ " + wanted]
