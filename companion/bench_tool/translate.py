"""Lines of NumPy, and lines that are nearly right, as lines of the language.

A line is brought into the form of Python by the patterns of `numpy_rules`, and Python's parser reads it. A call becomes the command of
that word, or what a rule says of it. What an expression holds within is bound to free names first. Each line is tried as it is made, in
a session with arrays like those that are named, which also says the types and shapes of what was made. So what is offered is accepted;
that it means the same as in NumPy, or is not offered, is tested with the lines of tools/rows/numpy_lines.txt.
"""
import ast
import re
import warnings
from typing import Collection, NamedTuple, Optional

from . import language
from .expressions import Expressions, rules
from .folded import Folded
from .numpy_rules import LINES, OPERATORS, WORDS
from .session import Reply, Session
from .tried import FLOATS, NAME, QUESTIONS, STRING, Stopped, Unknown, flat

__all__ = ["FLOATS", "Offer", "translated"]


class Offer(NamedTuple):
    """The lines with the meaning of a line, or none; why there are none, or what is to be known beside them; and the refusal of the last
    line, if it is refused."""

    lines: list[str]
    reasons: list[str]
    refusal: Optional[Reply] = None


def split(text: str) -> list[str]:
    """The words of a text, separated by blanks and commas outside brackets and quotes."""
    nested = r"\((?:[^()]|\([^()]*\))*\)?|\[(?:[^\[\]]|\[[^\[\]]*\])*\]?"
    return re.findall(rf"""(?:[^\s,()\[\]"']|"[^"]*"?|'[^']*'?|{nested}|[)\]])+""", text)


class Translation(Expressions):
    """The lines of statements."""

    def assign(self, target: ast.expr, value: ast.expr) -> None:
        if isinstance(target, ast.Name):
            self.goal = "" if any(isinstance(node, ast.Name) and node.id == target.id for node in ast.walk(value)) else target.id
            text = self.value(value)
            if self.is_scalar(value, text):
                text = f"copy {self.bound(text)} C"
            self._taken.add(target.id)
            if text != self.goal:
                self.write(f"{target.id} = {text}")
            self.goal = ""
        elif isinstance(target, (ast.Tuple, ast.List)):
            self.assign_several(list(target.elts), value)
        elif isinstance(target, ast.Attribute) and target.attr in ("shape", "dtype", "strides"):
            self.refuse(f"a {target.attr} is not assigned: `reshape` and `cast` make another array")
        else:
            self.assign_items(target, value)

    def assign_again(self, target: ast.expr, value: ast.expr, first: ast.expr) -> None:
        """Another target of a value that is assigned already: a number is a copy."""
        is_new = not self.reply.text.endswith("view")
        is_number = is_new and isinstance(target, ast.Name) and isinstance(first, ast.Name) and not self.info(first.id).shape
        if is_number and not self.is_constant(value):
            self.write(f"{target.id} = copy {first.id} C")  # type: ignore[attr-defined]
        else:
            self.assign(target, value if self.is_constant(value) else first)

    def assign_items(self, target: ast.expr, value: ast.expr) -> None:
        if isinstance(value, ast.Constant) and isinstance(value.value, str):
            value = ast.Constant(value.value.encode("latin-1", "replace")) if self.info(self.target(target)).type.startswith("|S") else value
        if isinstance(value, (ast.List, ast.Tuple)) and all(map(self.is_constant, flat(ast.List(value.elts)))):
            kind = self.info(self.target(target)).type
            text = self.literal(value) if kind.startswith("T") and isinstance(value, ast.Tuple) else self.bound(self._list(value, kind))
        else:
            text = self.operand(value)
        self.write(f"set {self.target(target)} = {text}")

    def assign_several(self, targets: list[ast.expr], value: ast.expr) -> None:
        """Several targets at once: all values are found before the first is assigned."""
        if isinstance(value, (ast.Tuple, ast.List)):
            values = list(value.elts)
        else:
            name = self.name(value)
            values = [ast.Subscript(ast.Name(name, ast.Load()), ast.Constant(k), ast.Load()) for k in range(self.info(name).shape[0])]
        if len(targets) != len(values) or any(isinstance(each, ast.Starred) for each in targets):
            self.refuse("as many names as values")
        for k, (target, each) in enumerate(zip(targets, values)):
            for later in range(k + 1, len(values)):
                values[later] = self.kept(values[later], target)
            self.assign(target, each)

    def kept(self, value: ast.expr, target: ast.expr) -> ast.expr:
        """A value that is still the same when a target was assigned."""
        names = {node.id for node in ast.walk(value) if isinstance(node, ast.Name)}
        if isinstance(target, ast.Name) and target.id in names and not isinstance(value, ast.Subscript):
            return ast.Name(self.kept_name(value), ast.Load())
        if isinstance(value, ast.Subscript):
            text = self.value(value)
            if self.is_scalar(value, text):
                return ast.Name(self.bound(f"copy {self.bound(text)} C"), ast.Load())
            return ast.Name(self.bound(text), ast.Load()) if isinstance(target, ast.Name) and target.id in names else value
        return value if self.is_constant(value) or isinstance(value, ast.Name) else ast.Name(self.name(value), ast.Load())

    def kept_name(self, value: ast.expr) -> str:
        if not isinstance(value, ast.Name):
            return self.name(value)
        name = self.free()
        self.write(f"{name} = {self._name(value)}")
        return name

    def target(self, node: ast.expr) -> str:
        """The target of a write: a name and an index."""
        text = self._subscript(node, True) if isinstance(node, ast.Subscript) else self.value(node) if isinstance(node, ast.Attribute) else \
            node.id if isinstance(node, ast.Name) else self.refuse()
        return text if text.endswith("]") else f"{self.bound(text)}[...]"

    def statement(self, node: ast.stmt) -> None:
        if isinstance(node, ast.Expr):
            self.expression(node.value)
            return
        self.fold(node)
        if isinstance(node, ast.Assign):
            self.assign(node.targets[-1], node.value)
            for target in node.targets[:-1]:
                self.assign_again(target, node.value, node.targets[-1])
        elif isinstance(node, ast.AnnAssign) and node.value:
            self.assign(node.target, node.value)
        elif isinstance(node, ast.AugAssign):
            self.update(node)
        elif isinstance(node, ast.Delete):
            for each in node.targets:
                self.write(f"del {each.id if isinstance(each, ast.Name) else self.refuse('an item is not unbound, only a name')}")
        else:
            self.refuse(f"there is no {re.sub('from|def', '', type(node).__name__.lower())}: each line is one command")

    def fold(self, node: ast.stmt) -> None:
        """Puts the numbers of arrays into the values of a statement, and into the indexes of its targets."""
        if isinstance(getattr(node, "value", None), ast.expr):
            node.value = Folded(self).visit(node.value)  # type: ignore[attr-defined]
        for target in getattr(node, "targets", [getattr(node, "target", None)]):
            if isinstance(target, ast.Subscript):
                target.slice = Folded(self).visit(target.slice)

    def update(self, node: ast.AugAssign) -> None:
        """An assignment such as `a += 1`."""
        sign = type(node.op).__name__
        if sign == "Pow" and isinstance(node.value, ast.Constant) and node.value.value == 2:
            target = self.target(node.target)
            self.write(f"upd {target} mul {target.removesuffix('[...]')}")
            return
        verb = OPERATORS.get(sign) or self.refuse("there are no floats: `//` is fdiv" if sign == "Div" else "there is no power and no `@`")
        text = self.operand(node.value)
        self.write(f"upd {self.target(node.target)} {verb} {text}")

    def expression(self, node: ast.expr) -> None:
        """A question about an array, a write by a function, or a print."""
        function = node.func if isinstance(node, ast.Call) else None
        word = function.attr if isinstance(function, ast.Attribute) else getattr(function, "id", "")
        given: list[ast.expr] = list(node.args) if isinstance(node, ast.Call) and not node.keywords else []
        asked = next((each for each in ast.walk(node) if isinstance(each, ast.Attribute) and each.attr in QUESTIONS), None)
        if asked and (node is asked or isinstance(node, (ast.Attribute, ast.Subscript)) or word == "print"):
            self.write(f"info {self.name(asked.value)}")
        elif word == "upd" and len(given) == 3:
            text = self.operand(given[2])
            self.write(f"upd {self.target(given[0])} {self.constant(given[1])} {text}")
        elif word == "fill" and isinstance(function, ast.Attribute) and len(given) == 1:
            self.assign_items(ast.Subscript(function.value, ast.Constant(...), ast.Store()), given[0])
        elif word in ("len", "info", "type", "format") and given:
            for each in given:
                self.write(f"{'format' if word == 'format' else 'info'} {self.name(each)}")
        elif word in ("print", "str", "repr", "display") and given:
            self.printed(given)
        elif word == "tolist" and isinstance(function, ast.Attribute):
            self.printed([function.value])
        elif WORDS.get(word, word) in ("shares", "save", "names"):  # numpy.save has the file first
            self.write(self.form(WORDS.get(word, word), sorted(given, key=lambda node: isinstance(node, ast.Constant)), {}))
        else:
            self.printed([node])

    def printed(self, nodes: list[ast.expr]) -> None:
        nodes = [Folded(self).visit(node) for node in nodes]
        if any(isinstance(node, (ast.Constant, ast.JoinedStr)) for node in nodes):
            self.refuse("`print` takes the names of arrays")
        for line in [f"print {self.name(node)}" for node in nodes]:
            self.write(line)


def quoted(text: str) -> str:
    """A file's name, quoted for Python."""
    return repr(text.strip("\"'"))


def python_of(line: str) -> str:
    """A line in Python's form. `Unknown` with the reason if there is none."""
    line = line.strip()
    for rule in LINES:
        if found := re.fullmatch(rule["when"], line):
            groups = ["", *found.groups()]
            text = re.sub(r"\$(\d)", lambda group: groups[int(str(group[1]))] or "", rule.get("as") or rule["say"])
            if "say" in rule:
                raise Unknown(text)
            line = text
    if found := re.fullmatch(rf"upd\s+({NAME}(?:\.{NAME})*\s*(?:\[.*?\])*)\s*(\w+)\s+(.+)", line):
        return f"upd({found[1]}, {WORDS.get(found[2], found[2])!r}, {found[3]})"
    if found := re.fullmatch(r"(print|info|format|del|shares)\s+([^\s=(].*)", line):
        parts = ", ".join(split(found[2]))
        return f"del {parts}" if found[1] == "del" else f"{found[1]}({parts})"
    if found := re.fullmatch(r"save\s+(\S+)\s+(\S+)", line):
        return f"save({found[1]}, {quoted(found[2])})"
    if found := re.fullmatch(rf"({NAME})\s*=\s*([^=].*)", line):
        return f"{found[1]} = {call_of(found[2])}"
    return call_of(line)


def is_python(text: str) -> bool:
    """Whether a text is an expression of Python."""
    try:
        with warnings.catch_warnings():
            warnings.simplefilter("ignore")
            return bool(ast.parse(text, mode="eval"))
    except (SyntaxError, ValueError, RecursionError, MemoryError):
        return False


def call_of(text: str) -> str:
    """`zeros <i4 (2,3)` as `bench.zeros('<i4', (2,3))`; other texts as they are."""
    verb, _, behind = text.partition(" ")
    word, args = WORDS.get(verb, verb), split(behind)
    is_known = word in {*language.verbs(True), "ones", *rules()} or hasattr(Expressions, f"call_{word}") or re.fullmatch(rf"{NAME} {NAME}", text)
    if not is_known or not args or is_python(text) and not re.match(r"[<>|=?]\S", behind.lstrip()) and not (word in ("zeros", "ones", "full") and behind.startswith("(")):
        return text
    args = [re.sub(r"^\((-?\d+)\)$", r"(\1,)", arg) for arg in args]
    args = [quoted(arg) if word == "load" else repr(arg) if re.match(r"[<>|=?]|T\{", arg) or STRING.match(arg) or re.fullmatch(r"U\d+", arg) else arg for arg in args]
    return f"bench.{word}({', '.join(args)})"


def translated(line: str, trial: Session, names: Collection[str]) -> Offer:
    """What a line is in the language. `trial` has arrays like those that the line names, and is changed; `names` are all that are taken."""
    made = Translation(trial, {*names, *re.findall(NAME, line)})
    try:
        for part in line.rstrip("; \t").split(";") if "'" not in line and '"' not in line else [line]:
            with warnings.catch_warnings():
                warnings.simplefilter("ignore")
                statements = ast.parse(python_of(part)).body
            for statement in statements:
                made.statement(statement)
    except Stopped as stopped:
        is_command = stopped.reply.code not in ("E01", "E02", "E03")
        return Offer(made.lines, made.reasons, stopped.reply) if is_command else Offer([], made.reasons)
    except Unknown as known:
        return Offer([], [*made.reasons, *filter(None, [str(known)])])
    except (SyntaxError, ValueError, TypeError, RecursionError, MemoryError, LookupError):
        return Offer([], [])
    return Offer([] if made.lines == [line.strip()] else made.lines, made.reasons)
