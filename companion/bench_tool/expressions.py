"""Expressions of NumPy as lines: each is what follows `X =`, and what it holds within is bound to free names first."""
import ast
import re
from functools import lru_cache
from math import prod
from typing import Any, Callable, Optional, Sequence

from . import grammar, item_types, language
from .folded import Folded
from .numpy_rules import AND, CALLS, NO_FLOATS, NO_TEXT, OPERATORS, TURNED, TYPES, WORDS
from .session import literal
from .tried import (BUILTINS, FLOATS, NAME, STRING, WHY, Lines, along, flat, is_type, kind_of, member, promoted, shape_of, shaped,
                    stretched)


@lru_cache(None)
def pieces(word: str) -> list[str]:
    """The pieces after a word in its form, of the longest form if there are several; none if it is not a word of a command."""
    found = []
    for form in grammar.forms():
        names = [piece for piece, _ in form]
        begin = 2 if names[1:2] == ["="] else 0
        if word in language.operations().get(names[begin], names[begin:begin + 1]):
            found.append(names[begin + 1:])
    return max(found, key=len, default=[])


class Filled(ast.NodeTransformer):
    """An expression of a rule with the arguments in the places of its parameters."""

    def __init__(self, given: dict[str, ast.expr]):
        self.given = given

    def visit_Name(self, node: ast.Name) -> ast.expr:
        return self.given.get(node.id, node)


@lru_cache(None)
def rules() -> dict[str, list[tuple[list[str], str, Any]]]:
    """The rules of each word: the parameters, the condition, and what the call is."""
    found: dict[str, list[tuple[list[str], str, Any]]] = {}
    for call, condition, made in CALLS:
        word, _, parameters = call.rstrip(")").partition("(")
        found.setdefault(word, []).append(([each.strip() for each in parameters.split(",")], condition, made))
    return found


class Expressions(Lines):
    """The lines of expressions."""

    def type(self, node: Optional[ast.expr]) -> str:
        """A dtype as a type."""
        if node is None:
            return "<i8"
        if isinstance(node, ast.List):
            fields = [self.constant(field) for field in node.elts]
            if any(len(field) != 2 or not isinstance(field[1], str) for field in fields):
                self.refuse("a field has a name and a type: an array or a record within is made field by field")
            return "T{" + "".join(f"{member(self.type(ast.Constant(kind)))}:{name}:" for name, kind in fields) + "}"
        if isinstance(node, ast.Attribute) and node.attr == "dtype":
            return self.info(self.operand(node.value)).type
        word = node.attr if isinstance(node, ast.Attribute) else node.id if isinstance(node, ast.Name) else str(self.constant(node))
        if FLOATS.match(word):
            self.refuse(NO_FLOATS)
        if re.fullmatch(r"[<>|=]?U\d*|str", word):
            self.refuse(NO_TEXT)
        if found := STRING.match(word):
            mark = "|" if found[3] in ("1", None) else ">" if found[1] == ">" else "<"
            return mark + (found[2] + found[3] if found[2] else f"S{found[4]}" if found[4] else "b1")
        return TYPES.get(word) or (word if word.startswith("T{") else self.refuse())

    def operand(self, node: ast.expr) -> str:
        """An operand: a name, a name with an index, or a literal."""
        if self.is_constant(node):
            return self.literal(node)
        text = self.value(node)
        return text if re.fullmatch(rf"{NAME}(\[.*\])?", text) else self.bound(text)

    def name(self, node: ast.expr) -> str:
        """A value as a name, to be read."""
        return self._name(node) if isinstance(node, ast.Name) else self.bound(self.value(node))

    def base(self, node: ast.expr) -> str:
        """A value as a name of which a view is made. A number of an array is a copy, as it is in NumPy."""
        if isinstance(node, ast.Name):
            return self._name(node)
        text = self.value(node)
        return self.bound(f"copy {self.bound(text)} C" if self.is_scalar(node, text) else text)

    def value(self, node: ast.expr) -> str:
        """What follows `X =`."""
        reader = getattr(self, f"_{type(node).__name__.lower()}", None)
        return str(reader(node)) if reader else self.refuse()

    def _name(self, node: ast.Name) -> str:
        return node.id

    def _constant(self, node: ast.expr) -> str:
        return f"full {kind_of([self.constant(node)])} () {self.literal(node)}"

    def _list(self, node: Any, kind: str = "") -> str:
        if not all(self.is_constant(item) for item in flat(ast.List(node.elts))):
            return self.call_stack(node) if not kind else self.refuse()
        is_record = kind.startswith("T")
        if is_record and isinstance(node, ast.Tuple):
            return f"full {kind} () {self.literal(node)}"
        values = self.constant(ast.List([each if is_record else listed(each) for each in node.elts], ast.Load()))
        shape, items = shape_of(values), flat(values)
        if not items and not kind:
            self.refuse("an empty list is one of floats in NumPy: write its type, as `array <i8 (0)`")
        kind = kind or kind_of(items)
        return " ".join([f"array {kind} {shaped(shape)}", *(self.of_text(ast.Constant(item), kind) if isinstance(item, str) else literal(item) for item in items)])

    _tuple = _list

    def _subscript(self, node: ast.Subscript, is_target: bool = False) -> str:
        base = self.base(node.value)
        key = node.slice
        if isinstance(key, ast.Constant) and isinstance(key.value, str):
            return f'field {base} "{key.value}"'
        if isinstance(key, ast.List) and any(isinstance(each, ast.Constant) and isinstance(each.value, str) for each in key.elts):
            self.refuse("one field at a time")
        nodes = key.elts if isinstance(key, ast.Tuple) else [key]
        entries = [self.entry(each) for each in nodes]
        if not is_target and any(not self.is_number(each) and re.fullmatch(NAME, text) and text not in ("None",) and not self.info(text).shape
                                 for each, text in zip(nodes, entries)) and len(entries) < len(self.info(base).shape):
            self.refuse("an index that is an array makes a copy here: write the number")
        return f"{base}[{','.join(entries) or '...'}]"

    def is_number(self, node: ast.expr) -> bool:
        return self.is_constant(node) and not isinstance(node, ast.Tuple)

    def entry(self, node: ast.expr) -> str:
        """An entry of an index."""
        if isinstance(node, ast.Slice):
            parts = ["" if part is None or isinstance(part, ast.Constant) and part.value is None else str(self.number(part)) for part in (node.lower, node.upper, node.step)]
            return ":".join(parts if parts[2] else parts[:2])
        if isinstance(node, ast.Constant) and node.value in (None, ...):
            return "..." if node.value is ... else "None"
        if isinstance(node, ast.Attribute) and node.attr == "newaxis":
            return "None"
        if isinstance(node, ast.List) and not node.elts:
            return self.bound("array <i8 (0)")
        return str(self.number(node)) if self.is_number(node) and not isinstance(self.constant(node), bool) else self.name(node)

    def _attribute(self, node: ast.Attribute) -> str:
        if isinstance(node.value, ast.Name) and node.value.id in ("np", "numpy", "bench"):
            self.refuse(WHY.get(node.attr, f"there is no `{node.attr}`"))
        base = self.base(node.value)
        if node.attr == "T":
            return f"transpose {base}"
        return f'field {base} "{node.attr}"' if node.attr in self.trial.fields(base) else self.refuse()

    def _binop(self, node: ast.BinOp) -> str:
        if isinstance(node.op, ast.Pow):
            return self.power(node)
        if isinstance(node.op, ast.Div):
            self.refuse("there are no floats: `//` is fdiv, which rounds down")
        return self.two(OPERATORS.get(type(node.op).__name__) or self.refuse("there is no power and no `@`"), node.left, node.right)

    def power(self, node: ast.BinOp) -> str:
        """A square or a cube."""
        if not isinstance(node.right, ast.Constant) or node.right.value not in (2, 3) or isinstance(node.right.value, bool):
            self.refuse("there is no power but `** 2` and `** 3`, by `mul`")
        base = self.operand(node.left)
        if self.is_constant(node.left) or item_types.read(self.info(base).type).kind not in "iu":
            self.refuse()
        self.check_types("mul", base, "2")
        return f"mul {base} {base}" if node.right.value == 2 else f"mul {self.bound(f'mul {base} {base}')} {base}"

    def _compare(self, node: ast.Compare) -> str:
        if len(node.ops) > 1:
            self.refuse("one comparison at a time; `&` joins two")
        if isinstance(node.ops[0], (ast.Is, ast.IsNot)):
            self.refuse("`shares a b` says whether two arrays have items in common")
        return self.two(OPERATORS.get(type(node.ops[0]).__name__) or self.refuse(), node.left, node.comparators[0])

    def _boolop(self, node: ast.BoolOp) -> str:
        is_and = isinstance(node.op, ast.And)
        self.reasons.append(AND.format(*("and", "&") if is_and else ("or", "|")))
        if len(node.values) != 2 or any(item_types.read(self.info(self.operand(each)).type).kind != "b" for each in node.values if isinstance(each, ast.Name)):
            self.refuse()
        return self.two("and" if is_and else "or", *node.values)

    def _unaryop(self, node: ast.UnaryOp) -> str:
        if self.is_constant(node):
            return self._constant(node)
        if isinstance(node.op, ast.Not):
            self.reasons.append(AND.format("not", "~"))
            return self.call("logical_not", [node.operand], {})
        if isinstance(node.op, ast.UAdd):
            return self.call("positive", [node.operand], {})
        return f"{OPERATORS[type(node.op).__name__]} {self.operand(node.operand)}"

    def two(self, verb: str, left: ast.expr, right: ast.expr) -> str:
        """An operation, whose first operand is an array."""
        if self.is_constant(left) and self.is_constant(right):
            self.refuse()
        if not self.is_constant(left):
            first, second = self.operand(left), self.operand(right)
            self.check_types(verb, first, second)
            return f"{verb} {first} {second}"
        other = self.operand(right)
        self.check_types(verb, other, self.literal(left))
        if verb in TURNED:
            return f"{TURNED[verb]} {other} {self.literal(left)}"
        kind = self.info(other).type
        made = self.bound(f"full {'<i8' if kind == '|b1' and not isinstance(self.constant(left), bool) else kind} () {self.literal(left)}")
        return f"{verb} {made} {other}"

    def check_types(self, verb: str, *texts: str) -> None:
        """Refuses a number together with an array or a literal where the type of the result depends on the version of NumPy."""
        arrays = [self.info(text) for text in texts if re.match(rf"{NAME}(\[|$)", text) and text not in ("True", "False")]
        is_mixed = len(arrays) == 2 and arrays[0].type != arrays[1].type and bool(arrays[0].shape) != bool(arrays[1].shape)
        is_alone = len(arrays) == 1 and not arrays[0].shape and arrays[0].type not in ("<i8", "|b1") and arrays[0].type[1] != "S"
        if verb not in language.lists()[1] and (is_mixed or is_alone):
            self.refuse("the type of a number of an array with one of another type depends on the version of NumPy: `cast` says which is meant")

    # Calls.

    def _call(self, node: ast.Call) -> str:
        """A function, or a method with its array as the first argument."""
        function, given, module = node.func, list(node.args), ""
        if any(isinstance(each, ast.Starred) for each in given):
            self.refuse()
        named = {keyword.arg or "": keyword.value for keyword in node.keywords}
        if isinstance(function, ast.Name):
            word = function.id
        elif not isinstance(function, ast.Attribute):
            return self.refuse()
        else:
            word = function.attr
            if word == "outer" and isinstance(function.value, ast.Attribute) and len(given) == 2:
                first = self.bound(f"{self.name(given[0])}[:,None]")
                return self.call(function.value.attr, [ast.Name(first, ast.Load()), given[1]], named)
            if isinstance(function.value, ast.Name) and function.value.id in ("np", "numpy", "bench"):
                module = function.value.id
            elif isinstance(function.value, ast.Attribute) and isinstance(function.value.value, ast.Name) and function.value.value.id in ("np", "numpy"):
                return self.refuse(WHY.get(word, f"there is no `{word}`"))
            else:
                given.insert(0, function.value)
                module = "method"
        try:
            return self.builtin(word, given, named) if not module and word in BUILTINS and not named else self.call(word, given, named, module)
        except (LookupError, TypeError, ValueError):  # too few arguments, or others than a piece can read
            return self.refuse()

    def builtin(self, word: str, given: list[ast.expr], named: dict[str, ast.expr]) -> str:
        """A function of Python, which goes along the first axis."""
        if len(given) != 1:
            return self.call(word, given, named)
        array = self.info(self.operand(given[0]))
        if len(array.shape) != 1:
            self.refuse(f"Python's `{word}` goes along the first axis; NumPy's is np.{word}, as `{word} a`")
        if word == "sum" and array.type != "<i8":
            self.refuse(f"Python's `sum` has another type than NumPy's: np.sum(a) is `sum a`, of type {'<u8' if array.type[1] == 'u' else '<i8'}")
        return self.call(word, given, named)

    def call(self, raw: str, given: list[ast.expr], named: dict[str, ast.expr], module: str = "") -> str:
        """What follows `X =` for a function with these arguments."""
        word = WORDS.get(raw, raw)
        for parameters, condition, made in rules().get(word, []):
            values = self.fitted(parameters, given, named)
            if values is None:
                continue
            if self.holds(condition, values):
                return self.by_rule(made, values)
            given = [values[parameter] for parameter in parameters[:len(given)]]  # what was bound to look at it stays bound
            named = {name: values[name] for name in named}
        if primitive := getattr(self, f"call_{word}", None):
            return str(primitive(*given, **named))
        if word in ("ones", "eye", "identity", "zeros") and not named.get("dtype") and not any(map(is_type, given)):
            if module not in ("np", "numpy") and word in ("ones", "zeros"):
                return self.command(*(("full", [*given, ast.Constant(1)]) if word == "ones" else (word, given)), named)
            self.refuse(f"without a type NumPy makes floats, and there are none: write `{raw}(.., int)`")
        if word == "asarray":
            return self.as_array(given, named)
        if word in language.operations()["OP"] and len(given) == 2 and not named:
            return self.two(word, *given)
        if word in ("max", "min") and len(given) == 2 and not self.is_constant(given[1]) and not named:
            return self.call(f"{word}imum", given, named)
        if word not in language.verbs(True):
            self.refuse(WHY.get(raw, f"there is no `{raw}`" if given and raw not in grammar.reserved() else ""))
        return self.command(word, given, named)

    def fitted(self, parameters: list[str], given: list[ast.expr], named: dict[str, ast.expr]) -> Optional[dict[str, ast.expr]]:
        """The arguments by their parameters, or None if they are others."""
        if len(given) > len(parameters):
            return None
        found = dict(zip(parameters, given))
        if set(found) & set(named) or set(parameters) != set(found) | set(named):
            return None
        return {**found, **named}

    def holds(self, condition: str, values: dict[str, ast.expr]) -> bool:
        """Whether the arguments are as a condition says."""
        pairs = [each.split() for each in condition.split(",") if each.strip()]
        return all(self.is_so(what, parameter, values) for what, parameter in pairs)

    def is_so(self, what: str, parameter: str, values: dict[str, ast.expr]) -> bool:
        node = values[parameter]
        is_list = isinstance(node, (ast.List, ast.Tuple)) and bool(node.elts)
        if what in ("number", "none", "tuple", "array"):
            is_none = isinstance(node, ast.Constant) and node.value is None
            return {"number": self.is_number(node), "none": is_none, "tuple": isinstance(node, ast.Tuple),
                    "array": not self.is_constant(node) and not is_none and not isinstance(node, ast.List) or is_list and what == "array" and parameter == "indices"}[what]
        if what == "0":
            return self.is_number(node) and self.constant(node) == 0
        if self.is_constant(node) and not is_list:
            return False
        nodes: list[ast.expr] = list(node.elts) if is_list else [node]  # type: ignore[attr-defined]
        for k, each in enumerate(nodes):
            nodes[k] = self.simple(each)
        if is_list:
            node.elts = nodes  # type: ignore[attr-defined]
        else:
            values[parameter] = nodes[0]
        arrays = [self.info(self.operand(each)) for each in nodes]
        if what.isdigit():
            return all(len(array.shape) == int(what) for array in arrays)
        if what == "C":
            return "C" in arrays[0].order
        if what == "copies":
            return self.trial.send(f"_copy = reshape {self.operand(nodes[0])} (-1)").text.endswith("copy") and self.trial.send("del _copy").accepted
        letters = {"bool": "b", "integer": "iu", "unsigned": "bu"}[what]
        return all(item_types.read(array.type).kind in letters for array in arrays)

    def simple(self, node: ast.expr) -> ast.expr:
        """An argument that may stand in several places: an expression is bound first."""
        is_simple = isinstance(node, (ast.Name, ast.List, ast.Tuple, ast.Attribute)) or self.is_constant(node) or is_type(node) or isinstance(node, ast.Constant)
        return node if is_simple and not (isinstance(node, ast.Attribute) and node.attr == "T") else ast.Name(self.base(node), ast.Load())

    def by_rule(self, made: Any, values: dict[str, ast.expr]) -> str:
        """What a call is by its rule."""
        if isinstance(made, str) and made.startswith("!"):
            self.refuse(made[1:])
        if isinstance(made, str):
            filled = Filled({name: self.simple(node) for name, node in values.items()}).visit(ast.parse(made, mode="eval").body)
            if isinstance(filled, ast.Name):
                return self._name(filled)
            return self.value(Folded(self).visit(filled))
        texts = {name: self.type(node) if name == "dtype" else self.operand(node) if self.is_constant(node) else self.base(node) for name, node in values.items()}
        texts["x"] = (self.goal or self.free()) if len([line for line in made if "$x" in line]) > 1 or made[-1][:4] != "$x =" else ""
        for word in "tuv":
            if any(f"${word}" in line for line in made):
                texts[word] = self.free()
        lines = [re.sub(r"\$(\w+)", lambda found: texts[str(found[1])], line) for line in made]
        if not texts["x"]:
            for line in lines[:-1]:
                self.write(line)
            return lines[-1].partition("= ")[2]
        for line in lines:
            self.write(line)
        return texts["x"]

    def lengths(self, node: ast.expr) -> list[int]:
        """A shape: an integer, or several."""
        found = self.constant(node)
        lengths = list(found) if isinstance(found, (tuple, list)) else [found]
        return lengths if all(isinstance(length, int) and not isinstance(length, bool) for length in lengths) else self.refuse()

    def command(self, word: str, given: list[ast.expr], named: dict[str, ast.expr]) -> str:
        """A command of the language with these arguments."""
        if word == "full" and not any(map(is_type, given)) and "dtype" not in named:
            named["dtype"] = ast.Constant(kind_of([self.constant(given[-1])]))
        if word == "array":
            return self.array(given, named)
        types, others = [node for node in given if is_type(node)], [node for node in given if not is_type(node)]
        if word == "arange":
            others = [ast.Constant(0)] * (len(others) < 2) + others + [ast.Constant(1)] * (len(others) < 3)
        return self.form(word, types[:1] + others if len(types) < 2 else self.refuse(), named)

    def array(self, given: list[ast.expr], named: dict[str, ast.expr]) -> str:
        """An array of literals, or of another array."""
        kind = named.pop("dtype", None) or next((node for node in given if is_type(node)), None)
        others = [node for node in given if node is not kind]
        if named or not others:
            self.refuse()
        if len(others) == 1 and isinstance(others[0], (ast.List, ast.Tuple)):
            return self._list(others[0], self.type(kind) if kind else "")
        if len(others) == 1 and not self.is_constant(others[0]):
            array = self.name(others[0])
            return f"cast {array} {self.type(kind)}" if kind else f"copy {array} C"
        if len(others) == 1:
            return f"full {self.type(kind) if kind else kind_of([self.constant(others[0])])} () {self.literal(others[0])}"
        return self.of_literals(self.type(kind), others)

    def as_array(self, given: list[ast.expr], named: dict[str, ast.expr]) -> str:
        """An array of literals; or the array itself, if it has the type that is asked for."""
        kind = named.get("dtype") or (given[1] if len(given) > 1 else None)
        is_array = not self.is_constant(given[0]) and not isinstance(given[0], ast.List)
        if is_array and (kind is None or self.type(kind) == self.info(self.operand(given[0])).type):
            return self.value(given[0])
        return self.array(given, named)

    def of_literals(self, kind: str, nodes: list[ast.expr]) -> str:
        """An array of literals with its shape before them; numbers may be the shape if so many literals follow."""
        if isinstance(nodes[0], (ast.Tuple, ast.List)):
            shape, values = self.lengths(nodes[0]), [value for node in nodes[1:] for value in flat(node)]
        else:
            numbers = [self.constant(node) for node in nodes]
            begin = next((k for k in range(1, len(numbers)) if all(type(each) is int for each in numbers[:k]) and prod(numbers[:k]) == len(numbers) - k), 0)
            shape, values = (numbers[:begin], nodes[begin:]) if begin else ([len(nodes)], nodes)
        return " ".join([f"array {kind} {shaped(shape)}", *(self.of_text(value, kind) for value in values)])

    def of_text(self, node: ast.expr, kind: str) -> str:
        """A literal; a text stands for a byte string where the type says so."""
        found = self.constant(node)
        return literal(found.encode("latin-1", "replace")) if isinstance(found, str) and kind.startswith("|S") else self.literal(node)

    def form(self, word: str, given: list[ast.expr], named: dict[str, ast.expr]) -> str:
        """A word with the pieces of its form."""
        given, named, self._word = list(given), dict(named), word
        made = " ".join(filter(None, [word, *(self.piece(piece, given, named) for piece in pieces(word))]))
        return made if not given and not named else self.refuse()

    def piece(self, piece: str, given: list[ast.expr], named: dict[str, ast.expr]) -> str:
        """The text of a piece of a form, given the arguments, of which it takes some."""
        if piece == "D":
            of = named.pop("dtype", None) or next((node for node in given if is_type(node)), None)
            given[:] = [node for node in given if node is not of]
            return self.type(of)
        if piece in ("S", "S-", "(axes)"):
            of = named.pop({"(axes)": "axes"}.get(piece, "shape"), None) or next((node for node in given if isinstance(node, (ast.Tuple, ast.List))), None)
            taken = [of] if of else given[:1 if piece == "S" and len(given) == 2 else None]
            given[:] = [node for node in given if node not in taken]
            lengths = self.lengths(taken[0]) if len(taken) == 1 else [self.number(node) for node in taken]
            return shaped(lengths) if taken or piece != "(axes)" else ""
        if piece == "[axis]":
            of = named.pop("axis", None) or (given.pop(0) if given else None)
            return "" if of is None or isinstance(of, ast.Constant) and of.value is None else str(self.number(of))
        if piece == "[keep]":
            of = named.pop("keepdims", None)
            is_word = bool(given) and getattr(given[0], "id", "") == "keep"
            return "keep" if is_word and given.pop(0) or of is not None and self.constant(of) is True else ""
        if piece in ("C", "F"):
            of = named.pop("order", None) or (given.pop(0) if given else None)
            order = getattr(of, "id", getattr(of, "value", "C"))
            return order if order in ("C", "F") else "C" if order in ("K", "A") else self.refuse()
        of = next((node for node in given if not is_type(node)), given[0])
        given.remove(of)
        if piece in ('"f"', '"field"'):
            return f'"{of.id if isinstance(of, ast.Name) else self.constant(of)}"'
        return self.literal(of) if piece in ("L", "a", "b", "s") else self.operand(of) if piece == "Y[?]" else \
            self.base(of) if self._word in ("transpose", "reshape", "broadcast") else self.name(of)

    # What takes several lines, or an index that depends on the axes.

    def made(self, lines: Callable[[str], Sequence[str]]) -> str:
        """A name that is made by several lines: the one that is assigned to, unless it is read."""
        name = self.goal or self.free()
        for line in lines(name):
            self.write(line)
        return name

    def call_where(self, condition: ast.expr, x: ast.expr, y: ast.expr) -> str:
        mask = self.name(condition)
        if self.info(mask).type != "|b1":
            mask = self.bound(f"ne {mask} 0")
        texts = [self.operand(x), self.operand(y)]
        arrays = [None if self.is_constant(node) else self.info(text) for node, text in zip((x, y), texts)]
        known = [array for array in arrays if array]
        self.check_types("add", *texts)
        weak = kind_of([self.constant(node) for node in (x, y) if self.is_constant(node)]) if len(known) < 2 else ""
        kind = promoted([array.type for array in known]) if known else weak
        kind = "<i8" if kind == "|b1" and weak == "<i8" else kind
        shape = stretched([self.info(mask).shape, *(array.shape for array in known)])
        if self.info(mask).shape != shape:
            mask = self.bound(f"broadcast {mask} {shaped(shape)}")
        fits = [array is not None and array.shape == shape and array.type == kind for array in arrays]
        base, other = (1, 0) if fits[1] or not fits[0] else (0, 1)
        part = texts[other]
        if arrays[other] is not None and arrays[other].shape != shape:  # type: ignore[union-attr]
            part = self.bound(f"broadcast {self.bound(part)} {shaped(shape)}")
        begin = f"copy {self.bound(texts[base])} C" if fits[base] else f"full {kind} {shaped(shape)} {texts[base]}" if arrays[base] is None else ""
        place = mask if base else ""

        def lines(name: str) -> list[str]:
            at = place or self.free()
            source = self.bound(part) if arrays[other] is not None else part
            return [f"{name} = {begin or f'zeros {kind} {shaped(shape)}'}", *[f"set {name}[...] = {texts[base]}"] * (not begin),
                    *[f"{at} = not {mask}"] * (not place), f"set {name}[{at}] = {source}{f'[{at}]' if arrays[other] is not None else ''}"]

        return self.made(lines)

    def call_concatenate(self, arrays: ast.expr, *more: ast.expr, axis: Optional[ast.expr] = None) -> str:
        if isinstance(arrays, ast.Name) and more and all(isinstance(each, ast.Name) for each in more):
            arrays, more = ast.List([arrays, *more], ast.Load()), ()
        if not isinstance(arrays, (ast.List, ast.Tuple)) or len(more) > 1:
            self.refuse("the arrays stand in a list")
        axis = more[0] if more else axis
        names = [self.name(each) for each in arrays.elts]
        infos = [self.info(name) for name in names]
        count, at = len(infos[0].shape), self.number(axis) if axis else 0
        at = at + count if at < 0 else at
        if not all(len(info.shape) == count > at >= 0 and info.shape[:at] + info.shape[at + 1:] == infos[0].shape[:at] + infos[0].shape[at + 1:] for info in infos):
            self.refuse("the arrays have other lengths along the other axes")
        ends = [0]
        for info in infos:
            ends.append(ends[-1] + info.shape[at])
        shape = [*infos[0].shape[:at], ends[-1], *infos[0].shape[at + 1:]]
        parts = [along(at, f"{begin or ''}:{'' if end == ends[-1] else end}") for begin, end in zip(ends, ends[1:])]
        kind = promoted([info.type for info in infos])
        return self.made(lambda name: [f"{name} = zeros {kind} {shaped(shape)}", *(f"set {name}{part} = {each}" for part, each in zip(parts, names))])

    def call_stack(self, arrays: ast.expr, axis: Optional[ast.expr] = None) -> str:
        if not isinstance(arrays, (ast.List, ast.Tuple)) or any(map(self.is_constant, arrays.elts)):
            self.refuse("the arrays stand in a list")
        texts = [self.operand(each) for each in arrays.elts]
        infos = [self.info(text) for text in texts]
        at = self.number(axis) if axis else 0
        if len({info.shape for info in infos}) != 1 or not 0 <= at <= len(infos[0].shape):
            self.refuse("the arrays have different shapes")
        shape, kind = [*infos[0].shape[:at], len(texts), *infos[0].shape[at:]], promoted([info.type for info in infos])
        return self.made(lambda name: [f"{name} = zeros {kind} {shaped(shape)}", *(f"set {name}{along(at, str(k))} = {each}" for k, each in enumerate(texts))])

    def call_flip(self, m: ast.expr, axis: Optional[ast.expr] = None) -> str:
        name = self.base(m)
        count = len(self.info(name).shape)
        if axis is None:
            return f"{name}[{','.join(['::-1'] * count) or '...'}]"
        at = self.number(axis)
        return name + along(at % count if -count <= at < count else self.refuse(), "::-1")

    def call_squeeze(self, a: ast.expr, axis: Optional[ast.expr] = None) -> str:
        name = self.base(a)
        shape = self.info(name).shape
        axes = {at % len(shape) for at in self.lengths(axis)} if axis else {at for at, length in enumerate(shape) if length == 1}
        if any(shape[at] != 1 for at in axes):
            self.refuse("an axis of that length is not taken away")
        entries = ["0" if at in axes else ":" for at in range(len(shape))]
        return f"{name}[{','.join([*entries, '...'] if axes else ['...'])}]"

    def call_expand_dims(self, a: ast.expr, axis: ast.expr) -> str:
        name, at = self.base(a), self.number(axis)
        count = len(self.info(name).shape) + 1
        if not -count <= at < count:
            self.refuse()
        return f"{name}[...,None]" if at == -1 else name + along(at % count, "None")

    def permuted(self, name: str, axes: Sequence[int]) -> str:
        return f"transpose {name}" if list(axes) == [1, 0] else f"transpose {name} {shaped(axes)}"

    def call_swapaxes(self, a: ast.expr, axis1: ast.expr, axis2: ast.expr) -> str:
        name = self.base(a)
        axes = list(range(len(self.info(name).shape)))
        one, other = axes[self.number(axis1)], axes[self.number(axis2)]
        axes[one], axes[other] = other, one
        return self.permuted(name, axes)

    def call_moveaxis(self, a: ast.expr, source: ast.expr, destination: ast.expr) -> str:
        name = self.base(a)
        axes = list(range(len(self.info(name).shape)))
        at, to = axes[self.number(source)], axes[self.number(destination)]
        axes.remove(at)
        axes.insert(to, at)
        return self.permuted(name, axes)

    def is_scalar(self, node: ast.expr, text: str) -> bool:
        """Whether NumPy gives a number of its own: an array of numbers with an integer for each axis."""
        if not isinstance(node, ast.Subscript) or "..." in text or not self.has_numbers(node):
            return False
        array = self.info(text)
        if array.shape or array.type.startswith("T"):
            return False
        if array.type.startswith("|S"):
            self.refuse("an item of NumPy's is a byte string of its own length: here it is a view, of the type of the array")
        return True

    def has_numbers(self, node: ast.Subscript) -> bool:
        """Whether an index is of numbers only, or is the name of a field of one item."""
        if isinstance(node.slice, ast.Constant) and isinstance(node.slice.value, str):
            return isinstance(node.value, ast.Subscript) and self.has_numbers(node.value)
        return all(map(self.is_number, node.slice.elts if isinstance(node.slice, ast.Tuple) else [node.slice]))


def listed(node: ast.expr) -> ast.expr:
    """Nested tuples as lists: rows, where the type is no record."""
    return ast.List([listed(each) for each in node.elts], ast.Load()) if isinstance(node, (ast.Tuple, ast.List)) else node
