"""Numbers of arrays in an expression, such as `len(a)` and `m.shape[1] // 2`, as constants."""
from __future__ import annotations

import ast
from math import prod
from typing import TYPE_CHECKING, Optional

from . import item_types
from .session import Array
from .tried import QUESTIONS

if TYPE_CHECKING:
    from .expressions import Expressions


class Folded(ast.NodeTransformer):
    """Lengths and other numbers of arrays as constants, and what is computed of these."""

    def __init__(self, made: Expressions):
        self.made = made

    def array(self, node: ast.expr) -> Optional[Array]:
        return self.made.info(node.id) if isinstance(node, ast.Name) and node.id in self.made.trial.names() else None

    def visit_Attribute(self, node: ast.Attribute) -> ast.expr:
        self.generic_visit(node)
        array = self.array(node.value) if node.attr in QUESTIONS else None
        if array is None:
            return node
        size = item_types.read(array.type).size
        if node.attr == "shape":
            return ast.Tuple([ast.Constant(length) for length in array.shape], ast.Load())
        found = {"size": prod(array.shape), "ndim": len(array.shape), "itemsize": size, "nbytes": size * prod(array.shape)}
        return ast.Constant(found[node.attr]) if node.attr in found else node

    def visit_Subscript(self, node: ast.Subscript) -> ast.expr:
        is_shape = isinstance(node.value, ast.Attribute) and node.value.attr == "shape"
        self.generic_visit(node)
        if is_shape and isinstance(node.value, ast.Tuple) and self.made.is_number(node.slice):
            return node.value.elts[self.made.number(node.slice)]
        return node

    def visit_Call(self, node: ast.Call) -> ast.expr:
        self.generic_visit(node)
        is_len = isinstance(node.func, ast.Name) and node.func.id == "len" and len(node.args) == 1
        array = self.array(node.args[0]) if is_len else None
        return ast.Constant(array.shape[0]) if array and array.shape else node

    def visit_BinOp(self, node: ast.BinOp) -> ast.expr:
        self.generic_visit(node)
        if isinstance(node.left, ast.List):
            return self.of_list(node.left, node)
        sides = [side.value for side in (node.left, node.right) if isinstance(side, ast.Constant) and type(side.value) is int]
        if len(sides) < 2 or isinstance(node.op, (ast.Div, ast.LShift, ast.MatMult)):
            return node
        if isinstance(node.op, ast.Pow) and not 0 <= sides[1] <= 64 or not sides[1] and isinstance(node.op, (ast.FloorDiv, ast.Mod)):
            return node
        found: int = eval(compile(ast.fix_missing_locations(ast.Expression(node)), "", "eval"))  # of two integers
        return ast.Constant(found) if found >= 0 else ast.UnaryOp(ast.USub(), ast.Constant(-found))

    def of_list(self, first: ast.List, node: ast.BinOp) -> ast.expr:
        """A list that is repeated or joined to another, as Python does it."""
        if isinstance(node.op, ast.Mult) and isinstance(node.right, ast.Constant) and type(node.right.value) is int:
            return ast.List(first.elts * min(node.right.value, 1000), ast.Load())
        return ast.List([*first.elts, *node.right.elts], ast.Load()) if isinstance(node.op, ast.Add) and isinstance(node.right, ast.List) else node

    def visit_UnaryOp(self, node: ast.UnaryOp) -> ast.expr:
        self.generic_visit(node)
        inner = node.operand
        if isinstance(node.op, ast.USub) and isinstance(inner, ast.UnaryOp) and isinstance(inner.op, ast.USub) and isinstance(inner.operand, ast.Constant):
            return inner.operand
        return node
