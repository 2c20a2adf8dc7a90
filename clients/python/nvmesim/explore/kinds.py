"""The type of a part of an expression. A comparison of different types is refused, since it is always false."""
from __future__ import annotations

import ast
from typing import Iterable, Optional

TEXT, NUMBER, TRUTH = "a text", "a number", "true or false"

_FIELDS = {"rtype": NUMBER, "generation": NUMBER, "protection": NUMBER, "rule": NUMBER, "value": NUMBER,
           "persists": TRUTH, "is_protected": TRUTH, "holder": None, "registrants": None}
_ORDERING = (ast.Lt, ast.LtE, ast.Gt, ast.GtE)


def kind_of(node: ast.expr) -> Optional[str]:
    """The type of a value, as far as the expression determines it."""
    if isinstance(node, ast.Constant):
        kinds = {bool: TRUTH, int: NUMBER, str: TEXT}
        return kinds.get(type(node.value))
    if isinstance(node, ast.Attribute):
        return TEXT if isinstance(node.value, ast.Name) else _FIELDS.get(node.attr, TEXT)
    if isinstance(node, ast.Call):
        return {"block": TEXT, "implies": TRUTH}.get(ast.unparse(node.func))
    return TRUTH if isinstance(node, (ast.BoolOp, ast.Compare, ast.UnaryOp)) else None


def fault_of(node: ast.Compare) -> str:
    """Why a comparison is useless, or an empty string."""
    sides = [node.left, *node.comparators]
    for left, how, right in zip(sides, node.ops, sides[1:]):
        if isinstance(how, (ast.In, ast.NotIn)):
            if kind_of(right) in (NUMBER, TRUTH):
                return f"nothing is in {ast.unparse(right)}, which is {kind_of(right)}"
            others: Iterable[ast.expr] = right.elts if isinstance(right, (ast.Tuple, ast.List, ast.Set)) else (right,)
        else:
            others = (right,)
        for other in others:
            if not _are_alike(kind_of(left), kind_of(other), isinstance(how, _ORDERING)):
                return f"{ast.unparse(left)} is {kind_of(left)}, and {ast.unparse(other)} {kind_of(other)}"
    return ""


def _are_alike(left: Optional[str], right: Optional[str], is_ordering: bool) -> bool:
    """Whether values of two types can be compared; a Boolean counts as a number, except for < and >."""
    if left is None or right is None or left == right:
        return True
    return not is_ordering and {left, right} == {NUMBER, TRUTH}
