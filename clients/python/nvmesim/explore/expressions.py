"""The expressions of `--always` and `--never`: a subset of Python's, over named answers.

    a.write1 == 'Successful Completion' and not b.write1.rule == 7
    implies(a.acquire1 == 'Successful Completion', reservation(1).holder == 0xa1)
    block(1, 0) in ('b2', '')

An expression is parsed and evaluated here; it is never executed as Python.
"""
from __future__ import annotations

import ast
import difflib
import hashlib
import operator
from typing import AbstractSet, Any, Callable, Dict, Hashable, Iterable, List, Optional, Set, Tuple, Type, Union

from ..errors import ExpressionError
from .kinds import fault_of
from .plan import Plan
from .possible import hint_for, is_hexadecimal, pairs_of, reservation_values, spelled, values_of
from .values import FIELDS, Value, Values

Scalar = Union[str, int, bool, None]

_RESERVATION_FIELDS = ("rtype", "name", "holder", "generation", "persists", "protection", "is_protected", "registrants")
_OPERATORS: Dict[Type[ast.cmpop], Callable[[Any, Any], bool]] = {
    ast.Eq: operator.eq, ast.NotEq: operator.ne, ast.Lt: operator.lt, ast.LtE: operator.le, ast.Gt: operator.gt,
    ast.GtE: operator.ge, ast.In: lambda one, many: one in many, ast.NotIn: lambda one, many: one not in many,
}
_MOST_TOLD = 64
_CALLS = {"implies": 2, "reservation": 1, "block": 2}


def parts_of(text: str) -> List[str]:
    """The expressions of a list, which commas part: `a.write1,block(1,0)`. Raises `ExpressionError` for none."""
    try:
        found = ast.parse(f"({text},)".strip(), mode="eval").body
    except (SyntaxError, ValueError):
        raise ExpressionError(f"{text!r} is no list of expressions, such as a.write1,block(1,0)") from None
    assert isinstance(found, ast.Tuple)
    return [ast.unparse(it) for it in found.elts]


class Expression:
    """An expression whose names are checked against a plan before anything is run."""

    def __init__(self, text: str, plan: Plan, watched: Iterable[str] = ()) -> None:
        """Parses an expression.

        Args:
            text: the expression.
            plan: the script, whose events have the names.
            watched: the lines that look at blocks, `?blocks N SLBA COUNT`.

        Raises:
            ExpressionError: it isn't an expression, or names something that the script does not have.
        """
        self.text = text
        self._plan = plan
        self._names = {it.name for it in plan.steps}
        self._watched = _watched(watched)
        try:
            self._tree = ast.parse(text.strip(), mode="eval").body
        except SyntaxError as fault:
            raise ExpressionError(f"{text!r} is no expression: {fault.msg}") from None
        except ValueError as fault:
            raise ExpressionError(f"{text!r} is no expression: {fault}") from None
        self._check(self._tree)

    def holds(self, values: Values) -> bool:
        """Whether it holds of an outcome. Raises `ExpressionError` if it compares what can't be compared."""
        try:
            return bool(self._plain(self._evaluate(self._tree, values)))
        except TypeError as fault:
            raise ExpressionError(f"{self.text!r} compares what can't be compared: {fault}") from None

    def looked_at(self, values: Values) -> Tuple[Any, ...]:
        """Each answer, reservation and block that it names, as it is in an outcome."""
        names = (ast.Attribute, ast.Call)
        return tuple(repr(self._evaluate(it, values)) for it in ast.walk(self._tree) if isinstance(it, names)
                     and not (isinstance(it, ast.Call) and ast.unparse(it.func) == "implies"))

    def value(self, values: Values) -> Hashable:
        """Its value in an outcome."""
        try:
            found: Hashable = self._evaluate(self._tree, values)
        except TypeError as fault:
            raise ExpressionError(f"{self.text!r} compares what can't be compared: {fault}") from None
        return found

    def told(self, values: Values) -> str:
        """The value for a message: of many bytes the first ones, the number of bytes, and a digest."""
        found = self.value(values)
        if isinstance(found, Value):
            return str(found)
        if found == "" and self.text.startswith("block"):
            return "zeros"
        if isinstance(found, str) and len(found) > _MOST_TOLD:
            digest = hashlib.sha256(found.encode("utf-8")).hexdigest()[:8]
            return f"{found[:30]}.. ({len(found) // 2} bytes up to the last that is not zero, digest {digest})"
        is_host = isinstance(found, int) and self.text.endswith(".holder")
        return f"{found:#x}" if is_host else found if isinstance(found, str) and found else repr(found)

    def _fault(self, why: str) -> ExpressionError:
        return ExpressionError(f"{self.text!r}: {why}")

    def _check(self, node: ast.expr) -> None:
        """Refuses everything outside the language."""
        if isinstance(node, ast.BoolOp):
            self._check_all(node.values)
        elif isinstance(node, ast.UnaryOp) and isinstance(node.op, ast.Not):
            self._check(node.operand)
        elif isinstance(node, ast.Compare) and all(type(it) in _OPERATORS for it in node.ops):
            self._check_all([node.left, *node.comparators])
            if why := fault_of(node):
                raise self._fault(why)
            self._check_values(node)
        elif isinstance(node, ast.Attribute):
            self._check_attribute(node)
        elif isinstance(node, ast.Call):
            self._check_call(node)
        elif isinstance(node, (ast.Tuple, ast.List, ast.Set)):
            self._check_all(node.elts)
        elif not (isinstance(node, ast.Constant) and isinstance(node.value, (str, int, bool, type(None)))):
            raise self._fault(f"{ast.unparse(node)} does not belong here")

    def _check_all(self, nodes: Iterable[ast.expr]) -> None:
        for node in nodes:
            self._check(node)

    def _check_attribute(self, node: ast.Attribute) -> None:
        """An answer, a field of one, or a field of a reservation."""
        if isinstance(node.value, ast.Name):
            self._check_name(f"{node.value.id}.{node.attr}", self._names)
            return
        self._check(node.value)
        fields = _RESERVATION_FIELDS if isinstance(node.value, ast.Call) else FIELDS
        if not isinstance(node.value, (ast.Call, ast.Attribute)) or node.attr not in fields:
            raise self._fault(f"there is no field {node.attr}; there are {', '.join(fields)}")

    def _check_name(self, name: str, known: Set[str]) -> None:
        if name not in known:
            near = difflib.get_close_matches(name, sorted(known), 1, 0.5)
            also = f"; did you mean {near[0]}?" if near else f"; there are {', '.join(sorted(known))}"
            raise self._fault(f"there is no answer {name}{also}")

    def _check_call(self, node: ast.Call) -> None:
        name = node.func.id if isinstance(node.func, ast.Name) else ast.unparse(node.func)
        if name not in _CALLS or node.keywords or len(node.args) != _CALLS[name]:
            raise self._fault(f"{ast.unparse(node)}: there are implies(P, Q), reservation(N) and block(N, LBA)")
        self._check_all(node.args)
        if name == "implies":
            return
        numbers = [it.value if isinstance(it, ast.Constant) else None for it in node.args]
        if name == "reservation" and numbers[0] not in self._plan.configuration.namespaces:
            raise self._fault(f"the script has no namespace {ast.unparse(node.args[0])}")
        if name == "block" and tuple(numbers) not in self._watched:
            raise self._fault(f"the script writes no block {', '.join(map(ast.unparse, node.args))}")

    def _check_values(self, node: ast.Compare) -> None:
        """Refuses a comparison with what an answer, a reservation or a block can never be."""
        for value, constant in pairs_of(node):
            known = self._known(value)
            if known is not None and constant not in known:
                is_host = isinstance(value, ast.Attribute) and value.attr == "holder"
                raise self._fault(f"{ast.unparse(value)} is never {spelled(constant, is_host)}"
                                  f"{hint_for(constant, known, is_host)}")
            is_bytes = isinstance(value, ast.Call) or isinstance(value, ast.Attribute) and value.attr == "data"
            if is_bytes and not is_hexadecimal(constant):
                raise self._fault(f"{ast.unparse(value)} is never {constant!r}: bytes are hexadecimal digits of lower "
                                  "case, without the zeros at their end")

    def _known(self, node: ast.expr) -> Optional[AbstractSet[Any]]:
        """What a value can be; None if that is not known."""
        if not isinstance(node, ast.Attribute):
            return None
        if isinstance(node.value, ast.Call):
            return reservation_values(node.attr, frozenset(self._plan.configuration.hosts.values()))
        name, field = (ast.unparse(node), "text") if isinstance(node.value, ast.Name) else (
            ast.unparse(node.value), node.attr)
        step = self._plan.by_name.get(name)
        requests = frozenset(it.name for it in self._plan.steps if it.line.is_request)
        return None if step is None else values_of(step.line, field, requests)

    def _evaluate(self, node: ast.expr, values: Values) -> Any:
        """The value of an expression that was checked."""
        if isinstance(node, ast.BoolOp):
            decide = all if isinstance(node.op, ast.And) else any
            return decide(self._plain(self._evaluate(it, values)) for it in node.values)
        if isinstance(node, ast.UnaryOp):
            return not self._plain(self._evaluate(node.operand, values))
        if isinstance(node, ast.Compare):
            return self._compare(node, values)
        if isinstance(node, ast.Attribute):
            if isinstance(node.value, ast.Name):
                return values.answers[f"{node.value.id}.{node.attr}"]
            whole = self._evaluate(node.value, values)
            return whole[node.attr] if isinstance(whole, dict) else getattr(whole, node.attr)
        if isinstance(node, ast.Call):
            return self._call(node, values)
        if isinstance(node, (ast.Tuple, ast.List, ast.Set)):
            return tuple(self._plain(self._evaluate(it, values)) for it in node.elts)
        assert isinstance(node, ast.Constant)
        return node.value

    def _compare(self, node: ast.Compare, values: Values) -> bool:
        sides = [self._plain(self._evaluate(it, values)) for it in (node.left, *node.comparators)]
        return all(_OPERATORS[type(it)](sides[n], sides[n + 1]) for n, it in enumerate(node.ops))

    def _call(self, node: ast.Call, values: Values) -> Any:
        assert isinstance(node.func, ast.Name)
        arguments = [self._plain(self._evaluate(it, values)) for it in node.args]
        if node.func.id == "implies":
            return not arguments[0] or bool(arguments[1])
        if node.func.id == "block":
            return values.blocks[arguments[0], arguments[1]].rstrip(b"\0").hex()
        told = values.reservations[arguments[0]]
        holder: Scalar = "all" if told.is_held_by_all else told.holder
        return {"rtype": int(told.rtype), "name": told.rtype.text, "holder": holder, "generation": told.generation,
                "persists": told.persists, "protection": int(told.protection), "is_protected": told.is_protected,
                "registrants": tuple(told.registrants)}

    def _plain(self, value: Any) -> Any:
        """An answer as its text."""
        return value.text if isinstance(value, Value) else value


def _watched(lines: Iterable[str]) -> Set[Any]:
    """The blocks that these lines look at, each a namespace and a block."""
    found: Set[Any] = set()
    for line in lines:
        nsid, slba, count = map(int, line.split(" ")[1:])
        found |= {(nsid, slba + n) for n in range(count)}
    return found
