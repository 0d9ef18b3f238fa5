"""Expressions of the program's language, as trees, and how they are written."""

from collections.abc import Iterable
from dataclasses import dataclass
from enum import Enum
from functools import reduce
from typing import Union

OPERATORS_MAX = 63
PARENTHESES_MAX = 64
WINDOW_MAX = 65_535


class Operator(Enum):
    """The operators, with how strongly they bind."""

    THEN = ("..", 4)
    BOTH = ("^", 3)
    EITHER = ("+", 2)
    HOLDS = (">", 1)
    HOLDS_NO = ("/>", 1)

    @property
    def sign(self) -> bytes:
        """As it is written."""
        return self.value[0].encode()

    @property
    def strength(self) -> int:
        """How strongly it binds."""
        return self.value[1]


class Scope(Enum):
    """Of what results are: the expression of it."""

    FILE = b"file"
    LINE = b"line"


@dataclass(frozen=True)
class Quoted:
    """Words in a row, or a tag."""

    text: bytes


@dataclass(frozen=True)
class Window:
    """So many tokens in a row."""

    tokens: int


@dataclass(frozen=True)
class Joined:
    """Two expressions with an operator between."""

    operator: Operator
    left: "Expression"
    right: "Expression"


Expression = Union[Scope, Quoted, Window, Joined]


class TooLong(Exception):
    """An expression takes more operators or parentheses than the program allows."""

    def __init__(self, told: str) -> None:
        super().__init__(told)
        self.told = told


def joined(operator: Operator, parts: Iterable[Expression]) -> Expression:
    """One or more expressions with an operator between each two, from the left."""
    return reduce(lambda left, right: Joined(operator, left, right), parts)


def _spine(expression: Expression) -> tuple[Expression, list[Joined]]:
    """The first operand, and what is joined to it, from the left.

    A long row is deep on its left side, so that side is followed without recursion.
    """
    joints = []
    while isinstance(expression, Joined):
        joints.append(expression)
        expression = expression.left
    return expression, joints[::-1]


def operators_of(expression: Expression) -> int:
    """How many operators an expression has."""
    _, joints = _spine(expression)
    return len(joints) + sum(operators_of(joint.right) for joint in joints)


def _written(expression: Expression) -> bytes:
    """With no parenthesis more than precedence asks for."""
    first, joints = _spine(expression)
    pieces = [_operand(first)]
    strength = Operator.THEN.strength
    for joint in joints:
        if strength < joint.operator.strength:
            pieces = [b"(", *pieces, b")"]
        strength = joint.operator.strength
        right = _written(joint.right)
        if isinstance(joint.right, Joined) and joint.right.operator.strength <= strength:
            right = b"(%b)" % right
        pieces += [b" ", joint.operator.sign, b" ", right]
    return b"".join(pieces)


def _operand(expression: Expression) -> bytes:
    if isinstance(expression, Quoted):
        return b'"%b"' % expression.text
    if isinstance(expression, Window):
        return b"[%d]" % expression.tokens
    if isinstance(expression, Scope):
        return expression.value
    raise TypeError("an expression with an operator is no operand")


def spell(expression: Expression) -> bytes:
    """The expression as a query has it. Raises `TooLong`."""
    operators = operators_of(expression)
    if operators > OPERATORS_MAX:
        raise TooLong(f"it takes {operators} operators of at most {OPERATORS_MAX}")
    written = _written(expression)
    outside = b"".join(written.split(b'"')[::2])
    parentheses = outside.count(b"(")
    if parentheses > PARENTHESES_MAX:
        raise TooLong(f"it takes {parentheses} parentheses of at most {PARENTHESES_MAX}")
    return written
