"""What people type from habit in an expression, and what to write here instead."""

import re

_TYPOGRAPHIC = "“”„‟«»‹›‘’‚‛"
_OPERATORS = {
    "AND": 'line > ("budget" ^ "lunch")',
    "OR": 'line > ("budget" + "lunch")',
    "NOT": 'line > "budget" /> "lunch"',
    "NEAR": '("budget" ^ "lunch") /> [11]',
}


def about_expression(expression: str) -> str | None:
    """A message where an expression is written as another program has it, or None."""
    if any(one in _TYPOGRAPHIC for one in expression):
        return 'typographic quotes: a word stands in straight ones, as "budget"'
    outside = re.sub(r'"[^"]*"', '""', expression)
    for operator, instead in _OPERATORS.items():
        if re.search(rf"\b{operator}\b", outside, re.IGNORECASE):
            return f"{operator} is no operator: write {instead}"
    if expression.count('"') % 2:
        return 'a quote is open: a word stands in two quotes, as "budget"'
    if "'" in outside:
        return 'single quotes: a word stands in double ones, as "budget"'
    if re.search(r'"[^"]*[*?][^"]*"', expression):
        return "there are no patterns: * and ? part words, so write whole ones"
    bare = re.search(r"[A-Za-z]+", re.sub(r"\b(file|line)\b", "", outside))
    if bare is not None:
        return f'{bare.group()} stands outside quotes: write "{bare.group()}"'
    if re.search(r"[&|!]", outside):
        return "operators are > < /> /< + ^ .. alone: ^ is both, + is one or the other"
    return None
