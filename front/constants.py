"""Integer constant expressions (6.6) of the resolved tree, and the numbers of literals."""
import re

from front import kinds
from front.messages import Refusal
from front.tree import Binary, Cast, Choice, Name, Number, SizeOf, Text, Unary

ESCAPES = {'n': 10, 't': 9, 'r': 13, 'a': 7, 'b': 8, 'f': 12, 'v': 11, '\\': 92, "'": 39, '"': 34, '?': 63}
PIECE = re.compile(r'\\(x[0-9a-fA-F]+|[0-7]{1,3}|.)|.', re.DOTALL)


def piece(text):
    """The number of one character, or one escape, of a literal."""
    if text[0] != '\\':
        return ord(text)
    if text[1] == 'x':
        return int(text[2:], 16)
    if text[1] in '01234567':
        return int(text[1:], 8)
    return ESCAPES.get(text[1], ord(text[1]))


def characters(text):
    """The pieces of a string literal, each a character or an escape."""
    return [found[0] for found in PIECE.finditer(text[1:-1])]


def number(text, place):
    """The value, the type and the spelling of an integer or character constant."""
    if text[0] == "'":
        pieces = characters(text)
        if len(pieces) != 1:
            raise Refusal(place, 'a character constant has to be one character')
        return piece(pieces[0]), kinds.INT, text
    digits = text.rstrip('uUlL')
    suffix = text[len(digits):].lower()
    if suffix.count('l') == 2:
        raise Refusal(place, f'{text}: long long cannot be had, integers have at most 32 bits')
    decimal = digits[0] != '0'
    if digits[:2] in ('0b', '0B'):
        value = int(digits[2:], 2)
        digits = hex(value)
    elif digits[:2] in ('0x', '0X'):
        value = int(digits, 16)
    else:
        value = int(digits, 10 if decimal else 8)
    if value > 0xffffffff or (decimal and value > 0x7fffffff and 'u' not in suffix):
        raise Refusal(place, f'{text} does not fit, integers have at most 32 bits'
                      + ('' if value > 0xffffffff else ': write it with the suffix u'))
    if 'u' in suffix:
        return value, kinds.UNSIGNED, digits + 'u'
    return value, kinds.UNSIGNED if value > 0x7fffffff else kinds.INT, digits


def wrapped(value, kind):
    """A value as one of an integer type."""
    kind = kinds.real(kind)
    if kinds.is_bool(kind):
        return int(value != 0)
    bits = kind.size * 8
    value &= (1 << bits) - 1
    return value - (1 << bits) if kind.signed and value >> (bits - 1) else value


def divided(left, right):
    quotient = abs(left) // abs(right)
    return -quotient if (left < 0) != (right < 0) else quotient


OPERATORS = {
    '+': lambda a, b: a + b, '-': lambda a, b: a - b, '*': lambda a, b: a * b,
    '/': divided, '%': lambda a, b: a - b * divided(a, b),
    '&': lambda a, b: a & b, '|': lambda a, b: a | b, '^': lambda a, b: a ^ b,
    '<<': lambda a, b: a << b, '>>': lambda a, b: a >> b,
    '<': lambda a, b: int(a < b), '>': lambda a, b: int(a > b), '<=': lambda a, b: int(a <= b),
    '>=': lambda a, b: int(a >= b), '==': lambda a, b: int(a == b), '!=': lambda a, b: int(a != b),
}


def value(node):
    """The value of an integer constant expression, None where it is none."""
    kind = type(node)
    if kind is Number:
        return number(node.text, node.place)[0]
    if kind is Name:
        return node.symbol.value if node.symbol.kind == 'constant' else None
    if kind is SizeOf:
        return kinds.size(node.kind or node.operand.type)
    if not kinds.is_integer(node.type):
        return None
    if kind is Cast:
        inner = value(node.operand)
        return None if inner is None else wrapped(inner, node.type)
    if kind is Unary and node.op in '+-~!':
        inner = value(node.operand)
        if inner is None:
            return None
        return wrapped({'+': inner, '-': -inner, '~': ~inner, '!': int(not inner)}[node.op], node.type)
    if kind is Choice:
        condition = value(node.condition)
        if condition is None:
            return None
        chosen = value(node.first if condition else node.second)
        return None if chosen is None else wrapped(chosen, node.type)
    if kind is Binary:
        left = value(node.left)
        if left is None:
            return None
        if node.op in ('&&', '||'):
            if bool(left) == (node.op == '||'):
                return int(bool(left))
            right = value(node.right)
            return None if right is None else int(bool(right))
        right = value(node.right)
        if right is None or (node.op in '/%' and right == 0) or (node.op in ('<<', '>>') and not 0 <= right < 32):
            return None
        if node.op not in ('<<', '>>'):
            shared = kinds.common(node.left.type, node.right.type)
            left, right = wrapped(left, shared), wrapped(right, shared)
        return wrapped(OPERATORS[node.op](left, right), node.type)
    return None


def is_null(node):
    """Whether the expression is a null pointer constant: a constant 0, or such a 0 as a `void *`."""
    if type(node) is Cast and kinds.is_pointer(node.type) and kinds.is_void(kinds.real(node.type).to):
        return is_null(node.operand)
    if type(node) is Number and kinds.is_pointer(node.type):
        return True
    return kinds.is_integer(node.type) and type(node) is not Text and value(node) == 0
