"""An enumeration constant is its number, and an `enum` type the integer type that it is."""
from front import kinds
from front.tree import Case, Name, Number, Unary, expressions


def kind(kind):
    if type(kind) is kinds.Enumeration:
        return (kinds.INT if kind.signed else kinds.UNSIGNED).qualified(kind.quals)
    return kind


def change(program, notes):
    def numbered(node):
        if type(node) is Name and node.symbol.kind == 'constant':
            value = node.symbol.value
            if value < 0:
                # The least value has no constant of its own in the language.
                if value == -0x80000000:
                    return Unary(node.place, kinds.INT, Number(node.place, kinds.INT, '0x7fffffff'), '~')
                return Unary(node.place, kinds.INT, Number(node.place, kinds.INT, str(-value)), '-')
            return Number(node.place, kinds.INT, str(value))
        return node

    expressions(program, numbered)
