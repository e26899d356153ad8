"""`_Bool` is a `char` that holds 0 or 1: what is converted to it is compared with 0, and `++`, `--` and compound assignments
are written as assignments."""
from front import kinds
from front.temporaries import Temporaries, twice
from front.tree import Assign, Binary, Cast, Comma, Name, Number, Unary

LOGICAL = ('==', '!=', '<', '>', '<=', '>=', '&&', '||')


def kind(kind):
    return kinds.CHAR.qualified(kind.quals) if kinds.is_bool(kind) and type(kind) is kinds.Integer else kind


def is_truth(node):
    """Whether the value is 0 or 1 anyway."""
    return (kinds.is_bool(node.type) or (type(node) is Binary and node.op in LOGICAL)
            or (type(node) is Unary and node.op == '!') or (type(node) is Number and node.text in ('0', '1')))


def truth(node):
    """The value as 0 or 1."""
    if is_truth(node):
        return node
    return Binary(node.place, kinds.INT, node, Number(node.place, kinds.INT, '0'), '!=')


def change(program, notes):
    for routine in program.routines:
        temporaries = Temporaries(program, routine)

        def changed(node, temporaries=temporaries):
            where = node.place
            if type(node) is Cast and kinds.is_bool(node.type):
                return truth(node.operand)
            if type(node) is Assign and node.op != '=' and kinds.is_bool(node.type):
                before, target, again = twice(node.target, temporaries)
                value = truth(Binary(where, kinds.INT, again, node.value, node.op[:-1]))
                return joined(where, node.type, [*before, Assign(where, node.type, target, value, '=')])
            if type(node) is Unary and node.op in ('++', '--', 'p++', 'p--') and kinds.is_bool(node.type):
                before, target, again = twice(node.operand, temporaries)
                one = Number(where, kinds.INT, '1')
                value = one if '+' in node.op else Unary(where, kinds.INT, again, '!')
                if node.op[0] != 'p':
                    return joined(where, node.type, [*before, Assign(where, node.type, target, value, '=')])
                old = temporaries.variable(where, kinds.INT)
                keep = Assign(where, kinds.INT, Name(where, kinds.INT, old), again, '=')
                if type(value) is Unary:
                    value = Unary(where, kinds.INT, Name(where, kinds.INT, old), '!')
                return joined(where, kinds.INT, [*before, keep, Assign(where, node.type, target, value, '='),
                                                 Name(where, kinds.INT, old)])
            return node

        temporaries.run(changed)
    from front.tree import rewrite
    for variable in program.variables:
        rewrite(variable, lambda node: truth(node.operand) if type(node) is Cast and kinds.is_bool(node.type) else node)


def joined(where, kind, items):
    return items[0] if len(items) == 1 else Comma(where, kind, items)
