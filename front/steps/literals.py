"""A compound literal is a variable that is assigned where the literal stands; at file scope it is a variable of its own."""
from front import kinds
from front.temporaries import Temporaries, assignments
from front.tree import Comma, Declare, Literal, Name, Symbol, Unary, rewrite


def folded(node):
    """`&*e` is `e`."""
    if type(node) is Unary and node.op == '&' and type(node.operand) is Unary and node.operand.op == '*':
        return node.operand.operand
    return node


def change(program, notes):
    made = []

    def lifted(node):
        if type(node) is Literal:
            symbol = Symbol(program.fresh('rvcc_literal'), 'variable', node.type, 'internal', node.place)
            symbol.defined = True
            made.append(Declare(node.place, node.init, symbol))
            return Name(node.place, node.type, symbol)
        return node

    for variable in program.variables:
        at = len(made)
        rewrite(variable, lifted)
        made[at:] = [*made[at:], variable]
    program.variables = made

    for routine in program.routines:
        temporaries = Temporaries(program, routine)

        def assigned(node, temporaries=temporaries):
            if type(node) is not Literal:
                return folded(node)
            where = node.place
            name = Name(where, node.type, temporaries.variable(where, node.type, 'rvcc_literal'))
            items = assignments(name, node.type, node.init)
            if kinds.is_array(node.type):
                return Comma(where, kinds.decayed(node.type), [*items, name])
            pointer = kinds.Pointer(node.type)
            return Unary(where, node.type, Comma(where, pointer, [*items, Unary(where, pointer, name, '&')]), '*')

        temporaries.run(assigned)
