"""Initialisers are written out: each item stands where it belongs, in braces of its own, and the rest is zero. Designators,
braces that were left out, and braces around a scalar are gone."""
from front import kinds
from front.initialisers import place
from front.tree import Declare, Literal, expressions, statements


def change(program, notes):
    def declared(node):
        if type(node) is Declare and node.init is not None:
            node.init = place(node.symbol.type, node.init)
        return node

    def literal(node):
        if type(node) is Literal:
            node.init = place(node.type, node.init)
        return node

    expressions(program, literal)
    for variable in program.variables:
        declared(variable)
    for routine in program.routines:
        statements(routine.body, declared)
        headers(routine.body, declared)


def headers(body, declared):
    """The declarations in the headers of loops, which are no statements."""
    from front.tree import For

    def header(node):
        if type(node) is For and type(node.first) is list:
            for its in node.first:
                declared(its)
        return node

    statements(body, header)
