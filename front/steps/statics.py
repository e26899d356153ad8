"""A `static` variable of a function is lifted to file scope, under a name that nothing else has."""
from front.tree import Declare, For, statements


def change(program, notes):
    for routine in program.routines:
        def lifted(node, routine=routine):
            if type(node) is Declare and node.symbol.storage == 'static':
                node.symbol.written = program.fresh(f'{routine.symbol.name}_{node.symbol.name}')
                program.variables.append(node)
                return []
            if type(node) is For and type(node.first) is list:
                node.first = [its for its in node.first if lifted(its) != []] or None
            return node

        statements(routine.body, lifted)
