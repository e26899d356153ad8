"""A function is declared before it is called: the ones of the program that are called further up get a prototype."""
from front.tree import Call, rewrite


def change(program, notes):
    seen, early = set(), {}
    for routine in program.routines:
        seen.add(routine.symbol)

        def look(node):
            if type(node) is Call and node.symbol.defined and node.symbol not in seen:
                early[node.symbol] = True
            return node

        rewrite(routine.body, look)
    program.prototypes = list(early)
