"""Several files are one program: a name of internal linkage that another file has too gets another one, functions and
variables that no file defines are refused where they are used, and a variable comes before those that point to it."""
from front import kinds
from front.messages import Refusal
from front.tree import Name, rewrite


def change(program, notes):
    symbols = [variable.symbol for variable in program.variables] + list(program.functions)
    taken = {symbol.written for symbol in symbols if symbol.storage == 'external'}
    for symbol in symbols:
        if symbol.storage == 'internal':
            if symbol.written in taken:
                symbol.written = program.fresh(symbol.name)
            taken.add(symbol.written)
    kept = []
    for variable in program.variables:
        symbol = variable.symbol
        if not symbol.defined:
            if symbol.used:
                raise Refusal(variable.place, f'{symbol.name} is declared, and no file defines it')
            continue
        if kinds.size(symbol.type) is None:
            raise Refusal(variable.place, f'{symbol.name} has no complete type')
        kept.append(variable)
    program.variables = ordered(kept)


def ordered(variables):
    """The variables, each after those that its initialiser names."""
    by_symbol = {variable.symbol: variable for variable in variables}
    made, state = [], {}

    def visit(variable):
        if state.get(variable) == 'done':
            return
        if state.get(variable) == 'open':
            raise Refusal(variable.place, f'{variable.symbol.name} and what it points to point to each other')
        state[variable] = 'open'
        needs = []
        rewrite(variable, lambda node: (needs.append(node.symbol) if type(node) is Name else None, node)[1])
        for symbol in needs:
            if symbol in by_symbol and symbol is not variable.symbol:
                visit(by_symbol[symbol])
        state[variable] = 'done'
        made.append(variable)

    for variable in variables:
        visit(variable)
    return made
