"""`main` takes nothing. One that takes `argc` and `argv` gets them as variables: the program has its name and no arguments."""
from front import kinds
from front.messages import Refusal
from front.tree import Declare, Filled, Name, Number, Symbol, Text


def change(program, notes):
    for routine in program.routines:
        symbol, where = routine.symbol, routine.place
        if symbol.name != 'main' or symbol.storage != 'external':
            continue
        kind = kinds.real(symbol.type)
        if not kinds.is_integer(kind.result):
            raise Refusal(where, 'main gives an int')
        if len(routine.params) > 3:
            raise Refusal(where, 'main takes argc and argv, or nothing')
        made = []
        for k, param in enumerate(routine.params):
            if k == 0 and kinds.is_integer(param.type):
                init = Number(where, kinds.INT, '1')
            elif kinds.is_pointer(param.type):
                text = Text(where, kinds.Array(kinds.CHAR, 8), '"program"' if k == 1 else '""')
                holder = Symbol(program.fresh('rvcc_arguments'), 'variable', kinds.Array(kinds.Pointer(kinds.CHAR), 2), 'local', where)
                made.append(Declare(where, Filled(where, holder.type, {0: text} if k == 1 else {}), holder))
                init = Name(where, holder.type, holder)
            else:
                raise Refusal(param.place, 'main takes argc and argv, or nothing')
            made.append(Declare(where, init, param))
        if routine.params:
            notes(where, 'main is given no arguments: argc is 1')
        routine.body.items[:0] = made
        routine.params = []
        symbol.type = kinds.Function(kinds.INT, [])
