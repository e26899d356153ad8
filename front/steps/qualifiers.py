"""`volatile`, `restrict` and `register` are dropped; `const` stays where it stands in front of the whole type. A note says so
where a `volatile` was."""
from front import kinds
from front.tree import Declare, statements


def kind(kind):
    # The writer sets `const` in front again where the innermost type has it.
    if type(kind) in (kinds.Pointer, kinds.Array, kinds.Named):
        keep = kind.quals & {'const'} if type(kind) is kinds.Named else kinds.NONE
    else:
        keep = kind.quals & {'const'}
    if keep == kind.quals:
        return kind
    copy = kind.qualified({'const'})
    copy.quals = keep
    return copy


def is_volatile(kind):
    if 'volatile' in kind.quals:
        return True
    inner = {kinds.Pointer: 'to', kinds.Array: 'of', kinds.Named: 'target'}.get(type(kind))
    return inner is not None and is_volatile(getattr(kind, inner))


def change(program, notes):
    def look(node):
        if type(node) is Declare and is_volatile(node.symbol.type):
            notes(node.symbol.place, f'volatile is dropped: accesses of {node.symbol.name} may be left out or merged')
        return node

    for variable in program.variables:
        look(variable)
    for routine in program.routines:
        statements(routine.body, look)
        for param in routine.params:
            if is_volatile(param.type):
                notes(param.place, f'volatile is dropped: accesses through {param.name} may be left out or merged')
    for body in program.bodies:
        for name, its in body.members.items():
            if is_volatile(its):
                notes(body.place, f'volatile is dropped: accesses of the member {name} may be left out or merged')
