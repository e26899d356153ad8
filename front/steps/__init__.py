"""The steps from the resolved program to one of the subset, in their order. Each is a module that can be read alone, with
`kind(type)`, which changes one layer of a type where it is written, `change(program, notes)`, which changes the tree, or
both. The tests run each step's programs with that step taken out."""
from front.steps import (tags, linkage, initialisers, statics, formats, blocks, literals, structs, booleans, enumerations,
                         switches, arguments, qualifiers, typedefs, integers, pointers, library, prototypes)

STEPS = (tags, linkage, initialisers, statics, formats, blocks, literals, structs, booleans, enumerations, switches,
         arguments, qualifiers, typedefs, integers, pointers, library, prototypes)


def name_of(step):
    return step.__name__.rsplit('.', 1)[-1]


def without(names):
    """The steps but for those of these names."""
    return tuple(step for step in STEPS if name_of(step) not in names)
