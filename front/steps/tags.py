"""Structs get names of their own: one that is declared in a block, or in another file with other members, and one without
a tag. The subset declares all of them at file scope."""
from front import kinds


def change(program, notes):
    taken = set()
    bodies = []
    for body in program.bodies:
        if body.twin is not None:
            continue
        bodies.append(body)
        if body.name is None:
            body.name = program.fresh('rvcc_struct')
        elif body.name in taken:
            body.name = program.fresh(body.name)
        taken.add(body.name)
    program.bodies = bodies
