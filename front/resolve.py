"""Reads the trees of all files into one program."""
from front.bodies import Bodies
from front.declarations import Declarations
from front.expressions import Expressions
from front.tree import Program


class Resolver(Declarations, Expressions, Bodies):
    def __init__(self, program, notes):
        super().__init__(program, notes)
        self.globals = set()
        self.result = None


def resolved(trees, notes):
    """The program that the files are, each as pycparser's tree. A `Refusal` where they are no program."""
    program = Program()
    resolver = Resolver(program, notes)
    for tree in trees:
        resolver.unit(tree)
    return program
