"""Variables that the front adds to a function, declared in front of its body, and initialisers as assignments."""
from front import constants, kinds
from front.messages import Refusal
from front.tree import (Assign, Binary, Comma, Declare, Filled, Index, Member, Name, Number, Symbol, Text, Unary, pure,
                        rewrite)

MOST_ASSIGNMENTS = 4096


class Temporaries:
    def __init__(self, program, routine):
        self.program, self.routine, self.made = program, routine, []

    def variable(self, place, kind, name='rvcc_value'):
        """A new variable of the function. It is declared when `run` or `declare` ends."""
        symbol = Symbol(self.program.fresh(name), 'variable', kind, 'local', place)
        self.made.append(Declare(place, None, symbol))
        return symbol

    def declare(self):
        self.routine.body.items[:0] = self.made
        self.made = []

    def run(self, change):
        """Rewrites the expressions of the function."""
        rewrite(self.routine.body, change)
        self.declare()


def twice(node, temporaries):
    """An object that is read and then written: expressions to evaluate before, the object, and the object once more."""
    if pure(node):
        return [], node, node
    where = node.place
    kind = kinds.Pointer(node.type)
    symbol = temporaries.variable(where, kind, 'rvcc_place')
    name = Name(where, kind, symbol)
    keep = Assign(where, kind, name, Unary(where, kind, node, '&'), '=')
    return [keep], Unary(where, node.type, name, '*'), Unary(where, node.type, name, '*')


def assignments(target, kind, init):
    """Assignments that do what an initialiser would do to the object `target`, zeros and all."""
    made = []
    assign(target, kind, init, made)
    return made


def assign(target, kind, init, made):
    where = target.place
    inner = kinds.real(kind)
    if len(made) > MOST_ASSIGNMENTS:
        raise Refusal(where, 'this is too large to be written as assignments: initialise a variable in its declaration')
    if type(inner) is kinds.Array:
        values = init.values if type(init) is Filled else {}
        if type(init) is Text:
            values = dict(enumerate(Number(where, kinds.INT, f"'{quoted(piece)}'") for piece in constants.characters(init.text)))
        for k in range(inner.length):
            element = Index(where, inner.of, target, Number(where, kinds.INT, str(k)))
            assign(element, inner.of, values.get(k), made)
    elif type(inner) is kinds.Structure and (init is None or type(init) is Filled):
        values = init.values if init is not None else {}
        for name, its in kinds.body_of(inner).members.items():
            assign(Member(where, its, target, name, False), its, values.get(name), made)
    else:
        value = Number(where, kinds.INT, '0') if init is None else init
        made.append(Assign(where, inner, target, value, '='))


def quoted(piece):
    return "\\'" if piece == "'" else piece
