"""The body of a `switch` is a block of labels and statements: a declaration in it is lifted to a block around the `switch`,
its initialiser becomes an assignment, and what stands before the first label, which is never reached, is dropped."""
from collections import Counter

from front import kinds
from front.messages import Refusal
from front.temporaries import assignments
from front.tree import Block, Case, Declare, Do, Empty, For, Name, Switch, statements


def change(program, notes):
    shared = {variable.symbol.written for variable in program.variables} | {symbol.written for symbol in program.functions}
    for routine in program.routines:
        names = Counter(param.written for param in routine.params)
        names.update(shared)

        def count(node, names=names):
            if type(node) is Declare:
                names[node.symbol.written] += 1
            elif type(node) is For and type(node.first) is list:
                names.update(its.symbol.written for its in node.first)
            return node

        labels = set()

        def flattened(node, names=names, labels=labels):
            return lifted(program, node, names, labels) if type(node) is Switch else node

        def elsewhere(node, labels=labels):
            if type(node) is Case and node not in labels:
                raise Refusal(node.place, 'a case stands in the block of its switch, not in a statement of it')
            return node

        statements(routine.body, count)
        statements(routine.body, flattened)
        statements(routine.body, elsewhere)


def lifted(program, node, names, labels):
    body = node.body
    items = list(body.items) if type(body) is Block else [body]
    # A label in front of a single statement came as a block of the two.
    flat, before, labelled = [], [], False
    for item in items:
        if type(item) is Block and item.items and type(item.items[0]) is Case and type(body) is not Block:
            flat += item.items
        else:
            flat.append(item)
    kept = []
    for item in flat:
        labelled = labelled or type(item) is Case
        if type(item) is Declare:
            symbol = item.symbol
            if names[symbol.written] > 1:
                symbol.written = program.fresh(symbol.written)
            before.append(Declare(item.place, None, symbol))
            if item.init is not None and labelled:
                symbol.type = variable(symbol.type)
                target = Name(item.place, symbol.type, symbol)
                kept += [Do(its.place, its) for its in assignments(target, symbol.type, item.init)]
        elif labelled:
            kept.append(item)
    if kept and type(kept[-1]) is Case:
        kept.append(Empty(kept[-1].place))
    node.body = Block(body.place, kept)
    labels.update(item for item in kept if type(item) is Case)
    if not kept:
        # A switch without a label evaluates its value.
        return Block(node.place, [Do(node.place, node.value)])
    return Block(node.place, [*before, node]) if before else node


def variable(kind):
    """The type of what is assigned after its declaration: not `const`."""
    real = kinds.real(kind)
    if type(real) is kinds.Array:
        return kinds.Array(variable(real.of), real.length)
    if 'const' in real.quals:
        real = real.qualified({'const', ' '})
        real.quals = kinds.NONE
    return real
