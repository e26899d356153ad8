"""`memcpy`, `memmove`, `memset` and `memcmp` become functions for elements of one type, as a value in memory can only be
read and written as what it is. They are made of the texts in `front/library`."""
import os
import re

from front import constants, kinds
from front.conversions import convert, source
from front.messages import Refusal
from front.steps.library import FOLDER
from front.temporaries import Temporaries
from front.tree import Call, Cast, Index, Number, Symbol, Unary

NAMES = ('memcpy', 'memmove', 'memset', 'memcmp')


def elements(node):
    """A pointer argument as one to scalars or structs, and the type of these: `&a` and `a` of an array of arrays are
    `a[0]`."""
    node = source(node)
    kind = kinds.decayed(node.type)
    if not kinds.is_pointer(kind):
        raise Refusal(node.place, f'a pointer is wanted here, not `{kinds.spell(node.type)}`')
    to = kinds.real(kind.to)
    while type(to) is kinds.Array:
        if type(node) is Unary and node.op == '&':
            node = node.operand
        else:
            node = Index(node.place, to, node, Number(node.place, kinds.INT, '0'))
        to = kinds.real(to.of)
    return node, to


def suffix(kind):
    """The type as a part of a name."""
    return re.sub(r'\W+', '_', kinds.spell(written(kind)).replace('*', 'p')).strip('_')


def written(kind):
    """The type as the subset has it, without `const`."""
    from front.steps import enumerations, integers, booleans, typedefs, pointers

    def layer(its):
        for step in (typedefs, booleans, enumerations, integers, pointers):
            its = step.kind(its)
        if its.quals:
            its = its.qualified({'const'})
            its.quals = kinds.NONE
        return its
    return kinds.mapped(kind, layer)


def change(program, notes):
    def chosen(node):
        if type(node) is not Call or node.symbol.name not in NAMES or node.symbol.defined:
            return node
        name, place = node.symbol.name, node.place
        if len(node.args) != 3:
            raise Refusal(place, f'{name} takes 3 arguments')
        first, kind = elements(node.args[0])
        count = convert(node.args[2], kinds.UNSIGNED)
        byte = kinds.size(kind) == 1 or kinds.is_void(kind)
        if name == 'memset':
            second = convert(node.args[1], kinds.INT)
            if not byte and constants.value(second) != 0:
                raise Refusal(place, f'memset of `{kinds.spell(kind)}` can only set to 0: an element has no bytes of its own')
        else:
            second, other = elements(node.args[1])
            if not kinds.same(kind, other) and not (byte and (kinds.is_void(other) or kinds.is_byte(other)) and not
                                                    (kinds.is_integer(kind) and kinds.real(kind).signed)):
                raise Refusal(place, f'{name} between `{kinds.spell(kind)}` and `{kinds.spell(other)}` cannot be had: '
                              'an element is read and written as what it is')
            if name == 'memcmp' and not byte:
                raise Refusal(place, f'memcmp of `{kinds.spell(kind)}` cannot be had: an element has no bytes of its own')
        if kinds.is_void(kind):
            kind = kinds.CHAR
        kind = written(kind)
        made = f'rvcc_{name}_{suffix(kind)}'
        pointer = kinds.Pointer(kind)
        symbol = Symbol(made, 'function', kinds.Function(node.type, []), 'external', place)
        if made not in program.helpers:
            if kinds.is_struct(kind):
                program.helpers[made] = of_structs(program, name, made, kind, place)
            else:
                program.helpers[made] = of_scalars(name, kind, place)
        # What it gives is the pointer that it took, or the order of the two.
        result = kinds.INT if name == 'memcmp' else pointer
        return Call(place, result, [first, second, count], symbol)

    for routine in program.routines:
        Temporaries(program, routine).run(chosen)


def of_scalars(name, kind, place):
    """The function for a scalar type, from its text with `@T@`, `@N@` and `@S@` replaced."""
    path = os.path.join(FOLDER, f'{name}.c.in')
    try:
        with open(path, encoding='ascii') as file:
            text = file.read()
    except OSError:
        raise Refusal(place, f'{name} cannot be had: front/library/{name}.c.in is missing')
    text = text.replace('@T@', kinds.spell(kind)).replace('@N@', suffix(kind)).replace('@S@', str(kinds.size(kind)))
    return lambda spell: text


def of_structs(program, name, made, kind, place):
    """The function for structs, by functions that copy or clear one."""
    from front.steps.structs import clearer, copier
    tag = kinds.spell(kind)
    if name == 'memset':
        each = clearer(program, kind).name
        return lambda spell: (f'static {tag} *{made}({tag} *to, int value, unsigned int bytes)\n{{\n    unsigned int i;\n'
                              f'    for (i = 0; i < bytes / sizeof({tag}); i++)\n        {each}(&to[i]);\n    return to;\n}}\n')
    each = copier(program, kind).name
    count = f'bytes / sizeof({tag})'
    up = f'for (i = 0; i < {count}; i++)\n        {each}(&to[i], &from[i]);\n'
    down = f'for (i = {count}; i > 0; i--)\n        {each}(&to[i - 1], &from[i - 1]);\n'
    moves = up if name == 'memcpy' else None
    if moves is None:
        raise Refusal(place, f'memmove of `{tag}` cannot be had: use a loop, or memcpy where the two do not overlap')
    return lambda spell: (f'static {tag} *{made}({tag} *to, {tag} *from, unsigned int bytes)\n{{\n    unsigned int i;\n'
                          f'    {moves}    return to;\n}}\n')
