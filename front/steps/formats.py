"""A call of `printf` with a literal format becomes calls of small functions of `front/library`, one for each piece of the
format. Each gives the number of bytes that it wrote, so the value of the call is their sum."""
import re

from front import constants, kinds
from front.messages import Refusal
from front.temporaries import Temporaries
from front.tree import (Assign, Binary, Block, Call, Cast, Comma, Do, Name, Number, Symbol, Text, Unary, pure, statements)

PIECE = re.compile(r'%(?P<flags>[-0+ #]*)(?P<width>\d+|\*)?(?P<precision>\.(?:\d+|\*)?)?(?P<length>hh|h|ll|l|z|t|j)?(?P<word>.)', re.DOTALL)
NUMBERS = {'d': 'd', 'i': 'd', 'u': 'u', 'x': 'x', 'X': 'X', 'o': 'o'}
NARROW = {('hh', True): kinds.SIGNED_CHAR, ('hh', False): kinds.CHAR, ('h', True): kinds.SHORT, ('h', False): kinds.UNSIGNED_SHORT}
TEXT = kinds.Pointer(kinds.CHAR)


def helper(name, result, *params):
    return Symbol(f'rvcc_put_{name}', 'function', kinds.Function(result, list(params)), 'external', None)


I, U = kinds.INT, kinds.UNSIGNED
HELPERS = {its.name: its for its in (
    helper('text', I, TEXT), helper('d', I, I, I, I, I), helper('u', I, U, I, I, I), helper('x', I, U, I, I, I),
    helper('X', I, U, I, I, I), helper('o', I, U, I, I, I), helper('c', I, I, I, I), helper('s', I, TEXT, I, I))}


def pieces(text, place):
    """The format as texts and directives."""
    made, at, plain = [], 0, ''
    while at < len(text):
        found = PIECE.match(text, at) if text[at] == '%' else None
        if text[at] == '%' and found is None:
            raise Refusal(place, 'the format of printf ends within a directive')
        if found is None:
            plain += text[at]
            at += 1
        elif found['word'] == '%':
            plain += '%'
            at = found.end()
        else:
            if plain:
                made.append(plain)
            plain = ''
            made.append(found)
            at = found.end()
    if plain:
        made.append(plain)
    return made


def calls(node, temporaries):
    """The expressions that evaluate the arguments before anything is written, and the calls that write."""
    place = node.place
    if not node.args or type(node.args[0]) is not Text:
        raise Refusal(place, 'the format of printf has to be a text in quotes')
    args = node.args[1:]
    before, made = [], []
    # What an argument does comes before anything is written: it is kept in a variable.
    acting = [arg for arg in args if not pure(arg)]
    split = pieces(node.args[0].text[1:-1], place)
    if acting and not (len(acting) == 1 and acting[0] is args[0] and type(split[0]) is not str):
        for k, arg in enumerate(args):
            if not pure(arg):
                symbol = temporaries.variable(arg.place, kinds.decayed(arg.type))
                name = Name(arg.place, symbol.type, symbol)
                before.append(Assign(arg.place, symbol.type, name, arg, '='))
                args[k] = name

    def number(value):
        return Number(place, kinds.INT, str(value))

    def taken(what, fits):
        if not args:
            raise Refusal(place, f'printf has no argument for {what}')
        arg = args.pop(0)
        if not fits(kinds.decayed(arg.type)):
            raise Refusal(arg.place, f'printf takes no `{kinds.spell(kinds.decayed(arg.type))}` for {what}')
        return arg

    def called(name, *values):
        made.append(Call(place, kinds.INT, list(values), HELPERS['rvcc_put_' + name]))

    for piece in split:
        if type(piece) is str:
            called('text', Text(place, kinds.Array(kinds.CHAR, len(constants.characters(f'"{piece}"')) + 1), f'"{piece}"'))
            continue
        what, word, flags = piece[0], piece['word'], piece['flags']
        if word in 'eEfFgGaA':
            raise Refusal(place, f'{what} cannot be had: there are no floating numbers')
        if word == 'p':
            raise Refusal(place, '%p cannot be had: addresses have no number')
        if word not in 'diuxXocs':
            raise Refusal(place, f'{what} cannot be had in a format of printf')
        if piece['precision'] is not None:
            raise Refusal(place, f'{what}: a precision cannot be had in a format of printf')
        if set(flags) - set('-0'):
            raise Refusal(place, f'{what}: of the flags only - and 0 can be had in a format of printf')
        if piece['length'] in ('ll', 'j'):
            raise Refusal(place, f'{what}: long long cannot be had, integers have at most 32 bits')
        width = taken(f'the width of {what}', kinds.is_integer) if piece['width'] == '*' else number(int(piece['width'] or 0))
        left, zero = number(int('-' in flags)), number(int('0' in flags and '-' not in flags))
        if word == 's':
            value = taken(what, lambda kind: kinds.is_pointer(kind) and (kinds.is_byte(kind.to) or kinds.is_void(kind.to)))
            called('s', value, width, left)
        elif word == 'c':
            called('c', taken(what, kinds.is_integer), width, left)
        else:
            value = taken(what, kinds.is_integer)
            narrow = NARROW.get((piece['length'], word in 'di'))
            if narrow is not None:
                value = Cast(value.place, narrow, value, True)
            called(NUMBERS[word], value, width, zero, left)
    if args:
        raise Refusal(args[0].place, 'printf has more arguments than its format takes')
    return before, made


def change(program, notes):
    def is_printf(node):
        return type(node) is Call and node.symbol.name == 'printf' and not node.symbol.defined

    for routine in program.routines:
        temporaries = Temporaries(program, routine)

        def whole(node, temporaries=temporaries):
            """A call that is a statement becomes statements."""
            value = node.value if type(node) is Do else None
            while type(value) is Cast and kinds.is_void(value.type):
                value = value.operand
            if not is_printf(value):
                return node
            before, made = calls(value, temporaries)
            items = [Do(its.place, its) for its in before + made]
            return items[0] if len(items) == 1 else items or []

        def within(node, temporaries=temporaries):
            """A call whose value is used becomes a sum."""
            if not is_printf(node):
                return node
            before, made = calls(node, temporaries)
            total = made[0] if made else Number(node.place, kinds.INT, '0')
            for its in made[1:]:
                total = Binary(node.place, kinds.INT, total, its, '+')
            return Comma(node.place, kinds.INT, [*before, total]) if before else total

        statements(routine.body, whole)
        temporaries.run(within)
