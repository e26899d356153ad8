"""Expressions: pycparser's tree with names resolved and with the type of each."""
import os

from pycparser import c_ast

from front import constants, kinds
from front.conversions import cast, convert, is_place
from front.messages import Refusal
from front.tree import (Assign, Binary, Call, Cast, Choice, Comma, Index, Literal, Member, Name, Number, SizeOf, Text,
                        Unary)

ABSENT = os.path.join(os.path.dirname(os.path.realpath(__file__)), 'include', 'absent.tsv')


def absent(name):
    """Why a name of the library cannot be had, None where it is none."""
    with open(ABSENT, encoding='ascii') as file:
        for line in file:
            its, _, sentence = line.rstrip('\n').partition('\t')
            if its == name:
                return sentence[:1].lower() + sentence[1:].rstrip('.')
    return None


# Those that take pointers to elements of any type; the step `blocks` chooses one by the type.
BLOCKS = ('memcpy', 'memmove', 'memset', 'memcmp')


class Expressions:
    def expression(self, node):
        reader = self.readers.get(type(node).__name__)
        place = self.at(node)
        if reader is None:
            raise Refusal(place, f'this cannot be had: {type(node).__name__}')
        return reader(self, node, place)

    def value(self, node):
        """An expression whose value is used, so that it may not be a function."""
        made = self.expression(node)
        if type(made) is Name and made.symbol.kind == 'function':
            raise Refusal(made.place, f'the address of the function {made.symbol.name} cannot be had: choose between '
                          'functions with a switch')
        return made

    def scalar(self, node):
        made = self.value(node)
        if not kinds.is_scalar(kinds.decayed(made.type)):
            raise Refusal(made.place, f'a number or a pointer is wanted here, not `{kinds.spell(made.type)}`')
        return made

    # ---- primary expressions

    def constant(self, node, place):
        text = node.value
        if node.type == 'string':
            text = text.removeprefix('u8')
            return Text(place, kinds.Array(kinds.CHAR, len(constants.characters(text)) + 1), text)
        if node.type in ('float', 'double', 'long double'):
            raise Refusal(place, f'{text} cannot be had: there are no floating numbers')
        _, kind, text = constants.number(text, place)
        return Number(place, kind, text)

    def name(self, node, place):
        symbol = self.found(node.name)
        if symbol is None:
            raise Refusal(place, self.undeclared(node.name))
        symbol.used = True
        return Name(place, symbol.type, symbol)

    @staticmethod
    def undeclared(name, how='is not declared'):
        why = absent(name)
        return f'{name} cannot be had: {why}' if why else f'{name} {how}'

    def compound_literal(self, node, place):
        kind = self.with_length(self.type_of(node.type), node.init)
        self.object_type(kind, place)
        return Literal(place, kind, self.initialiser(node.init))

    # ---- operators

    def unary(self, node, place):
        op = node.op
        if op == 'sizeof':
            return self.size_of(node, place)
        if op == '_Alignof':
            return Number(place, kinds.UNSIGNED, f'{kinds.align(self.type_of(node.expr))}u')
        if op == '&':
            operand = self.value(node.expr)
            if type(operand) is Unary and operand.op == '*':
                return operand.operand
            if not is_place(operand):
                raise Refusal(place, 'what & stands before is no object')
            return Unary(place, kinds.Pointer(operand.type), operand, '&')
        operand = self.expression(node.expr)
        if op == '*':
            if type(operand) is Name and operand.symbol.kind == 'function':
                return operand
            pointer = kinds.decayed(operand.type)
            if not kinds.is_pointer(pointer):
                raise Refusal(place, f'* stands before no pointer, but `{kinds.spell(operand.type)}`')
            return Unary(place, self.pointed(pointer, place), operand, '*')
        if op in ('++', '--', 'p++', 'p--'):
            self.assignable(operand, place)
            return Unary(place, kinds.real(operand.type), operand, op)
        if op == '!':
            if not kinds.is_scalar(kinds.decayed(operand.type)):
                raise Refusal(place, f'! takes no `{kinds.spell(operand.type)}`')
            return Unary(place, kinds.INT, operand, op)
        if not kinds.is_integer(operand.type):
            raise Refusal(place, f'{op} takes no `{kinds.spell(operand.type)}`')
        return Unary(place, kinds.promoted(operand.type), operand, op)

    def pointed(self, pointer, place):
        to = kinds.real(pointer).to
        if kinds.is_void(to):
            raise Refusal(place, 'what a void * points to has no type')
        if kinds.size(to) is None and type(kinds.real(to)) is not kinds.Function:
            raise Refusal(place, f'`{kinds.spell(to)}` is not complete')
        return to

    def size_of(self, node, place):
        if isinstance(node.expr, c_ast.Typename):
            kind, operand = self.type_of(node.expr), None
        else:
            operand, kind = self.expression(node.expr), None
        if kinds.size(kind or operand.type) is None:
            raise Refusal(place, f'`{kinds.spell(kind or operand.type)}` has no size')
        return SizeOf(place, kinds.UNSIGNED, operand, kind)

    def assignable(self, target, place):
        if not is_place(target) or not (kinds.is_scalar(target.type) or kinds.is_struct(target.type)):
            raise Refusal(place, 'what stands there cannot be assigned')
        if 'const' in kinds.real(target.type).quals:
            raise Refusal(place, 'what stands there is const, and cannot be assigned')

    def binary(self, node, place):
        op = node.op
        left, right = self.value(node.left), self.value(node.right)
        a, b = kinds.decayed(left.type), kinds.decayed(right.type)
        if op in ('&&', '||'):
            if kinds.is_scalar(a) and kinds.is_scalar(b):
                return Binary(place, kinds.INT, left, right, op)
        elif kinds.is_integer(a) and kinds.is_integer(b):
            if op in ('<<', '>>'):
                return Binary(place, kinds.promoted(a), left, right, op)
            compares = op in ('<', '>', '<=', '>=', '==', '!=')
            return Binary(place, kinds.INT if compares else kinds.common(a, b), left, right, op)
        elif op in ('+', '-') and kinds.is_pointer(a) and kinds.is_integer(b):
            self.steps_over(a, place)
            return Binary(place, a, left, right, op)
        elif op == '+' and kinds.is_integer(a) and kinds.is_pointer(b):
            self.steps_over(b, place)
            return Binary(place, b, left, right, op)
        elif op == '-' and kinds.is_pointer(a) and kinds.is_pointer(b) and kinds.same(a, b):
            return Binary(place, kinds.INT, left, right, op)
        elif op in ('<', '>', '<=', '>=', '==', '!=') and (kinds.is_pointer(a) or kinds.is_pointer(b)):
            if constants.is_null(right) and kinds.is_pointer(a):
                right = convert(right, a)
            elif constants.is_null(left) and kinds.is_pointer(b):
                left = convert(left, b)
            elif not kinds.same(a, b):
                left = convert(left, b) if kinds.is_pointer(a) and kinds.is_pointer(b) else left
            if kinds.is_pointer(kinds.decayed(left.type)) and kinds.is_pointer(kinds.decayed(right.type)):
                return Binary(place, kinds.INT, left, right, op)
        raise Refusal(place, f'{op} takes no `{kinds.spell(a)}` and `{kinds.spell(b)}`')

    @staticmethod
    def steps_over(pointer, place):
        to = kinds.real(pointer).to
        if kinds.size(to) is None and not kinds.is_void(to):
            raise Refusal(place, f'`{kinds.spell(to)}` is not complete')

    def assignment(self, node, place):
        target, value = self.value(node.lvalue), self.value(node.rvalue)
        self.assignable(target, place)
        kind = kinds.real(target.type)
        if node.op == '=':
            return Assign(place, kind, target, convert(value, kind), '=')
        if kinds.is_pointer(kind):
            fits = node.op in ('+=', '-=') and kinds.is_integer(value.type)
        else:
            fits = kinds.is_integer(kind) and kinds.is_integer(value.type)
        if not fits:
            raise Refusal(place, f'{node.op} takes no `{kinds.spell(kind)}` and `{kinds.spell(value.type)}`')
        return Assign(place, kind, target, value, node.op)

    def choice(self, node, place):
        condition, first, second = self.scalar(node.cond), self.value(node.iftrue), self.value(node.iffalse)
        a, b = kinds.decayed(first.type), kinds.decayed(second.type)
        if kinds.is_integer(a) and kinds.is_integer(b):
            kind = kinds.common(a, b)
        elif kinds.is_pointer(a) and constants.is_null(second):
            kind, second = a, convert(second, a)
        elif kinds.is_pointer(b) and constants.is_null(first):
            kind, first = b, convert(first, b)
        elif kinds.same(a, b):
            kind = a
        elif kinds.is_void(a) or kinds.is_void(b):
            kind = kinds.VOID
            first = first if kinds.is_void(a) else cast(first.place, kind, first)
            second = second if kinds.is_void(b) else cast(second.place, kind, second)
        else:
            raise Refusal(place, f'? : takes no `{kinds.spell(a)}` and `{kinds.spell(b)}`')
        return Choice(place, kind, condition, first, second)

    def comma(self, node, place):
        items = [self.value(item) for item in node.exprs]
        return Comma(place, kinds.decayed(items[-1].type), items) if len(items) > 1 else items[0]

    def index(self, node, place):
        base, index = self.value(node.name), self.value(node.subscript)
        pointer, other = kinds.decayed(base.type), kinds.decayed(index.type)
        if kinds.is_integer(pointer) and kinds.is_pointer(other):
            pointer, other = other, pointer
        if not kinds.is_pointer(pointer) or not kinds.is_integer(other):
            raise Refusal(place, f'`{kinds.spell(base.type)}` has no elements')
        return Index(place, self.pointed(pointer, place), base, index)

    def member(self, node, place):
        base = self.value(node.name)
        arrow = node.type == '->'
        kind = kinds.decayed(base.type)
        if arrow:
            kind = kinds.real(kind.to) if kinds.is_pointer(kind) else None
        if kind is None or not kinds.is_struct(kind):
            raise Refusal(place, f'what stands before {node.type} is no struct' if not arrow else
                          'what stands before -> is no pointer to a struct')
        members = kinds.body_of(kind).members
        name = node.field.name
        if members is None:
            raise Refusal(place, f'`{kinds.spell(kind)}` is not complete')
        if name not in members:
            raise Refusal(self.at(node.field), f'there is no member {name} in `{kinds.spell(kind)}`')
        return Member(place, members[name].qualified(kind.quals), base, name, arrow)

    def cast(self, node, place):
        kind = self.type_of(node.to_type)
        return cast(place, kind, self.value(node.expr))

    # ---- calls

    def call(self, node, place):
        if isinstance(node.name, c_ast.ID) and node.name.name in ('offsetof', '__builtin_offsetof'):
            return self.offset_of(node, place)
        args = node.args.exprs if node.args is not None else []
        if isinstance(node.name, c_ast.ID) and self.found(node.name.name) is None:
            raise Refusal(place, self.undeclared(node.name.name, 'is called, and not declared'))
        called = self.expression(node.name)
        while type(called) is Unary and called.op in '&*':
            called = called.operand
        if type(called) is not Name or called.symbol.kind != 'function':
            raise Refusal(place, 'what is called is no function')
        symbol = called.symbol
        kind = kinds.real(symbol.type)
        args = [self.value(arg) for arg in args]
        if kind.params is not None:
            if len(args) < len(kind.params) or (len(args) > len(kind.params) and not kind.variadic):
                raise Refusal(place, f'{symbol.name} takes {len(kind.params)} arguments, and {len(args)} are given')
            if symbol.name not in BLOCKS or symbol.defined:
                args[:len(kind.params)] = [convert(arg, param) for arg, param in zip(args, kind.params)]
        return Call(place, kind.result, args, symbol)

    def offset_of(self, node, place):
        kind, path = self.type_of(node.args.exprs[0]), node.args.exprs[1]
        names = []
        while isinstance(path, c_ast.StructRef):
            names.insert(0, path.field.name)
            path = path.name
        if not isinstance(path, c_ast.ID):
            raise Refusal(place, 'offsetof takes a struct and a member')
        at = 0
        for name in [path.name, *names]:
            if not kinds.is_struct(kind) or name not in (kinds.body_of(kind).members or ()):
                raise Refusal(place, f'there is no member {name} in `{kinds.spell(kind)}`')
            at += kinds.offset(kinds.real(kind), name)
            kind = kinds.body_of(kinds.real(kind)).members[name]
        return Number(place, kinds.UNSIGNED, f'{at}u')

    readers = {'Constant': constant, 'ID': name, 'CompoundLiteral': compound_literal, 'UnaryOp': unary,
               'BinaryOp': binary, 'Assignment': assignment, 'TernaryOp': choice, 'ExprList': comma,
               'ArrayRef': index, 'StructRef': member, 'Cast': cast, 'FuncCall': call}
