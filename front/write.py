"""Writes the program as a text: one statement a line, with the place in the user's files behind it."""
import os

from front import kinds
from front.tree import (Assign, Binary, Block, Call, Case, Cast, Choice, Comma, Declare, Do, DoWhile, Empty, Filled, For, If,
                        Index, Jump, Listed, Literal, Member, Name, Number, Return, SizeOf, Switch, Text, Unary, While)

# How strongly an expression holds together; an operand that holds less gets parentheses.
COMMA, ASSIGN, CHOICE, UNARY, POSTFIX, PRIMARY = 0, 1, 2, 13, 14, 15
LEVEL = {'||': 3, '&&': 4, '|': 5, '^': 6, '&': 7, '==': 8, '!=': 8, '<': 9, '>': 9, '<=': 9, '>=': 9,
         '<<': 10, '>>': 10, '+': 11, '-': 11, '*': 12, '/': 12, '%': 12}
WIDTH = 100


class Writer:
    """`lines` is the text, and `places` the place of each line (None: of no line of the user)."""

    def __init__(self, program, steps):
        self.program = program
        self.lines, self.places = [], []
        self.layers = [step.kind for step in steps if hasattr(step, 'kind')]
        self.known = {}

    # ---- types

    def adapted(self, kind):
        """A type after the steps that change types."""
        found = self.known.get(id(kind))
        if found is None:
            def layer(its):
                for change in self.layers:
                    its = change(its)
                return its
            found = self.known[id(kind)] = (kinds.mapped(kind, layer), kind)
        return found[0]

    def declarator(self, kind, name, param=False):
        """A declaration of a name, or a type's name where it is empty."""
        kind = self.adapted(kind)
        if param and type(kind) is kinds.Pointer and type(kind.to) is kinds.Array:
            kind = kinds.Array(kind.to, None)
        return kinds.spell(kind, name)

    # ---- expressions

    def expression(self, node, least=COMMA):
        text, level = self.forms[type(node)](self, node)
        return f'({text})' if level < least else text

    def number(self, node):
        return node.text, PRIMARY

    def name(self, node):
        return node.symbol.written, PRIMARY

    def unary(self, node):
        if node.op[0] == 'p':
            return self.expression(node.operand, POSTFIX) + node.op[1:], POSTFIX
        inner = self.expression(node.operand, UNARY)
        return node.op + (' ' if inner[0] == node.op[-1] else '') + inner, UNARY

    def binary(self, node):
        level = LEVEL[node.op]
        # A chain of one operator is not written by recursion on its left.
        rights = []
        left = node
        while type(left) is Binary and LEVEL[left.op] == level:
            rights.append((left.op, left.right))
            left = left.left
        text = [self.expression(left, level)]
        for op, right in reversed(rights):
            inner = self.expression(right, level + 1)
            text.append(f' {op} {inner}')
        return ''.join(text), level

    def assign(self, node):
        return f'{self.expression(node.target, UNARY)} {node.op} {self.expression(node.value, ASSIGN)}', ASSIGN

    def choice(self, node):
        return (f'{self.expression(node.condition, CHOICE + 1)} ? {self.expression(node.first, COMMA)} : '
                f'{self.expression(node.second, CHOICE)}'), CHOICE

    def comma(self, node):
        return ', '.join(self.expression(item, ASSIGN) for item in node.items), COMMA

    def index(self, node):
        return f'{self.expression(node.base, POSTFIX)}[{self.expression(node.index)}]', POSTFIX

    def member(self, node):
        return f"{self.expression(node.base, POSTFIX)}{'->' if node.arrow else '.'}{node.name}", POSTFIX

    def call(self, node):
        return f"{node.symbol.written}({', '.join(self.expression(arg, ASSIGN) for arg in node.args)})", POSTFIX

    def cast(self, node):
        if not node.shown:
            return self.forms[type(node.operand)](self, node.operand)
        return f"({self.declarator(node.type, '')}){self.expression(node.operand, UNARY)}", UNARY

    def size_of(self, node):
        if node.kind is not None and type(self.adapted(node.kind)) is not kinds.Array:
            return f"sizeof({self.declarator(node.kind, '')})", UNARY
        if node.kind is None and self.is_path(node.operand):
            return f'sizeof {self.expression(node.operand, UNARY)}', UNARY
        return f'{kinds.size(node.kind or node.operand.type)}u', PRIMARY

    def is_path(self, node):
        """Whether an operand of `sizeof` is a name and what stands behind it, which no step has changed."""
        kind = type(node)
        if kind is Name:
            return node.symbol.kind == 'variable' and not kinds.is_pointer(node.type)
        if kind is Index:
            return type(node.index) is Number and self.is_path(node.base)
        return kind is Member and not node.arrow and self.is_path(node.base)

    def literal(self, node):
        return f"({self.declarator(node.type, '')}){self.initialiser(node.type, node.init)}", POSTFIX

    forms = {Number: number, Text: number, Name: name, Unary: unary, Binary: binary, Assign: assign, Choice: choice,
             Comma: comma, Index: index, Member: member, Call: call, Cast: cast, SizeOf: size_of, Literal: literal}

    def initialiser(self, kind, init):
        inner = kinds.real(kind)
        if type(init) is Listed:
            items = []
            for designators, value in init.items:
                named = ''.join(f'.{its}' if isinstance(its, str) else f'[{its}]' for its in designators)
                items.append((named + ' = ' if named else '') + self.initialiser(None, value))
            return '{' + ', '.join(items) + '}'
        if type(init) is not Filled:
            return self.expression(init, ASSIGN)
        if type(inner) is kinds.Array:
            keys = range(max(init.values, default=-1) + 1)
            types = [inner.of] * len(keys)
        else:
            members = kinds.body_of(inner).members
            keys = list(members)
            while keys and keys[-1] not in init.values:
                keys.pop()
            types = [members[key] for key in keys]
        items = [self.initialiser(its, init.values[key]) if key in init.values else self.zero(its)
                 for key, its in zip(keys, types)]
        return '{' + ', '.join(items) + '}' if items else '{0}'

    @staticmethod
    def zero(kind):
        return '0' if kinds.is_scalar(kind) else '{0}'

    # ---- statements

    def line(self, depth, text, place=None):
        self.lines.append('    ' * depth + text)
        self.places.append(place)

    def declaration(self, node, prefix=''):
        """A declaration without its semicolon."""
        text = prefix + self.declarator(node.symbol.type, node.symbol.written)
        if node.init is not None:
            text += f' = {self.initialiser(node.symbol.type, node.init)}'
        return text

    def statement(self, node, depth):
        kind, where = type(node), node.place
        if kind is Do:
            self.line(depth, self.expression(node.value) + ';', where)
        elif kind is Declare:
            word = 'static ' if node.symbol.storage == 'static' else ''
            self.line(depth, self.declaration(node, word) + ';', where)
        elif kind is Block:
            self.line(depth, '{', where)
            self.items(node.items, depth + 1)
            self.line(depth, '}')
        elif kind is If:
            self.branches(node, depth)
        elif kind is While:
            self.headed(f'while ({self.expression(node.condition)})', node.body, depth, where)
        elif kind is DoWhile:
            self.headed('do', node.body, depth, where)
            self.line(depth, f'while ({self.expression(node.condition)});', node.condition.place)
        elif kind is For:
            first = self.header(node.first)
            condition = self.expression(node.condition) if node.condition is not None else ''
            each = self.expression(node.each) if node.each is not None else ''
            self.headed(f"for ({first}; {condition}; {each})".replace('; ;', ';;').replace('; )', ';)'), node.body, depth, where)
        elif kind is Switch:
            self.headed(f'switch ({self.expression(node.value)})', node.body, depth, where)
        elif kind is Case:
            word = 'default' if node.value is None else f'case {self.expression(node.value, CHOICE)}'
            self.line(depth - 1, f'{word}:', where)
        elif kind is Return:
            self.line(depth, 'return;' if node.value is None else f'return {self.expression(node.value)};', where)
        elif kind is Jump:
            self.line(depth, f'{node.word};', where)
        else:
            self.line(depth, ';', where)

    def items(self, items, depth):
        for item in items:
            self.statement(item, depth)

    def header(self, first):
        """The first part of the header of a `for`."""
        if type(first) is not list:
            return self.expression(first) if first is not None else ''
        made = self.declaration(first[0])
        for its in first[1:]:
            # The later declarators stand without the words of the type.
            alone = self.declaration(its)
            words = kinds.spell(self.base(its.symbol.type))
            made += ', ' + alone[len(words):].lstrip()
        return made

    def base(self, kind):
        kind = self.adapted(kind)
        while type(kind) in (kinds.Pointer, kinds.Array):
            kind = kind.to if type(kind) is kinds.Pointer else kind.of
        return kind

    def headed(self, header, body, depth, where):
        self.line(depth, header, where)
        self.statement(body, depth if type(body) is Block else depth + 1)

    def branches(self, node, depth):
        """An `if` with the `else if`s behind it. A branch that ends in an `if` without `else` stands in a block where an
        `else` follows, as that would belong to the inner one."""
        word = ''
        while True:
            header = f'{word}if ({self.expression(node.condition)})'
            yes = node.yes
            if node.no is not None and type(yes) is not Block:
                yes = Block(yes.place, [yes])
            self.headed(header, yes, depth, node.place)
            if node.no is None:
                return
            if type(node.no) is not If:
                self.headed('else', node.no, depth, node.no.place)
                return
            node, word = node.no, 'else '

    # ---- the program

    def structure(self, body):
        self.line(0, f'struct {body.name} {{', body.place)
        for name, kind in body.members.items():
            self.line(1, self.declarator(kind, name) + ';', body.place)
        self.line(0, '};')

    def heading(self, routine_symbol, params):
        kind = self.adapted(routine_symbol.type)
        words = ', '.join(params) or 'void'
        text = kinds.spell(kind.result, f'{routine_symbol.written}({words})')
        return ('static ' if routine_symbol.storage == 'internal' else '') + text

    def prototype(self, symbol):
        params = [self.declarator(its, '', True) for its in kinds.real(symbol.type).params or []]
        self.line(0, self.heading(symbol, params) + ';', symbol.place)

    def added(self, text):
        """A text that the front brings along."""
        for line in text.rstrip('\n').split('\n'):
            self.line(0, line)

    def whole(self):
        """Writes everything. The text, with the places in comments."""
        program = self.program
        for body in program.bodies:
            self.structure(body)
        for text in program.library:
            self.added(text)
        for variable in program.variables:
            word = 'static ' if variable.symbol.storage in ('internal', 'static') else ''
            self.line(0, self.declaration(variable, word) + ';', variable.place)
        for symbol in program.prototypes:
            self.prototype(symbol)
        for make in program.helpers.values():
            self.added(make(self.declarator))
        for routine in program.routines:
            params = [self.declarator(its.type, its.written, True) for its in routine.params]
            self.line(0, self.heading(routine.symbol, params), routine.place)
            self.statement(routine.body, 0)
        return self.commented()

    def commented(self):
        """The lines, each that begins another line of the user with its place behind it."""
        made, last = [], None
        for text, place in zip(self.lines, self.places):
            here = place and (place.file, place.line)
            if here and here != last and text.strip() not in ('{', '}'):
                name = os.path.basename(place.file).replace('*/', '* /')
                text = f'{text:<{60}} /* {name}:{place.line} */'
                last = here
            made.append(text)
        return '\n'.join(made) + '\n'
