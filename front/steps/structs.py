"""Structs go by pointers. `a = b` calls a function that copies the members one by one and gives `&a`; a parameter is a
pointer to a struct that the function copies first; a result is written to a struct of the caller, whose address is one
more argument. An expression of struct type becomes the address of one (`address`).

A copy reads all members, and the language leaves reading one that was never written undefined. So a struct that may be
copied is set to zero where it is declared without an initialiser."""
from front import kinds
from front.conversions import is_place
from front.messages import Refusal
from front.temporaries import Temporaries
from front.tree import (Assign, Block, Call, Cast, Choice, Comma, Declare, Do, DoWhile, Empty, Expression, Filled, For, If,
                        Index, Literal, Member, Name, Number, Return, SizeOf, Switch, Symbol, Unary, While, pure,
                        statements)


def copier(program, kind):
    """The symbol of the function that copies a struct."""
    return member_by_member(program, kind, 'copy', lambda to, its: f'{to} = {its}')


def clearer(program, kind):
    """The symbol of the function that sets a struct to zero."""
    return member_by_member(program, kind, 'clear', lambda to, its: f'{to} = 0')


def member_by_member(program, kind, what, scalar):
    body = kinds.body_of(kinds.real(kind))
    known = program.copiers.setdefault(what, {})
    if body in known:
        return known[body]
    name = program.fresh(f'rvcc_{what}_{body.name}')
    pointer = kinds.Pointer(kinds.Structure(body))
    symbol = known[body] = Symbol(name, 'function', kinds.Function(pointer, [pointer]), 'external', body.place)
    lines, loops = [], 0
    for member, its in body.members.items():
        its = kinds.real(its)
        indices, indent = '', '    '
        depth = 0
        while type(its) is kinds.Array:
            lines.append(f'{indent}for (i{depth} = 0; i{depth} < {its.length}; i{depth}++)')
            indices += f'[i{depth}]'
            depth, indent, its = depth + 1, indent + '    ', kinds.real(its.of)
        loops = max(loops, depth)
        to, source = f'to->{member}{indices}', f'from->{member}{indices}'
        if type(its) is kinds.Structure:
            each = member_by_member(program, its, what, scalar)
            lines.append(f'{indent}{each.name}(&{to}, &{source});' if what == 'copy' else f'{indent}{each.name}(&{to});')
        else:
            lines.append(f'{indent}{scalar(to, source)};')
    tag = f'struct {body.name}'
    params = f'{tag} *to, {tag} *from' if what == 'copy' else f'{tag} *to'
    counters = ''.join(f'    int i{k};\n' for k in range(loops))
    text = f'static {tag} *{name}({params})\n{{\n{counters}' + '\n'.join(lines) + '\n    return to;\n}\n'
    program.helpers[name] = lambda spell: text
    return symbol


class Lowering:
    """Lowers one function."""

    def __init__(self, program, routine):
        self.program, self.routine = program, routine
        self.temporaries = Temporaries(program, routine)
        self.result = None

    def run(self):
        routine = self.routine
        kind = kinds.real(routine.symbol.type)
        copies = []
        for k, param in enumerate(routine.params):
            if kinds.is_struct(param.type):
                pointer = kinds.Pointer(kinds.real(param.type))
                source = Symbol(self.program.fresh(f'{param.name}_from'), 'variable', pointer, 'local', param.place)
                routine.params[k] = source
                where = param.place
                copies += [Declare(where, None, param), Do(where, self.copied(
                    where, Unary(where, pointer, Name(where, param.type, param), '&'), Name(where, pointer, source), param.type))]
        if kinds.is_struct(kind.result):
            pointer = kinds.Pointer(kinds.real(kind.result))
            self.result = Symbol(self.program.fresh('rvcc_result'), 'variable', pointer, 'local', routine.place)
            routine.params.append(self.result)
        items = []
        for item in routine.body.items:
            items += self.statement(item)
        routine.body.items = copies + items
        self.temporaries.declare()

    def copied(self, place, to, source, kind):
        return Call(place, kinds.Pointer(kinds.real(kind)), [to, source], copier(self.program, kind))

    # ---- statements, each a list of them

    def one(self, node):
        if node is None:
            return None
        made = self.statement(node)
        return made[0] if len(made) == 1 and type(made[0]) is not Declare else Block(node.place, made)

    def statement(self, node):
        kind = type(node)
        if kind is Declare:
            return self.declaration(node)
        if kind is Block:
            node.items = [made for item in node.items for made in self.statement(item)]
        elif kind is Do:
            value = self.effect(node.value)
            if value is None:
                return [Empty(node.place)]
            node.value = value
        elif kind is If:
            node.condition, node.yes, node.no = self.value(node.condition), self.one(node.yes), self.one(node.no)
        elif kind in (While, DoWhile):
            node.condition, node.body = self.value(node.condition), self.one(node.body)
        elif kind is For:
            return self.loop(node)
        elif kind is Switch:
            node.value, node.body = self.value(node.value), self.one(node.body)
        elif kind is Return and node.value is not None:
            if kinds.is_struct(node.value.type):
                where = node.place
                node.value = self.copied(where, Name(where, self.result.type, self.result), self.address(node.value), node.value.type)
            else:
                node.value = self.value(node.value)
        return [node]

    def declaration(self, node):
        """The declaration, and assignments of the structs of its initialiser."""
        after = []
        if node.init is not None:
            target = Name(node.place, node.symbol.type, node.symbol)
            node.init = self.init(target, node.symbol.type, node.init, after)
        return [node, *after]

    def init(self, target, kind, init, after):
        if type(init) is Filled:
            inner = kinds.real(kind)
            for key, value in init.values.items():
                if type(inner) is kinds.Array:
                    its, part = inner.of, Index(target.place, inner.of, target, Number(target.place, kinds.INT, str(key)))
                else:
                    its = kinds.body_of(inner).members[key]
                    part = Member(target.place, its, target, key, False)
                init.values[key] = self.init(part, its, value, after)
            return init
        if kinds.is_struct(init.type):
            where = init.place
            to = Unary(where, kinds.Pointer(kinds.real(kind)), target, '&')
            after.append(Do(where, self.copied(where, to, self.address(init), kind)))
            return Filled(where, kind, {})
        return self.value(init)

    def loop(self, node):
        before = []
        if type(node.first) is list:
            made = [its for declared in node.first for its in self.declaration(declared)]
            if len(made) > len(node.first):
                before, node.first = made, None
        elif node.first is not None:
            node.first = self.effect(node.first)
        node.condition = self.value(node.condition) if node.condition is not None else None
        node.each = self.effect(node.each) if node.each is not None else None
        node.body = self.one(node.body)
        return [Block(node.place, [*before, node])] if before else [node]

    # ---- expressions

    def effect(self, node):
        """An expression whose value is dropped, None where it then does nothing."""
        while type(node) is Cast and kinds.is_void(node.type) and kinds.is_struct(node.operand.type):
            node = node.operand
        if kinds.is_struct(node.type):
            return None if pure(node) else self.address(node)
        return self.value(node)

    def value(self, node):
        """An expression of another type than a struct, or an object of a struct type."""
        kind = type(node)
        if kind is SizeOf:
            return node
        if kind is Member and not node.arrow and not is_place(node.base):
            node.base, node.arrow = self.address(node.base), True
        elif kind is Unary and node.op == '&' and kinds.is_struct(node.operand.type):
            return self.address(node.operand)
        elif kind is Cast and kinds.is_void(node.type) and kinds.is_struct(node.operand.type):
            node.operand = self.address(node.operand)
        elif kind is Call:
            node.args = [self.address(arg) if kinds.is_struct(arg.type) else self.value(arg) for arg in node.args]
        elif kind is Comma:
            items = [self.effect(item) for item in node.items[:-1]]
            node.items = [item for item in items if item is not None] + [self.value(node.items[-1])]
        else:
            for part in kind.parts:
                its = getattr(node, part)
                if isinstance(its, Expression):
                    setattr(node, part, self.value(its))
        return node

    def address(self, node):
        """The address of the struct that an expression gives."""
        kind, where = type(node), node.place
        pointer = kinds.Pointer(kinds.real(node.type))
        if kind is Unary and node.op == '*':
            return self.value(node.operand)
        if kind is Assign:
            return self.copied(where, self.address(node.target), self.address(node.value), node.type)
        if kind is Call:
            self.value(node)
            room = self.temporaries.variable(where, kinds.real(node.type), 'rvcc_struct')
            node.args.append(Unary(where, pointer, Name(where, node.type, room), '&'))
            node.type = pointer
            return node
        if kind is Choice:
            return Choice(where, pointer, self.value(node.condition), self.address(node.first), self.address(node.second))
        if kind is Comma:
            items = [self.effect(item) for item in node.items[:-1]]
            return Comma(where, pointer, [item for item in items if item is not None] + [self.address(node.items[-1])])
        return Unary(where, pointer, self.value(node), '&')


def pointed(kind):
    """The type of a function whose structs go by pointers."""
    params = [kinds.Pointer(kinds.real(its)) if kinds.is_struct(its) else its for its in kind.params or []]
    if not kinds.is_struct(kind.result):
        return kinds.Function(kind.result, params if kind.params is not None else None, kind.variadic)
    pointer = kinds.Pointer(kinds.real(kind.result))
    return kinds.Function(pointer, [*params, pointer], kind.variadic)


def change(program, notes):
    for variable in program.variables:
        if variable.init is not None and type(variable.init) is not Filled and kinds.is_struct(variable.symbol.type):
            raise Refusal(variable.place, f'the initialiser of {variable.symbol.name} is no constant')
    for routine in program.routines:
        Lowering(program, routine).run()
    for symbol in program.functions:
        symbol.type = pointed(kinds.real(symbol.type))
    copied = set(program.copiers.get('copy', ()))

    def may_be_copied(kind):
        kind = kinds.real(kind)
        if type(kind) is kinds.Array:
            return may_be_copied(kind.of)
        if type(kind) is not kinds.Structure:
            return False
        body = kinds.body_of(kind)
        return body in copied or any(map(may_be_copied, body.members.values()))

    def cleared(node):
        if type(node) is Declare and node.init is None and may_be_copied(node.symbol.type):
            node.init = Filled(node.place, node.symbol.type, {})
        return node

    if copied:
        for routine in program.routines:
            statements(routine.body, cleared)
