"""Functions and statements: pycparser's tree as that of the front."""
from pycparser import c_ast

from front import kinds
from front.conversions import convert
from front.messages import Refusal
from front.tree import (Block, Case, Declare, Do, DoWhile, Empty, For, If, Jump, Return, Routine, Switch, Symbol, While)


class Bodies:
    def unit(self, tree):
        """Reads one file into the program."""
        self.scopes, self.tags = [{}], [{}]
        for name in ('putchar', 'getchar', 'exit'):
            self.program.names.add(name)
        for node in tree.ext:
            place = self.at(node)
            if isinstance(node, c_ast.FuncDef):
                self.routine(node, place)
            elif isinstance(node, (c_ast.Decl, c_ast.Typedef)):
                symbol = self.declared(node)
                if symbol is not None and symbol.kind == 'variable':
                    self.global_variable(node, symbol)
            elif type(node).__name__ == 'StaticAssert':
                self.assertion(node, place)
            elif type(node).__name__ != 'Pragma':
                raise Refusal(place, 'this cannot stand at file scope')

    def global_variable(self, node, symbol):
        """Keeps one `Declare` of a variable, with the initialiser that one of its declarations has."""
        known = next((its for its in self.program.variables if its.symbol is symbol), None) if symbol in self.globals else None
        self.globals.add(symbol)
        made = self.initialised(node, symbol)
        if known is None:
            self.program.variables.append(made)
        elif made.init is not None:
            if known.init is not None:
                raise Refusal(made.place, f'{symbol.name} is initialised twice: {known.place}')
            known.init, known.place = made.init, made.place

    def assertion(self, node, place):
        from front import constants
        value = constants.value(self.expression(node.cond))
        if value is None:
            raise Refusal(place, 'what _Static_assert takes has to be a constant')
        if value == 0:
            said = node.message.value if node.message is not None else 'it is 0'
            raise Refusal(place, f'the static assertion fails: {said}')

    def routine(self, node, place):
        place = self.at(node.decl)
        symbol = self.declared(node.decl, defines=True)
        kind = kinds.real(symbol.type)
        if symbol.kind != 'function':
            raise Refusal(place, f'{symbol.name} is no function')
        if symbol.defined:
            raise Refusal(place, f'{symbol.name} is defined twice: {symbol.place}')
        symbol.place = place
        self.opened()
        params = self.params(node)
        if kind.params is None or node.param_decls:
            symbol.type = kind = kinds.Function(kind.result, [param.type for param in params])
        symbol.defined = True
        self.result = kind.result
        body = self.block(node.body, own_scope=False)
        self.closed()
        self.program.routines.append(Routine(place, symbol, params, body))

    def params(self, node):
        """The symbols of the parameters of a definition, declared in its scope."""
        args = node.decl.type.args
        nodes = args.params if args is not None else []
        old = {its.name: its for its in node.param_decls or ()}
        made = []
        for arg in nodes:
            place = self.at(arg)
            if isinstance(arg, c_ast.ID):
                kind = self.param_type(old[arg.name]) if arg.name in old else kinds.INT
            elif isinstance(arg, c_ast.EllipsisParam):
                raise Refusal(place, 'a function with `...` cannot be had')
            else:
                kind = self.param_type(arg)
                if kinds.is_void(kind) and len(nodes) == 1:
                    return []
            if getattr(arg, 'name', None) is None:
                raise Refusal(place, 'a parameter of a definition has a name')
            made.append(self.declare(Symbol(arg.name, 'variable', kind, 'local', place)))
        return made

    # ---- statements

    def block(self, node, own_scope=True):
        if own_scope:
            self.opened()
        place = self.at(node)
        items = []
        for item in node.block_items or ():
            self.item(item, items)
        if own_scope:
            self.closed()
        return Block(place, items)

    def item(self, node, items):
        """Appends what a declaration or a statement becomes to a list of statements."""
        kind = type(node)
        if kind in (c_ast.Decl, c_ast.Typedef):
            symbol = self.declared(node)
            if symbol is not None and symbol.kind == 'variable' and symbol.storage in ('local', 'static'):
                if kinds.size(symbol.type) is None:
                    raise Refusal(symbol.place, f'{symbol.name} has no complete type')
                items.append(self.initialised(node, symbol))
        elif kind in (c_ast.Case, c_ast.Default):
            place = self.at(node)
            value = self.value(node.expr) if kind is c_ast.Case else None
            items.append(Case(place, value))
            for inner in node.stmts or ():
                self.item(inner, items)
        elif kind.__name__ == 'StaticAssert':
            self.assertion(node, self.at(node))
        elif kind is c_ast.Label:
            # Without a goto a label says nothing.
            if node.stmt is not None:
                self.item(node.stmt, items)
        elif kind.__name__ != 'Pragma':
            items.append(self.statement(node))

    def statement(self, node):
        """One statement; a label in front of one stays with it in a block."""
        reader = self.statement_readers.get(type(node).__name__)
        if reader is not None:
            return reader(self, node, self.at(node))
        if type(node) in (c_ast.Case, c_ast.Default, c_ast.Label) or type(node).__name__ == 'Pragma':
            items = []
            place = self.at(node)
            self.item(node, items)
            return items[0] if len(items) == 1 else Block(place, items)
        if type(node) in (c_ast.Goto,):
            raise Refusal(self.at(node), 'goto cannot be had: use loops, break and return')
        place = self.at(node)
        return Do(place, self.value(node))

    def compound(self, node, place):
        return self.block(node)

    def if_(self, node, place):
        return If(place, self.scalar(node.cond), self.statement_in(node.iftrue),
                  self.statement_in(node.iffalse) if node.iffalse is not None else None)

    def statement_in(self, node):
        if node is None:
            return Empty(self.place)
        return self.statement(node)

    def while_(self, node, place):
        return While(place, self.scalar(node.cond), self.statement_in(node.stmt))

    def do_while(self, node, place):
        body = self.statement_in(node.stmt)
        return DoWhile(place, self.scalar(node.cond), body)

    def for_(self, node, place):
        self.opened()
        first = None
        if isinstance(node.init, c_ast.DeclList):
            first = []
            for its in node.init.decls:
                symbol = self.declared(its)
                if symbol is not None:
                    first.append(self.initialised(its, symbol))
        elif node.init is not None:
            first = self.value(node.init)
        condition = self.scalar(node.cond) if node.cond is not None else None
        each = self.value(node.next) if node.next is not None else None
        body = self.statement_in(node.stmt)
        self.closed()
        return For(place, first, condition, each, body)

    def switch(self, node, place):
        value = self.value(node.cond)
        if not kinds.is_integer(value.type):
            raise Refusal(place, 'a switch takes an integer')
        body = self.statement_in(node.stmt)
        return Switch(place, value, body)

    def return_(self, node, place):
        if node.expr is None:
            if not kinds.is_void(self.result):
                raise Refusal(place, 'the function gives a value, and this return has none')
            return Return(place, None)
        value = self.value(node.expr)
        if kinds.is_void(self.result):
            if kinds.is_void(value.type):
                return Block(place, [Do(place, value), Return(place, None)])
            raise Refusal(place, 'the function gives no value, and this return has one')
        return Return(place, convert(value, self.result))

    def break_(self, node, place):
        return Jump(place, 'break')

    def continue_(self, node, place):
        return Jump(place, 'continue')

    def empty(self, node, place):
        return Empty(place)

    statement_readers = {'Compound': compound, 'If': if_, 'While': while_, 'DoWhile': do_while, 'For': for_,
                         'Switch': switch, 'Return': return_, 'Break': break_, 'Continue': continue_,
                         'EmptyStatement': empty}
