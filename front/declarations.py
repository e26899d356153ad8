"""Types and declarations: what pycparser's tree declares, as symbols in scopes. One `Declarations` reads all files of a
program; names of external linkage are shared between them, the others are those of a file."""
from pycparser import c_ast

from front import constants, initialisers, kinds
from front.messages import Place, Refusal
from front.tree import Declare, Listed, Symbol

FLOATS = {'float', 'double', '_Complex'}
FUNCTION_POINTER = 'a pointer to a function cannot be had: choose between the functions with a switch'


class Declarations:
    def __init__(self, program, notes):
        self.program, self.notes = program, notes
        self.externals = {}    # the symbols of external linkage, of all files
        self.known_tags = {}   # the bodies of structs at file scope, of all files
        self.scopes, self.tags = [], []
        self.place = None      # of the last node that had one

    # ---- places and scopes

    def at(self, node):
        """The place of a node of pycparser; where it has none, that of the node before."""
        coord = node.coord
        if coord is not None and coord.line:
            self.place = Place(coord.file, coord.line, coord.column or 1)
        return self.place

    def opened(self):
        self.scopes.append({})
        self.tags.append({})

    def closed(self):
        self.scopes.pop()
        self.tags.pop()

    def found(self, name):
        for scope in reversed(self.scopes):
            if name in scope:
                return scope[name]
        return None

    def declare(self, symbol):
        if symbol.name in self.scopes[-1]:
            raise Refusal(symbol.place, f'{symbol.name} is declared twice')
        self.scopes[-1][symbol.name] = symbol
        self.program.names.add(symbol.name)
        return symbol

    @property
    def in_file(self):
        return len(self.scopes) == 1

    # ---- types

    def type_of(self, node):
        """The type that a declarator of pycparser gives."""
        if isinstance(node, c_ast.TypeDecl):
            return self.specified(node.type).qualified(node.quals or ())
        if isinstance(node, (c_ast.Typename, c_ast.Decl, c_ast.Typedef)):
            return self.type_of(node.type)
        if isinstance(node, c_ast.PtrDecl):
            return kinds.Pointer(self.type_of(node.type)).qualified(node.quals or ())
        if isinstance(node, c_ast.ArrayDecl):
            of = self.type_of(node.type)
            return kinds.Array(of, None if node.dim is None else self.dimension(node.dim))
        if isinstance(node, c_ast.FuncDecl):
            return self.function(node)
        return self.specified(node)

    def dimension(self, node):
        place = self.at(node)
        length = constants.value(self.expression(node))
        if length is None:
            raise Refusal(place, 'the length of an array has to be a constant')
        if length < 1:
            raise Refusal(place, 'an array has at least one element')
        return length

    def specified(self, node):
        place = self.at(node)
        if isinstance(node, c_ast.IdentifierType):
            return self.by_words(list(node.names), place)
        if isinstance(node, c_ast.Struct):
            return kinds.Structure(self.structure(node, place))
        if isinstance(node, c_ast.Enum):
            return self.enumeration(node, place)
        if isinstance(node, c_ast.Union):
            raise Refusal(place, 'a union cannot be had: use a struct, or shifts of the bytes')
        raise Refusal(place, 'this type cannot be had')

    def by_words(self, words, place):
        if len(words) == 1:
            symbol = self.found(words[0])
            if symbol is not None and symbol.kind == 'typedef':
                return kinds.Named(words[0], symbol.type)
        if words == ['void']:
            return kinds.VOID
        if FLOATS & set(words):
            raise Refusal(place, f"{' '.join(words)} cannot be had: there are no floating numbers")
        if words.count('long') > 1:
            raise Refusal(place, 'long long cannot be had: integers have at most 32 bits')
        if len(words) > 1 and 'int' in words:
            words.remove('int')
        kind = kinds.BY_WORDS.get(tuple(sorted(words)))
        if kind is None:
            raise Refusal(place, f"`{' '.join(words)}` is no type that can be had")
        return kind

    def structure(self, node, place):
        tag = node.name
        body = None
        if tag is not None:
            scopes = self.tags[-1:] if node.decls is not None else reversed(self.tags)
            body = next((scope[tag] for scope in scopes if tag in scope), None)
        if body is None:
            body = kinds.Body(tag, place)
            if tag is not None:
                self.tags[-1][tag] = body
                if self.in_file:
                    # The same as that of an earlier file, until this file says otherwise.
                    body.twin = self.known_tags.setdefault(tag, body)
                    body.twin = None if body.twin is body else body.twin
        if node.decls is None:
            return body
        if body.members is not None:
            raise Refusal(place, f'struct {tag} is declared twice')
        body.twin = None
        members = {}
        for member in node.decls:
            its = self.at(member)
            if getattr(member, 'bitsize', None) is not None:
                raise Refusal(its, 'a bit-field cannot be had: use masks')
            if getattr(member, 'name', None) is None:
                self.specified(member.type)
                raise Refusal(its, 'a member without a name cannot be had')
            if member.name in members:
                raise Refusal(its, f'{member.name} is a member twice')
            kind = self.object_type(self.type_of(member), its)
            if kinds.size(kind) is None:
                raise Refusal(its, f'the member {member.name} has no complete type')
            members[member.name] = kind
            self.program.names.add(member.name)
        if not members:
            raise Refusal(place, 'a struct has at least one member')
        body.members = members
        self.completed(body)
        return body

    def completed(self, body):
        """A struct that is complete joins the program, or is the same as one of an earlier file."""
        if body.tag is not None:
            self.program.names.add(body.tag)
            if self.in_file:
                earlier = self.known_tags.setdefault(body.tag, body)
                if earlier is not body and not earlier.members:
                    earlier.twin = self.known_tags[body.tag] = body
                elif earlier is not body and self.members_agree(earlier, body):
                    body.twin = earlier
                    return
        self.program.bodies.append(body)

    @staticmethod
    def members_agree(one, other):
        return (list(one.members) == list(other.members)
                and all(kinds.spell(a) == kinds.spell(b) for a, b in zip(one.members.values(), other.members.values())))

    def enumeration(self, node, place):
        if node.values is None:
            for scope in reversed(self.tags):
                if f'enum {node.name}' in scope:
                    return scope[f'enum {node.name}']
            raise Refusal(place, f'enum {node.name} is not declared')
        following, signed = 0, False
        for item in node.values.enumerators:
            its = self.at(item)
            if item.value is not None:
                following = constants.value(self.expression(item.value))
                if following is None:
                    raise Refusal(its, f'the value of {item.name} has to be a constant')
            signed = signed or following < 0
            self.declare(Symbol(item.name, 'constant', kinds.INT, 'local', its, following))
            following += 1
        kind = kinds.Enumeration(node.name, signed)
        if node.name is not None:
            self.tags[-1][f'enum {node.name}'] = kind
        return kind

    def function(self, node):
        result = self.object_type(self.type_of(node.type), self.place, result=True)
        if node.args is None:
            return kinds.Function(result, None)
        params, variadic = [], False
        for param in node.args.params:
            if isinstance(param, c_ast.EllipsisParam):
                variadic = True
            elif isinstance(param, c_ast.ID):
                params.append(kinds.INT)  # of an old definition; `old_params` has its type
            else:
                params.append(self.param_type(param))
        if len(params) == 1 and kinds.is_void(params[0]):
            params = []
        return kinds.Function(result, params, variadic)

    def param_type(self, node):
        place = self.at(node)
        kind = self.type_of(node)
        if kinds.is_array(kind):
            kind = kinds.decayed(kind).qualified(kind.quals)
        if type(kinds.real(kind)) is kinds.Function:
            raise Refusal(place, FUNCTION_POINTER)
        return self.object_type(kind, place, param=True)

    def object_type(self, kind, place, param=False, result=False):
        """A type that a variable, a member, a parameter or a result may have. A `Refusal` where it may not."""
        inner = kinds.real(kind)
        levels = 0
        while type(inner) in (kinds.Pointer, kinds.Array):
            was, inner = inner, kinds.real(inner.to if type(inner) is kinds.Pointer else inner.of)
            if type(inner) is kinds.Function:
                raise Refusal(place, FUNCTION_POINTER)
            if type(was) is kinds.Pointer and type(inner) is kinds.Array and (levels or not param):
                raise Refusal(place, 'a pointer to an array can only be a parameter: point to its elements')
            levels += 1
        if result and (type(inner) is kinds.Function or kinds.is_array(kind)):
            raise Refusal(place, 'a function gives no function and no array')
        return kind

    # ---- declarations

    def declared(self, node, defines=False):
        """The symbol of a declaration of pycparser, declared in the current scope, or None where it declares only types."""
        place = self.at(node)
        if isinstance(node, c_ast.Typedef):
            kind = self.type_of(node)
            self.name_after(kind, node.name)
            known = self.scopes[-1].get(node.name)
            if known is not None and known.kind == 'typedef' and kinds.spell(known.type) == kinds.spell(kind):
                return None
            self.declare(Symbol(node.name, 'typedef', kind, 'local', place))
            return None
        if node.name is None:
            self.type_of(node)
            return None
        storage = node.storage or []
        for word in ('_Thread_local', '_Atomic'):
            if word in storage or word in (node.quals or ()):
                raise Refusal(place, f'{word} cannot be had: a program is one thread')
        if getattr(node, 'align', None):
            raise Refusal(place, '_Alignas cannot be had')
        kind = self.type_of(node)
        self.name_after(kind, node.name)
        if type(kinds.real(kind)) is kinds.Function:
            return self.declared_function(node, kinds.real(kind), storage, place, defines)
        self.object_type(kind, place)
        if kinds.is_void(kind):
            raise Refusal(place, f'{node.name} has the type void')
        kind = self.with_length(kind, node.init)
        if self.in_file or 'extern' in storage:
            return self.declared_global(node, kind, storage, place)
        symbol = Symbol(node.name, 'variable', kind, 'static' if 'static' in storage else 'local', place)
        return self.declare(symbol)

    def name_after(self, kind, name):
        """A struct without a tag is written by the first name that is declared with it."""
        while type(kind) in (kinds.Pointer, kinds.Array):
            kind = kind.to if type(kind) is kinds.Pointer else kind.of
        if type(kind) is kinds.Structure:
            body = kinds.body_of(kind)
            if body.name is None:
                body.name = body.tag = name
                if self.in_file and body.members:
                    earlier = self.known_tags.get(name)
                    if earlier is not None and earlier is not body and earlier.members and self.members_agree(earlier, body):
                        body.twin = earlier
                        self.program.bodies.remove(body)
                    else:
                        self.known_tags.setdefault(name, body)

    def with_length(self, kind, init):
        """An array without a length gets that of its initialiser."""
        inner = kinds.real(kind)
        if init is None or type(inner) is not kinds.Array or inner.length is not None:
            return kind
        return kinds.Array(inner.of, initialisers.length(kind, self.initialiser(init))).qualified(inner.quals)

    def declared_function(self, node, kind, storage, place, defines):
        name = node.name
        if kind.variadic and (defines or name not in ('printf',)):
            if defines:
                raise Refusal(place, 'a function with `...` cannot be had')
        scope = self.scopes[0]
        symbol = scope.get(name)
        if symbol is None and 'static' not in storage:
            symbol = self.externals.get(name)
        if symbol is None:
            symbol = Symbol(name, 'function', kind, 'internal' if 'static' in storage else 'external', place)
            symbol.file = place.file
            if symbol.storage == 'external':
                self.externals[name] = symbol
        elif symbol.kind != 'function' or not kinds.same(symbol.type, kind):
            raise Refusal(place, f'{name} was declared otherwise: {symbol.place}')
        elif kind.params is not None and (symbol.type.params is None or defines):
            symbol.type = kind
        scope[name] = symbol
        if not self.in_file and not defines:
            self.scopes[-1][name] = symbol
        self.program.names.add(name)
        self.program.functions[symbol] = True
        return symbol

    def declared_global(self, node, kind, storage, place):
        """A variable at file scope, or of a declaration with `extern` in a block: all declarations of one are one."""
        name = node.name
        symbol = self.scopes[0].get(name)
        if symbol is None and 'static' not in storage:
            symbol = self.externals.get(name)
        if symbol is None:
            symbol = Symbol(name, 'variable', kind, 'internal' if 'static' in storage else 'external', place)
            symbol.file = place.file
            if symbol.storage == 'external':
                self.externals[name] = symbol
        elif symbol.kind != 'variable' or not kinds.same(symbol.type, kind):
            raise Refusal(place, f'{name} was declared otherwise: {symbol.place}')
        elif kinds.size(symbol.type) is None:
            symbol.type = kind
        self.scopes[0][name] = symbol
        if not self.in_file:
            self.hides(name, symbol)
        self.program.names.add(name)
        if 'extern' not in storage or node.init is not None:
            symbol.defined = True
            symbol.place = place
        return symbol

    def hides(self, name, symbol):
        """A declaration with `extern` in a block: a local variable of that name around it gets another one."""
        for scope in self.scopes[1:]:
            hidden = scope.get(name)
            if hidden is not None and hidden is not symbol:
                hidden.written = self.program.fresh(name)
        self.scopes[-1][name] = symbol

    def initialiser(self, node):
        """An initialiser of pycparser as it was written, with its expressions resolved."""
        place = self.at(node)
        if not isinstance(node, c_ast.InitList):
            return self.expression(node)
        items = []
        for item in node.exprs or ():
            designators = []
            if isinstance(item, c_ast.NamedInitializer):
                for name in item.name:
                    if isinstance(name, c_ast.ID):
                        # `[NAME]` comes as the same node as `.NAME`: what it is for says which of the two it is.
                        designators.append(self.designator(name.name))
                    else:
                        index = constants.value(self.expression(name))
                        if index is None:
                            raise Refusal(self.at(name), 'a designator has to be a constant')
                        designators.append(index)
                item = item.expr
            items.append((designators, self.initialiser(item)))
        return Listed(place, items)

    def designator(self, name):
        made = initialisers.Designator(name)
        symbol = self.found(name)
        made.value = symbol.value if symbol is not None and symbol.kind == 'constant' else None
        return made

    def initialised(self, node, symbol):
        """`Declare` of a symbol, with the initialiser that is written there."""
        place = self.at(node)
        init = self.initialiser(node.init) if node.init is not None else None
        return Declare(place, init, symbol)
