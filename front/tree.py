"""The program as the front holds it between reading and writing: names are resolved to symbols, and each expression has
its type. Steps change it in place (`rewrite`, `statements`)."""


class Symbol:
    """A variable, a function, an enumeration constant or a typedef name.

    name     as the user wrote it; `written` is the name that it gets in the text
    kind     'variable', 'function', 'constant' or 'typedef'
    storage  'external', 'internal', 'static' (a static local) or 'local'
    value    of a constant
    defined  whether a function has a body, or a variable at file scope is defined by this program
    """
    __slots__ = ('name', 'written', 'kind', 'type', 'storage', 'place', 'value', 'defined', 'used', 'file')

    def __init__(self, name, kind, type_, storage, place, value=None):
        self.name = self.written = name
        self.kind, self.type, self.storage, self.place, self.value = kind, type_, storage, place, value
        self.defined = self.used = False
        self.file = None


class Node:
    __slots__ = ('place',)
    parts = ()


class Expression(Node):
    __slots__ = ('type',)


def _node(name, base, parts, others=(), doc=''):
    """A class of nodes: `parts` are its nodes or lists of nodes, `others` the rest of what it holds."""
    fields = tuple(parts) + tuple(others)
    typed = issubclass(base, Expression)

    def __init__(self, place, *values):
        self.place = place
        if typed:
            self.type, *values = values
        for field, value in zip(fields, values, strict=True):
            setattr(self, field, value)

    return type(name, (base,), {'__slots__': fields, '__init__': __init__, 'parts': tuple(parts), '__doc__': doc})


Number = _node('Number', Expression, (), ('text',), 'A number, or a character constant, by its text.')
Text = _node('Text', Expression, (), ('text',), 'A string literal, by its text with the quotes.')
Name = _node('Name', Expression, (), ('symbol',))
Unary = _node('Unary', Expression, ('operand',), ('op',), '`+ - ~ ! & *`, and `++ --` in front or behind (`p++ p--`).')
Binary = _node('Binary', Expression, ('left', 'right'), ('op',))
Assign = _node('Assign', Expression, ('target', 'value'), ('op',))
Choice = _node('Choice', Expression, ('condition', 'first', 'second'))
Comma = _node('Comma', Expression, ('items',))
Index = _node('Index', Expression, ('base', 'index'))
Member = _node('Member', Expression, ('base',), ('name', 'arrow'))
Call = _node('Call', Expression, ('args',), ('symbol',))
Cast = _node('Cast', Expression, ('operand',), ('shown',), 'A conversion; `shown` where the user wrote it as a cast.')
SizeOf = _node('SizeOf', Expression, (), ('operand', 'kind'), '`kind` is None for `sizeof EXPRESSION`. No step changes what is not evaluated.')
Literal = _node('Literal', Expression, ('init',), (), 'A compound literal.')

Listed = _node('Listed', Node, (), ('items',), 'An initialiser in braces as it was written: pairs of designators and items.')
Filled = _node('Filled', Node, (), ('type', 'values'), 'An initialiser by the number or name of what each item is for.')

Do = _node('Do', Node, ('value',), (), 'An expression as a statement.')
If = _node('If', Node, ('condition', 'yes', 'no'))
While = _node('While', Node, ('condition', 'body'))
DoWhile = _node('DoWhile', Node, ('condition', 'body'))
For = _node('For', Node, ('first', 'condition', 'each', 'body'), (), '`first` is a list of declarations, an expression or None.')
Switch = _node('Switch', Node, ('value', 'body'))
Case = _node('Case', Node, ('value',), (), '`case VALUE:`, or `default:` where the value is None.')
Return = _node('Return', Node, ('value',))
Jump = _node('Jump', Node, (), ('word',), '`break` or `continue`.')
Block = _node('Block', Node, ('items',))
Empty = _node('Empty', Node, ())
Declare = _node('Declare', Node, ('init',), ('symbol',))

STATEMENTS = (Do, If, While, DoWhile, For, Switch, Case, Return, Jump, Block, Empty, Declare)


class Routine:
    """A function with a body: its symbol, the symbols of its parameters, its outermost block, and the last line."""

    def __init__(self, place, symbol, params, body):
        self.place, self.symbol, self.params, self.body = place, symbol, params, body


class Program:
    """All files of the command as one program.

    bodies     of the structs, in an order in which each is complete before it is a member
    variables  `Declare`s of those at file scope
    routines   the functions with bodies
    helpers    functions that the front adds: name, text of the prototype, text of the definition
    names      every name that stands somewhere in the files, so that a new one can be told apart
    functions  the symbols of all functions that are declared, as keys
    prototypes, library  what the last steps add: functions to declare first, and texts of library functions
    copiers    the functions that copy or clear a struct, by its body
    """

    def __init__(self):
        self.bodies, self.variables, self.routines, self.helpers = [], [], [], {}
        self.names = set()
        self.functions = {}
        self.prototypes, self.library = [], []
        self.copiers = {}

    def fresh(self, name):
        """A name of at most 63 bytes that no file has, made of `name`."""
        made, count = name[:63], 1
        while made in self.names:
            count += 1
            made = f'{name[:62 - len(str(count))]}_{count}'
        self.names.add(made)
        return made


def rewrite(node, change):
    """The node with each expression below it, and then itself, replaced by what `change` makes of it."""
    if node is None:
        return None
    kind = type(node)
    if kind is Filled:
        for key, value in node.values.items():
            node.values[key] = rewrite(value, change)
        return node
    if kind is Listed:
        node.items = [(designators, rewrite(value, change)) for designators, value in node.items]
        return node
    for part in kind.parts:
        value = getattr(node, part)
        if type(value) is list:
            for k, item in enumerate(value):
                value[k] = rewrite(item, change)
        elif value is not None:
            setattr(node, part, rewrite(value, change))
    return change(node) if isinstance(node, Expression) else node


def statements(node, change):
    """The statement with each statement below it, and then itself, replaced by what `change` makes of it: a statement,
    or a list of them, which becomes a block where only one may stand."""
    def one(item):
        made = statements(item, change)
        return Block(item.place, made) if type(made) is list else made

    if node is None:
        return None
    kind = type(node)
    if kind is Block:
        items = []
        for item in node.items:
            made = statements(item, change)
            items.extend(made) if type(made) is list else items.append(made)
        node.items = items
    elif kind is If:
        node.yes, node.no = one(node.yes), one(node.no) if node.no else None
    elif kind in (While, DoWhile, For, Switch):
        node.body = one(node.body)
    return change(node)


def pure(node):
    """Whether the expression can be evaluated twice, or not at all, and nothing is changed."""
    kind = type(node)
    if kind in (Assign, Call, Literal) or (kind is Unary and node.op in ('++', '--', 'p++', 'p--')):
        return False
    for part in kind.parts:
        value = getattr(node, part)
        if not (all(map(pure, value)) if type(value) is list else value is None or pure(value)):
            return False
    return True


def expressions(program, change):
    """`rewrite` for the whole program."""
    for variable in program.variables:
        rewrite(variable, change)
    for routine in program.routines:
        rewrite(routine.body, change)
