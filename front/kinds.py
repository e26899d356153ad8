"""The types of C that the front knows. A type is never changed after it is made; a qualified one is a copy. Two types are
compared by `same`, which does not look at qualifiers and counts as one what `rvcc` has one type for: `int` and `long`,
`char`, `unsigned char` and `_Bool`, `void *` and `char *`."""

NONE = frozenset()


class Type:
    __slots__ = ('quals',)

    def qualified(self, quals):
        """This type with more qualifiers."""
        if not quals or set(quals) <= self.quals:
            return self
        copy = object.__new__(type(self))
        for slots in type(self).__mro__:
            for name in getattr(slots, '__slots__', ()):
                setattr(copy, name, getattr(self, name))
        copy.quals = self.quals | frozenset(quals)
        return copy


class Void(Type):
    __slots__ = ()

    def __init__(self):
        self.quals = NONE


class Integer(Type):
    """An integer type: its spelling, its bytes, and whether it has a sign."""
    __slots__ = ('name', 'size', 'signed')

    def __init__(self, name, size, signed):
        self.quals, self.name, self.size, self.signed = NONE, name, size, signed


class Enumeration(Type):
    """`enum tag`. As in gcc it is an `unsigned int`, or an `int` where a constant is negative."""
    __slots__ = ('tag', 'signed')
    size = 4

    def __init__(self, tag, signed):
        self.quals, self.tag, self.signed = NONE, tag, signed


class Pointer(Type):
    __slots__ = ('to',)

    def __init__(self, to):
        self.quals, self.to = NONE, to


class Array(Type):
    """`length` is None where the dimension is left empty."""
    __slots__ = ('of', 'length')

    def __init__(self, of, length):
        self.quals, self.of, self.length = NONE, of, length


class Structure(Type):
    __slots__ = ('body',)

    def __init__(self, body):
        self.quals, self.body = NONE, body


class Function(Type):
    """`params` is None for `()`. `variadic` for `...`."""
    __slots__ = ('result', 'params', 'variadic')

    def __init__(self, result, params, variadic=False):
        self.quals, self.result, self.params, self.variadic = NONE, result, params, variadic


class Named(Type):
    """A use of a typedef's name."""
    __slots__ = ('name', 'target')

    def __init__(self, name, target):
        self.quals, self.name, self.target = NONE, name, target


class Body:
    """What all mentions of one `struct` share: its tag (None where it has none), the name that it is written by, and its
    members, a dictionary from names to types, None until it is complete. `twin` is the body of an earlier file that this
    one is the same as."""

    def __init__(self, tag, place):
        self.tag, self.place = tag, place
        self.name = tag
        self.members = None
        self.twin = None


VOID = Void()
BOOL = Integer('_Bool', 1, False)
CHAR = Integer('char', 1, False)
SIGNED_CHAR = Integer('signed char', 1, True)
UNSIGNED_CHAR = Integer('unsigned char', 1, False)
SHORT = Integer('short', 2, True)
UNSIGNED_SHORT = Integer('unsigned short', 2, False)
INT = Integer('int', 4, True)
UNSIGNED = Integer('unsigned int', 4, False)
LONG = Integer('long', 4, True)
UNSIGNED_LONG = Integer('unsigned long', 4, False)

# The integer types by the sorted words of their specifiers, `int` left out where another word is there.
BY_WORDS = {tuple(sorted(words.split())): kind for words, kind in {
    '_Bool': BOOL, 'char': CHAR, 'char signed': SIGNED_CHAR, 'char unsigned': UNSIGNED_CHAR,
    'short': SHORT, 'short signed': SHORT, 'short unsigned': UNSIGNED_SHORT,
    'int': INT, 'signed': INT, 'unsigned': UNSIGNED,
    'long': LONG, 'long signed': LONG, 'long unsigned': UNSIGNED_LONG}.items()}


def body_of(kind):
    """The body that a structure stands for: its own, or that of an earlier file."""
    body = kind.body
    while body.twin is not None:
        body = body.twin
    return body


def real(kind):
    """The type without typedef names on its outside."""
    while type(kind) is Named:
        kind = kind.target.qualified(kind.quals)
    return kind


def decayed(kind):
    """The type of a value: an array is the address of its first element."""
    kind = real(kind)
    if type(kind) is Array:
        return Pointer(kind.of)
    return kind


def is_integer(kind):
    return type(real(kind)) in (Integer, Enumeration)


def is_pointer(kind):
    return type(real(kind)) is Pointer


def is_scalar(kind):
    return type(real(kind)) in (Integer, Enumeration, Pointer)


def is_struct(kind):
    return type(real(kind)) is Structure


def is_array(kind):
    return type(real(kind)) is Array


def is_bool(kind):
    kind = real(kind)
    return type(kind) is Integer and kind.name == '_Bool'


def is_void(kind):
    return type(real(kind)) is Void


def is_byte(kind):
    """Whether it is one of the types that are written as `char`."""
    kind = real(kind)
    return type(kind) is Integer and kind.size == 1 and not kind.signed


def promoted(kind):
    """The type that an integer has as an operand."""
    kind = real(kind)
    return UNSIGNED if kind.size == 4 and not kind.signed else INT


def common(left, right):
    """The type of an arithmetic operation on two integers."""
    return UNSIGNED if UNSIGNED in (promoted(left), promoted(right)) else INT


def same(left, right):
    left, right = real(left), real(right)
    if type(left) is Enumeration or type(right) is Enumeration:
        return (is_integer(left) and is_integer(right)
                and (left.size, left.signed) == (right.size, right.signed))
    if type(left) is not type(right):
        return False
    if type(left) is Integer:
        return (left.size, left.signed) == (right.size, right.signed)
    if type(left) is Pointer:
        return same(left.to, right.to) or (is_void(left.to) and is_byte(right.to)) or (is_byte(left.to) and is_void(right.to))
    if type(left) is Array:
        return same(left.of, right.of) and (left.length == right.length or None in (left.length, right.length))
    if type(left) is Structure:
        return body_of(left) is body_of(right)
    if type(left) is Function:
        if not same(left.result, right.result):
            return False
        if left.params is None or right.params is None:
            return True
        return (left.variadic == right.variadic and len(left.params) == len(right.params)
                and all(map(same, left.params, right.params)))
    return True


def align(kind):
    kind = real(kind)
    if type(kind) is Array:
        return align(kind.of)
    if type(kind) is Structure:
        return max(map(align, body_of(kind).members.values()))
    return 4 if type(kind) is Pointer else kind.size


def size(kind):
    """The bytes of a complete type, else None."""
    kind = real(kind)
    if type(kind) is Pointer:
        return 4
    if type(kind) is Array:
        one = size(kind.of)
        return None if one is None or kind.length is None else one * kind.length
    if type(kind) is Structure:
        members = body_of(kind).members
        return None if not members else offset(kind, None)
    return getattr(kind, 'size', None)


def offset(kind, name):
    """The offset of a member, or with None the bytes of the whole."""
    at = 0
    for member, its in body_of(kind).members.items():
        at = -(-at // align(its)) * align(its)
        if member == name:
            return at
        at += size(its)
    return -(-at // align(kind)) * align(kind)


def spell(kind, inner=''):
    """A type as C writes it around a declarator, with every word that it was declared with."""
    kind_of = type(kind)
    quals = ' '.join(sorted(kind.quals))
    if kind_of is Pointer:
        inner = '*' + (quals + ' ' if quals and inner else quals) + inner
        return spell(kind.to, f'({inner})' if type(kind.to) in (Array, Function) else inner)
    if kind_of is Array:
        return spell(kind.of, f"{inner}[{'' if kind.length is None else kind.length}]")
    if kind_of is Function:
        params = 'void' if kind.params == [] else ', '.join(spell(p) for p in kind.params or [])
        return spell(kind.result, f"{inner}({params}{', ...' if kind.variadic else ''})")
    if kind_of is Void:
        name = 'void'
    elif kind_of is Structure:
        name = f'struct {body_of(kind).name}'
    elif kind_of is Enumeration:
        name = f'enum {kind.tag}'
    else:
        name = kind.name
    words = f'{quals} {name}' if quals else name
    return f'{words} {inner}' if inner else words


def mapped(kind, change):
    """The type with each part of it, the innermost first, replaced by what `change` makes of it."""
    kind_of = type(kind)
    if kind_of is Pointer:
        to = mapped(kind.to, change)
        kind = kind if to is kind.to else Pointer(to).qualified(kind.quals)
    elif kind_of is Array:
        of = mapped(kind.of, change)
        kind = kind if of is kind.of else Array(of, kind.length).qualified(kind.quals)
    elif kind_of is Function:
        params = kind.params and [mapped(param, change) for param in kind.params]
        kind = Function(mapped(kind.result, change), params, kind.variadic)
    elif kind_of is Named:
        target = mapped(kind.target, change)
        kind = kind if target is kind.target else Named(kind.name, target).qualified(kind.quals)
    return change(kind)
