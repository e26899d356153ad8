"""What a value becomes where one of another type is wanted: in an assignment, an initialiser, an argument, a `return`."""
from front import constants, kinds
from front.messages import Refusal
from front.tree import Cast, Number, Text, Unary


def source(node):
    """The expression whose address a `void *` is, without the casts that the user wrote around it."""
    while type(node) is Cast and kinds.is_pointer(node.type) and kinds.is_pointer(kinds.decayed(node.operand.type)):
        node = node.operand
    return node


def convert(node, kind):
    """The expression as a value of the type. A `Refusal` where it cannot be one."""
    wanted, has = kinds.real(kind), kinds.decayed(node.type)
    if kinds.is_integer(wanted):
        if kinds.is_bool(wanted) and not kinds.is_bool(has) and kinds.is_scalar(has):
            return Cast(node.place, wanted, node, False)
        if kinds.is_integer(has):
            return node
        if kinds.is_pointer(has):
            raise Refusal(node.place, 'a pointer does not become an integer: addresses have no number')
    elif kinds.is_pointer(wanted):
        if constants.is_null(node):
            return Number(node.place, wanted, '0')
        if kinds.is_integer(has):
            raise Refusal(node.place, 'an integer does not become a pointer: there is no memory but that of variables')
        if kinds.is_pointer(has):
            return pointer(node, wanted, has)
    elif kinds.is_struct(wanted) and kinds.same(wanted, has):
        return node
    raise Refusal(node.place, f'`{kinds.spell(has)}` does not become `{kinds.spell(kind)}`')


def pointer(node, wanted, has):
    """A pointer as a pointer of another type: to the same, or through `void *`, which is a `char *` here."""
    origin = source(node)
    if origin is not node and kinds.is_void(kinds.real(has).to):
        if kinds.same(kinds.decayed(origin.type), wanted):
            return origin
        has = kinds.decayed(origin.type)
    if not kinds.same(has, wanted):
        raise Refusal(node.place, f'`{kinds.spell(has)}` does not become `{kinds.spell(wanted)}`: there are no '
                      'conversions between pointers to different types')
    return node


def cast(place, kind, node):
    """`(kind) node`."""
    wanted, has = kinds.real(kind), kinds.decayed(node.type)
    if kinds.is_void(wanted):
        return Cast(place, kinds.VOID, node, True)
    if kinds.is_integer(wanted) and kinds.is_integer(has):
        return Cast(place, kind, node, True)
    if kinds.is_pointer(wanted) and kinds.is_pointer(has) and not constants.is_null(node):
        # A pointer as `void *` is an argument of memcpy and the like, or goes on to be what it was; `convert` looks at it.
        if kinds.is_void(wanted.to) or kinds.same(has, wanted):
            return Cast(place, kind, node, False)
        return Cast(place, kind, pointer(node, wanted, has), False)
    if kinds.is_pointer(wanted) and constants.is_null(node):
        return Number(place, kind, '0')
    if kinds.is_scalar(wanted) or kinds.is_struct(wanted):
        made = convert(node, kind)
        return made if type(made) is not Cast else Cast(place, kind, node, made.shown)
    raise Refusal(place, f'there is no conversion to `{kinds.spell(kind)}`')


def is_place(node):
    """Whether the expression designates an object."""
    from front.tree import Index, Literal, Member, Name
    kind = type(node)
    if kind is Name:
        return node.symbol.kind == 'variable'
    if kind is Member:
        return node.arrow or is_place(node.base)
    return kind in (Index, Literal, Text) or (kind is Unary and node.op == '*')
