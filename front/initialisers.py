"""Which item of an initialiser is for which element or member (6.7.9): designators, braces left out, strings."""
from front import constants, kinds
from front.conversions import convert
from front.messages import Refusal
from front.tree import Filled, Listed, Text


class Designator(str):
    """The name of a member, or of an enumeration constant, whose `value` it then has, for an element."""


def is_text_for(kind, init):
    return type(init) is Text and kinds.is_array(kind) and kinds.is_integer(kinds.real(kind).of) and kinds.size(kinds.real(kind).of) == 1


def unbraced(kind, init):
    """A scalar, or a string for an array, may stand in braces of its own."""
    if type(init) is Listed and len(init.items) == 1 and not init.items[0][0]:
        inner = init.items[0][1]
        if kinds.is_scalar(kind) or is_text_for(kind, inner):
            return unbraced(kind, inner)
    return init


def place(kind, init):
    """The initialiser with each of its items at what it is for: an expression for a scalar, a string for an array of
    characters, a struct for a struct, else `Filled`. A `Refusal` where an item fits nothing."""
    init = unbraced(kind, init)
    if kinds.is_scalar(kind):
        if type(init) is Listed:
            raise Refusal(init.place, 'one value is wanted here, not a list' if init.items else 'a value is wanted here')
        return convert(init, kind)
    if is_text_for(kind, init):
        length = kinds.real(kind).length
        if length is not None and len(constants.characters(init.text)) > length:
            raise Refusal(init.place, 'the text is longer than the array')
        return init
    if type(init) is not Listed:
        if kinds.is_array(kind):
            raise Refusal(init.place, 'an array is initialised by a list in braces')
        return convert(init, kind)
    made, taken = filled(kind, list(init.items), 0, True, init.place, None)
    if taken < len(init.items):
        raise Refusal(init.items[taken][1].place, 'there are more items than what is initialised has')
    return made


def slots(kind):
    """The keys and types of the elements or members of a type, and how to find one by its position."""
    kind = kinds.real(kind)
    if type(kind) is kinds.Array:
        return None, kind.length
    names = list(kinds.body_of(kind).members)
    return names, len(names)


def slot_type(kind, key):
    kind = kinds.real(kind)
    return kind.of if type(kind) is kinds.Array else kinds.body_of(kind).members[key]


def position(kind, names, designator, where):
    """The position that a designator names: `.NAME`, or `[CONSTANT]` by its value."""
    if names is not None:
        if not isinstance(designator, str) or designator not in names:
            raise Refusal(where, f'there is no member {designator} in `{kinds.spell(kind)}`')
        return names.index(designator)
    designator = getattr(designator, 'value', designator)
    if type(designator) is not int:
        raise Refusal(where, 'a designator of an element has to be a constant in brackets')
    if designator < 0 or (kinds.real(kind).length is not None and designator >= kinds.real(kind).length):
        raise Refusal(where, f'there is no element [{designator}] in `{kinds.spell(kind)}`')
    return designator


def filled(kind, items, at, braced, where, existing):
    """Fills an array or a struct from `items[at:]`, which ends where it is full and its braces were left out. The
    initialiser, and the position of the first item that was not taken."""
    names, count = slots(kind)
    made = existing if type(existing) is Filled else Filled(where, kind, {})
    cursor, first = 0, True
    while at < len(items):
        designators, init = items[at]
        rest = []
        if designators and (braced or first):
            cursor = position(kind, names, designators[0], init.place or where)
            rest = designators[1:]
        elif designators:
            break
        if count is not None and cursor >= count:
            break
        first = False
        key = cursor if names is None else names[cursor]
        member = slot_type(kind, key)
        if rest:
            items[at] = (rest, init)
            value, at = filled(member, items, at, False, where, made.values.get(key))
        else:
            init = unbraced(member, init)
            if type(init) is Listed or kinds.is_scalar(member) or is_text_for(member, init) or (
                    kinds.is_struct(member) and kinds.is_struct(init.type) and kinds.same(member, init.type)):
                value = place(member, init)
                at += 1
            else:
                items[at] = ([], init)
                value, at = filled(member, items, at, False, init.place or where, None)
        made.values[key] = value
        cursor += 1
        if not braced and cursor == count:
            break
    return made, at


def length(kind, init):
    """The length that an initialiser gives to an array without one."""
    init = unbraced(kind, init)
    if is_text_for(kind, init):
        return len(constants.characters(init.text)) + 1
    if type(init) is not Listed:
        raise Refusal(init.place, 'an array is initialised by a list in braces')
    return max(place(kind, init).values, default=-1) + 1
