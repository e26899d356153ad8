"""`void *` is `char *`, and a cast between pointers, which changes nothing after `convert` has let it through, is dropped.
A `void *` that is no pointer to bytes has been refused."""
from front import kinds
from front.messages import Refusal
from front.conversions import source
from front.tree import Cast, expressions


def kind(kind):
    if type(kind) is kinds.Pointer and type(kind.to) is kinds.Void:
        return kinds.Pointer(kinds.CHAR.qualified(kind.to.quals)).qualified(kind.quals)
    return kind


def change(program, notes):
    def dropped(node):
        if type(node) is Cast and kinds.is_pointer(node.type):
            if not kinds.same(kinds.decayed(node.operand.type), node.type):
                raise Refusal(node.place, f'`{kinds.spell(kinds.decayed(node.operand.type))}` does not become `{kinds.spell(node.type)}`: '
                              'there are no conversions between pointers to different types')
            return node.operand
        return node

    expressions(program, dropped)
