"""`long` is `int`, and `unsigned char` is `char`, which has no sign here: so bytes and characters are of one type."""
from front import kinds

WRITTEN = {'long': kinds.INT, 'unsigned long': kinds.UNSIGNED, 'unsigned char': kinds.CHAR}


def kind(kind):
    if type(kind) is kinds.Integer and kind.name in WRITTEN:
        return WRITTEN[kind.name].qualified(kind.quals)
    return kind
