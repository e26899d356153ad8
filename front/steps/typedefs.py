"""A typedef's name is the type that it stands for."""
from front import kinds


def kind(kind):
    return kind.target.qualified(kind.quals) if type(kind) is kinds.Named else kind
