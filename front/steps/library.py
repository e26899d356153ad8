"""Functions of the library that are used and that no file defines: their texts, from `front/library`, join the program."""
import os
import re

from front.messages import Refusal
from front.tree import Call, expressions

FOLDER = os.path.join(os.path.dirname(os.path.dirname(os.path.realpath(__file__))), 'library')
BUILT_IN = ('putchar', 'getchar', 'exit')


def text_of(name):
    """The text of a library function, None where there is none."""
    try:
        with open(os.path.join(FOLDER, f'{name}.c'), encoding='ascii') as file:
            return file.read()
    except OSError:
        return None


def change(program, notes):
    defined = {routine.symbol.written for routine in program.routines if routine.symbol.storage == 'external'}
    found = {}

    def add(name, place):
        if name in found or name in defined or name in BUILT_IN or name in program.helpers:
            return
        text = text_of(name)
        if text is None:
            raise Refusal(place, f'{name} is called, and no file defines it')
        found[name] = None
        needs = re.match(r'/\* needs: ([^*]*)\*/\n', text)
        for other in needs[1].split() if needs else ():
            add(other, place)
        found.pop(name)
        found[name] = text[needs.end():] if needs else text

    def look(node):
        if type(node) is Call and not node.symbol.defined:
            add(node.symbol.name, node.place)
        return node

    expressions(program, look)
    program.library = [text for text in found.values()]
