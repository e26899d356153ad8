"""The tree of a preprocessed text, by pycparser."""
import re

from pycparser.c_parser import CParser, ParseError

from front.messages import Place, Refusal


def parsed(text, file):
    """The tree of pycparser. A `Refusal` where the text is no C."""
    parser = CParser()
    try:
        return parser.parse(text, file)
    except ParseError as error:
        said = str(error)
        found = re.match(r'(.*?):(\d+)(?::(\d+))?: (.*)', said, re.DOTALL)
        if found:
            place = Place(found[1], int(found[2]), int(found[3] or 1))
            what = found[4]
        else:
            place, what = end(text, file), said.split(': ', 1)[-1]
        if what.startswith('before: '):
            what = f'syntax error before `{what[8:]}`'
        elif 'end of input' in what.lower():
            what, place = 'the file ends before the program does', end(text, file)
        elif what.startswith('Illegal character'):
            what = f'`{what[18:].strip(chr(39))}` begins no word of C'
        else:
            what = f'syntax error: {what[:1].lower()}{what[1:]}'
        raise Refusal(place, what)
    except RecursionError:
        raise Refusal(Place(file, 1, 1), 'the program nests too deep')


def end(text, file):
    """The place of the last line of the text."""
    line = 1
    name = file
    for row in text.splitlines():
        found = re.match(r'# (\d+) "(.*)"', row)
        if found:
            line, name = int(found[1]), found[2]
        else:
            line += 1
    return Place(name, max(line - 1, 1), 1)
