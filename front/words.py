"""The words of the preprocessed text that the parser or the subset spells otherwise: digraphs, escapes in literals, and
what compilers have beside C. Lines stay lines."""
import re

from front.messages import Place, Refusal

DIGRAPHS = {'<:': '[ ', ':>': '] ', '<%': '{ ', '%>': '} '}
SPELLED = {'__inline': 'inline', '__inline__': 'inline', '__const': 'const', '__const__': 'const', '__volatile__': 'volatile',
           '__volatile': 'volatile', '__restrict': 'restrict', '__restrict__': 'restrict', '__signed__': 'signed',
           '__extension__': ''}
MOST_WORDS = 200000

WORD = re.compile(r'''
    ^[ ]*\#[^\n]*
  | (?:u8|[uUL])?"(?:\\.|[^"\\\n])*"
  | (?:[uUL])?'(?:\\.|[^'\\\n])*'
  | <: | :> | <% | %>
  | [A-Za-z_]\w*
  | \.?\d(?:[eEpP][+-]|[\w.])*
  | \n
  | [^\s\w]
''', re.VERBOSE | re.MULTILINE)
ESCAPE = re.compile(r'\\(x[0-9a-fA-F]+|[0-7]{1,3}|.)|[\x80-\xff]')
# Attributes of GNU C that change no meaning of a program that may have them.
HARMLESS = {'unused', 'used', 'noreturn', 'noinline', 'always_inline', 'const', 'pure', 'cold', 'hot', 'format', 'nonnull',
            'warn_unused_result', 'fallthrough', 'flatten', 'leaf', 'deprecated', 'maybe_unused', 'returns_nonnull'}


def escaped(found):
    """An escape or a byte above 127 of a literal, in three octal digits where it is a number."""
    text = found[0]
    if len(text) == 1:
        return f'\\{ord(text):03o}'
    if text[1] == 'x':
        value = int(text[2:], 16)
        return text if value > 255 else f'\\{value:03o}'
    if text[1] in '01234567':
        return f'\\{int(text[1:], 8):03o}'
    return text


def literal(text):
    """A string or character constant whose numbers cannot grow into what comes after them when texts are joined."""
    if '\\' not in text and text.isascii():
        return text
    return ESCAPE.sub(escaped, text)


def adapted(text, file, notes, digraphs=DIGRAPHS, literal=literal):
    """The text for the parser. A `Refusal` where it has more words than `rvcc` takes, or a word that changes the layout."""
    made, line, start, after, words = [], 1, 0, 0, 0
    skip = 0  # how many brackets of an attribute are open; -1: it has not begun
    name = file
    attribute = []
    for found in WORD.finditer(text):
        word = found[0]
        first = word[0]
        if first == '\n':
            line += 1
            start = found.end()
            continue
        place = None
        if skip:
            made.append(text[after:found.start()] if not text[after:found.start()].strip(' ') else '')
            after = found.end()
            attribute.append(word)
            if word == '(':
                skip = 1 if skip < 0 else skip + 1
            elif word == ')':
                skip -= 1
                if skip == 0:
                    for its in attribute:
                        if re.match(r'\w', its) and its.strip('_') in ('packed', 'aligned', 'interrupt', 'naked', 'section', 'mode', 'vector_size', 'weak', 'alias', 'constructor', 'destructor', 'cleanup'):
                            raise Refusal(Place(name, line, found.start() - start + 1), f'the attribute {its} cannot be had')
            continue
        new = word
        if first == '#' and start == found.start() or word.lstrip(' ').startswith('#') and text[start:found.start()].strip() == '':
            marker = re.match(r'\s*#\s*(?:line\s+)?(\d+)\s+"((?:\\.|[^"\\])*)"', word)
            if marker:
                name = re.sub(r'\\(.)', r'\1', marker[2])
                line = int(marker[1]) - 1
                new = f'# {marker[1]} "{marker[2]}"'
            else:
                place = Place(name, line, 1)
                if 'pack' in word:
                    raise Refusal(place, '#pragma pack cannot be had: members stand at multiples of their alignment')
                if '#pragma' in word.replace(' ', ''):
                    notes(place, '#pragma is ignored')
                new = ''
        else:
            words += 1
            if first.isalpha() or first == '_':
                if word[-1] in '"\'':
                    raise Refusal(Place(name, line, found.start() - start + 1), 'wide characters cannot be had') if not word.startswith('u8') else None
                if word in ('__attribute__', '__attribute'):
                    skip, new, attribute = -1, '', []
                elif word in ('asm', '__asm__', '__asm'):
                    raise Refusal(Place(name, line, found.start() - start + 1), 'assembler in C cannot be had')
                else:
                    new = SPELLED.get(word, word)
            elif first in '"\'':
                new = literal(word)
            else:
                new = digraphs.get(word, word)
            if not new.isascii():
                raise Refusal(Place(name, line, found.start() - start + 1),
                              'a byte that is no character of C stands outside of texts and comments')
            if words > MOST_WORDS:
                raise Refusal(Place(name, line, found.start() - start + 1), f'the program has more than {MOST_WORDS} words')
        if new is not word:
            made.append(text[after:found.start()])
            made.append(new)
            after = found.end()
    made.append(text[after:])
    return ''.join(made)
