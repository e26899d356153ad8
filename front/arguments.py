"""The words of the command line, as `cc` has them."""
from front.messages import Refusal

USAGE = '''usage: rvcc-cc [-o OUT] [-I DIR] [-D NAME[=TEXT]] [-U NAME] [-O0 | -O1 | -Os] [--keep] [--run] FILE.c..
       rvcc-cc -E [-o OUT] FILE.c..   writes the program as a text of the subset of C that rvcc compiles
       rvcc-cc -S [-o OUT] FILE.c..   writes the listing of its plain image
       --recipe LIST and --code FORM are those of rvcc build
'''

HELP = USAGE + '''
Compiles ordinary C to an executable for 32-bit RISC-V. All files together are one program. It is preprocessed, and
changed to a text of the subset of C11 that rvcc takes; --keep leaves that text beside OUT, as OUT.i. This part is not
proved: the theorem about rvcc begins at that text, so read it where it matters.

-O0 is plain code without a sweep, -O1 (without an option) the options for the fastest images, -Os those for the
smallest. --run runs the image. Other options of compilers, such as -Wall and -g, are ignored with a note. The variable
RVCC of the environment names another rvcc.

Statuses: 0 all was done, 1 no command or a program that is needed is missing, 2 a file could not be read, 3 or written,
4 the program is refused; with --run those of rvcc run.
'''

# The options of `rvcc build` for each level. This is the one place where they stand.
LEVELS = {
    '-O0': ('plain', 'none'),
    '-O1': ('tight', 'iln,iln,ivt,ivt,dne,fold,iln,dne,inv,dne,inv,inv,cne,inv,pll,psh,fold,dne,pll,pll,pll'),
    '-Os': ('tight', 'fold,inv,cne,dne,inv,dne'),
}
LIKE_O1 = ('-O', '-O2', '-O3', '-Ofast', '-Og')

# Beginnings of options of other compilers that change no meaning here, or that ask for what is so anyway.
IGNORED = ('-W', '-w', '-g', '-std=', '-pedantic', '-ansi', '-f', '-m', '-pipe', '-l', '-L', '-static', '-s', '-no-pie', '-nostdlib', '-M', '-x')


class Arguments:
    """What the command asks for: `files`, `out` (None: not given), `defines` (the options for the preprocessor), `mode`
    ('build', 'text' or 'listing'), `form` and `recipe`, `keep`, `run`, and `ignored` options."""

    def __init__(self):
        self.files, self.defines, self.ignored = [], [], []
        self.out = None
        self.mode = 'build'
        self.form, self.recipe = LEVELS['-O1']
        self.keep = self.run = False


def read(words):
    """The arguments of the words, None where they ask for help. A `Refusal` of status 1 where they are no command."""
    asked = Arguments()
    form = recipe = None
    words = list(words)

    def value(word, short):
        """What follows an option: in the same word, or the next one."""
        if len(word) > len(short):
            return word[len(short):].removeprefix('=') if short.startswith('--') else word[len(short):]
        if not words:
            raise Refusal(None, f'{short} needs a value', 1)
        return words.pop(0)

    while words:
        word = words.pop(0)
        if word in ('--help', '-h', 'help'):
            return None
        if word == '--':
            asked.files += words
            break
        if not word.startswith('-') or word == '-':
            asked.files.append(word)
        elif word.startswith('-o'):
            asked.out = value(word, '-o')
        elif word[:2] in ('-I', '-D', '-U'):
            asked.defines.append(word[:2] + value(word, word[:2]))
        elif word == '-E':
            asked.mode = 'text'
        elif word == '-S':
            asked.mode = 'listing'
        elif word == '-c':
            raise Refusal(None, '-c: there are no object files; all files of a program are compiled at once, so name '
                          'them all in one command without -c', 1)
        elif word in LEVELS:
            asked.form, asked.recipe = LEVELS[word]
        elif word in LIKE_O1:
            asked.form, asked.recipe = LEVELS['-O1']
        elif word == '--keep':
            asked.keep = True
        elif word == '--run':
            asked.run = True
        elif word == '--recipe' or word.startswith('--recipe='):
            recipe = value(word, '--recipe')
        elif word == '--code' or word.startswith('--code='):
            form = value(word, '--code')
        elif word.startswith(IGNORED):
            asked.ignored.append(word)
        else:
            raise Refusal(None, f'{word} is no option', 1)
    if form is not None:
        asked.form = form
    if recipe is not None:
        asked.recipe = recipe
    if not asked.files:
        raise Refusal(None, 'no file is named', 1)
    for file in asked.files:
        if not file.endswith('.c'):
            raise Refusal(None, f'{file} is no file of C: its name has to end in .c', 1)
    return asked
