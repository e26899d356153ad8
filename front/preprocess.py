"""Preprocessing, by a preprocessor of C that is installed, with the headers of `front/include` alone."""
import os
import re
import shutil
import subprocess

from front.messages import Place, Refusal

HEADERS = os.path.join(os.path.dirname(os.path.realpath(__file__)), 'include')
MACROS = ('-D__rvcc__=1', '-D__riscv=1', '-D__riscv_xlen=32', '-D__CHAR_UNSIGNED__=1', '-D__STDC_NO_VLA__=1',
          '-D__STDC_NO_COMPLEX__=1', '-D__STDC_NO_ATOMICS__=1', '-D__STDC_NO_THREADS__=1')
# `-undef` keeps the macros that name the machine on which this runs away from the program.
COMMANDS = (
    ('gcc', '-E', '-std=c11', '-undef', '-nostdinc', '-isystem', HEADERS),
    ('clang', '-E', '-std=c11', '-undef', '-nostdinc', '-isystem', HEADERS),
    ('cpp', '-std=c11', '-undef', '-nostdinc', '-isystem', HEADERS),
    ('tcc', '-E', '-nostdinc', '-I' + HEADERS),
)


def command():
    """The first preprocessor that is there, as a list of words."""
    for words in COMMANDS:
        if shutil.which(words[0]):
            return list(words)
    raise Refusal(None, 'a preprocessor is needed: install one of the packages gcc, clang or tcc', 1)


def preprocessed(file, defines, notes):
    """The text of a file after preprocessing, with lines `# NUMBER "FILE"`; each character stands for one byte. What the
    preprocessor says is said again, its first error as a `Refusal`."""
    try:
        with open(file, 'rb'):
            pass
    except OSError as error:
        raise Refusal(None, f'{file} cannot be read: {error.strerror}', 2)
    name = os.path.join('.', file) if file.startswith('-') else file
    words = command()
    # The user's folders come before the headers.
    at = max(k for k, word in enumerate(words) if word.startswith(('-nostdinc', '-undef'))) + 1
    words[at:at] = [*MACROS, *defines]
    ran = subprocess.run([*words, name], capture_output=True, env={**os.environ, 'LC_ALL': 'C'}, check=False)
    said = os.fsdecode(ran.stderr)
    for line in said.splitlines():
        found = re.match(r'(.*?):(\d+):(?:(\d+):)? (fatal error|error|warning): (.*)', line)
        if not found:
            continue
        place = Place(found[1], int(found[2]), int(found[3] or 1))
        if found[4] == 'warning':
            notes(place, found[5])
        else:
            raise Refusal(place, found[5])
    if ran.returncode != 0:
        raise Refusal(None, f'{words[0]} failed: {said.strip()[:200]}', 2)
    return ran.stdout.decode('latin-1')
