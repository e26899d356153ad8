"""Tests the front. Each program of `steps/STEP` gives the output of its file `.out`, and where gcc is there its program
does so too; with STEP taken out at least one of them fails. Each program of `refused` is refused with the words of its
first line. Words of the command line choose among the tests by a part of their path; `--write` writes the outputs that
gcc's programs give."""
import contextlib
import io
import os
import re
import shutil
import subprocess
import sys
import tempfile

HERE = os.path.dirname(os.path.realpath(__file__))
sys.path[0] = os.path.dirname(os.path.dirname(HERE))

import pycparser  # noqa: E402

from front import command, steps  # noqa: E402
from front.messages import Notes, Refusal, show  # noqa: E402

RVCC = os.environ.get('RVCC') or os.path.join(command.TOP, 'rvcc')
FORM, RECIPE = 'tight', 'fold,inv,cne,dne,inv,dne'


def files_of(path):
    """The C files of a test: itself, or those of a folder."""
    if os.path.isdir(path):
        return [os.path.join(path, name) for name in sorted(os.listdir(path)) if name.endswith('.c')]
    return [path]


def stem(path):
    return path.removesuffix('.c')


def tests_of(folder):
    if not os.path.isdir(folder):
        return []
    return [os.path.join(folder, name) for name in sorted(os.listdir(folder))
            if name.endswith('.c') or os.path.isdir(os.path.join(folder, name))]


def input_of(path):
    try:
        with open(stem(path) + '.in', 'rb') as file:
            return file.read()
    except OSError:
        return b''


def ran(words, given=b''):
    done = subprocess.run(words, input=given, capture_output=True, timeout=300, check=False)
    return done.returncode, done.stdout.decode('latin-1'), done.stderr.decode('latin-1')


def by_front(path, folder, without=()):
    """What the program does, by the front and rvcc: its output and how it ended. A sentence where it is refused."""
    source, image = os.path.join(folder, 'program.i'), os.path.join(folder, 'program')
    try:
        text, places = command.adapted(files_of(path), [], Notes(io.StringIO()), without)
    except Refusal as refusal:
        return show(refusal)
    with open(source, 'w', encoding='ascii') as file:
        file.write(text)
    status, _, said = ran([RVCC, 'build', source, image, '--code', FORM, '--recipe', RECIPE])
    if status != 0:
        refusal = command.refused(source, places, said)
        return show(refusal) if refusal else said
    _, output, said = ran([RVCC, 'run', image], input_of(path))
    return output + said


def by_gcc(path, folder):
    """The same by gcc, None where it is not there."""
    if not shutil.which('gcc'):
        return None
    image = os.path.join(folder, 'by_gcc')
    status, _, said = ran(['gcc', '-std=c11', '-fwrapv', '-funsigned-char', '-fno-builtin', '-m32', '-w', *files_of(path), '-o', image])
    if status != 0:
        return None if 'bits/libc-header-start.h' in said or 'cannot find' in said else said
    status, output, _ = ran([image], input_of(path))
    return f'{output}exit {status}\n'


def works(path, folder, write):
    """Whether the program does what its file says; what is wrong else."""
    wanted_file = stem(path) + '.out'
    wanted = by_gcc(path, folder)
    if write and wanted is not None:
        with open(wanted_file, 'w', encoding='latin-1') as file:
            file.write(wanted)
    with open(wanted_file, encoding='latin-1') as file:
        kept = file.read()
    if wanted is not None and wanted != kept:
        return f'gcc gives {wanted!r}'
    got = by_front(path, folder)
    return None if got == kept else f'{got!r}, not {kept!r}'


def refusal_of(path):
    """The first line that the front, or rvcc behind it, writes about a program that it refuses."""
    said = io.StringIO()
    with contextlib.redirect_stderr(said):
        status = command.main([*files_of(path), '-o', '/dev/null'])
    lines = [line for line in said.getvalue().splitlines() if ': note: ' not in line]
    return status, (lines or [''])[0].replace(HERE + '/', '').replace(os.path.relpath(HERE) + '/', '')


def main(words):
    write = '--write' in words
    chosen = [word for word in words if word != '--write']
    sys.setrecursionlimit(20000)
    counts, failed = {}, 0

    def wanted(path):
        return not chosen or any(word in path for word in chosen)

    def told(path, fault):
        nonlocal failed
        print(f'{os.path.relpath(path, HERE)}: {fault}', flush=True)
        failed += 1

    with tempfile.TemporaryDirectory() as folder:
        for name in ['words', *map(steps.name_of, steps.STEPS)]:
            paths = [path for path in tests_of(os.path.join(HERE, 'steps', name)) if wanted(path)]
            for path in paths:
                counts['programs'] = counts.get('programs', 0) + 1
                fault = works(path, folder, write)
                if fault:
                    told(path, fault)
            if paths:
                def fails(path):
                    try:
                        with open(stem(path) + '.out', encoding='latin-1') as file:
                            return by_front(path, folder, (name,)) != file.read()
                    except Exception:  # whatever the steps behind make of it
                        return True
                if not any(map(fails, paths)):
                    told(os.path.join(HERE, 'steps', name), 'no program fails without the step')
        for path in tests_of(os.path.join(HERE, 'refused')):
            if wanted(path):
                counts['refusals'] = counts.get('refusals', 0) + 1
                with open(files_of(path)[0], encoding='latin-1') as file:
                    words_there = file.readline().removeprefix('// ').rstrip('\n')
                status, line = refusal_of(path)
                expected = f'refused/{os.path.basename(path)}:{words_there}'
                if not pycparser.__version__.startswith('2.'):
                    # The columns that the files tell are those that pycparser 2 has for a node.
                    line, expected = (re.sub(r':\d+: error', ': error', its) for its in (line, expected))
                if status != 4 or line != expected:
                    told(path, f'status {status}, {line}')
    print(', '.join(f'{count} {what}' for what, count in counts.items()) + f', {failed} failed')
    return 1 if failed else 0


if __name__ == '__main__':
    sys.exit(main(sys.argv[1:]))
