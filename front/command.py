"""The command `rvcc-cc`: its arguments, the parts of the front in their order, and `rvcc` on what they make."""
import os
import re
import shutil
import subprocess
import sys
import tempfile

from front import arguments
from front.messages import Notes, Place, Refusal, show

TOP = os.path.dirname(os.path.dirname(os.path.realpath(__file__)))


def adapted(files, defines, notes, without=()):
    """The files as one text of the subset, and for each of its lines the place in the user's files, or None. The tests name
    steps that are taken out. A `Refusal` where a file is not taken."""
    from front import parse, preprocess, resolve, steps, words, write
    trees = []
    for file in files:
        text = preprocess.preprocessed(file, defines, notes)
        if 'words' in without:
            text = words.adapted(text, file, notes, {}, lambda literal: literal)
        else:
            text = words.adapted(text, file, notes)
        trees.append(parse.parsed(text, file))
    program = resolve.resolved(trees, notes)
    taken = steps.without(without)
    for step in taken:
        if hasattr(step, 'change'):
            step.change(program, notes)
    writer = write.Writer(program, taken)
    return writer.whole(), writer.places


def located(place):
    """The place, with a column that the user's line has: where a macro made the line longer, its first word."""
    try:
        with open(place.file, encoding='latin-1') as file:
            line = next(text for k, text in enumerate(file, 1) if k == place.line).rstrip()
    except (OSError, StopIteration):
        return place
    if place.column <= max(len(line), 1):
        return place
    return Place(place.file, place.line, len(line) - len(line.lstrip()) + 1)


def program(name):
    """The command of `rvcc` or `rvcc-view`: that of the environment or beside it, else the one beside `rvcc-cc`."""
    chosen = os.environ.get('RVCC')
    if chosen and name == 'rvcc':
        return chosen
    beside = os.path.join(os.path.dirname(chosen or ''), name)
    return beside if chosen and os.access(beside, os.X_OK) else os.path.join(TOP, name)


def refused(source, places, said, listing=None):
    """The refusal of the subset as one at the user's line: what `rvcc-view explain` says about it."""
    found = re.search(r'refused (\w+) \d+ line (\d+)(?: which (\d+) count (\d+))?', said)
    if not found:
        return None
    line = int(found[2])
    place = next((its for its in reversed(places[:line]) if its is not None), None)
    if line <= len(places) and places[line - 1] is not None:
        place = places[line - 1]
    sentence = ''
    view = program('rvcc-view')
    if shutil.which(view):
        told = subprocess.run([view, 'explain', source], capture_output=True, check=False).stdout.decode('latin-1').splitlines()
        caret = next((k for k, its in enumerate(told) if its.strip() == '^'), None)
        if caret is not None:
            sentence = ' '.join(told[caret + 1:])
    return Refusal(place, f"{found[1]}: {sentence}" if sentence else found[0])


def same_file(one, other):
    try:
        return os.path.samefile(one, other)
    except OSError:
        return os.path.abspath(one) == os.path.abspath(other)


def written(path, text):
    try:
        if path is None:
            sys.stdout.write(text)
            sys.stdout.flush()
        else:
            with open(path, 'w', encoding='ascii') as file:
                file.write(text)
    except OSError as error:
        raise Refusal(None, f'{path or "standard output"} cannot be written: {error.strerror}', 3)


def checked_outputs(asked):
    """Refuses a command whose output would be written over one of its inputs."""
    out = asked.out or ('a.out' if asked.mode == 'build' else None)
    outputs = [out] if out else []
    if asked.keep and out:
        outputs.append(out + '.i')
    for output in outputs:
        for file in asked.files:
            if same_file(output, file):
                raise Refusal(None, f'{output} is an input too', 1)


def built(asked, text, places, folder):
    """Compiles the text, and runs the image where that is asked for. The status."""
    out = asked.out or (os.path.join(folder, 'image') if asked.run else 'a.out')
    source = out + '.i' if asked.keep else os.path.join(folder, 'program.i')
    written(source, text)
    if asked.mode == 'listing':
        command = [program('rvcc-view'), 'listing', source, '--recipe', asked.recipe]
    else:
        command = [program('rvcc'), 'build', source, out, '--recipe', asked.recipe, '--code', asked.form]
    ran = subprocess.run(command, capture_output=True, check=False)
    said = ran.stderr.decode('latin-1')
    if ran.returncode == 4:
        refusal = refused(source, places, said)
        if refusal is not None:
            raise refusal
    if ran.returncode != 0:
        sys.stderr.write(said)
        return ran.returncode
    if asked.mode == 'listing':
        written(asked.out, ran.stdout.decode('latin-1'))
        return 0
    os.chmod(out, os.stat(out).st_mode | 0o111)
    if not asked.run:
        return 0
    return subprocess.run([program('rvcc'), 'run', out], check=False).returncode


def main(words):
    sys.setrecursionlimit(20000)
    notes = Notes()
    try:
        asked = arguments.read(words)
        if asked is None:
            print(arguments.HELP, end='')
            return 0
        if asked.ignored:
            notes(None, f"ignored: {' '.join(asked.ignored)}")
        checked_outputs(asked)
        text, places = adapted(asked.files, asked.defines, notes)
        if asked.mode == 'text':
            written(asked.out, text)
            return 0
        with tempfile.TemporaryDirectory() as folder:
            return built(asked, text, places, folder)
    except Refusal as refusal:
        if refusal.place is not None:
            refusal.place = located(refusal.place)
        print(show(refusal), file=sys.stderr)
        return refusal.status
    except RecursionError:
        print('rvcc-cc: error: the program nests too deep', file=sys.stderr)
        return 4
