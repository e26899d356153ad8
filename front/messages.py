"""Places in the user's files, and what is said about them on standard error."""
import sys


class Place:
    """A file, a line and a column, both counted from 1. The column is one of the preprocessed text (see `located`)."""
    __slots__ = ('file', 'line', 'column')

    def __init__(self, file, line, column):
        self.file, self.line, self.column = file, line, column

    def __str__(self):
        return f'{self.file}:{self.line}:{self.column}'


class Refusal(Exception):
    """The program cannot be taken: a sentence, and the place that it is about (None: the command as a whole)."""

    def __init__(self, place, sentence, status=4):
        super().__init__(sentence)
        self.place, self.sentence, self.status = place, sentence, status


class Notes:
    """Says each sentence once for each place, in the order of the places where it is asked for."""

    def __init__(self, stream=None):
        self.said = set()
        self.stream = stream

    def __call__(self, place, sentence):
        line = f'{place}: note: {sentence}' if place else f'rvcc-cc: note: {sentence}'
        if line not in self.said:
            self.said.add(line)
            print(line, file=self.stream or sys.stderr)


def show(refusal):
    """The line of a refusal, as compilers write it."""
    if refusal.place is None:
        return f'rvcc-cc: error: {refusal.sentence}'
    return f'{refusal.place}: error: {refusal.sentence}'
