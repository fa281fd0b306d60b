"""Reads a script with its kept answers and says it as a list of lines of world.txt."""
import re
from pathlib import Path

ANSWERS = Path(__file__).resolve().parent.parent / 'answers'
ANY_REFUSAL = 999  # world.txt's number for a refusal of which the Rust does not say the number


class NotInStep(Exception):
    """A kept answer that does not belong to its line."""


def number_list(numbers):
    return '(' + ' ∷ '.join([*map(str, numbers), '[]']) + ')'


def byte_list(word):
    return list(bytes.fromhex(word[1:]))


# ---- words of a line: for each kind its form, and the term that says it
HEX = r'x(?:[0-9a-f]{2})*'
WORDS = {
    'number': (r'\d+', str),
    'bytes': (HEX, lambda w: number_list(byte_list(w))),
    'value': (HEX + '|-', lambda w: 'ghost' if w == '-' else f'(leaf {number_list(byte_list(w))})'),
    'order': ('pair|byte', lambda w: str(['pair', 'byte'].index(w))),
    'storage': ('physical|virtual', lambda w: 'true' if w == 'physical' else 'false'),
    'map': (r'\d+|-', lambda w: number_list([] if w == '-' else [w])),
}
SET_UP = {
    'image': 'number number', 'slots': 'number', 'block': 'number bytes', 'seal': 'number',
    'mark': 'number number', 'count': 'number number number', 'map': 'map',
    'empty': 'number storage number number number number number number',
}
CALLS = {
    'open': 'number order number', 'get': 'bytes', 'floor': 'bytes', 'range': 'bytes bytes',
    'upsert': 'bytes value', 'remove': 'bytes', 'put': 'number number number', 'drop': 'number',
    'flush': 'number number', 'walk': '',
}
LINES = {**SET_UP, **CALLS}


def is_word(kind, word):
    return re.fullmatch(WORDS[kind][0], word) and not (word.isdigit() and int(word) >= 2 ** 64)


def term_of(text):
    """A line's name and the term that says it, without what is expected; no name for a line outside the language."""
    if not (text.startswith('(') and text.endswith(')')):
        return None, None
    name, *words = text[1:-1].split(' ')
    if name not in LINES:
        return None, None
    kinds = LINES[name].split()
    if len(words) != len(kinds) or not all(is_word(k, w) for k, w in zip(kinds, words)):
        return None, None
    return name, ' '.join([name + '_line', *(WORDS[k][1](w) for k, w in zip(kinds, words))])


# ---- answers as the numbers of world.txt
def value_numbers(word):
    return [1] if word == '-' else [2, len(byte_list(word)), *byte_list(word)]


def entry_numbers(words):
    """How many entries, and key and value of each."""
    numbers = [len(words) // 2]
    for key, value in zip(words[::2], words[1::2]):
        numbers += [len(byte_list(key)), *byte_list(key), *value_numbers(value)]
    return numbers


def refusal_of(name, words):
    """What is expected of a refused call, None for an accepted one."""
    if words[0] == 'refused':
        return [int(words[1])] if len(words) > 1 else [ANY_REFUSAL]
    return None if name == 'walk' or words[0] == '0' else [int(words[0])]


def accepted_numbers(name, words):
    """What is expected of an accepted call after the 0. `words`: what its answer has after the 0, which walk's has not."""
    if name == 'get':
        return [0] if words[0] == 'none' else value_numbers(words[0])
    if name == 'floor':
        return entry_numbers([] if words[0] == 'none' else words)
    if name in ('range', 'walk'):
        return entry_numbers(words[1:])
    if name == 'remove':
        return [int(words[0] == 'yes'), *map(int, words[1:])]
    return [int(w) for w in words]


class Answers:
    """The lines of an answer file, taken in their order."""

    def __init__(self, text):
        self.lines = [line for line in text.split('\n') if line and not line.startswith(';')]

    def take(self):
        if not self.lines:
            raise NotInStep('the answers end before the script')
        return self.lines.pop(0)

    def words(self, name):
        line = self.take()
        first, *rest = line[1:-1].split(' ')
        if first != name:
            raise NotInStep(f'({name} ..) is answered by {line[:60]}')
        return rest

    def flush_lists(self):
        """The lists that follow an accepted flush, as numbers, each after its length."""
        freed, removed, moved = (self.words(name) for name in ('freed', 'removed', 'moved'))
        return [int(n) for n in (len(freed), *freed, len(removed), *removed, len(moved) // 2, *moved)]

    def flush_runs(self):
        """The blocks that an accepted flush wrote, as a term: by address, each with the distance from the one before, so that
        the checker goes over the image once for all of them."""
        blocks, end, runs = [], 0, []
        while self.lines and self.lines[0].startswith('(wrote '):
            address, content = self.words('wrote')
            blocks.append((int(address), byte_list(content)))
        for address, content in sorted(blocks):
            start = address * len(content)
            if start < end:
                raise NotInStep(f'a flush writes block {address} twice')
            runs.append(f'({start - end}, {number_list(content)})')
            end = start + len(content)
        return number_list(runs)


# ---- scripts
class Line:
    """One line that the definitions, or the world around them, must answer."""

    def __init__(self, at, text, term, answer=None):
        self.at, self.text, self.term, self.answer = at, text, term, answer

    def is_call(self):
        return self.answer is not None


class Script:
    def __init__(self, name, text, answer_text):
        self.name, self.lines, self.image_bytes = name, [], 0
        answers = Answers(answer_text)
        for at, line in enumerate(text.split('\n'), 1):
            if line and not line.startswith(';'):
                self.read(at, line, answers)
        if answers.lines:
            raise NotInStep(f'{name}: answers are left over at the end')

    def read(self, at, text, answers):
        name, term = term_of(text)
        if answers.lines[:1] == ['(error)']:
            answers.take()
            # Of the lines that print (error), the definitions can tell one kind: a call without a tree, which
            # answers []. A set-up line out of range, and open without an image, never reach them.
            if name in CALLS and name != 'open':
                self.lines.append(Line(at, text, self.with_expected(name, term, []), '(error)'))
        elif name in SET_UP:
            answers.words(name)
            self.lines.append(Line(at, text, term))
            if name == 'image':
                blocks, size = map(int, text[1:-1].split(' ')[1:])
                self.image_bytes = max(self.image_bytes, blocks * size)
        elif name in CALLS:
            self.read_call(at, text, name, term, answers)
        else:
            raise NotInStep(f'{self.name}, line {at}: outside the language, and not answered by (error)')

    def read_call(self, at, text, name, term, answers):
        words = answers.words(name)
        runs, answer = '[]', f'({" ".join([name, *words])})'
        expected = refusal_of(name, words)
        if expected is None:
            expected = [0, *accepted_numbers(name, words if name == 'walk' else words[1:])]
            if name == 'flush':
                expected += answers.flush_lists()
                runs = answers.flush_runs()
        self.lines.append(Line(at, text, self.with_expected(name, term, expected, runs), answer))

    @staticmethod
    def with_expected(name, term, expected, runs='[]'):
        return f'{term} {runs + " " if name == "flush" else ""}{number_list(expected)}'

    def calls(self):
        return sum(line.is_call() for line in self.lines)

    def up_to(self, calls):
        """The lines up to and with so many calls."""
        taken = []
        for line in self.lines:
            if calls == 0:
                break
            taken.append(line)
            calls -= line.is_call()
        return taken


def load(name):
    """A kept script, with the answers that the rules demand where they are kept, else the Rust's."""
    script = ANSWERS / f'{name}.script'
    demanded = script.with_suffix('.demanded')
    answer = demanded if demanded.exists() else script.with_suffix('.answer')
    return Script(name, script.read_text(), answer.read_text())
