"""Wrong programs as text: where they lie, and what each makes of its crate. Read as `rt must-fail` reads them."""
import sys
from pathlib import Path

HERE = Path(__file__).resolve().parent
PROJECT = HERE.parent.parent
GATE = sorted((PROJECT / 'crates').glob('*/must-fail/*.edit'))
OUTSIDE = sorted(HERE.glob('*/*.edit'))
EVERY = GATE + OUTSIDE


def crate_of(edit):
    """The crate that an edit changes: it lies in its must-fail/, or in the folder of its name here."""
    return edit.parent.parent.name if edit.parent.name == 'must-fail' else edit.parent.name


def named(names, every):
    """The edits that a command line names, all without names."""
    found = []
    for name in names:
        some = [e for e in every if name in (crate_of(e), e.stem, f'{crate_of(e)}/{e.stem}')]
        if not some:
            sys.exit(f'no edit has the name {name}')
        found += [e for e in some if e not in found]
    return found if names else every


def replacements(edit):
    """The file, old text and new text of each replacement."""
    file = old = ''
    for line in edit.read_text().split('\n'):
        if line.startswith('file: '):
            file = line[6:].strip()
        elif line.startswith('old: '):
            old = line[5:]
        elif line.startswith('new:'):
            yield file, old, line[4:].removeprefix(' ')


def made(edit, crate):
    """The texts that an edit makes, by their path in the crate, and why it cannot be made, else nothing."""
    texts, was = {}, {}
    for file, old, new in replacements(edit):
        path = PROJECT / 'crates' / crate / file
        if file not in texts:
            if not path.is_file():
                return {}, f'there is no file {file}'
            texts[file] = was[file] = path.read_text()
        count = texts[file].count(old) if old else 0
        if count != 1:
            return {}, f'an old text is in {file} {count} times: {old.strip()}'
        texts[file] = texts[file].replace(old, new)
    if texts == was:
        return {}, 'it changes nothing' if texts else 'it has no replacement'
    return texts, ''
