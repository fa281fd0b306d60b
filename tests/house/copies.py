"""Repositories beside this one, each for one run: a changed text cannot be tried within it, since `rt ci` refuses a source file that is of no
crate of crates.txt, in target/ too. What checks of this repository kept, rt finds there by itself."""
import re
import shutil

from text import CRATES, PROJECT

PARTS = ('src', 'specs', 'proofs')
KEPT = re.compile(r'(?:pub(?:\(\w+\))? )?(struct|enum|const|mod|use) ')
NAMES = re.compile(r'[A-Za-z_]\w*')
OF_LAWS = re.compile(r'ghost use \S+\.specs\.laws\b')
GHOST = re.compile(r'    (?:pub )?ghost ')


def items(source):
    """The items of a source file as `rt fmt` lays them out, each with the attributes above it; comments between them are left out."""
    head, item = [], []
    for line in source.split('\n'):
        if not item and (not line.strip() or line.startswith('//')):
            continue
        if not item and line.startswith('#['):
            head.append(line)
            continue
        item.append(line)
        if re.match(r'\S', line) and line.rstrip().endswith((';', '}', ']')):
            yield '\n'.join(head), '\n'.join(item)
            head, item = [], []


def imports(item):
    """The path of a `use` item up to its last name, and the names that it brings, as written."""
    path, _, last = re.sub(r'\s+', ' ', item).rstrip(';').partition('{')
    if not last:
        path, _, last = path.rpartition('::')
        return f'{path}::', [last]
    return path, [n.strip() for n in last.rstrip(' }').split(',') if n.strip()]


def types_alone(source, laws):
    """A source file's types and constants, with what they import: for definitions and laws, which cite no function. Without `laws`, no
    ghost field that names one: no definition speaks of such a field."""
    kept, uses, lawful = ['#![tactic(auto)]'] if '#![tactic(auto)]' in source else [], [], set()
    for head, item in items(source):
        m = KEPT.match(item)
        if m and m.group(1) == 'use':
            uses.append(item)
        elif not laws and OF_LAWS.match(item):
            lawful.update(imports(item)[1])
        elif m:
            item = '\n'.join(line for line in item.split('\n') if not (GHOST.match(line) and lawful & set(NAMES.findall(line))))
            kept.append(f'{head}\n{item}' if head else item)
        elif item.startswith('ghost use') and re.search(r'^    (?:pub )?ghost ', source, re.M):
            kept.append(item)
    said = set(NAMES.findall(re.sub(r'//.*|^ghost use .*', '', '\n'.join(kept), flags=re.M)))
    for item in uses:
        path, names = imports(item)
        names = [n for n in names if n.split(' ')[-1] in said or item.startswith('pub') and n[0].isupper()]
        kept += [f'{path}{n};' for n in names]
    return '\n'.join(kept) + '\n'


def copied(place, code=True, laws=True):
    """A copy of the crates in a folder. Without `code`: their types, and no function with its proof; without `laws`: their definitions."""
    for crate in sorted(c for c in CRATES.iterdir() if c.is_dir()):
        for part in PARTS if code else PARTS[:2]:
            if (crate / part).is_dir():
                shutil.copytree(crate / part, place / 'crates' / crate.name / part)
    for file in ('crates.txt', 'HANDLES'):
        if (PROJECT / file).exists():
            shutil.copy(PROJECT / file, place)
    if not code:
        for file in (place / 'crates').glob('*/src/**/*.rt'):
            file.write_text(types_alone(file.read_text(), laws))
    if not laws:
        for listing in (place / 'crates').glob('*/specs/Lib.antt'):
            shutil.rmtree(listing.parent / 'laws', ignore_errors=True)
            (listing.parent / 'laws.antt').unlink(missing_ok=True)
            listing.write_text(re.sub(r'^pub mod laws$', '', listing.read_text(), flags=re.M))
