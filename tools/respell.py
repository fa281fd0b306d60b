#!/usr/bin/env python3
"""Spells the repository's own names as today's Rattle spells words: `headerBytes` and `put-join` become `header_bytes` and `put_join`.
    tools/respell.py [--check]      at the top, once, after the kit's port.py; --check writes nothing and prints what would fall together
What turns: every name that a file of specs/ or a lemma file of proofs/ declares and that begins with a small letter, wherever such a file, a clause
or a `ghost use` item says it, and in a document's code spans. What stays: types, facts and modules (they begin with a capital), names of src/, names
that a file imports from a library, strings, and in a function's own proof what stands behind a dot (Rattle made those names)."""
import re
import sys
from collections import defaultdict
from pathlib import Path

TOP = Path(__file__).resolve().parent.parent
WORD = r'[^\s(){}.;,@"«»\[\]]+'
NAME = re.compile(r"[a-z][A-Za-z0-9_'₀-₉-]*")
DECLARED = re.compile(rf'^(\s*)(?:(?:pub|abbrev|unfoldable)\s+)*({WORD})(?:\s+[({{].*)? :(?:\s|$)')
RULES = re.compile(rf'^(?:pub )?ruleset ({WORD}) =')
LOCAL = re.compile(rf'\blet ({WORD}) :')
TOKEN = re.compile(rf'--[^\n]*|"(?:[^"\\]|\\.)*"|«[^»]*»|{WORD}')
USE = re.compile(r'(?m)^(\s*(?:pub )?(?:ghost )?use )([^\s;{]+?)\.?(\{[^}]*\})?((?: as [^\s;]+)?;?)$')
CLAUSE = re.compile(r'\b(?:requires|ensures|ghost)\b\*?(?:\s+\w+\s*[:=]?)?\s*\{')
# Names that would be spelled as a definition is: a lemma that would have its function's name ends in `_lem`.
OTHERWISE = {'or_left': 'or_left_lem'}
CRATES = {p.name for p in (TOP / 'crates').iterdir()}


def texts(*patterns):
    return sorted(p for pattern in patterns for p in (TOP / 'crates').glob(pattern) if p.relative_to(TOP / 'crates').parts[1] != 'out')


def lemma_files():
    return [p for p in texts('*/specs/**/*.antt', '*/proofs/**/*.antt') if p.name != 'Proof.antt']


def spelled(name):
    if name in OTHERWISE:
        return OTHERWISE[name]
    return re.sub(r'(?<=[a-z0-9])[A-Z]', lambda m: '_' + m[0].lower(), name).replace('-', '_')


def words_declared():
    """The names that begin with a small letter, each with whether some file declares it at the left margin."""
    words = defaultdict(bool)
    for p in lemma_files():
        for line in p.read_text().split('\n'):
            if re.match(r'\s*(?:pub )?use |\s*--', line):
                continue
            m, r = DECLARED.match(line), RULES.match(line)
            if m:
                words[m[2]] |= not m[1]
            if r:
                words[r[1]] = True
            for name in LOCAL.findall(line):
                words[name] |= False
    return {name: top for name, top in words.items() if NAME.fullmatch(name)}


def declared():
    """The names that turn; those that would meet a definition get their other spelling."""
    words = words_declared()
    alike = defaultdict(list)
    for name in sorted(words):
        alike[spelled(name)].append(name)
    for new, names in alike.items():
        first = [n for n in names if words[n] and re.search('[A-Z]', n)] or [n for n in names if words[n] and n == new]
        if len(names) > 1 and first:
            OTHERWISE.update({n: new + '_lem' for n in names if n != first[0]})
    return {n for n in words if spelled(n) != n}


def of_this_project(path):
    parts = path.split('.')
    return parts[0] == 'Rattle' and len(parts) > 2 and parts[1] in CRATES


def borrowed(text):
    """The names that a text imports from a library."""
    out = set()
    for m in USE.finditer(text):
        if m[3] and not of_this_project(m[2]):
            out |= {n.split(' as ')[-1].strip() for n in m[3][1:-1].split(',')}
    return out


def turn(text, names, stay, dotted):
    """A text with its names turned; `dotted`: also behind a dot."""
    def of_use(m):
        if not m[3]:
            return m[0]
        if of_this_project(m[2]) and not re.search(r'\.proofs\..*\.(Goals|Given|Tie|Lts|Reads|Kinds|Statement)\b|\.declared\b', m[2]):
            return m[1] + m[2] + '.' + TOKEN.sub(lambda t: spelled(t[0]) if t[0] in names else t[0], m[3]) + m[4]
        return m[0]

    def word(m):
        t = m[0]
        if t.startswith('--'):
            return re.sub(r'`[^`]*`', lambda s: TOKEN.sub(lambda u: spelled(u[0]) if u[0] in names and u[0] not in stay else u[0], s[0][1:-1]).join('``'), t)
        if t not in names or t in stay:
            return t
        if not dotted and m.start() and m.string[m.start() - 1] == '.':
            return t
        return spelled(t)

    out, at = [], 0
    for m in USE.finditer(text):
        out += [TOKEN.sub(word, text[at:m.start()]), of_use(m)]
        at = m.end()
    return ''.join(out) + TOKEN.sub(word, text[at:])


def clauses(text):
    """Where the clauses of a source file stand."""
    for m in CLAUSE.finditer(text):
        deep, i = 1, m.end()
        while deep:
            deep += (text[i] == '{') - (text[i] == '}')
            i += 1
        yield m.end(), i - 1


def turn_source(text, names, stay):
    out, at = [], 0
    for a, b in clauses(text):
        if a < at:
            continue
        out += [text[at:a], turn(text[a:b], names, stay, True)]
        at = b
    text = ''.join(out) + text[at:]
    return USE.sub(lambda m: turn(m[0], names, stay, True) if 'ghost use' in m[1] else m[0], text)


def met(path, before, names, stay):
    """Names of one file that would fall together."""
    words = defaultdict(set)
    plain = USE.sub(lambda m: m[3] or '', re.sub(r'(?m)--.*$', '', before))
    plain = re.sub(rf'(?m)^  +(?:pub )?{WORD} :', '', plain)
    for m in TOKEN.finditer(plain):
        if m.start() and plain[m.start() - 1] == '.' or re.match(r' =\s', plain[m.end():m.end() + 3]) and re.search(r'[{;]\s*$', plain[:m.start()]):
            continue
        t = m[0]
        words[spelled(t) if t in names and t not in stay else t].add(t)
    for new, olds in words.items():
        if len(olds) > 1:
            yield f'{path.relative_to(TOP)}: {" ".join(sorted(olds))} -> {new}'


def hidden(path, text, names, stay):
    """Clauses in which a parameter would hide a turned name."""
    for m in re.finditer(r'\bfn (\w+)(?:<[^>]*>)?\(', text):
        deep, i = 1, m.end()
        while deep:
            deep += (text[i] == '(') - (text[i] == ')')
            i += 1
        params = set(re.findall(r'(\w+)\s*:', text[m.end():i]))
        body = re.search(r'\n\s*\{\n|\n\}|;\n', text[i:])
        head = text[i:i + (body.start() if body else 0)]
        for t in set(TOKEN.findall(head)):
            if t in names and t not in stay and spelled(t) in params:
                yield f'{path.relative_to(TOP)}: {m[1]}: the parameter {spelled(t)} would hide {t}'


def main(check):
    names = declared()
    said = []
    jobs = []
    for p in texts('*/specs/**/*.antt', '*/proofs/**/*.antt'):
        text = p.read_text()
        stay = borrowed(text)
        if p.name != 'Proof.antt':
            said += met(p, text, names, stay)
        jobs.append((p, turn(text, names, stay, p.name != 'Proof.antt')))
    for p in texts('*/src/**/*.rt'):
        text = p.read_text()
        stay = borrowed(text)
        said += hidden(p, text, names, stay)
        said += met(p, '\n'.join([text[a:b] for a, b in clauses(text)]), names, stay)
        jobs.append((p, turn_source(text, names, stay)))
    print(*said, sep='\n')
    print(f'{len(names)} names; {len(said)} places where two would fall together')
    if check or said:
        return 1 if said else 0
    for p in [TOP / 'README.md', *sorted((TOP / 'docs').glob('*.md')), *sorted((TOP / 'tests').glob('**/*.md'))]:
        if p.name != 'PORT.md':
            jobs.append((p, re.sub(r'`[^`\n]+`', lambda s: TOKEN.sub(lambda u: spelled(u[0]) if u[0] in names else u[0], s[0][1:-1]).join('``'), p.read_text())))
    for p, text in jobs:
        if text != p.read_text():
            p.write_text(text)
    return 0


if __name__ == '__main__':
    sys.exit(main('--check' in sys.argv[1:]))
