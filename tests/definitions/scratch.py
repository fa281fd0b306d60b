"""The scratch repository in which the checker computes scripts: the definitions of the project's crates, without code and laws, and a crate `runs`."""
import os
import re
import shlex
import subprocess
import sys
import tempfile
from pathlib import Path

HERE = Path(__file__).resolve().parent
sys.path.insert(0, str(HERE.parent / 'house'))
from copies import copied  # noqa: E402
from text import CITED, PROJECT, UNFOLDABLE  # noqa: E402

SAID = PROJECT / 'target' / 'definitions' / 'said.txt'
RUNS = 'Rattle.runs.specs'
WORLD, CLAIM = 'World', 'Claim'  # the modules of world.txt and claim.txt: what a script's lines mean

HEAD = f'''use Rattle.std.specs.Prelude.{{◌≡◌, refl, true, false, List, [], ◌∷◌}}
use Rattle.node.specs.Entry.{{ghost, leaf}}
use {RUNS}.%s.{{Line, nothing, run, %s}}
'''


class Broken(Exception):
    """The checker refused something that is no script: world.txt, or the project's crates."""


def cited_crates(text):
    return sorted({crate for crate, _ in CITED.findall(text)} - {'runs', 'std'})


def unfolded(texts):
    """Every definition that computing needs, by its whole name: those of the texts, by module, and of the files that they cite,
    directly or not. The checker computes only through definitions that are named."""
    names = [f'{RUNS}.{module}.{n}' for module, text in texts.items() for n in UNFOLDABLE.findall(text)]
    seen, todo = set(), [c for text in texts.values() for c in CITED.findall(text)]
    while todo:
        crate, module = todo.pop()
        file = PROJECT / 'crates' / crate / 'specs' / f'{module.replace(".", "/")}.antt'
        if (crate, module) in seen or not file.exists():  # `declared` stands for types of src/ and has no file
            continue
        seen.add((crate, module))
        text = file.read_text()
        names += [f'Rattle.{crate}.specs.{module}.{n}' for n in UNFOLDABLE.findall(text)]
        todo += CITED.findall(text)
    return ' '.join(names)


class Scratch:
    def __init__(self, meaning=WORLD, begin='nothing'):
        """`meaning`: the module that says what a line means; `begin`: the term that the lines start from."""
        texts = {WORLD: (HERE / 'world.txt').read_text()}
        if meaning == CLAIM:
            texts[CLAIM] = (HERE / 'claim.txt').read_text()
        self.meaning, self.begin, self.modules = meaning, begin, list(texts)
        self.unfolded = unfolded(texts)
        self.line_names = ', '.join(re.findall(r'^unfoldable pub (\w+_line) :', texts[meaning], re.M))
        self.place = tempfile.TemporaryDirectory(prefix='moachest-definitions-')
        top = Path(self.place.name)
        self.crate = top / 'crates' / 'runs'
        self.specs = self.crate / 'specs'
        copied(top, code=False, laws=False)
        listed = (top / 'crates.txt').read_text()
        (top / 'crates.txt').write_text(f'{listed}runs: {" ".join(sorted({c for t in texts.values() for c in cited_crates(t)}))}\n')
        self.specs.mkdir(parents=True)
        (self.crate / 'src').mkdir()
        (self.crate / 'src' / 'lib.rt').write_text('// No code: the crate is its definitions.\n#![tactic(auto)]\n')
        for module, text in texts.items():
            (self.specs / f'{module}.antt').write_text(text)
        SAID.parent.mkdir(parents=True, exist_ok=True)

    def module(self, lines, good, begin):
        """A module that the checker accepts only if the definitions answer each line as expected (good `true`), or if they
        compute and do not (`false`)."""
        terms = ' ∷ '.join([*(f'({line.term})' for line in lines), '[]'])
        return (f'{HEAD % (self.meaning, self.line_names)}lines : List Line\nlines = {terms}\n'
                f'result : (run lines {begin}).good ≡ {good}\nunfolding lines {self.unfolded}\nresult = refl\n')

    def check(self, runs, good='true', begins=None):
        """Asks the checker about runs, lists of lines by module name: whether it accepts them all, and what it says of
        each that it refuses. `begins`: a term of its own for a run to start from."""
        for file in self.specs.glob('Run*.antt'):
            file.unlink()
        for name, lines in runs.items():
            (self.specs / f'{name}.antt').write_text(self.module(lines, good, (begins or {}).get(name, self.begin)))
        (self.specs / 'Lib.antt').write_text(''.join(f'pub mod {name}\n' for name in [*self.modules, *runs]))
        command = [*shlex.split(os.environ.get('CHECK_PREFIX', '')), 'rt', 'check']
        done = subprocess.run(command, cwd=self.crate, stdout=subprocess.PIPE, stderr=subprocess.STDOUT, text=True, errors='replace')
        SAID.write_text(done.stdout)
        refused = dict(reversed(re.findall(r'^(?:\./)?specs/(\w+)\.antt:\d+:\d+: (error: .*)', done.stdout, re.M)))
        last = done.stdout.rstrip().split('\n')[-1]
        if refused.keys() - runs.keys() or done.returncode == 2 or not refused and last.startswith(('logic=not-proved', 'rt: ')):
            raise Broken(f'the checker refused what is no script: see {SAID.relative_to(PROJECT)}')
        return done.returncode == 0 and last.startswith('logic=proved'), refused
