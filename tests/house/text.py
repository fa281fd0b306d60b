"""The text of the crates, as the programs of the house and tests/definitions read it."""
import re
from pathlib import Path

PROJECT = Path(__file__).resolve().parent.parent.parent
CRATES = PROJECT / 'crates'
WIDTH = 150  # columns of a line in specs/ and src/; rust/rustfmt.toml says the same of Rust
CITED = re.compile(r'^(?:unfoldable )?(?:pub )?use Rattle\.(\w+)\.specs\.((?:[a-z]\w*\.)*\w+)', re.M)
UNFOLDABLE = re.compile(r'^unfoldable pub (\S+) :', re.M)
MODULES = re.compile(r'^pub mod (\w+)', re.M)
GENERATED = re.compile(r'\s*(?:(?:unfoldable )?pub )?(?:ghost )?use |\s*unfolding |\s+Rattle\.')
SENTENCE = re.compile(r'^.*?[^\s.]\.(?=\s+[A-Z`(]|$)')


def sources(pattern):
    """The files under crates/ of a pattern; what rt makes in a crate's out/ is none of them."""
    return sorted(p for p in CRATES.rglob(pattern) if 'out' not in p.relative_to(CRATES).parts[1:2])


def generated(line):
    """Whether a line is one that nobody lays out by hand: of a `use` item or of an `unfolding` line."""
    return GENERATED.match(line) is not None


def modules(listing):
    """The names that a module list declares, in its order."""
    return MODULES.findall(listing.read_text()) if listing.exists() else []


def heading(file):
    """The first sentence of a file's leading comment."""
    words = []
    for line in file.read_text().split('\n'):
        if not line.startswith(('--', '//')):
            break
        words.append(line[2:].strip())
    text = ' '.join(words)
    found = SENTENCE.match(text)
    return found.group(0) if found else text
