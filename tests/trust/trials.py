"""Copies of the tree with one fault each, which the check has to find."""
import os
import re
import shutil
from pathlib import Path

from edits import replacements
from reading import crates_below, module_of, place_of, read

PAGE = 'docs/TRUST.md'


def copied(root, folder):
    """The parts of the tree that the check reads."""
    shutil.copy(os.path.join(root, 'crates.txt'), folder)
    os.makedirs(os.path.join(folder, 'docs'))
    shutil.copy(os.path.join(root, PAGE), os.path.join(folder, PAGE))
    for name in crates_below(root):
        for part in ('src', 'specs', 'must-fail', 'must-fail-quick'):
            base = os.path.join(root, 'crates', name, part)
            if os.path.isdir(base):
                shutil.copytree(base, os.path.join(folder, 'crates', name, part))


def changed(folder, path, old, new):
    text = read(folder, path)
    assert old in text, f'{path} has no {old!r}'
    with open(os.path.join(folder, path), 'w', encoding='utf-8') as f:
        f.write(text.replace(old, new, 1))


def first_law(tree, crate):
    return next(place for place in sorted(tree.files) if place[0] == crate and place[1].startswith('laws.'))


def without_a_line(folder, tree, page):
    """A line of table A taken out of the page."""
    text = read(folder, PAGE)
    line = next(x for x in text.split('\n') if f'`{page.tables["A"][0]}`' in x)
    changed(folder, PAGE, line + '\n', '')


def imported_from(text, place, name, law):
    """A file's text with the name imported from a file of laws."""
    lines = []
    for line in text.split('\n'):
        use = re.fullmatch(r'((?:ghost |pub )?use )(\S+?)\.\{(.*)\}(;?)', line)
        names = use.group(3).split(', ') if use else []
        if use and place_of(use.group(2)) == place and name in names:
            start, module, _, end = use.groups()
            names.remove(name)
            lines += [f'{start}{module}.{{{", ".join(names)}}}{end}'] if names else []
            line = f'{start}{module[:-len(place[1])]}{law}.{{{name}}}{end}'
        lines.append(line)
    return '\n'.join(lines)


def among_the_laws(folder, tree, page):
    """The last definition of the first file of table A moved to a file of laws of its crate, and imported from there."""
    path = page.tables['A'][0]
    place = module_of(path)
    law = first_law(tree, place[0])
    name = next(x.name for x in reversed(tree.files[place].items) if x.kind in ('abbrev', 'unfoldable'))
    block = next(x for x in read(folder, path).split('\n\n') if re.search(rf'^(abbrev|unfoldable) pub {re.escape(name)} :', x, re.M))
    changed(folder, path, block, '')
    with open(os.path.join(folder, tree.files[law].path), 'a', encoding='utf-8') as f:
        f.write('\n' + block + '\n')
    for base, _, entries in os.walk(os.path.join(folder, 'crates')):
        for entry in entries:
            other = os.path.relpath(os.path.join(base, entry), folder)
            text = read(folder, other)
            with open(os.path.join(folder, other), 'w', encoding='utf-8') as f:
                f.write(imported_from(text, place, name, law[1]))


def moved_law(folder, tree, page):
    """A law written under the definitions of the first file of table A."""
    path = page.tables['A'][0]
    with open(os.path.join(folder, path), 'a', encoding='utf-8') as f:
        f.write('\npub planted : 0 ≡ 0\nplanted = refl\n')


def one_line_more(folder, tree, page):
    """A line of the page for a file of laws, on which no contract rests."""
    text = read(folder, PAGE)
    line = next(x for x in text.split('\n') if f'`{page.tables["A"][0]}`' in x)
    law = tree.files[first_law(tree, module_of(page.tables['A'][0])[0])].path
    changed(folder, PAGE, line + '\n', line + '\n' + line.replace(page.tables['A'][0], law) + '\n')


def without_a_clause(folder, tree, page):
    """Demand 3 taken out of the contract of `query`."""
    path = 'crates/network/src/query.rt'
    line = next(x for x in read(folder, path).split('\n') if x.startswith('    ensures promise '))
    changed(folder, path, line + '\n', '')


def without_a_theorem(folder, tree, page):
    """The table of starred points taken out of its file."""
    changed(folder, next(iter(page.theorems)), 'pub starred :', 'pub other :')


def loosened(folder, tree, page):
    """The bounds of demand 3 let be 3 A apart for 2 A."""
    changed(folder, 'crates/network/specs/Demand.antt', '1000 * (lower + 2)', '1000 * (lower + 3)')


def without_its_edit(folder, tree, page):
    """The edits that quote the width of the bounds taken away."""
    for edit in Path(folder).glob('crates/network/must-fail*/**/*.edit'):
        if any('Narrow lower upper =' in made.old for made in replacements(edit)):
            edit.unlink()


def hypothesis_turned_round(folder, tree, page):
    """The sameness of a query promised of open networks alone."""
    changed(folder, 'crates/network/specs/Promise.antt', '(run ds).closed ≡ true', '(run ds).closed ≡ false')


def one_function_more(folder, tree, page):
    """A public function with clauses that the page does not have."""
    row = next(x for x in read(folder, PAGE).split('\n') if x.startswith('| `network::report::report` |'))
    changed(folder, PAGE, row + '\n', '')


PROMISE, REPORT, WRITE = 'crates/network/specs/Promise.antt', 'crates/network/specs/Report.antt', 'crates/writer/src/lib.rt'
FIT = 'abbrev Fit : Network → Type 0\nFit n = n.tolerance ≡ 10\n\n'
UNQUOTED, CUT = 'no must-fail edit quotes this statement whole: ', 'this is not laid out as one definition: '
# What is wrong, the file, the old text, the new text, and what is said of it.
CHANGES = (
    ('a hypothesis more, by a name of its own', PROMISE, '  pub tolerance :', '  pub fit : Fit n\n  pub tolerance :', UNQUOTED + 'pub fit'),
    ('a hypothesis more, on the line of the record', PROMISE, 'Alike (n m : Network) : Type 0 where', 'Alike (n m : Network) : Type 0 where pub fit : Fit n',
     CUT + 'pub record Alike'),
    ('a statement by a signature of two lines', PROMISE, 'abbrev pub Promise : Network → ', 'abbrev pub Promise : Network\n    → ', CUT + 'abbrev pub Promise'),
    ('a comment behind a signature', PROMISE, 'Found → Type 0\n', 'Found → Type 0 -- whole\n', CUT + 'abbrev pub Promise'),
    ('a blank line in a record', PROMISE, '  pub demand :', '\n  pub demand :', CUT + 'pub demand'),
    ('no blank line before a record', PROMISE, '\n\n-- of a network, a bus of it and', '\n-- of a network, a bus of it and', CUT + 'abbrev pub machines_of'),
    ('a name that is imported as another', REPORT, 'Call, run}', 'Call, run as made}', 'gives another name to what it imports'),
    ('a name that is defined again', REPORT, '-- "33 when', 'abbrev run : List Call → List Call\nrun cs = cs\n\n-- "33 when', 'defines run, which'),
    ('a theorem that says nothing', 'crates/network/specs/laws/Worked.antt', 'pub starred : Starred', 'pub starred : ℕ', UNQUOTED + 'pub starred'),
    ('a hypothesis of a theorem on a line of its own', 'crates/reader/specs/laws/EditionSentences.antt', 'text\n    → (((read_in', 'text\n    → Fit text\n    → (((read_in',
     UNQUOTED + '→ Fit text'),
    ('a requirement that is laid out otherwise', WRITE, ' -> Written\n    ensures number', ' -> Written\n  requires { 0 ≡ 0 }\n    ensures number', 'is not on a line below'),
    ('a blank line in a contract', WRITE, '    ensures promise', '\n    ensures promise', 'is not on a line below'),
)


def planted(what, path, old, new):
    """A trial that makes one of these changes; a definition of `Fit` comes with it, as a hypothesis to be slipped in."""
    def trial(folder, tree, page):
        changed(folder, path, old, new)
        if path == PROMISE:
            changed(folder, path, '-- "Networks are alike', FIT + '-- "Networks are alike')
    trial.__doc__ = what
    return trial


TRIALS = (
    (loosened, 'no must-fail edit quotes this statement whole: Narrow'),
    (without_its_edit, 'no must-fail edit quotes this statement whole: Narrow'),
    (hypothesis_turned_round, 'no must-fail edit quotes this statement whole: pub same'),
    (one_function_more, 'does not give the clauses of network::report::report'),
    (without_a_clause, 'gives network::query::query the clauses'),
    (without_a_theorem, 'names starred, which'),
    (without_a_line, 'is not on'),
    (among_the_laws, 'lies among the laws'),
    (moved_law, 'laws among the definitions'),
    (one_line_more, 'on which no contract rests'),
)
