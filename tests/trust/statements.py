"""What a reader has to believe, line by line: each statement is quoted whole by a must-fail edit, and nothing reads otherwise than it looks.

A statement is a clause of a listed contract, a field of a promise's record, a definition of a statement or a listed theorem. So it cannot be
loosened or dropped without an edit that no longer applies."""
import os
import re
from pathlib import Path

from edits import replacements
from reading import WORD, contract_files, contracts, crates_below, function_of, indent_of, read, starts_item

RELATION = re.compile(r'[≡≤⊥]|(?<= )<(?= )')
TYPE_OF_DATA = re.compile(r'\S+(?: → \S+)*')


def paragraphs(text):
    """Each stretch without a blank line, as (place, line) pairs; comments are left out."""
    place, lines = 0, []
    for line in text.split('\n') + ['']:
        if not line.strip():
            if lines:
                yield lines
            lines = []
        elif not line.lstrip().startswith('--'):
            lines.append((place, line))
        place += len(line) + 1


def clause_lines(text, names):
    """The lines of the contracts of these functions."""
    for lines in paragraphs(text):
        inside = said = False
        for place, line in lines:
            head = re.match(r'(?:pub(?:\(crate\))? )?fn (\w+)', line)
            inside = head.group(1) in names if head else inside and line != '{'
            said = inside and (said or line.startswith(('    ensures ', '    requires ')))
            if said:
                yield place, line


def fields_of(lines):
    """The lines of a record's fields, but for those of a type of data: a word, or words with arrows between them."""
    said = False
    for place, line in lines[1:]:
        if indent_of(line) == 2:
            said = not TYPE_OF_DATA.fullmatch(line.partition(' : ')[2])
        if said:
            yield place, line


def definition_lines(text):
    """The lines of a text of definitions that state something: fields of records with parameters, and equations of types."""
    for lines in paragraphs(text):
        if re.match(r'pub record \S+ [({]', lines[0][1]):
            yield from fields_of(lines)
        elif re.match(r'(?:abbrev|unfoldable) pub \S+ : .*\bType 0$', lines[0][1]):
            yield from lines[1:]


def signature(lines, name):
    """The lines of the signature of a law in its paragraph."""
    found = []
    for place, line in lines:
        begins = re.match(rf'\s*(?:pub )?{re.escape(name)} : ', line)
        if found and re.match(rf'\s*(?:unfolding |{re.escape(name)}\b.* =)', line):
            return found
        if begins or found:
            found.append((place, line))
    return found


def section_heads(text, lines):
    """The heads of the sections in which these lines stand, up to `where`."""
    sections, open_head = [], None
    for place, line in (pair for paragraph in paragraphs(text) for pair in paragraph):
        if open_head is not None:
            open_head.append((place, line))
        else:
            sections = [head for head in sections if indent_of(head[0][1]) < indent_of(line)]
            if line.lstrip().startswith('module _ '):
                open_head = [(place, line)]
                sections.append(open_head)
            elif (place, line) in lines:
                yield from (pair for head in sections for pair in head)
        if open_head and line.endswith(' where'):
            open_head = None


def theorem_lines(text, names):
    """The lines that state something of the theorems of these names, of the sections that they stand in, and of the records of the file that
    they name, directly or through others. A theorem that is a record of the file and says no more is stated by its fields."""
    blocks = list(paragraphs(text))
    records = {found.group(1): lines for lines in blocks if (found := re.match(r'(?:pub )?record (\S+)', lines[0][1]))}
    signed = [pair for lines in blocks for name in names for pair in signature(lines, name)]
    heads = sorted(set(section_heads(text, signed)))
    yield from (pair for pair in signed if pair[1].partition(' : ')[2] not in records)
    yield from (pair for pair in heads if RELATION.search(pair[1]))
    words = [word for _, line in signed + heads for word in WORD.findall(line)]
    while words:
        lines = records.pop(words.pop(), [])
        yield from fields_of(lines)
        words += [word for _, line in lines for word in WORD.findall(line)]


def statements(tree, page):
    """(path, place, line) of every statement that a reader has to believe."""
    root, listed = tree.root, {}
    for path, name, *_ in contracts(root):
        if function_of(path, name) in page.clauses:
            listed.setdefault(path, set()).add(name)
    for path, functions_there in listed.items():
        yield from ((path, *pair) for pair in clause_lines(read(root, path), functions_there))
    for path in page.tables['A']:
        yield from ((path, *pair) for pair in definition_lines(read(root, path)))
    for path in page.tables['B']:
        yield from ((path, *pair) for pair in definition_lines(read(root, path)) if RELATION.search(pair[1]))
    for path, theorems in page.theorems.items():
        if os.path.exists(os.path.join(root, path)):
            yield from ((path, *pair) for pair in theorem_lines(read(root, path), theorems))


def quoted(root):
    """By file, from where to where the old texts of the must-fail edits go, and the edits that do not apply."""
    found, lost = {}, []
    for edit in sorted(Path(root).glob('crates/*/must-fail*/**/*.edit')):
        crate = edit.relative_to(root).parts[1]
        for made in replacements(edit):
            path = f'crates/{crate}/{made.file}'
            try:
                place = made.place(read(root, path))
            except (OSError, ValueError) as error:
                lost.append(f'{edit.relative_to(root)}: {error}')
                continue
            if made.new != made.old:
                found.setdefault(path, []).append((place, place + len(made.old)))
    return found, lost


def unquoted(tree, page):
    """Statements of which no edit quotes the whole line, and edits that do not apply."""
    edits, lost = quoted(tree.root)
    yield from lost
    for path, place, line in statements(tree, page):
        begins, ends = place + indent_of(line), place + len(line)
        if not any(first <= begins and ends <= last for first, last in edits.get(path, ())):
            yield f'{path}: no must-fail edit quotes this statement whole: {line.strip()}'


# ---- nothing that is read otherwise than it looks
def own_names(root, path):
    return re.findall(r'^(?:(?:abbrev|unfoldable) )?(?:pub )?(?:record |data )?(\S+) : ', read(root, path), re.M)


def is_one_definition(lines):
    """Whether a paragraph is one definition, laid out as the rules above read it: its head on one line, then its equations or fields."""
    if lines[0][1].lstrip().startswith('module _ '):
        lines = lines[next((i + 1 for i, (_, line) in enumerate(lines) if line.endswith(' where')), len(lines)):]
    lines = [line for _, line in lines]
    if not lines or any('\t' in line or ' -- ' in line for line in lines):
        return False
    base, begun = indent_of(lines[0]), starts_item(lines[0].strip())
    heads = [line for line in lines if indent_of(line) == base and starts_item(line.strip())]
    if not begun or len(heads) != 1:
        return False
    if begun[0] in ('record', 'data'):
        return lines[0].endswith(' where') and all(indent_of(line) >= base + 2 for line in lines[1:])
    return len(lines) > 1 and lines[1].startswith((' ' * base + begun[1], ' ' * base + 'unfolding '))


def layout_faults(root, page):
    """Definitions that the rules above would pass over by their layout."""
    for path in page.tables['A'] + page.tables['B']:
        for lines in paragraphs(read(root, path)):
            if not lines[0][1].startswith(('use ', 'pub use ', 'pub mod ', 'infix')) and not is_one_definition(lines):
                yield f'{path}: this is not laid out as one definition: {lines[0][1].strip()}'


def name_faults(root, page):
    """Names that mean two things: defined again above the file that defines them, or given to what is imported under another."""
    defined = {}
    for path in page.tables['A']:
        for name in own_names(root, path):
            defined.setdefault(name, set()).add(path)
    for path in page.tables['A']:
        below = crates_below(root, path.split('/')[1])
        for name in own_names(root, path):
            for other in sorted(x for x in defined[name] - {path} if x.split('/')[1] in below):
                yield f'{path} defines {name}, which {other} defines'
    sources = [path for name in crates_below(root) for path in contract_files(root, name)]
    for path in (x for x in page.tables['A'] + page.tables['B'] + [*page.theorems] + sources if os.path.exists(os.path.join(root, x))):
        for line in re.findall(r'^(?:ghost |pub )?use .*\{.*\bas\b.*\};?$', read(root, path), re.M):
            yield f'{path} gives another name to what it imports: {line}'


def contract_layout_faults(root):
    """Clauses that stand otherwise than each on lines of its own below the head of its function."""
    for path in (path for name in crates_below(root) for path in contract_files(root, name)):
        before = ''
        for line in read(root, path).split('\n'):
            clause = line.startswith(('    requires ', '    ensures '))
            if re.search(r'^(?!\s*//).*\b(?:requires|ensures)\b.*\{', line) and not clause or clause and not before.strip():
                yield f'{path}: this clause is not on a line below its function: {line.strip()}'
            before = line
