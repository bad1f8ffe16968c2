"""What the contracts rest on: files of definitions and of laws, the public contracts, and the names that these reach."""
import os
import re

PROGRAMS = ('noldveig', 'console')
DEFINING = ('abbrev', 'unfoldable', 'record', 'data')
WORD = re.compile(r'[^\s(){},;]+')
FIELD = re.compile(r'(^\s*|\{ |; )(?:pub [^\s(){},;]+ :|[^\s(){},;]+ =)(?= |$)')


# ---- antt files
class Item:
    """A definition or a law with the lines of its text. Its kind is one of DEFINING, or 'law'."""

    def __init__(self, kind, name, first):
        self.kind, self.name, self.lines, self.constructors = kind, name, [first], []


def indent_of(line):
    return len(line) - len(line.lstrip(' '))


def starts_item(text):
    """The kind and the name of the item that starts with this line, or None."""
    found = re.match(r'(?:(abbrev|unfoldable) )?(?:pub )?(?:(record|data) )?(\S+)(?= )', text)
    if not found:
        return None
    keyword, shape, name = found.groups()
    if keyword or shape:
        return (shape or keyword, name)
    words = text.split()
    if words[0] == 'pub':
        words = words[1:]
    if len(words) > 1 and words[1] == ':' and words[0] not in ('use', 'module', 'unfolding'):
        return ('law', words[0])
    return None


class File:
    """What a file of specs/ imports and holds. Sections (`module _ .. where`) are entered; what they are given is part of each item."""

    def __init__(self, path, text):
        self.path, self.imports, self.called, self.aliases, self.items = path, {}, {}, {}, []
        self.lines = len([x for x in text.split('\n') if x.strip() and not x.lstrip().startswith('--') and not x.startswith(('use ', 'pub use '))])
        levels, section, current = [0], None, None
        for line in text.split('\n'):
            bare = line.strip()
            if not bare or bare.startswith('--'):
                continue
            if line.startswith(('use ', 'pub use ')):
                self.use(line[line.index('use ') + 4:])
                continue
            depth = indent_of(line)
            if section is not None:
                section.append(bare)
                if bare.endswith(' where'):
                    section = None
                continue
            while depth < levels[-1]:
                levels.pop()
            if depth == levels[-1]:
                if bare.startswith('module _'):
                    levels.append(depth + 2)
                    section = None if bare.endswith(' where') else [bare]
                    continue
                if bare.startswith(('pub mod ', 'mod ', 'infix')):
                    continue
                begun = starts_item(bare)
                if begun:
                    current = Item(begun[0], begun[1], bare)
                    self.items.append(current)
                    continue
            if current is not None:
                current.lines.append(bare)
                if current.kind == 'data':
                    current.constructors.append(bare.split()[0])

    def use(self, text):
        named = re.match(r'(\S+)\.\{(.*)\}', text)
        if named:
            for name in named.group(2).split(','):
                there, _, here = name.strip().partition(' as ')
                self.imports[here or there] = named.group(1)
                self.called[here or there] = there
        else:
            module, _, alias = text.partition(' as ')
            if alias:
                self.aliases[alias.strip()] = module.strip()


def statement(item):
    """What an item says: its signature and its equations."""
    return [x for x in item.lines if not x.startswith('unfolding ')]


# ---- the tree
def read(root, path):
    with open(os.path.join(root, path), encoding='utf-8') as f:
        return f.read()


def crates_below(root, *tops):
    """The crates that these, or the two programs, stand on, themselves included."""
    needs = {}
    for line in read(root, 'crates.txt').split('\n'):
        if ':' in line and not line.startswith('#'):
            name, rest = line.split(':', 1)
            needs[name.split()[0]] = rest.split()
    todo, seen = list(tops or PROGRAMS), []
    while todo:
        name = todo.pop()
        if name in needs and name not in seen:
            seen.append(name)
            todo += needs[name]
    return sorted(seen)


def module_of(path):
    """(crate, place) of a file of specs/: ('network', 'laws.Claim')."""
    parts = path.split('/')
    return (parts[1], '.'.join(parts[3:])[:-len('.antt')])


def place_of(module):
    """The same of a module's name; a place that starts with 'declared' is a type that the code declares. None where it is no module of specs/."""
    found = re.match(r'Rattle\.(\w+)\.specs\.(.*)$', module)
    return found.groups() if found else None


class Tree:
    def __init__(self, root):
        self.root, self.files, self.at, self.crates = root, {}, {}, crates_below(root)
        for name in self.crates:
            base = os.path.join(root, 'crates', name, 'specs')
            for folder, _, entries in os.walk(base):
                for entry in sorted(entries):
                    path = os.path.relpath(os.path.join(folder, entry), root)
                    if entry.endswith('.antt'):
                        file = File(path, read(root, path))
                        self.files[module_of(path)] = file
                        for item in file.items:
                            for word in [item.name] + item.constructors:
                                self.at[(module_of(path), word)] = item


def words_of(lines):
    """The words of a text that can name something: no numbers, and no fields (`pub field : ..`, `{ field = ..; }`); of a projection, which is
    written tight behind what it is of, that as well as the whole."""
    for line in lines:
        line = FIELD.sub(r'\1', line.split(' -- ')[0])
        for word in WORD.findall(line):
            word = word.rstrip('.')
            if word and not word.startswith('.') and not word[0].isdigit():
                yield word
                if '.' in word:
                    yield word.split('.')[0]


def spelled(names):
    """Each word by which an imported name can stand in a text: `◌+◌` stands as `+`."""
    table = {}
    for name in names:
        for part in ([name] if '◌' not in name else [x for x in name.split('◌') if x] + [name]):
            table[part] = name
    return table


# ---- contracts
def contract_files(root, name):
    base = os.path.join(root, 'crates', name, 'src')
    return [os.path.relpath(os.path.join(folder, x), root) for folder, _, entries in os.walk(base) for x in sorted(entries) if x.endswith('.rt')]


def public_modules(root, name):
    """The files of a library whose `pub fn` other crates can name, and the functions of the others that are given on by `pub use`."""
    main = read(root, f'crates/{name}/src/lib.rt')
    opened = [f'crates/{name}/src/lib.rt'] + [f'crates/{name}/src/{m}.rt' for m in re.findall(r'^pub mod (\w+);', main, re.M)]
    given = {(f'crates/{name}/src/{m}.rt', f.strip()) for m, names in re.findall(r'^pub use (\w+)::\{?([^{};]*)\}?;', main, re.M)
             for f in names.split(',')}
    return opened, given


def functions(text):
    """(whether it is `pub`, name, the facts of the contract, its clauses) of each function; a clause is its name, or the word that opens it."""
    head = None
    for line in text.split('\n'):
        found = re.match(r'(pub(?:\(crate\))? )?fn (\w+)', line)
        if found:
            head, said = (found.group(1) == 'pub ', found.group(2), [], []), False
        if head:
            clause = re.match(r'    (requires|ensures)(?: (\w+))? \{(.*)$', line)
            if line.endswith('{') and not line.startswith('    '):
                yield head
                head = None
            elif clause:
                head[3].append(clause.group(2) or clause.group(1))
                said = True
            if head and said:
                head[2].append(clause.group(3) if clause else line)


def contracts(root):
    """(path, function, imports, facts, clauses) of every contract that is followed."""
    for name in crates_below(root):
        program = name in PROGRAMS
        opened, given = ([], set()) if program else public_modules(root, name)
        for path in contract_files(root, name):
            text = read(root, path)
            uses = File(path, re.sub(r'^ghost use (.*);$', r'use \1', text, flags=re.M))
            for public, function, facts, clauses in functions(text):
                if program or (public and (path in opened or (path, function) in given)):
                    yield (path, function, uses, facts, clauses)


# ---- following
class Followed:
    """What the contracts reach: items by file, declared types, modules of the kit; and from where each item was reached first."""

    def __init__(self, tree):
        self.tree, self.items, self.types, self.kit, self.lost, self.cause, self.count = tree, {}, set(), set(), [], {}, 0
        todo = []
        for path, function, uses, facts, _ in contracts(tree.root):
            self.count += 1
            todo += self.names(uses, None, facts, f'{path}: {function}')
        while todo:
            place, item, why = todo.pop()
            held = self.items.setdefault(place, [])
            if item in held:
                continue
            held.append(item)
            self.cause[(place, item.name)] = why
            file = tree.files[place]
            todo += self.names(file, place, statement(item), f'{file.path}: {item.name}')

    def names(self, file, place, lines, why):
        """The items that a text names, by what its file imports and holds."""
        found = []
        own = {item.name: item for item in file.items} if place else {}
        if place:
            own.update({word: item for item in file.items for word in item.constructors})
        table, local = spelled(file.imports), spelled(own)
        for word in words_of(lines):
            if word in local:
                found.append((place, own[local[word]], why))
            elif word in table:
                found += self.reached(file.imports[table[word]], file.called[table[word]], why)
            elif '.' in word and word.split('.')[0] in file.aliases:
                found += self.reached(file.aliases[word.split('.')[0]], word.split('.', 1)[1], why)
        return found

    def reached(self, module, name, why):
        target = place_of(module)
        if target is None or target[0] not in self.tree.crates:
            self.kit.add(module)
            return []
        if target[1].startswith('declared'):
            self.types.add((target[0], target[1].split('.TheVariants')[0][len('declared.'):]))
            return []
        if (target, name) in self.tree.at:
            return [(target, self.tree.at[(target, name)], why)]
        if target in self.tree.files and name in self.tree.files[target].imports:  # given on by `pub use`
            return self.reached(self.tree.files[target].imports[name], name, why)
        if '.' in target[1]:  # a constructor by its type's name
            place, kind = (target[0], target[1].rpartition('.')[0]), target[1].rpartition('.')[2]
            if (place, kind) in self.tree.at:
                return [(place, self.tree.at[(place, kind)], why)]
        self.lost.append(f'{why} names {name}, which {module} does not have')
        return []


def function_of(path, name):
    """network::calls::start for the `start` of crates/network/src/calls.rt."""
    parts = path[:-len('.rt')].split('/')
    return '::'.join([parts[1]] + [x for x in parts[3:] if x not in ('lib', 'main')] + [name])
