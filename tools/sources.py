"""Reads the sources of the crates: their items with doc comments and contracts, and which of them
other crates can reach.

It knows no crate and no function by name. What it cannot read as an item ends the run, so that
nothing is left out without a word.
"""
import dataclasses
import pathlib
import re

# What may hold a bracket that is none: comments, strings and characters.
QUOTED = re.compile(
    r'//[^\n]*|/\*.*?\*/|b?r(#*)".*?"\1|b?"(?:\\.|[^"\\])*"|b?\'(?:\\[^\n]+?|[^\\\'\n])\'', re.S)
ITEM = re.compile(
    r'(?P<visible>pub\b(?:\([^)]*\))?\s*)?(?:(?:const|async|unsafe|extern)\s+)*'
    r'(?P<kind>fn|impl|trait|struct|enum|union|mod|use|const|static|type|ghost|macro_rules)\b')
CLAUSE = re.compile(r'\s*(?P<word>requires|ensures)\*?\s*(?P<name>\w*)\s*\{')
GHOST = re.compile(r'ghost\s+(?P<name>\w+)\s*[:=]\s*\{')
HEAD_END = re.compile(r'[(\[{;]|\b(?:requires|ensures)\b')
STATEMENTS = ('use', 'const', 'static', 'type')
NAMED = ('struct', 'enum', 'union', 'type', 'trait')


@dataclasses.dataclass
class Clause:
    """A clause of a contract, or a ghost line: its word is `requires`, `ensures` or `ghost`."""
    word: str
    name: str
    text: str
    docs: str = ''


@dataclasses.dataclass(eq=False)
class Item:
    """An item of a file; of an `impl`, a trait or a module with what stands in it."""
    kind: str
    public: bool
    docs: str
    path: pathlib.Path
    place: int
    name: str = ''
    head: str = ''
    has_body: bool = False
    clauses: list = dataclasses.field(default_factory=list)
    items: list = dataclasses.field(default_factory=list)


@dataclasses.dataclass(eq=False)
class Module:
    items: list
    inner: dict
    above: 'Module' = None


def in_one_line(text):
    """A text with plain white space, and without the comma before a closing bracket."""
    text = re.sub(r'\s+', ' ', text).strip()
    text = re.sub(r'([(\[]) ', r'\1', text)
    return re.sub(r',? ([)\]])', r'\1', text)


def blanks(match):
    return re.sub(r'[^\n]', ' ', match.group(0))


class File:
    """A file of sources: its text, and the same text with all that is quoted made blank."""

    def __init__(self, path):
        self.path = path
        self.text = path.read_text(encoding='utf-8')
        self.plain = QUOTED.sub(blanks, self.text)

    def fail(self, place, words):
        line = self.text.count('\n', 0, place) + 1
        raise SystemExit(f'{self.path}:{line}: {words}')

    def search(self, pattern, place):
        return pattern.search(self.plain, place) or self.fail(place, 'the end of this is missing')

    def closing(self, opening):
        """The place behind the bracket that closes the one at this place."""
        depth, place = 0, opening
        while True:
            match = self.search(re.compile(r'[()\[\]{}]'), place)
            depth += 1 if match.group(0) in '([{' else -1
            place = match.end()
            if depth == 0:
                return place

    def behind_space(self, place):
        return re.compile(r'\s*').match(self.plain, place).end()

    def said_above(self, place, sign):
        """What stands above a place, among comments and attributes, in lines with this sign."""
        said = []
        for line in reversed(self.text[:place].split('\n')[:-1]):
            line = line.strip()
            if not line.startswith(('//', '#[')):
                break
            if line.startswith(sign):
                said.append(line[len(sign):].strip())
        return '\n'.join(reversed(said))

    def items(self, place=0, end=None):
        """The items between two places, in order, without tests."""
        end = len(self.plain) if end is None else end
        found = []
        while True:
            begin = self.behind_space(place)
            is_test, place = self.attributes(begin)
            if place >= end:
                return found
            item, place = self.item(begin, place)
            if not is_test:
                found.append(item)

    def attributes(self, place):
        """Whether attributes from this place on mark a test, and the place behind them."""
        is_test = False
        while match := re.compile(r'#!?\[').match(self.plain, place):
            behind = self.closing(match.end() - 1)
            is_test |= self.plain[place:behind] in ('#[test]', '#[cfg(test)]')
            place = self.behind_space(behind)
        return is_test, place

    def item(self, begin, place):
        """The item at a place, whose attributes begin before it, and the place behind it."""
        match = ITEM.match(self.plain, place) or self.fail(place, 'this cannot be read as an item')
        kind, public = match['kind'], (match['visible'] or '').strip() == 'pub'
        item = Item(kind, public, self.said_above(begin, '///'), self.path, place)
        if kind == 'ghost':
            return item, self.ghost(item)
        end = place if kind in STATEMENTS else self.head_end(place)
        end = self.statement_end(place) if kind in STATEMENTS else end
        item.head = in_one_line(self.plain[place:end]).rstrip(';')
        named = re.search(rf'\b{kind}!?\s+(\w+)', item.head)
        item.name = named[1] if named and kind not in ('impl', 'use') else ''
        if kind == 'fn':
            end = self.contract(item, end)
        elif kind not in STATEMENTS:
            end = self.body(item, end)
        return item, end

    def statement_end(self, place):
        """The place behind the semicolon that ends what begins here."""
        while (match := self.search(re.compile(r'[(\[{;]'), place)).group(0) != ';':
            place = self.closing(match.start())
        return match.end()

    def head_end(self, place):
        """Where the head of an item ends: at its body, its first clause, or its semicolon."""
        while (match := self.search(HEAD_END, place)).group(0) in ('(', '['):
            place = self.closing(match.start())
        return match.start()

    def braced(self, match):
        """What stands in the braces that a match ends with, and the place behind them."""
        end = self.closing(match.end() - 1)
        return in_one_line(self.text[match.end():end - 1]), end

    def contract(self, item, end):
        """Reads the clauses of a function; the place behind its body."""
        while match := CLAUSE.match(self.plain, end):
            text, end = self.braced(match)
            words = self.said_above(match.start('word'), '//')
            item.clauses.append(Clause(match['word'], match['name'], text, words))
        end = self.behind_space(end)
        return end + 1 if self.plain[end] == ';' else self.closing(end)

    def ghost(self, item):
        """Reads a ghost line; the place behind it."""
        match = GHOST.match(self.plain, item.place)
        if not match:
            return self.statement_end(item.place)
        text, end = self.braced(match)
        item.clauses.append(Clause('ghost', match['name'], text, item.docs))
        return self.statement_end(end)

    def body(self, item, end):
        """Reads what stands in the braces of an item, if it has some; the place behind it."""
        if self.plain[end] == ';':
            return end + 1
        behind = self.closing(end)
        item.has_body = True
        if item.kind in ('impl', 'trait', 'mod'):
            item.items = self.items(end + 1, behind - 1)
        elif item.kind == 'struct':
            for match in GHOST.finditer(self.plain, end, behind):
                item.clauses.append(Clause('ghost', match['name'], self.braced(match)[0]))
        return behind


def module(path, folder, above=None, items=None):
    """The module of a file, or of a body, with those that its `mod` items name."""
    made = Module(File(path).items() if items is None else items, {}, above)
    for item in made.items:
        below = folder / item.name
        if item.kind == 'mod' and item.has_body:
            made.inner[item.name] = module(path, below, made, item.items)
        elif item.kind == 'mod':
            file = folder / f'{item.name}.rt'
            made.inner[item.name] = module(file if file.exists() else below / 'mod.rt', below, made)
    return made


def split_at_commas(text):
    """The parts of a text between its commas, but for those within braces."""
    parts, depth = [''], 0
    for sign in text:
        depth += (sign == '{') - (sign == '}')
        if sign == ',' and depth == 0:
            parts.append('')
        else:
            parts[-1] += sign
    return [part.strip() for part in parts if part.strip()]


def used(tree, before=()):
    """The paths that a `use` names, each as its parts."""
    braces = re.fullmatch(r'(?:(.*?)::)?\s*\{(.*)\}', tree, re.S)
    if not braces:
        return [before + tuple(re.sub(r'\s+as\s+\w+$', '', tree).split('::'))]
    before += tuple(braces[1].split('::')) if braces[1] else ()
    return [path for part in split_at_commas(braces[2]) for path in used(part, before)]


def first_comment(path):
    """The comment that a file begins with, in which a crate says what it is."""
    comment = re.match(r'(?://.*\n)*', path.read_text(encoding='utf-8')).group(0)
    return ' '.join(line.lstrip('/!').strip() for line in comment.splitlines())


class Crate:
    """A library: every item of its modules, and which of them other crates can reach."""

    def __init__(self, name, path):
        self.name = name
        self.words = first_comment(path)
        self.root = module(path, path.parent)
        self.all = list(self.every(self.root))
        self.reached = set()
        self.reach(self.root, set())
        self.own = {item.name for item in self.all if item.kind in NAMED}
        self.open = {item.name for item in self.reached if item.kind in NAMED}

    def every(self, within):
        yield from within.items
        for inner in within.inner.values():
            yield from self.every(inner)

    def reach(self, within, seen):
        """Adds what a module shows to those who see the module."""
        if within in seen:
            return
        seen.add(within)
        for item in (item for item in within.items if item.public):
            if item.kind == 'mod':
                self.reach(within.inner[item.name], seen)
            elif item.kind == 'use':
                for path in used(re.sub(r'^pub use ', '', item.head)):
                    self.reach_path(within, path, seen)
            else:
                self.reached.add(item)

    def reach_path(self, within, path, seen):
        """Adds what a public `use` names, if it is of this crate."""
        *modules, last = path
        for part in modules:
            if part in within.inner:
                within = within.inner[part]
            elif part in ('crate', 'super'):
                within = self.root if part == 'crate' else within.above
            elif part != 'self':
                return
        if last == '*':
            self.reach(within, seen)
        elif last in within.inner:
            self.reach(within.inner[last], seen)
        for item in within.items:
            if item.name == last:
                self.reached.add(item)
            elif item.public and item.kind == 'use':
                for other in used(re.sub(r'^pub use ', '', item.head)):
                    if other[-1] == last and len(other) > 1 and within is not self.root:
                        self.reach_path(within, other, seen)

    def named(self, name):
        """The crate's own type or trait of a name."""
        found = (item for item in self.all if item.kind in NAMED and item.name == name)
        return next(found, None)


def without_parameters(text):
    """A text without the parameters in angle brackets that it begins with."""
    depth = 0
    for place, sign in enumerate(text):
        depth += (sign == '<') - (sign == '>' and text[place - 1] != '-')
        if depth == 0:
            return text[place + (sign == '>'):].strip()
    return text


def impl_parts(head):
    """The trait and the type of an `impl`; the trait is empty where there is none."""
    rest = without_parameters(re.sub(r'^.*?\bimpl\b\s*', '', head))
    of_trait, between, of_type = re.sub(r'\bwhere\b.*', '', rest).strip().partition(' for ')
    return (of_trait, of_type) if between else ('', of_trait)


def base(path):
    """The last name of a path, without its parameters: `fmt::Display` gives `Display`."""
    return re.sub(r'<.*', '', path).strip().split('::')[-1].lstrip('&').strip()


def crates(root, names):
    """The libraries among these crates."""
    files = [(name, root / 'crates' / name / 'src' / 'lib.rt') for name in names]
    return [Crate(name, file) for name, file in files if file.exists()]
