"""What the files below crates/ declare, without comments and with single spaces: definitions and theorems (.antt), types, constants and functions (.rt). A function of an `impl` is declared by its
type, `Output::put_line`, and by its name alone.

A declaration reaches the ones that it names: those of its own file, and those that a `use` line of its file brings in. A name that is also that of a variable counts as well, so that more may
be reached than is meant, and never less.
"""
import functools
import pathlib
import re
import sys
from dataclasses import dataclass, field

ROOT = pathlib.Path(__file__).resolve().parents[1]


def plain(text):
    return ' '.join(text.split())


def without_comments(path, text):
    return re.sub(r'//.*' if path.endswith('.rt') else r'(?m)(^|(?<=\s))--.*', '', text)


# Parts of a text that can be a name or the end of one: `Call.begin` and `log.old` have two.
WORDS = re.compile(r'[^\s(){}\[\],;.:&]+')


@functools.lru_cache(maxsize=None)
def parts(name):
    """The words of a name: of `◌else◌` what stands between the places of its arguments."""
    return frozenset(part for part in name.split('◌') if part) if '◌' in name else frozenset([name])


@dataclass
class Declaration:
    path: str
    name: str
    says: str  # its type, or all of a record, a struct, a constant; of a function of the code its parameters and its contract, with the laws of its `impl`
    meant_by: str = ''  # the equations of a definition
    module: str = ''  # the headers of the modules around it, which have its parameters
    members: list = field(default_factory=list)

    def text(self, whole):
        return ' '.join(part for part in (self.module, self.says, self.meant_by if whole else '') if part)


@dataclass
class File:
    declarations: dict = field(default_factory=dict)  # by name, and by member
    brings: dict = field(default_factory=dict)  # name: (file, name there)
    modules: dict = field(default_factory=dict)  # `use M as name`: the file M
    uses: set = field(default_factory=set)  # files
    cache: dict = field(default_factory=dict)

    def add(self, declaration):
        for name in [declaration.name] + declaration.members:
            self.declarations.setdefault(name, []).append(declaration)

    def named(self, path, text):
        """What a text of the file names, each as a file and a name there."""
        if text not in self.cache:
            words = set(WORDS.findall(text))
            places = [(name, (path, name)) for name in self.declarations] + list(self.brings.items())
            found = [place for name, place in places if words & parts(name)]
            for alias in self.modules.keys() & words:
                found += [(self.modules[alias], name) for name in re.findall(rf'(?<![\w.]){re.escape(alias)}\.([^\s(){{}}\[\],;.:]+)', text)]
            self.cache[text] = found
        return self.cache[text]


# ── Files of definitions and proofs ───────────────────────────────────────────────────────────────────────────────────

USE = re.compile(r'use Rattle\.(\w+)\.(specs|proofs)\.([\w\-.+]+?)(?:\.\{([^}]*)\})?(?: as (\S+))?;?$')
DECLARES = re.compile(r'(?:(?:pub|abbrev|unfoldable) )*(?:(?:record|data) (?P<type>[^\s({:]+)|(?P<names>[^\s:(){}=]+(?: [^\s:(){}=]+)*)(?: \{[^}]*\})* :(?: |$))')
MEMBER = re.compile(r' +(?:pub )?([^\s:(){}=]+(?: [^\s:(){}=]+)*) :(?: |$)')


def file_and_name(crate, folder, module):
    """The file of a module, and the type that it is the module of."""
    if not module.startswith('declared.'):
        return f'{crate}/{folder}/{module.replace(".", "/")}.antt', None
    parts = [part for part in module.split('.')[1:] if part != 'TheVariants']
    if len(parts) > 1:
        return f'{crate}/src/{"/".join(parts[:-1])}.rt', parts[-1]
    return f'{crate}/src/lib.rt', parts[-1]


def add_use(file, line):
    owner = re.match(r'use Rattle\.(\w+)', line)
    if not owner or not (ROOT / 'crates' / owner[1]).is_dir():
        return  # of the toolchain's library
    found = USE.match(line) or sys.exit(f'declarations: a `use` of another form: {line}')
    crate, folder, module, names, alias = found.groups()
    path, type_name = file_and_name(crate, folder, module)
    file.uses.add(path)
    for entry in (names or '').split(','):
        there, _, here = entry.strip().partition(' as ')
        # A case of a type of the code is brought in by the module of its cases.
        file.brings[here or there] = (path, type_name or there)
    if alias:
        file.modules[alias] = path
        if type_name:
            file.brings[alias] = (path, type_name)


def chunks(lines):
    """Each line that is not indented, with the indented ones that follow it and the bracket that closes it."""
    found = []
    for line in lines:
        if line.strip() and not line.startswith((' ', '}', ')')) or not found:
            found.append([line])
        else:
            found[-1].append(line)
    return [chunk for chunk in found if chunk[0].strip()]


def head_of_module(chunk):
    """The lines up to the one that ends in `where`."""
    end = next(k for k, line in enumerate(chunk) if plain(line).split()[-1:] == ['where'])
    return chunk[:end + 1], chunk[end + 1:]


def read_definitions(file, path, lines, module=''):
    last = []
    for chunk in chunks(lines):
        first = chunk[0]
        if first.startswith('use '):
            add_use(file, plain('\n'.join(chunk)))
        elif first.startswith('module '):
            head, body = head_of_module(chunk)
            depth = min((len(line) - len(line.lstrip()) for line in body if line.strip()), default=0)
            read_definitions(file, path, [line[depth:] for line in body], plain(f'{module} {" ".join(head)}'))
            last = []
        elif first.startswith(('unfolding ', 'infixr ', 'infixl ', 'infix ')) or '/proofs/' in path and first.startswith('open '):
            continue
        elif found := DECLARES.match(first):
            says = plain('\n'.join(chunk))
            if found['type']:
                depth = min((len(line) - len(line.lstrip()) for line in chunk[1:] if line.startswith(' ')), default=0)
                members = [name for line in chunk[1:] if len(line) - len(line.lstrip()) == depth and (m := MEMBER.match(line)) for name in m[1].split()]
                last = [Declaration(path, found['type'], says, module=module, members=members)]
            else:
                last = [Declaration(path, name, says, module=module) for name in found['names'].split()]
            for declaration in last:
                file.add(declaration)
        elif last:
            for declaration in last:
                declaration.meant_by = plain(declaration.meant_by + ' ' + ' '.join(chunk))
        else:
            raise SystemExit(f'declarations: {path}: no declaration before: {first}')


# ── Files of source ───────────────────────────────────────────────────────────────────────────────────────────────────


@dataclass
class Function(Declaration):
    head: str = ''  # what stands before the name
    parameters: list = field(default_factory=list)  # `name: type`
    returns: str = ''
    clauses: list = field(default_factory=list)  # ('requires' or 'ensures', with its name where it has one, text)


def closing(text, start):
    """The place of the bracket that closes the one at `start`."""
    depth = 0
    for k in range(start, len(text)):
        depth += (text[k] in '({[') - (text[k] in ')}]')
        if depth == 0:
            return k
    raise SystemExit('declarations: a bracket is not closed')


def split_parameters(text):
    parts, depth = [''], 0
    for c in text:
        depth += (c in '([<') - (c in ')]>')
        if c == ',' and depth == 0:
            parts.append('')
        else:
            parts[-1] += c
    return [plain(part) for part in parts if part.strip()]


FUNCTION = re.compile(r'(?m)^(?P<indent> *)(?P<head>(?:#\[[^\]]*\]\s*)*(?:pub(?:\([a-z]+\))? )?(?:const )?(?:unsafe )?(?:extern "C" )?fn )(?P<name>\w+)\s*(?:<[^>]*>)?\(')
RETURNS = re.compile(r'[^{;]*?(?=\s(?:requires|ensures)\b|\{|;)')
CLAUSE = re.compile(r'\s*((?:requires|ensures)(?: \*)?(?: \w+)?)\s*(?=\{)')
IMPL = re.compile(r'(?m)^(?:unsafe )?impl\b([^{;]*)\{')
LAW = re.compile(r'(?m)^ *(ghost \w+) = \{')


@dataclass
class Impl:
    start: int
    end: int
    owner: str  # the type that has its functions
    laws: list  # as clauses


def read_impls(path, text):
    found = []
    for head in IMPL.finditer(text):
        start, words = head.end() - 1, head[1]
        while words != (words := re.sub(r'<[^<>]*>', ' ', words)):
            pass
        owner = re.fullmatch(r'(?:.* for )?(?:\w+::)*(\w+)(?: where.*)?', plain(words)) or sys.exit(f'declarations: {path}: an `impl` of another form: {plain(head[0])}')
        end = closing(text, start)
        laws = [(law[1], plain(text[law.end():closing(text, law.end() - 1)])) for law in LAW.finditer(text, start, end)]
        found.append(Impl(start, end, owner[1], laws))
    return found


def read_function(path, text, found, impl=None):
    start = found.end() - 1
    end = closing(text, start)
    function = Function(path, found['name'], '', head=plain(found['head']), parameters=split_parameters(text[start + 1:end]))
    if impl:
        function.name, function.members = f'{impl.owner}::{function.name}', [function.name]
    returns = RETURNS.match(text, end + 1)
    function.returns, at = plain(returns[0]), returns.end()
    while clause := CLAUSE.match(text, at):
        at = closing(text, clause.end()) + 1
        function.clauses.append((clause[1], plain(text[clause.end() + 1:at - 1])))
    function.clauses += impl.laws if impl else []
    function.says = plain(f'{function.head} {function.name}({", ".join(function.parameters)}) {function.returns} ' + ' '.join(f'{k} {{ {c} }}' for k, c in function.clauses))
    return function


TYPE = re.compile(r'(?m)^(?:#\[[^\]]*\]\s*)*(?:pub(?:\([a-z]+\))? )?(?:struct|enum|const|type) (\w+)')
CODE_USE = re.compile(r'(?m)^(?:pub )?use ([^;]*);')


def brought_by(line):
    """What a `use` of the code brings, each as a place, the name there and the name here: `a::{b, c as d}` is `a::b` and `a::c as d`."""
    place, brace, rest = plain(line).partition('::{')
    if brace and (not rest.endswith('}') or '{' in rest or not re.fullmatch(r'\w+(?:::\w+)*', place)):
        sys.exit(f'declarations: a `use` of another form: {line}')
    for part in rest.removesuffix('}').split(',') if brace else [place]:
        found = re.fullmatch(r'((?:\w+::)*)(\w+)(?: as (\w+))?', part.strip())
        if found and (brace or found[1]):
            yield f'{place}::{found[1]}'.removesuffix('::') if brace else found[1].removesuffix('::'), found[2], found[3] or found[2]
        elif part.strip():
            sys.exit(f'declarations: a `use` of another form: {line}')


def read_source(file, path, text):
    crate = path.partition('/')[0]
    for line in re.findall(r'(?m)^ghost (use [^;]*;)', text):
        add_use(file, plain(line))
    for place, name, here in [brought for line in CODE_USE.findall(text) for brought in brought_by(line)]:
        first, *rest = place.split('::')
        if first == 'crate':
            owner = f'{crate}/src/'
        elif (ROOT / 'crates' / path).parent.joinpath(f'{first}.rt').exists():
            owner, rest = f'{crate}/src/', [first] + rest
        else:
            owner = f'{first}/src/'
        file.brings.setdefault(here, (owner + ('/'.join(rest) or 'lib') + '.rt', name))
    for found in TYPE.finditer(text):
        end = min(k for k in (text.find(';', found.end()), text.find('{', found.end())) if k >= 0)
        if text[end] == '{':
            end = closing(text, end)
        file.add(Declaration(path, found[1], plain(text[found.start():end + 1])))
    impls, functions = read_impls(path, text), list(FUNCTION.finditer(text))
    for found in functions:
        around = [impl for impl in impls if impl.start < found.start() < impl.end]
        if len(found['indent']) != 4 * len(around):
            sys.exit(f'declarations: {path}: a function that stands in something other than an `impl`: {found["name"]}')
        file.add(read_function(path, text, found, *around))
    if len(functions) != len(re.findall(r'\bfn \w+\s*[<(]', text)):
        sys.exit(f'declarations: {path}: a function of another form')


# ── All of them ───────────────────────────────────────────────────────────────────────────────────────────────────────


@functools.lru_cache(maxsize=None)
def exists(path):
    return (ROOT / 'crates' / path).exists()


class Crates:
    """The files below crates/; for a test, those of `base` with another text of some."""

    def __init__(self, altered=None, base=None):
        self.altered, self.base = altered or {}, base
        self.file = functools.lru_cache(maxsize=None)(self.read)

    def text(self, path):
        return self.altered[path] if path in self.altered else (ROOT / 'crates' / path).read_text(encoding='utf-8')

    def has(self, path):
        return path in self.altered or exists(path)

    def read(self, path):
        if self.base and path not in self.altered:
            return self.base.file(path)
        file, text = File(), without_comments(path, self.text(path))
        if path.endswith('.rt'):
            read_source(file, path, text)
        else:
            read_definitions(file, path, text.splitlines())
        return file

    def declared(self, path, name):
        return self.file(path).declarations.get(name, []) if self.has(path) else []

    def functions(self, path):
        return [d for name, ds in self.file(path).declarations.items() for d in ds if isinstance(d, Function) and d.name == name]

    def named(self, path, text):
        """The declarations that a text of the file names."""
        return [d for there, name in self.file(path).named(path, text) for d in self.declared(there, name)]

    def reached(self, roots, types_only=False):
        """The roots and the declarations that they reach: of roots that are theorems, and of functions of the code, what they say."""
        texts, whole_texts, todo = {}, set(), [(root, not types_only) for root in roots]
        while todo:
            declaration, whole = todo.pop()
            key = (declaration.path, declaration.name, declaration.module, declaration.says)
            if key in whole_texts or key in texts and not whole:
                continue
            texts[key] = text = declaration.text(whole)
            if whole:
                whole_texts.add(key)
            todo += [(d, True) for d in self.named(declaration.path, text) if d is not declaration and not isinstance(d, Function)]
        return texts
