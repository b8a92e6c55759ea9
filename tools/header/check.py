#!/usr/bin/env -S python3 -B
"""Compares include/chart_store.h with the source that it stands for. It prints each fault with its line, and exits with 1 if there is one.

  tools/header/check.py [HEADER]

The code of the header, without its comments, must be token by token the code that is written here from the Rattle source:

  limits                     rows/src/limits.rt, beside book/specs/Limits; the fuse that is none: state/src/ram.rt, beside state/specs/World
  chart_ram, chart_store     the parameters of the functions in embed/src/lib.rt, in their order, with their lengths; beside embed_model/specs/Arrays
  prototypes, inline calls   the same parameters and types; each call hands a store's memory and its own arguments to the function of its name with _on
  chart_value and the like   the divisors and moduli of embed_model/specs/Packed
  numbers and texts          the tables of docs/FORMAT.md, whose numbers are those of state/specs/Answers, case by case
  the version                the newest one of CHANGELOG.md

Of the comments it checks the refusals that each call names: those of `own_numbers` (state/specs/CallContracts), in its order; those of format, open and a page alone are written here. The replay of tools/unit lists the same ones."""
import difflib
import functools
import pathlib
import re
import sys
from dataclasses import dataclass

ROOT = pathlib.Path(__file__).resolve().parents[2]
HEADER = ROOT / 'include/chart_store.h'
# The name of each limit in C, and in Rattle: in rows/src/limits.rt, and in book/specs/Limits for the two that no constant of the code has.
LIMITS = [
    ('LOG_LENGTH', 'LOG_LENGTH'), ('CHARTS_LENGTH', 'CHARTS_LENGTH'), ('ROWS', 'ROW_LIMIT'), ('ROW_LENGTH', 'ROW_LENGTH'), ('ROWS_WAITING', 'TAIL_LIMIT'),
    ('CELLS', 'CELL_LIMIT'), ('PAGES', 'PAGE_LIMIT'), ('PAGE_LENGTH', 'PAGE_LENGTH'), ('CELLS_PER_PAGE', 'PLACES'), ('VISITS', 'VISIT_LIMIT'),
    ('ACTIVE_VISITS', 'ACTIVE_LIMIT'), ('SCOPES', 'SCOPE_LIMIT')]
BOUNDS = [('FORMAT_GRAMS', 'format_bound'), ('STORED_GRAMS', 'chart_bound')]
# The types of arguments, in Rattle and in C.
TYPES = {'u8': 'uint8_t', 'u16': 'uint16_t', 'u32': 'uint32_t', 'u64': 'uint64_t', 'i16': 'int16_t', 'i32': 'int32_t'}


class Fault(Exception):
    """The sources do not agree with one another, or are not read by the rules below."""


def need(condition, text):
    if not condition:
        raise Fault(text)


@functools.lru_cache(maxsize=None)
def read(path):
    return (ROOT / path).read_text(encoding='utf-8')


# ── The Rattle source ─────────────────────────────────────────────────────────────────────────────────────────────────


def constants(path, form):
    """The constants that a file defines by numbers, products and constants before them."""
    return re.findall(form, read(path), re.M)


def evaluated(definitions, known):
    for name, words in definitions:
        factors = [int(word) if word.isdigit() else known[word] for word in words.split(' * ')]
        need(name not in known, f'{name} is defined twice')
        known[name] = functools.reduce(lambda x, y: x * y, factors)
    return known


def of_code():
    known = {}
    for path in ('rows/src/limits.rt', 'tables/src/layout.rt', 'embed/src/head.rt', 'state/src/ram.rt'):
        evaluated(constants(f'crates/{path}', r'^(?:pub(?:\(crate\))? )?const (\w+): u\w+ = ([\w *]+);'), known)
    return known


def of_specs():
    known = {}
    for path in ('book/specs/Limits', 'tables_model/specs/Layout', 'embed_model/specs/Arrays', 'state/specs/World'):
        evaluated(constants(f'crates/{path}.antt', r'^abbrev pub \w+ : ℕ\n(\w+) = (\w+(?: \* \w+)*)$'), known)
    return known


def snake(name):
    return re.sub(r'(?<!^)(?=[A-Z])', '_', name).upper()


@dataclass(frozen=True)
class Parameter:
    name: str
    item: str  # the type of a number of it, in C
    length: object = None  # of an array: the name of its length
    lent: str = ''  # 'array', 'slice' or '' for a number by value
    constant: bool = False

    def declared(self):
        """As C has it: an array is a pointer, a slice a pointer and a length of 64 bits."""
        if not self.lent:
            return [f'{self.item} {self.name}']
        pointer = f'{"const " if self.constant else ""}{self.item} *{self.name}'
        return [pointer] + ([f'uint64_t {self.name}_length'] if self.lent == 'slice' else [])

    def handed(self):
        return [self.name] + ([f'{self.name}_length'] if self.lent == 'slice' else [])


def parameter(text):
    found = re.fullmatch(r'(\w+): (?:(?P<ref>&)(?P<mut>mut )?\[(?P<item>\w+)(?:; (?P<length>\w+))?\]|(?P<kind>\w+))', text)
    need(found, f'embed/src/lib.rt: a parameter of another form: {text}')
    if not found['ref']:
        return Parameter(found[1], TYPES[found['kind']])
    return Parameter(found[1], TYPES[found['item']], found['length'], 'array' if found['length'] else 'slice', not found['mut'])


def functions():
    """The exported functions in their order, each with its parameters."""
    found = {}
    for name, parameters, result in re.findall(r'^#\[unsafe\(no_mangle\)\]\npub extern "C" fn (\w+)\(([^)]*)\) -> (\w+)', read('crates/embed/src/lib.rt'), re.M):
        need(result == 'u64', f'embed/src/lib.rt: {name} gives back {result}')
        found[name] = [parameter(text.strip()) for text in parameters.split(',') if text.strip()]
    need(len(found) == read('crates/embed/src/lib.rt').count('extern "C"'), 'embed/src/lib.rt: a function of another form')
    return found


def takes():
    """The shift and the mask of each part of an answer."""
    text = read('crates/embed_model/specs/Packed.antt')
    found = re.search(r'^answer_in r = answer \(r / (\d+) % (\d+)\) \(signed 32 \(r % (\d+)\)\)$', text, re.M)
    counts = re.search(r'^writes_in r = record { rows = r / (\d+) % (\d+); pages = r / (\d+) }$', text, re.M)
    need(found and counts, 'embed_model/specs/Packed: another form')
    number, numbers, values, rows, row_count, pages = (int(word) for word in (*found.groups(), *counts.groups()))
    # A number of 64 bits has no more pages than this.
    page_count = 2**64 // pages
    for power in (number, numbers, values, rows, row_count, pages, page_count):
        need(power & (power - 1) == 0, f'embed_model/specs/Packed: {power} is no power of 2')
    need(values == 2**32, 'embed_model/specs/Packed: the value has not 32 bits')
    shift = lambda power: power.bit_length() - 1
    return {'value': (0, values - 1), 'number': (shift(number), numbers - 1), 'rows': (shift(rows), row_count - 1), 'pages': (shift(pages), page_count - 1)}


def refused_by():
    """The numbers by which each function may be refused, by its name in C."""
    lines = re.findall(r'^own_numbers \(?Call\.(\w+)[^=]*= ((?:\d+ ∷ )*)\[\]$', read('crates/state/specs/CallContracts.antt'), re.M)
    found = {name: [1, 5] + [int(word) for word in numbers.split(' ∷ ') if word] for name, numbers in lines}
    # Format by `formats` (state/specs/CallContracts), an opening by `opens` (the same), a page alone by `redone_alone` (recovery_model/specs/PageAlone).
    return found | {'format': [1, 2], 'open': [1, 3, 16, 17, 4, 5], 'redo_page': [1, 14]}


# ── The papers ────────────────────────────────────────────────────────────────────────────────────────────────────────


def table(heading):
    """The lines of the table below a heading of docs/FORMAT.md, cell by cell."""
    _, found, rest = read('docs/FORMAT.md').partition(f'\n### {heading}\n')
    need(found, f'docs/FORMAT.md: no heading {heading}')
    lines = [line for line in rest.split('\n#')[0].splitlines() if line.startswith('|')]
    return [[cell.strip() for cell in line.strip('|').split('|')] for line in lines[2:]]


def quoted(cell):
    need(re.fullmatch(r'"[^"\\]+"', cell), f'docs/FORMAT.md: no text: {cell}')
    return cell


def cases():
    """Each case of an answer in Rattle with its number, by the definition and by the code. A call that was done has number 0 and, case by case, the value of `done_value`; one that was refused has
    those of `refusal_answer`."""
    definition, source = read('crates/state/specs/Answers.antt'), read('crates/state/src/answers.rt')
    code, values = (source.partition(f'fn {name}')[2].partition('\n}')[0] for name in ('number_of', 'value_of'))
    by_result = ['(Ok d) = done (done_value d)', '(Err r) = refusal_answer r']
    need(re.findall(r'^number_and_value (?!:)(.*)$', definition, re.M) == by_result, 'state/specs/Answers: number_and_value has another form')
    given = re.findall(r'^done_value \(?(\w+)(?: (\w+)\))? = (?:(pos) )?(\S+)$', definition, re.M)
    lines = [f'Ok(Done::{case}{f"({it})" if it else ""}) => {f"i32::from({value})" if positive and it else value},' for case, it, positive, value in given]
    need(len(given) == len(re.findall(r'^done_value (?!:)', definition, re.M)), 'state/specs/Answers: a value of what was done has another form')
    need(lines == re.findall(r'^        (Ok\(.*)$', values, re.M), 'state/specs/Answers and state/src/answers.rt have not the same values of what was done')
    done = dict.fromkeys(['Done'] + [case for case, *_ in given], 0)
    by_definition = {case: int(number) for case, number in re.findall(r'^refusal_answer \(?(\w+).* = (?:refused_by|book\.answer) (\d+)', definition, re.M)}
    by_code = {case: int(number) for case, number in re.findall(r'^        Err\(Refusal::(\w+)(?:\(_\))?\) => (\d+),$', code, re.M)}
    need('\n        Ok(_) => 0,\n' in code, 'state/src/answers.rt: a call that was done has another number than 0')
    need(by_definition and by_definition == by_code, 'state/specs/Answers and state/src/answers.rt have not the same numbers')
    return done | by_definition


def refusals():
    """Number, name and text of each line of the table, which has every case of Rattle, under its number."""
    lines = table('Refusal numbers')
    numbers = {case: int(line[0]) for line in lines for case in re.findall(r'`(\w+)`', line[2])}
    need(numbers == cases(), 'docs/FORMAT.md, Refusal numbers: not the cases and numbers of state/specs/Answers')
    for line in lines:
        first = re.match(r'`(\w+)`', line[2])[1]
        name = 'CHART_' + snake(first.removeprefix('Cell'))
        need(line[1] == f'`{name}`', f'docs/FORMAT.md, Refusal numbers: {line[1]} is not `{name}`')
    need([int(line[0]) for line in lines] == sorted(set(numbers.values())), 'docs/FORMAT.md, Refusal numbers: not in ascending order')
    return [(int(line[0]), line[1].strip('`'), quoted(line[3])) for line in lines]


def hints():
    names = {number: name for number, name, _ in refusals()}
    lines = table('Hints for service staff')
    for line in lines:
        need(line[1] == f'`{names[int(line[0])]}`', f'docs/FORMAT.md, Hints for service staff: {line[1]} is not of number {line[0]}')
    return [(line[1].strip('`'), quoted(line[2])) for line in lines]


# ── The code of the header ────────────────────────────────────────────────────────────────────────────────────────────


def switch(signature, lines, default):
    words = ' '.join(f'case {name}: return {text};' for name, text in lines)
    return f'static inline const char *{signature}(int number) {{ switch (number) {{ {words} default: return {default}; }} }}'


def expected_code():
    """The header without its comments, from the sources."""
    code, specs, exported = of_code(), of_specs(), functions()
    for _, name in LIMITS:
        need(code[name] == specs[name.lower()], f'rows/src/limits.rt: {name} is not that of book/specs/Limits')
    need(code['NO_FUSE'] == specs['no_fuse'], 'state/src/ram.rt: NO_FUSE is not that of state/specs/World')

    first = next(iter(exported.values()))
    lent = [p for p in first if not p.constant]
    fields, stored = [p for p in lent if p.lent == 'array'], [p for p in lent if p.lent == 'slice']
    arrays = re.search(r'^pub record Arrays : Type 0 where\n((?:  pub \w+ : List ℕ\n)+)', read('crates/embed_model/specs/Arrays.antt'), re.M)
    need(arrays and [p.name for p in lent] == re.findall(r'pub (\w+)', arrays[1]), 'embed/src/lib.rt: not the arrays of embed_model/specs/Arrays, in their order')
    lengths = dict(re.findall(r'^  pub (\w+) : length x\.\w+ ≡ (\w+)$', read('crates/embed_model/specs/Arrays.antt'), re.M))
    for p in fields:
        # The length of the tail has no number of its own in the definitions.
        length = specs['tail_limit'] * specs['row_length'] if lengths[p.name] == 'tail_length' else specs[lengths[p.name]]
        need(code[p.length] == length, f'embed/src/lib.rt: {p.name} has not the length of embed_model/specs/Arrays')
    calls = {name: parameters[len(lent):] for name, parameters in exported.items() if name.endswith('_on')}
    for name in calls:
        need(exported[name][: len(lent)] == lent, f'embed/src/lib.rt: {name} is lent other arrays')
    (alone,) = [name for name in exported if name not in calls]

    of_store = [f'(s)->ram->{p.name}' for p in fields] + [f'(s)->{name}' for p in stored for name in p.handed()]
    declared = lambda parameters: ', '.join(word for p in parameters for word in p.declared())
    version = re.search(r'^## \[(\d+)\]', read('CHANGELOG.md'), re.M)
    take = takes()
    bits = lambda part: f'(a >> {take[part][0]}) & {take[part][1]}u'
    lines = ['#ifndef CHART_STORE_H', '#define CHART_STORE_H', '#include <stdint.h>', '#ifdef __cplusplus', 'extern "C" {', '#endif']
    lines += [f'#define CHART_VERSION {version[1]}']
    lines += [f'#define CHART_{name} {code[known]}u' for name, known in LIMITS]
    lines += [f'#define CHART_{name} {specs[known]}' for name, known in BOUNDS]
    lines += [f'#define CHART_NO_FUSE {code["NO_FUSE"]}u']
    lines += ['typedef struct chart_ram {', *[f'{p.item} {p.name}[{code[p.length]}];' for p in fields], '} chart_ram;']
    lines += ['typedef struct chart_store { chart_ram *ram;', *[f'{word};' for p in stored for word in p.declared()], '} chart_store;']
    lines += ['typedef uint64_t chart_answer;']
    lines += [f'static inline int chart_number(chart_answer a) {{ return (int)({bits("number")}); }}']
    lines += [f'static inline int32_t chart_value(chart_answer a) {{ return (int32_t)(uint32_t)(a & {take["value"][1]}u); }}']
    lines += [f'static inline unsigned chart_{part}(chart_answer a) {{ return (unsigned)({bits(part)}); }}' for part in ('rows', 'pages')]
    lines += ['enum {', ','.join(f'{name} = {number}' for number, name, _ in refusals()), '};']
    default = re.search(r'Of every other number it says ("[^"]+")\.', read('docs/FORMAT.md'))
    need(default, 'docs/FORMAT.md: nothing is said of other numbers')
    lines += [switch('chart_text', [(name, text) for _, name, text in refusals()], default[1]), switch('chart_service_hint', hints(), '""')]
    lines += [f'#define CHART_ARRAYS {declared(lent)}']
    lines += [f'chart_answer {name}({", ".join(["CHART_ARRAYS"] + [word for p in own for word in p.declared()])});' for name, own in calls.items()]
    lines += ['#undef CHART_ARRAYS', f'#define CHART_OF(s) {", ".join(of_store)}']
    for name, own in calls.items():
        signature = ', '.join(['const chart_store *s'] + [word for p in own for word in p.declared()])
        handed = ', '.join(['CHART_OF(s)'] + [word for p in own for word in p.handed()])
        lines += [f'static inline chart_answer {name.removesuffix("_on")}({signature}) {{ return {name}({handed}); }}']
    lines += ['#undef CHART_OF', f'chart_answer {alone}({declared(exported[alone])});', '#ifdef __cplusplus', '}', '#endif', '#endif']
    return '\n'.join(lines)


# ── The comparison ────────────────────────────────────────────────────────────────────────────────────────────────────

TOKEN = re.compile(r'"(?:[^"\\\n]|\\.)*"|\w+|->|>>|<<|&&|\|\||[^\w\s]')


def without_comments(text):
    """Comments become spaces, and the ends of their lines stay."""
    form = r'"(?:[^"\\\n]|\\.)*"|/\*.*?\*/|//[^\n]*'
    return re.sub(form, lambda m: m[0] if m[0].startswith('"') else re.sub(r'[^\n]', ' ', m[0]), text, flags=re.S)


def tokens(text):
    """Each token with its line; the end of a directive is one too, since it ends with its line."""
    found, directive = [], False
    for number, line in enumerate(without_comments(text).split('\n'), 1):
        continued = line.endswith('\\')
        directive = directive or line.lstrip().startswith('#')
        found += [(token, number) for token in TOKEN.findall(line.removesuffix('\\'))]
        if directive and not continued:
            found.append(('end of line', number))
            directive = False
    return found


def differences(given, expected):
    found, wanted = [token for token, _ in given], [token for token, _ in expected]
    if found == wanted:
        return []
    # What is the same before the first difference takes difflib long, and is left out.
    same = next((i for i, (one, two) in enumerate(zip(found, wanted)) if one != two), min(len(found), len(wanted)))
    shown = lambda words: ' '.join(words) or 'nothing'
    steps = difflib.SequenceMatcher(None, found[same:], wanted[same:], autojunk=False).get_opcodes()
    return [(given[min(same + i, len(given) - 1)][1], f'{shown(found[same + i : same + j])}, where the sources have {shown(wanted[same + k : same + m])}')
            for kind, i, j, k, m in steps if kind != 'equal']


def named_refusals(text):
    """The comment before each call ends with the numbers by which it may be refused."""
    wanted = {name: f'Refusals {", ".join(map(str, numbers))}' for name, numbers in refused_by().items()}
    # Of a row one of three.
    wanted['open'] = wanted['open'].replace('1, 3, 16, 17,', '1, then 3, 16 or 17,')
    found = {}
    for function in re.finditer(r'\*/\n(?:static inline )?chart_answer chart_(\w+)\((?:const chart_store|const uint8_t)', text):
        comment = text[text.rindex('/*', 0, function.start()) : function.start()]
        found[function[1]] = re.findall(r'Refusals [\d, a-z]*\d', re.sub(r'\s*\n \* ?', ' ', comment))
    return [f'chart_{name}: its comment says {found.get(name)}, and the sources {wanted.get(name)}'
            for name in sorted(found.keys() | wanted.keys()) if found.get(name) != [wanted.get(name)]]


def replayed():
    """The answers that have to occur in the replay of tools/unit are those of each function."""
    lines = re.findall(r'^    \[(\w+)\] = \{"[^"]*", \d+, \{((?:\d+, )+)END_OF_ANSWERS\}\},$', read('tools/unit/replay.c'), re.M)
    found = {name.lower(): [int(word) for word in numbers.split(', ') if word] for name, numbers in lines}
    need(found == {name: sorted([0, *numbers]) for name, numbers in refused_by().items()}, 'tools/unit/replay.c: not the answers of each function')


@functools.lru_cache(maxsize=None)
def expected_tokens():
    return tokens(expected_code())


def faults(text):
    """What is wrong in a header, each with a line or none."""
    return differences(tokens(text), expected_tokens()) + [(0, fault) for fault in named_refusals(text)]


def main():
    path = pathlib.Path(sys.argv[1]) if len(sys.argv) > 1 else HEADER
    try:
        replayed()
        found = faults(path.read_text(encoding='utf-8'))
    except Fault as fault:
        sys.exit(f'header: {fault}')
    for line, fault in found:
        print(f'{path.name}:{line}: {fault}' if line else f'{path.name}: {fault}')
    if found:
        sys.exit(f'header: {len(found)} faults')
    print(f'header: ok, {len(expected_tokens())} tokens of code and the refusals of {len(refused_by())} functions are those of the sources')


if __name__ == '__main__':
    main()
