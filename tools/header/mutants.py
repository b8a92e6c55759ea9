#!/usr/bin/env -S python3 -B
"""Does check.py see a wrong header? include/chart_store.h is altered at one place at a time, and so is each source that it is compared with. Every such mutant must be noticed.

  tools/header/mutants.py          tries them all: a second
  tools/header/mutants.py FOLDER   writes each mutant of the header to FOLDER/N/chart_store.h, and prints N and what is wrong with it: to try them by a program in C"""
import pathlib
import re
import sys

import check

# Mutants of the sources, with what each has in place of its one occurrence. The check must see each of them, though the header is as it was.
SOURCES = [
    ('crates/rows/src/limits.rt', 'ROW_LIMIT: usize = 4096', 'ROW_LIMIT: usize = 4095'),
    ('crates/book/specs/Limits.antt', 'active_limit = 16', 'active_limit = 17'),
    ('crates/book/specs/Limits.antt', 'format_bound = 1000000', 'format_bound = 1000001'),
    ('crates/book/specs/Limits.antt', 'chart_bound = 200000000', 'chart_bound = 200000001'),
    ('crates/tables/src/layout.rt', 'ENTRY_WIDTH: usize = 7', 'ENTRY_WIDTH: usize = 8'),
    ('crates/tables_model/specs/Layout.antt', 'place_width = 2', 'place_width = 3'),
    ('crates/embed/src/head.rt', 'HEAD_LENGTH: usize = 8', 'HEAD_LENGTH: usize = 9'),
    ('crates/embed_model/specs/Arrays.antt', '  pub scopes : List ℕ\n  pub tail : List ℕ', '  pub tail : List ℕ\n  pub scopes : List ℕ'),
    ('crates/embed_model/specs/Arrays.antt', 'head_length = 8', 'head_length = 7'),
    ('crates/embed_model/specs/Packed.antt', 'r / 4294967296 % 256', 'r / 4294967296 % 128'),
    ('crates/embed_model/specs/Packed.antt', 'r / 1099511627776 % 65536', 'r / 549755813888 % 65536'),
    ('crates/embed_model/specs/Packed.antt', 'r / 72057594037927936', 'r / 36028797018963968'),
    ('crates/embed/src/lib.rt', '    visit: u16,\n    cell: u8,\n    amount: i16,\n', '    visit: u8,\n    cell: u8,\n    amount: i16,\n'),
    ('crates/embed/src/lib.rt', '    giver: u16,\n    receiver: u16,\n    cell: u8,\n', '    receiver: u16,\n    giver: u16,\n    cell: u8,\n'),
    ('crates/embed/src/lib.rt', 'fn chart_redo_page(log: &[u8], page: &mut [u8], number: u8)', 'fn chart_redo_page(page: &mut [u8], log: &[u8], number: u8)'),
    ('crates/state/src/ram.rt', 'NO_FUSE: u32 = 4294967295', 'NO_FUSE: u32 = 4294967294'),
    ('crates/state/specs/World.antt', 'no_fuse = 4294967295', 'no_fuse = 4294967294'),
    ('crates/state/specs/Answers.antt', 'refusal_answer NoRoom = refused_by 8', 'refusal_answer NoRoom = refused_by 7'),
    ('crates/state/specs/Answers.antt', 'number_and_value (Ok d) = done (done_value d)', 'number_and_value (Ok d) = book.answer 3 (done_value d)'),
    ('crates/state/specs/Answers.antt', 'number_and_value (Err r) = refusal_answer r', 'number_and_value (Err r) = done (pos 0)'),
    ('crates/state/specs/Answers.antt', 'done_value (Row n) = pos n.0', 'done_value (Row n) = pos 0'),
    ('crates/state/specs/Answers.antt', 'done_value (Wrote n) = pos n\n', ''),
    ('crates/state/src/answers.rt', 'Ok(Done::Grams(z)) => z', 'Ok(Done::Grams(z)) => 0'),
    ('crates/state/src/answers.rt', 'Err(Refusal::SameVisit) => 12', 'Err(Refusal::SameVisit) => 13'),
    ('crates/state/src/answers.rt', 'Ok(_) => 0', 'Ok(_) => 1'),
    ('crates/state/specs/CallContracts.antt', 'own_numbers (Call.change v c a) = 9 ∷ 10 ∷ 11 ∷ 8', 'own_numbers (Call.change v c a) = 9 ∷ 11 ∷ 10 ∷ 8'),
    ('docs/FORMAT.md', '| 7 | `CHART_TOO_MANY_ACTIVE`', '| 7 | `CHART_NO_ROOM`'),
    ('docs/FORMAT.md', '"16 visits are active"', '"15 visits are active"'),
    ('docs/FORMAT.md', '"These bytes are no row of this store', '"These bytes are a row of this store'),
    ('docs/FORMAT.md', 'it says "not a number of this store"', 'it says "no number of this store"'),
    ('CHANGELOG.md', '## [7]', '## [8]'),
    ('tools/unit/replay.c', '{"flush", 4, {0, 1, 5, 14,', '{"flush", 4, {0, 1, 5,'),
]


def exchanged(text, form, what):
    """Two matches that stand next to one another change places."""
    found = list(re.finditer(form, text))
    for one, two in zip(found, found[1:]):
        if one[0] != two[0]:
            yield f'{what}: {one[0]} and {two[0]} exchanged', text[: one.start()] + two[0] + text[one.end() : two.start()] + one[0] + text[two.end() :]


def replaced(text, form, becomes, what):
    """Each match becomes something else."""
    for found in re.finditer(form, text):
        new = found.expand(becomes) if isinstance(becomes, str) else becomes(found)
        if new != found[0]:
            yield f'{what}: {" ".join(new.split()) or f"{found[0].strip()} left out"}', text[: found.start()] + new + text[found.end() :]


def within(text, part, mutants, *arguments):
    """Mutants of the parts of the text that match."""
    for found in re.finditer(part, text, re.S):
        for label, new in mutants(found[0], *arguments):
            yield label, text[: found.start()] + new + text[found.end() :]


def next_number(found):
    return f'{found[1]}{int(found[2]) + 1}'


OTHER_TYPES = {'uint8_t': 'uint16_t', 'uint16_t': 'uint8_t', 'uint32_t': 'uint16_t', 'uint64_t': 'uint32_t', 'int16_t': 'uint16_t', 'int32_t': 'int16_t', 'int': 'unsigned char', 'unsigned': 'unsigned char'}
TYPE = rf'\b({"|".join(OTHER_TYPES)})\b'
NAMED = r'(?:const )?\w+ \*?\w+'


def other_type(found):
    return OTHER_TYPES[found[1]]


def alike(text):
    """Two functions with arguments of the same types."""
    found = [(name, re.sub(r' \w+(?=[,)])', '', rest)) for name, rest in re.findall(r'\nchart_answer (chart_\w+_on)(\(.*\));', text)]
    return [(one, other) for one, types in found for other, others in found if one != other and types == others]


def mutants(text):
    """What is wrong, and the header that has it."""
    limit = r'(#define CHART_\w+ )(\d+)'
    yield from replaced(text, limit, next_number, 'a constant')
    yield from within(text, r'enum \{.*?\};', replaced, r'(CHART_\w+ = )(\d+)', next_number, 'a refusal number')
    yield from within(text, r'enum \{.*?\};', exchanged, r'CHART_\w+(?= = )', 'refusal numbers')
    yield from exchanged(text, r'(?<=return )"[^"]*"', 'texts')
    yield from replaced(text, r'(?<=return )"[^"]*"', '""', 'no text')

    taken = r'static inline \w+ chart_\w+\(chart_answer a\).*?\n'
    yield from within(text, taken, replaced, r'(>> )(\d+)', next_number, 'a shift')
    yield from within(text, taken, replaced, r'(& )(\d+)', lambda m: f'{m[1]}{int(m[2]) // 2}', 'a mask')
    yield from within(text, taken, replaced, TYPE, other_type, 'a type')
    yield from exchanged(text, r'(?<= )chart_\w+(?=\(chart_answer a\))', 'parts of an answer')

    for struct in (r'typedef struct chart_ram \{.*?\n\}', r'typedef struct chart_store \{.*?\n\}'):
        yield from within(text, struct, exchanged, r'(?<=\n    )\w+ \*?\w+(?:\[\d+\])?(?=;)', 'fields')
        yield from within(text, struct, replaced, TYPE, other_type, 'the type of a field')
        yield from within(text, struct, replaced, r'(\w+\[)(\d+)', next_number, 'the length of a field')

    arrays = r'#define CHART_ARRAYS.*?charts_length\n'
    yield from within(text, arrays, exchanged, rf'{NAMED}(?=[,\n])', 'parameters')
    yield from within(text, arrays, replaced, TYPE, other_type, 'the type of a parameter')
    yield from within(text, r'#define CHART_OF.*?charts_length\n', exchanged, r'\(s\)->[\w>-]+', 'what is handed over')

    prototype = r'\nchart_answer chart_\w+\([^\n]*\);'
    yield from within(text, prototype, replaced, TYPE, other_type, 'the type of a parameter')
    yield from within(text, prototype, replaced, r'const ', '', 'a parameter')
    yield from within(text, prototype, exchanged, rf'(?<=[(,] ){NAMED}(?=[,)])', 'parameters')
    yield from within(text, prototype, replaced, rf', {NAMED}(?=[,)])', '', 'a parameter')
    yield from replaced(text, prototype, '', 'a prototype')

    inline = r'static inline chart_answer chart_\w+\(const chart_store \*s.*?\}\n'
    yield from within(text, inline, replaced, r'return chart_\w+_on\(.*?\);', 'return 0;', 'a call that does nothing')
    for one, other in alike(text):
        yield from within(text, inline, replaced, rf'return {one}\(', f'return {other}(', 'another function called')
    yield from within(text, inline, exchanged, r'(?<=, )\w+(?=[,)](?:[^;{]*;))', 'arguments')
    yield from within(text, inline, replaced, r'(?<=, )(\w+)(?=[,)](?:[^;{]*;))', r'(uint8_t)\1', 'an argument of 8 bits')
    yield from within(text, inline, replaced, r'(?<=, )(\w+)(?=[,)](?:[^;{]*;))', '0', 'an argument')
    yield from within(text, inline, replaced, TYPE, other_type, 'the type of an argument')

    yield from replaced(text, r'(?m)^#(?:include|if|endif|undef).*\n', '', 'a directive')
    yield from replaced(text, r'extern "C" \{', '', 'the linkage')
    yield from replaced(text, r'Refusals 1, ', 'Refusals ', 'the refusals of a call')
    yield from replaced(text, r'(Refusals [\d, ]*), \d+', r'\1', 'the refusals of a call')


def altered_sources():
    """The sources that are altered without a word of the check."""
    read, missed = check.read, []
    for path, old, new in SOURCES:
        if read(path).count(old) != 1:
            missed.append(f'{path} has not once: {old}')
            continue
        check.read = lambda asked, path=path, old=old, new=new: read(asked).replace(old, new) if asked == path else read(asked)
        check.expected_tokens.cache_clear()
        try:
            check.replayed()
            if not check.faults(check.HEADER.read_text(encoding='utf-8')):
                missed.append(f'{path}: {new}')
        except check.Fault:
            pass
    check.read = read
    check.expected_tokens.cache_clear()
    return missed


def main():
    text = check.HEADER.read_text(encoding='utf-8')
    if check.faults(text):
        sys.exit('mutants.py: check.py refuses the header itself')
    made = list(dict((new, label) for label, new in mutants(text)).items())
    if len(sys.argv) > 1:
        for number, (new, label) in enumerate(made):
            folder = pathlib.Path(sys.argv[1]) / str(number)
            folder.mkdir(parents=True)
            (folder / 'chart_store.h').write_text(new, encoding='utf-8')
            print(f'{number} {label}')
        return
    missed = [label for new, label in made if not check.faults(new)] + altered_sources()
    for label in missed:
        print(f'not noticed: {label}')
    if missed or not made:
        sys.exit(f'mutants.py: {len(missed)} of {len(made) + len(SOURCES)} are not noticed')
    print(f'header: {len(made)} mutants of it and {len(SOURCES)} of its sources, all noticed')


if __name__ == '__main__':
    main()
