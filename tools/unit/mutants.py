#!/usr/bin/env python3
"""Would the replay see a wrong archive? The module for the unit is altered at one place at a time, and the replay runs on the model with what each such mutant is compiled to.

  tools/unit/mutants.py    after tools/unit/build.sh; some twenty minutes

The variable MUTANTS says how many places are altered, CALLS and SEED are those of replay.sh; which places, is the same in every run. A mutant is told apart where a hash, an answer or a guard is
another than with the proved archive, or the program does not end. Those that are not told apart are printed, for somebody to read what they do."""
import os
import pathlib
import random
import re
import select
import signal
import subprocess
import sys
from collections import Counter
from dataclasses import dataclass

HERE = pathlib.Path(__file__).resolve().parent
OUT = HERE.parents[1] / 'target/unit'
SILENCE = 60  # seconds without a line, after which the program is taken not to end

TESTS = {'eq': 'ne', 'ne': 'eq', 'ult': 'ule', 'ule': 'ult', 'ugt': 'uge', 'uge': 'ugt', 'slt': 'sle', 'sle': 'slt', 'sgt': 'sge', 'sge': 'sgt'}
OPERATIONS = {'add': 'sub', 'sub': 'add', 'mul': 'add', 'udiv': 'mul', 'urem': 'udiv', 'and': 'or', 'or': 'and', 'xor': 'or', 'shl': 'lshr', 'lshr': 'shl'}

# What is altered: its name, a line that has it, and the line in its place.
ALTERED = [
    ('a comparison', r'(.* = icmp )(\w+)( .*)', lambda m: m[1] + TESTS[m[2]] + m[3]),
    ('an operation', rf'(.* = )({"|".join(OPERATIONS)})(?: nuw)?(?: nsw)?( .*)', lambda m: m[1] + OPERATIONS[m[2]] + m[3]),
    ('a number compared or computed with', r'(.* = (?:icmp \w+|(?:add|sub|mul)(?: nuw)?(?: nsw)?|udiv|urem|and|or|xor|shl|lshr) i\d+ %[\w.]+, )(\d+)', lambda m: m[1] + str(int(m[2]) + 1)),
    ('a number stored', r'(  store i\d+ )(\d+)(,.*)', lambda m: m[1] + str(int(m[2]) + 1) + m[3]),
    ('an offset', r'(.* = getelementptr i8, ptr %[\w.]+, i64 )(\d+)', lambda m: m[1] + str(int(m[2]) + 1)),
    ('the ways of a branch', r'(  br i1 %[\w.]+, )(label %[\w.]+), (label %[\w.]+)', lambda m: f'{m[1]}{m[3]}, {m[2]}'),
    ('a store, left out', r'  store .*', lambda m: ''),
    ('a copy, left out', r'  call void @llvm\.memmove.*', lambda m: ''),
]


@dataclass(frozen=True)
class Place:
    line: int
    function: str
    becomes: str


def places(lines):
    """The places at which each thing can be altered."""
    found = {name: [] for name, _, _ in ALTERED}
    function = ''
    for number, line in enumerate(lines):
        if line.startswith('define '):
            function = re.search(r'@"?([\w.:]+)', line)[1]
        for name, form, becomes in ALTERED:
            if m := re.fullmatch(form, line):
                found[name].append(Place(number, function, becomes(m)))
    return found


def compiled(text):
    """The object of a module, by the command that build.sh has kept; None where it is refused."""
    (OUT / 'mutant.ll').write_text(text, encoding='utf-8')
    command = (OUT / 'command').read_text(encoding='utf-8').splitlines()
    command = [{'thumbv6m.ll': 'mutant.ll', 'thumbv6m.o': 'mutant.o'}.get(word, word) for word in command]
    result = subprocess.run(command, cwd=OUT, capture_output=True, check=False)
    return (OUT / 'mutant.o').read_bytes() if result.returncode == 0 else None


def is_told_apart(expected):
    """The replay with the mutant is stopped where what it prints is not as expected."""
    variables = os.environ | {'ARCHIVE': 'target/unit/mutant.o'}
    program = subprocess.Popen([HERE / 'run.sh', HERE / 'replay.c'], env=variables, stdout=subprocess.PIPE, stderr=subprocess.DEVNULL, start_new_session=True)
    printed = b''
    try:
        while expected.startswith(printed) and select.select([program.stdout], [], [], SILENCE)[0]:
            more = os.read(program.stdout.fileno(), 4096)
            if not more:
                return printed != expected or program.wait() != 0
            printed += more
        return True
    finally:
        if program.poll() is None:
            os.killpg(program.pid, signal.SIGKILL)
            program.wait()


def main():
    count, calls, seed = (os.environ.get(name, default) for name, default in (('MUTANTS', '320'), ('CALLS', '60000'), ('SEED', '1')))
    os.environ |= {'CALLS': calls, 'SEED': seed, 'DEFINES': f'-DCALLS={calls} -DSEED={seed}'}
    if subprocess.run([HERE / 'replay.sh'], stdout=subprocess.DEVNULL, check=False).returncode != 0:
        sys.exit('mutants.py: replay.sh fails with the archive itself')
    expected = (OUT / 'replay.host').read_bytes()
    lines = (OUT / 'thumbv6m.ll').read_text(encoding='utf-8').split('\n')
    found, original, chance = places(lines), compiled('\n'.join(lines)), random.Random(1)
    made, other, apart = Counter(), Counter(), Counter()
    for k in range(int(count)):
        name = ALTERED[k % len(ALTERED)][0]
        place = chance.choice(found[name])
        code = compiled('\n'.join(lines[: place.line] + [place.becomes] + lines[place.line + 1 :]))
        made[name] += 1
        if code in (None, original):
            continue
        other[name] += 1
        if is_told_apart(expected):
            apart[name] += 1
        else:
            print(f'not told apart: {place.function}: {name}: {lines[place.line].strip()}', flush=True)
    for name, _, _ in ALTERED:
        print(f'{name}: of {made[name]} mutants {other[name]} are other code, and {apart[name]} of these are told apart')
    print(f'mutants.py: of {made.total()} mutants {other.total()} are other code, and {apart.total()} of these are told apart in {int(calls):,} calls')


if __name__ == '__main__':
    main()
