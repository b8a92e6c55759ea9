#!/usr/bin/env python3
"""Makes the archive for the unit, measures it on QEMU's Cortex-M0, and writes the figures into README.md of this folder, between the two marks, and openings.svg.

  tools/unit/measure.py            some fifteen seconds, after the first time
  OPT=-Os tools/unit/measure.py    another level of optimisation: the figures are printed, and no file is written

measure.c has the calls, plugin.c counts.
"""
import datetime
import os
import pathlib
import subprocess
import sys

HERE = pathlib.Path(__file__).resolve().parent
ROOT = HERE.parents[1]
OUT = ROOT / 'target/unit'
OBJECT = OUT / 'thumbv6m.o'
LEVEL = '-O3'  # of the proved archive
START = '<!-- written by tools/unit/measure.py -->'
END = '<!-- end of what tools/unit/measure.py writes -->'

MHZ = 48
GOAL_CALL_MS = 0.1
GOAL_OPENING_MS = 500
GOAL_MEMORY = 5 * 1024


def run(*words):
    result = subprocess.run(words, cwd=ROOT, capture_output=True, text=True, check=False)
    if result.returncode != 0:
        sys.exit(f'measure.py: {" ".join(map(str, words))}: status {result.returncode}\n{result.stdout[-500:]}{result.stderr[-500:]}')
    return result.stdout


# ── What is measured ──────────────────────────────────────────────────────────────────────────────────────────────────


class Workload:
    """The measured calls of one name."""

    def __init__(self, name):
        self.name = name
        self.instructions, self.cycles, self.multiplications, self.stack, self.rows = [], [], [], [], []

    @property
    def longest(self):
        return max(self.cycles)

    @property
    def longest_slow(self):
        """With the multiplier of 32 cycles."""
        return max(c + 31 * m for c, m in zip(self.cycles, self.multiplications))

    @property
    def is_opening(self):
        return self.name.startswith('open: ')


def mean(counts):
    return sum(counts) / len(counts)


def ms(cycles):
    return cycles / MHZ / 1000


def measured():
    """The bytes of RAM, the workloads in their order, and the most cycles from the first store of a row, and of a page, to its last."""
    plugin, counts = OUT / 'plugin.so', OUT / 'measure.counts'
    run(os.environ.get('CC', 'cc'), '-std=c11', '-Wall', '-Wextra', '-Werror', '-O2', '-shared', '-fPIC', HERE / 'plugin.c', '-o', plugin)
    ram, *labels = run(HERE / 'run.sh', HERE / 'measure.c', '-plugin', f'{plugin},counts={counts}').splitlines()
    lines = counts.read_text(encoding='ascii').splitlines()
    if len(labels) != len(lines):
        sys.exit(f'measure.py: {len(labels)} calls, but {len(lines)} counts')
    workloads, row_cycles, page_cycles, nothing = {}, 0, 0, None
    for label, line in zip(labels, lines):
        name, stack, rows, _ = label.split('|')
        instructions, cycles, multiplications, row, page = map(int, line.split())
        if nothing is None:  # the first is a function that does nothing: what every measured call has besides
            nothing = instructions, cycles
            continue
        w = workloads.setdefault(name, Workload(name))
        w.instructions.append(instructions - nothing[0])
        w.cycles.append(cycles - nothing[1])
        w.multiplications.append(multiplications)
        w.stack.append(int(stack))
        w.rows.append(int(rows))
        row_cycles, page_cycles = max(row_cycles, row), max(page_cycles, page)
    return int(ram), workloads, row_cycles, page_cycles


def code():
    """The bytes of code and constants of the archive, and the functions that it needs from elsewhere."""
    total = int(run('arm-none-eabi-size', OBJECT).splitlines()[-1].split()[0])
    needed = sorted(line.split()[1] for line in run('arm-none-eabi-nm', '-u', OBJECT).splitlines() if ' U ' in line)
    return total, needed


# ── Tables ────────────────────────────────────────────────────────────────────────────────────────────────────────────


def number(x):
    return f'{x:,.0f}'


def time(cycles):
    t = ms(cycles)
    return f'{t:.1f}' if t >= 10 else f'{t:.2f}' if t >= 1 else f'{t:.3f}'


def table(workloads, goal):
    """Instructions, cycles and ms are those of a call on average."""
    yield '| Workload | Calls | Instructions | Cycles | ms | Longest, ms | Its multiplications | Most rows stored | Deepest stack |'
    yield '|---|---|---|---|---|---|---|---|---|'
    for w in workloads:
        at = w.cycles.index(w.longest)
        longest = time(w.longest) if ms(w.longest) < goal else f'**{time(w.longest)}**'
        yield (f'| {w.name} | {number(len(w.cycles))} | {number(mean(w.instructions))} | {number(mean(w.cycles))} | {time(mean(w.cycles))} | {longest} '
               f'| {number(w.multiplications[at])} | {number(max(w.rows))} | {number(max(w.stack))} |')


def goals(calls, openings, ram, stack):
    def verdict(workloads, goal, cycles):
        missing = [w for w in workloads if ms(cycles(w)) >= goal]
        if not missing:
            return 'met'
        longest = max(missing, key=cycles)
        return f'missed by {len(missing)} of {len(workloads)} workloads; the longest is "{longest.name}", {time(cycles(longest))} ms'

    def line(what, workloads, goal):
        one, slow = (verdict(workloads, goal, cycles) for cycles in (lambda w: w.longest, lambda w: w.longest_slow))
        return f'| {what} | {one} | {slow} |'

    memory = f'{"met" if ram + stack < GOAL_MEMORY else "missed"}: {number(ram)} + {number(stack)} = {number(ram + stack)}'
    yield '| Goal | On the model; in bold below where missed | With the multiplier of 32 cycles |'
    yield '|---|---|---|'
    yield line(f'Each call below {GOAL_CALL_MS} ms', calls, GOAL_CALL_MS)
    yield line(f'The longest opening below {GOAL_OPENING_MS} ms', openings, GOAL_OPENING_MS)
    yield f'| RAM and stack below {number(GOAL_MEMORY)} bytes | {memory} | the same |'


# ── The plot ──────────────────────────────────────────────────────────────────────────────────────────────────────────

WIDTH, HEIGHT, LEFT, RIGHT, TOP, BOTTOM = 760, 440, 56, 28, 32, 52
COLOURS = ('#0072b2', '#d55e00', '#009e73', '#7b3294', '#222222')  # told apart by colour-blind readers too
ROWS_MOST, ROWS_STEP, MS_MOST, MS_STEP = 4096, 512, 600, 100


def plot(series):
    def x(rows):
        return LEFT + (WIDTH - LEFT - RIGHT) * rows / ROWS_MOST

    def y(t):
        return HEIGHT - BOTTOM - (HEIGHT - TOP - BOTTOM) * t / MS_MOST

    def line(x1, y1, x2, y2, more):
        return f'<line x1="{x1:.1f}" y1="{y1:.1f}" x2="{x2:.1f}" y2="{y2:.1f}" {more}/>'

    def text(at_x, at_y, words, anchor):
        return f'<text x="{at_x:.1f}" y="{at_y:.1f}" text-anchor="{anchor}">{words}</text>'

    def dot(at_x, at_y, colour):
        return f'<circle cx="{at_x:.1f}" cy="{at_y:.1f}" r="3.5" fill="{colour}"/>'

    yield f'<svg xmlns="http://www.w3.org/2000/svg" viewBox="0 0 {WIDTH} {HEIGHT}" font-family="sans-serif" font-size="13" fill="#222">'
    yield '<title>Time of an opening over the rows of the log</title>'
    yield f'<rect width="{WIDTH}" height="{HEIGHT}" fill="white"/>'
    for rows in range(0, ROWS_MOST + 1, ROWS_STEP):
        yield line(x(rows), y(0), x(rows), y(MS_MOST), 'stroke="#e4e4e4"')
        yield text(x(rows), y(0) + 18, number(rows), 'middle')
    for t in range(0, MS_MOST + 1, MS_STEP):
        yield line(x(0), y(t), x(ROWS_MOST), y(t), 'stroke="#e4e4e4"')
        yield text(x(0) - 8, y(t) + 4, t, 'end')
    yield line(x(0), y(GOAL_OPENING_MS), x(ROWS_MOST), y(GOAL_OPENING_MS), 'stroke="#222" stroke-dasharray="5 4"')
    yield text(x(0) + 8, y(GOAL_OPENING_MS) - 6, f'goal: below {GOAL_OPENING_MS} ms', 'start')
    yield text((x(0) + x(ROWS_MOST)) / 2, HEIGHT - 10, 'rows of the log', 'middle')
    yield text(8, TOP - 14, f'opening, ms at {MHZ} MHz', 'start')
    for place, (name, points) in enumerate(series.items()):
        colour = COLOURS[place]
        yield f'<polyline points="{" ".join(f"{x(rows):.1f},{y(t):.1f}" for rows, t in points)}" fill="none" stroke="{colour}" stroke-width="2"/>'
        for rows, t in points:
            yield dot(x(rows), y(t), colour)
        below = y(GOAL_OPENING_MS) + 22 + 19 * place
        yield line(x(0) + 10, below, x(0) + 34, below, f'stroke="{colour}" stroke-width="2"') + dot(x(0) + 22, below, colour)
        yield text(x(0) + 42, below + 4.5, name, 'start')
    yield '</svg>'


def series_of(workloads):
    """The points of each series: rows and ms."""
    series = {}
    for w in workloads:
        _, name, rows = w.name.split('/')
        series.setdefault(name, []).append((int(rows), ms(w.longest)))
    most = max(t for points in series.values() for _, t in points)
    if most > MS_MOST or len(series) > len(COLOURS):
        sys.exit(f'measure.py: {len(series)} series up to {most:.0f} ms do not fit the plot')
    return series


# ── The page ──────────────────────────────────────────────────────────────────────────────────────────────────────────


def figures(level):
    """The lines of the page; openings.svg is written on the way."""
    run(HERE / 'build.sh')
    ram, workloads, row_cycles, page_cycles = measured()
    of_series = [w for w in workloads.values() if w.name.startswith('series/')]
    openings = [w for w in workloads.values() if w.is_opening]
    calls = [w for w in workloads.values() if not w.is_opening and w not in of_series]
    stack = max(max(w.stack) for w in workloads.values())
    total, needed = code()
    if level == LEVEL:
        (HERE / 'openings.svg').write_text('\n'.join(plot(series_of(of_series))) + '\n', encoding='utf-8')
    qemu = run('qemu-system-arm', '--version').split()[3]
    gcc = run('arm-none-eabi-gcc', '-dumpversion').strip()

    yield f'Measured on {datetime.datetime.now(datetime.UTC):%Y-%m-%d} with QEMU {qemu}; the archive is compiled at {level}, the program and the C library are of arm-none-eabi-gcc {gcc}.'
    yield ''
    yield from goals(calls, openings, ram, stack)
    yield ''
    yield (f'Code and constants of the archive: {number(total)} bytes, and no variables. It needs {", ".join(f"`{f}`" for f in needed)} '
           f'from the C library and the compiler\'s own. From the first store of a row to its last there are at most {row_cycles} cycles, and of a page {page_cycles}: '
           f'{row_cycles / MHZ:.1f} and {page_cycles / MHZ:.1f} microseconds.')
    yield ''
    yield '![Time of an opening over the rows of the log](openings.svg)'
    yield ''
    yield 'Openings:'
    yield ''
    yield from table(openings, GOAL_OPENING_MS)
    yield ''
    yield 'Calls, and a page redone alone:'
    yield ''
    yield from table(calls, GOAL_CALL_MS)


def main():
    level = os.environ.get('OPT') or LEVEL
    if level != LEVEL:
        print('\n'.join(figures(level)))
        return
    page = HERE / 'README.md'
    before, start, rest = page.read_text(encoding='utf-8').partition(START)
    _, end, after = rest.partition(END)
    if not start or not end:
        sys.exit(f'measure.py: {page.name} has not the two marks')
    page.write_text(before + START + '\n\n' + '\n'.join(figures(level)) + '\n\n' + END + after, encoding='utf-8')


if __name__ == '__main__':
    main()
