#!/usr/bin/env python3
"""check_ir.py MODULE.ll: refuses a module of LLVM, written for pointers of 8 bytes, that could mean something else with pointers of 4 bytes.

What is claimed of a module that is accepted
    Take a run of it that is defined with pointers of 8 bytes and uses no byte that was never stored, and lent objects of less than 2 GB. With pointers of 4 bytes,
    the same order of bytes and not one number of the text changed, it takes the same steps with the same numbers in its registers, and leaves the same bytes in
    the memory that it was lent.

Why the rules below are enough
    The size of a pointer comes into a run in two ways. An index is taken modulo 2^32: inside an object of less than 2 GB that is the same index. And a pointer
    takes 4 bytes of memory, not 8. Offsets, lengths and the sizes of arrays are numbers of the text and stay, so that a pointer lies where it lay, and the 4
    bytes behind it are not used; only a place made by `alloca ptr` becomes smaller. The two runs take the same steps if
      - a pointer is made, moved and used only by forms in which its size does not show: there is no conversion, comparison (but with null) or choice of pointers, no global, no
        indirect call (`form`, `outside`, `head`, `origin`), and no pointer is passed for a number or the other way round (`call`). A pointer is given back only
        as the first of a pair with a number of 64 bits, which in memory begins 8 bytes behind it on both machines, as the second of two numbers lies where it lay;
      - one function compares pointers, COPY_BITS, which copies n numbers from one address to another: it asks whether the second lies less than n bytes above
        the first. In one object the distance is the same in both runs, addresses of 4 bytes taken with zeros above; in two objects it never does, since the n bytes
        from the first on are of one. The function has to have the text that stands here, and where it copies no pointer may lie (`index`);
      - no function of the module has the name of one that the back end calls by itself, as `__aeabi_memmove` (`head`);
      - each byte of memory is used in one way, as a number's or as byte k of a pointer, whichever path leads to it (`bytes`). So no number is read from a
        pointer or from the 4 bytes behind it, and no pointer from a number. A copy goes byte by byte, has a length in numbers, and keeps that;
      - no pointer lies where the way to a byte is not known in numbers (`index`, `distance`);
      - a place made by `alloca ptr` is used as that one pointer and as nothing else (`place`);
      - no pointer lies in memory that the host lends, where the host's compiler has a layout of its own (`lent`);
      - the functions for C take and return what has one size in C on both machines (`exported`).

Rules for the processor
    x86-64 takes an address that is not aligned, and a Cortex-M0 faults: no access asks for more than a multiple of its own size (one that asks for
    less is made byte by byte), and in a place of the module, at a known offset, it has it (`alignment`). A unit has no guard page below its stack, and how deep that goes is measured, not proved: no function calls
    itself, and none takes more stack as it runs (`recursion`, `form`).

How it is decided
    A line that has none of the forms listed here is refused. A place is an alloca, what a parameter points to, or what a loaded pointer points to. Places that
    can be the same memory, since a pointer to the one is passed or kept for the other, are joined at a known distance, in whatever order the steps come; what
    is said of a byte then holds in all of them and, over copies, of the byte at the other end. A comparison is gone through anew for each of its calls, as if it
    stood there.

What is not claimed
    Anything of a run that is undefined with pointers of 8 bytes, as one that goes beyond an array; in an alloca, where the offset is known, that is refused
    (`beyond`). Anything of bytes that are read, or copied to lent memory, before anything is stored there. That an address is aligned in lent memory, or with an
    index in a register. That the text is well-formed: LLVM has to have taken it, as it has in build.sh. That LLVM is right.
"""
import math
import re
import sys
from collections import Counter, defaultdict
from dataclasses import dataclass, field

# ── What can be wrong ─────────────────────────────────────────────────────────────────────────────────────────────────

CLASSES = {
    'target': 'the module is not for the target that this check is about',
    'outside': 'outside functions, a line of no known form',
    'head': 'the head of a function, of no known form',
    'exported': 'a function for C with a type or an attribute that does not mean the same in C on both machines',
    'form': 'in a function, a line of no known form',
    'call': 'a call that does not go with the definition',
    'origin': 'a pointer whose place is not known here',
    'bytes': 'a byte that is used in two ways',
    'index': 'a pointer where an index in a register leads to',
    'distance': 'a pointer in a place that is joined with itself at another distance',
    'place': 'a place for a pointer that is used as something else',
    'lent': 'a pointer in memory that the host lends',
    'beyond': 'bytes beyond their place',
    'alignment': 'an address that is not aligned as the access says',
    'recursion': 'a function that calls itself',
}


@dataclass(frozen=True, order=True)
class Fault:
    line: int
    name: str  # of CLASSES
    what: str

    def __str__(self):
        return f'line {self.line}: {self.name}: {CLASSES[self.name]}: {self.what}'


# ── The forms ─────────────────────────────────────────────────────────────────────────────────────────────────────────

NUMBER = r'i(?:1|8|16|32|64)'
STORED = r'i8|i16|i32|i64|ptr'  # what lies in memory
REGISTER = r'%[\w.]+'
OPERAND = rf'(?:{REGISTER}|-?\d+|true|false)'
FUNCTION = r'@(?:"[^"\\]+::[^"\\]+"|chart_\w+)'  # of the crates, and for C: no function that a back end may call, as `__aeabi_memmove`, has such a name
LABEL = r'label[ ]%[\w.]+'

LAYOUT = 'target datalayout = "e-m:e-p270:32:32-p271:32:32-p272:64:64-i64:64-i128:128-f80:128-n8:16:32:64-S128"'
TRIPLE = 'target triple = "x86_64-unknown-linux-gnu"'
OUTSIDE = re.compile(
    r'''
    (?:;.*)?
    | source_filename\ =\ "rattle"
    | declare\ void\ @llvm\.memmove\.p0\.p0\.i64\(ptr\ writeonly\ captures\(none\),\ ptr\ readonly\ captures\(none\),\ i64,\ i1\ immarg\)\ \#[3-9]
    | declare\ void\ @llvm\.memset\.p0\.i64\(ptr\ writeonly\ captures\(none\),\ i8,\ i64,\ i1\ immarg\)\ \#[3-9]
    | declare\ void\ @llvm\.trap\(\)\ \#[3-9]
    | attributes\ \#[012]\ =\ {\ (?:alwaysinline\ |inlinehint\ )?nounwind\ "probe-stack"="inline-asm"\ "stack-probe-size"="3072"\ "target-cpu"="x86-64"\ }
    | attributes\ \#[3-9]\ =\ {\ cold\ noreturn\ nounwind\ memory\(inaccessiblemem:\ write\)\ }
    | attributes\ \#[3-9]\ =\ {\ nocallback\ nofree\ nounwind\ willreturn\ memory\(argmem:\ (?:readwrite|write)\)\ }
    | !llvm\.ident\ =\ !{!0}
    | !\d+\ =\ !{(?:!"rattle\ logic=[0-9a-f]+"|i8\ \d+,\ i8\ \d+)?}
    ''',
    re.X,
)

PAIR = r'{ (?:ptr, i64|(?:i8|i16|i32|i64), (?:i8|i16|i32|i64)) }'
HEAD = re.compile(rf'define (internal )?(?:(void)|(?:noundef )?(?:(zeroext) )?({NUMBER}|{PAIR})) ({FUNCTION})\((.*)\) #[012] {{')
PARAMETER = re.compile(rf'(ptr(?= noundef)|{NUMBER}) (?:noundef )?(?:(zeroext) )?({REGISTER})')

# Forms in which no pointer takes part.
NUMBERS_ONLY = re.compile(
    rf'''
    {REGISTER}\ =\ (?:(?:add|sub|mul|shl)(?:\ nuw)?(?:\ nsw)?|[us](?:div|rem)|[al]shr|and|or|xor|icmp\ (?:eq|ne|[us][lg][te]))\ {NUMBER}\ {OPERAND},\ {OPERAND}
    | {REGISTER}\ =\ (?:zext|sext|trunc(?:\ nuw)?(?:\ nsw)?)\ {NUMBER}\ {OPERAND}\ to\ {NUMBER}
    | br\ {LABEL} | br\ i1\ {OPERAND},\ {LABEL},\ {LABEL}
    | switch\ {NUMBER}\ {OPERAND},\ {LABEL}\ \[ | {NUMBER}\ -?\d+,\ {LABEL} | \]
    | ret\ void | ret\ {NUMBER}\ {OPERAND} | unreachable | call\ void\ @llvm\.trap\(\)
    ''',
    re.X,
)
BLOCK = re.compile(r'[\w.]+:(?: +; (?:preds = .*|No predecessors!))?')

ALLOCA = re.compile(rf'({REGISTER}) = alloca (?:\[(\d+) x i8\]|({STORED})), align ([1248])')
ADDRESS = re.compile(rf'({REGISTER}) = getelementptr (?:inbounds nuw )?i8, ptr ({REGISTER}), i64 (?:(\d+)|{REGISTER})')
LOAD = re.compile(rf'({REGISTER}) = load ({STORED}), ptr ({REGISTER}), align (\d+)(?:, !range !\d+)?(?:, !noundef !\d+)?')
STORE = re.compile(rf'store (?:ptr ({REGISTER})|(i8|i16|i32|i64) {OPERAND}), ptr ({REGISTER}), align (\d+)')
COPY = re.compile(rf'call void @llvm\.memmove\.p0\.p0\.i64\(ptr ({REGISTER}), ptr ({REGISTER}), i64 (\d+), i1 false\)')
FILL = re.compile(rf'call void @llvm\.memset\.p0\.i64\(ptr ({REGISTER}), i8 {OPERAND}, i64 (\d+), i1 false\)')
CALL = re.compile(rf'(?:({REGISTER}) = )?call (void|{NUMBER}|{PAIR}) (?!@llvm\.)({FUNCTION})\((.*)\)')
LOAD_PAIR = re.compile(rf'({REGISTER}) = load ({PAIR}), ptr ({REGISTER}), align (\d+)')
PART = re.compile(rf'({REGISTER}) = extractvalue ({PAIR}) ({REGISTER}), ([01])')
IS_NULL = re.compile(rf'{REGISTER} = icmp eq ptr ({REGISTER}), null')
GIVE_BACK = re.compile(rf'ret ({PAIR}) ({REGISTER})')
# A comparison. It is lent values by their addresses wherever they lie, in a struct and alone: so its places are not one for all of its calls.
COMPARISON = re.compile(r'@"[^"\\]+::\w*Partial(?:Eq|Ord)::\w+(?:::<[^"\\]*>)?"')
ARGUMENT = re.compile(rf'(?:(ptr) ({REGISTER})|({NUMBER}) {OPERAND})')

# `core::ptr::copy_drop::copy_bits` of bytes, by its lines: the one function that compares pointers, and copies as many bytes as a register says.
COPY_BITS = """
start:
  %r0 = alloca i64, align 8
  %r1 = alloca i8, align 1
  %r2 = alloca i64, align 8
  %r3 = alloca ptr, align 8
  %r4 = alloca i64, align 8
  %r5 = alloca ptr, align 8
  %r6 = alloca i8, align 1
  %r7 = mul i64 %a2, 1
  %r8 = ptrtoaddr ptr %a1 to i64
  %r9 = ptrtoaddr ptr %a0 to i64
  %r10 = sub i64 %r8, %r9
  %r11 = icmp ult i64 %r10, %r7
  br i1 %r11, label %inside.1, label %apart.2
apart.2:
  call void @llvm.memmove.p0.p0.i64(ptr %a1, ptr %a0, i64 %r7, i1 false)
  ret void
inside.1:
  store i64 0, ptr %r0, align 8
  br label %loop.4
loop.4:
  %r12 = load i64, ptr %r0, align 8, !noundef !
  %r13 = icmp ult i64 %r12, %a2
  %r14 = zext i1 %r13 to i8
  store i8 %r14, ptr %r1, align 1
  %r15 = load i8, ptr %r1, align 1, !range !, !noundef !
  %r16 = trunc i8 %r15 to i1
  br i1 %r16, label %then.5, label %else.6
then.5:
  br label %join.7
else.6:
  br label %after.3
join.7:
  %r17 = load i64, ptr %r0, align 8, !noundef !
  %r18 = mul i64 %r17, 1
  store i64 %r18, ptr %r2, align 8
  %r19 = load i64, ptr %r2, align 8, !noundef !
  %r20 = getelementptr inbounds nuw i8, ptr %a1, i64 %r19
  store ptr %r20, ptr %r3, align 8
  %r21 = load i64, ptr %r0, align 8, !noundef !
  %r22 = mul i64 %r21, 1
  store i64 %r22, ptr %r4, align 8
  %r23 = load i64, ptr %r4, align 8, !noundef !
  %r24 = getelementptr inbounds nuw i8, ptr %a0, i64 %r23
  store ptr %r24, ptr %r5, align 8
  %r25 = load ptr, ptr %r5, align 8, !noundef !
  %r26 = load i8, ptr %r25, align 1, !noundef !
  store i8 %r26, ptr %r6, align 1
  %r27 = load i8, ptr %r6, align 1, !noundef !
  %r28 = load ptr, ptr %r3, align 8, !noundef !
  store i8 %r27, ptr %r28, align 1
  br label %after.8
after.8:
  %r29 = load i64, ptr %r0, align 8, !noundef !
  %r30 = add i64 %r29, 1
  store i64 %r30, ptr %r0, align 8
  br label %loop.4
after.3:
  ret void
"""

BYTES = {'i8': 1, 'i16': 2, 'i32': 4, 'i64': 8, 'ptr': 8}
LENGTH_LIMIT = 2**20  # no place is longer: offsets and lengths of 32 bits are far above it


# ── Reading ───────────────────────────────────────────────────────────────────────────────────────────────────────────


@dataclass
class Function:
    name: str
    line: int
    exported: bool
    result: str
    parameters: list  # (type, register)
    body: list = field(default_factory=list)  # (line, text)


def is_copy_bits(function):
    """Whether the function has the text of COPY_BITS, but for comments and the numbers of what LLVM is told of loaded values, and its parameters."""
    lines = [re.sub(r' +; preds = .*|(?<=!)\d+', '', text).rstrip() for _, text in function.body if text.strip()]
    return lines == COPY_BITS.strip().split('\n') and function.parameters == [('ptr', '%a0'), ('ptr', '%a1'), ('i64', '%a2')] and function.result == 'void' and not function.exported


def read_head(line, text, faults):
    """The function that a head begins. Where the head has no known form its body is kept apart, and is not looked at."""
    head = HEAD.fullmatch(text)
    words = [word for word in head[6].split(', ') if word] if head else []
    parameters = [PARAMETER.fullmatch(word) for word in words]
    if not head or not all(parameters):
        faults.append(Fault(line, 'head', text))
        return Function(text, line, False, 'void', [])
    function = Function(head[5], line, not head[1], head[2] or head[4], [(p[1], p[3]) for p in parameters])
    narrow = [head[3]] + [p[2] for p in parameters]
    if function.exported and (function.result != 'i64' or any(narrow) or any(t == 'i1' for t, _ in function.parameters)):
        faults.append(Fault(line, 'exported', text))
    return function


def read_module(text, faults):
    """The functions. Lines outside them are looked at here."""
    functions, inside = [], None
    targets = Counter()
    for line, words in enumerate(text.split('\n'), 1):
        if inside is not None:
            if words == '}':
                inside = None
            else:
                inside.body.append((line, words))
        elif words.startswith('define '):
            inside = read_head(line, words, faults)
            functions.append(inside)
        elif words in (LAYOUT, TRIPLE):
            targets[words] += 1
        elif words.startswith('target '):
            faults.append(Fault(line, 'target', words))
        elif not OUTSIDE.fullmatch(words):
            faults.append(Fault(line, 'outside', words))
    for words in (LAYOUT, TRIPLE):
        if targets[words] != 1:
            faults.append(Fault(1, 'target', f'{targets[words]} lines, and not one, are: {words}'))
    if inside is not None:
        faults.append(Fault(inside.line, 'head', f'no end of {inside.name}'))
    return functions


# ── Places ────────────────────────────────────────────────────────────────────────────────────────────────────────────

NUMBERS = 'a number'  # how a byte is used; byte k of a pointer is used as k


@dataclass(frozen=True)
class Made:
    """An alloca."""

    is_pointer: bool
    length: int
    alignment: int
    line: int


@dataclass(frozen=True)
class Touch:
    """Bytes that are loaded, stored, copied or filled."""

    kind: str  # a type, or 'bytes'
    length: int
    alignment: int
    line: int


def use_text(use):
    return use if use == NUMBERS else f'byte {use} of a pointer'


class Places:
    """What is known of each place, kept with the one that stands for all that are joined. An address is a place with an offset; the offset is None where an index
    in a register leads to it."""

    def __init__(self, faults):
        self.faults = faults
        self.above = {}  # place -> (place that it is joined with, distance)
        self.uses = defaultdict(dict)  # place -> {offset: (use, line)}
        self.leads = defaultdict(dict)  # place -> {offset of a pointer: address that it leads to}
        self.numbers_only = defaultdict(set)  # place -> {(name of the class of faults, line)}: why no pointer may lie there
        self.made = defaultdict(list)  # place -> [(offset, Made)]: its allocas
        self.touched = defaultdict(list)  # place -> [(offset, Touch)]: accesses, and the ends of copies and fills
        self.steps = Counter()  # place -> the offsets are known but for multiples of this number; 0: they are known
        self.changes = 0

    def find(self, address):
        """The address in the place that stands for all that are joined with this one."""
        place, offset = address
        while place in self.above:
            place, distance = self.above[place]
            offset = None if offset is None else offset + distance
        return place, offset

    def use(self, address, use, line):
        place, offset = self.find(address)
        found = self.uses[place].get(offset)
        if found is None:
            self.uses[place][offset] = (use, line)
            self.changes += 1
        elif found[0] != use:
            self.faults.append(Fault(line, 'bytes', f'{use_text(use)}, and in line {found[1]} {use_text(found[0])}'))

    def lead(self, address, target, line):
        """The pointer at this address leads to the target."""
        place, offset = self.find(address)
        if offset in self.leads[place]:
            self.join(self.leads[place][offset], target, line)
        else:
            self.leads[place][offset] = target
            self.changes += 1

    def forbid_pointers(self, address, why, line):
        self.numbers_only[self.find(address)[0]].add((why, line))

    def join(self, one, other, line):
        """The two addresses can be one and the same."""
        waiting = [(one, other)]
        while waiting:
            (a, i), (b, j) = (self.find(address) for address in waiting.pop())
            if a == b:
                if i != j:
                    self.forbid_pointers((a, i), 'distance', line)
                    self.steps[a] = math.gcd(self.steps[a], i - j)
                continue
            distance = j - i
            self.above[a] = (b, distance)
            self.changes += 1
            for offset, (use, at) in self.uses.pop(a, {}).items():
                self.use((b, offset + distance), use, at)
            for offset, target in self.leads.pop(a, {}).items():
                if offset + distance in self.leads[b]:
                    waiting.append((self.leads[b][offset + distance], target))
                else:
                    self.leads[b][offset + distance] = target
            self.numbers_only[b] |= self.numbers_only.pop(a, set())
            self.made[b] += [(offset + distance, made) for offset, made in self.made.pop(a, [])]
            self.touched[b] += [(None if offset is None else offset + distance, touch) for offset, touch in self.touched.pop(a, [])]
            self.steps[b] = math.gcd(self.steps[b], self.steps.pop(a, 0))

    def join_somewhere(self, one, other, line):
        """The second address lies somewhere in the place of the first: no pointer may lie in either."""
        self.forbid_pointers(one, 'index', line)
        self.forbid_pointers(other, 'index', line)

    def access(self, address, kind, alignment, line):
        """A number or a pointer is loaded from here or stored here."""
        place, offset = self.find(address)
        self.touched[place].append((offset, Touch(kind, BYTES[kind], alignment, line)))
        if offset is None:
            self.forbid_pointers(address, 'index', line)
            if kind == 'ptr':
                self.faults.append(Fault(line, 'index', 'loaded or stored there'))
            return
        for k in range(BYTES[kind]):
            self.use((place, offset + k), k if kind == 'ptr' else NUMBERS, line)

    def touch(self, address, length, line):
        """Bytes from here on are copied or filled."""
        place, offset = self.find(address)
        self.touched[place].append((offset, Touch('bytes', length, 1, line)))
        if offset is None:
            self.forbid_pointers(address, 'index', line)

    def copy(self, target, source, length, line):
        """What the bytes of the source are used as, those of the target are used as, and the other way round."""
        (a, i), (b, j) = self.find(target), self.find(source)
        if i is None or j is None:
            self.join_somewhere((a, i), (b, j), line)
            return
        for k in range(length):
            here, there = self.uses[a].get(i + k), self.uses[b].get(j + k)
            if here != there:
                if here is None or (there is not None and here[0] != there[0]):
                    self.use((a, i + k), there[0], line)
                elif there is None:
                    self.use((b, j + k), here[0], line)
        for k in range(length):
            here, there = self.leads[a].get(i + k), self.leads[b].get(j + k)
            if here is not None and there is not None:
                if self.find(here) != self.find(there):
                    self.join(here, there, line)
            elif here is not None:
                self.lead((b, j + k), here, line)
            elif there is not None:
                self.lead((a, i + k), there, line)


# ── The lines of a function ───────────────────────────────────────────────────────────────────────────────────────────


class Reader:
    """Goes through the functions line by line, and has Places know what each line does."""

    def __init__(self, functions, places, faults):
        self.functions = {function.name: function for function in functions}
        self.places = places
        self.faults = faults
        self.copies = []  # (target, source, length, line)
        self.calls = defaultdict(dict)  # caller -> {callee: line}
        self.counts = Counter()
        self.forms = (
            (ALLOCA, self.make),
            (ADDRESS, self.step),
            (LOAD, self.load),
            (STORE, self.store),
            (COPY, self.copy),
            (FILL, self.fill),
            (CALL, self.call),
            (LOAD_PAIR, self.load_pair),
            (PART, self.part),
            (GIVE_BACK, self.give_back),
            (IS_NULL, self.is_null),
        )

    def read(self, function):
        self.function = function
        self.blocks = 0 if function.body and BLOCK.fullmatch(function.body[0][1]) else 1  # the first block may have no label
        self.pointers = {}  # register -> address
        self.pairs = {}  # register -> address of the pointer that is the first of the pair
        for k, (kind, register) in enumerate(function.parameters):
            if kind == 'ptr':
                self.pointers[register] = (('parameter', function.name, k), 0)
                if function.exported:
                    self.places.forbid_pointers(self.pointers[register], 'lent', function.line)
        if is_copy_bits(function):
            self.counts['functions that compare pointers'] += 1
            for register in ('%a0', '%a1'):
                place, _ = self.pointers[register]
                self.places.access((place, None), 'i8', 1, function.line)
            return
        for line, text in function.body:
            self.read_line(line, text)

    def read_line(self, line, text):
        words = text.strip()
        if not words:
            return
        if BLOCK.fullmatch(words):
            self.blocks += 1
            return
        if NUMBERS_ONLY.fullmatch(words):
            self.counts['lines without a pointer'] += 1
            return
        for form, action in self.forms:
            if found := form.fullmatch(words):
                action(found, line)
                return
        self.faults.append(Fault(line, 'form', words))

    def address(self, register, line):
        if register in self.pointers:
            return self.pointers[register]
        self.faults.append(Fault(line, 'origin', register))
        return (('unknown', self.function.name, line, register), 0)

    def make(self, found, line):
        register, length, kind, alignment = found.groups()
        if self.blocks > 1:
            self.faults.append(Fault(line, 'form', f'an alloca beyond the first block: {found[0]}'))
        size = BYTES[kind] if kind else int(length)
        if size >= LENGTH_LIMIT:
            self.faults.append(Fault(line, 'form', f'a length of no place: {found[0]}'))
        self.counts['places'] += 1
        place = ('alloca', self.function.name, register)
        self.places.made[place].append((0, Made(kind == 'ptr', size, int(alignment), line)))
        self.pointers[register] = (place, 0)

    def step(self, found, line):
        register, base, distance = found.groups()
        place, offset = self.address(base, line)
        if distance is None:
            self.counts['indices in a register'] += 1
            self.pointers[register] = (place, None)
            return
        if int(distance) >= LENGTH_LIMIT:
            self.faults.append(Fault(line, 'form', f'an offset of no place: {found[0]}'))
        self.pointers[register] = (place, None if offset is None else offset + int(distance))

    def load(self, found, line):
        register, kind, pointer, alignment = found.groups()
        address = self.address(pointer, line)
        self.places.access(address, kind, int(alignment), line)
        self.check_natural(kind, alignment, line)
        if kind == 'ptr':
            self.counts['pointers loaded and stored'] += 1
            self.pointers[register] = (('loaded', self.function.name, register), 0)
            if address[1] is not None:
                self.places.lead(address, self.pointers[register], line)

    def load_pair(self, found, line):
        """The second of a pair lies at the first multiple of its size behind the first: behind a pointer a number of 64 bits is 8 bytes from its start, with pointers of 4 bytes too."""
        register, kind, pointer, alignment = found.groups()
        first, second = kind.strip('{ }').split(', ')
        place, offset = self.address(pointer, line)
        behind = -(-BYTES[first] // BYTES[second]) * BYTES[second]
        self.places.access((place, offset), first, min(int(alignment), BYTES[first]), line)
        self.places.access((place, None if offset is None else offset + behind), second, min(int(alignment), BYTES[second]), line)
        self.check_natural(max(first, second, key=BYTES.get), alignment, line)
        self.pairs[register] = kind, (('loaded', self.function.name, register), 0)
        if first == 'ptr':
            self.counts['pointers loaded and stored'] += 1
            if offset is not None:
                self.places.lead((place, offset), self.pairs[register][1], line)

    def part(self, found, line):
        register, kind, pair, number = found.groups()
        if self.pairs.get(pair, ('',))[0] != kind:
            self.faults.append(Fault(line, 'origin', pair))
        elif number == '0' and kind.startswith('{ ptr'):
            self.pointers[register] = self.pairs[pair][1]

    def give_back(self, found, line):
        kind, pair = found.groups()
        if self.pairs.get(pair, ('',))[0] != kind or self.function.result != kind:
            self.faults.append(Fault(line, 'origin', pair))
        elif kind.startswith('{ ptr'):
            self.counts['pointers given back'] += 1
            self.places.join(self.pairs[pair][1], (('result', self.function.name), 0), line)

    def is_null(self, found, line):
        self.counts['comparisons with null'] += 1
        self.address(found[1], line)

    def store(self, found, line):
        stored, number, pointer, alignment = found.groups()
        address = self.address(pointer, line)
        self.places.access(address, number or 'ptr', int(alignment), line)
        self.check_natural(number or 'ptr', alignment, line)
        if stored:
            self.counts['pointers loaded and stored'] += 1
            target = self.address(stored, line)
            if address[1] is not None:
                self.places.lead(address, self.start(target, ('stored', self.function.name, line), line), line)

    def check_natural(self, kind, alignment, line):
        if int(alignment) not in (1, 2, 4, 8) or int(alignment) > BYTES[kind]:
            self.faults.append(Fault(line, 'alignment', f'{kind} at multiples of {alignment}'))

    def start(self, address, name, line):
        """The address itself; or, where an index in a register leads to it, a place of this name that begins there."""
        if address[1] is not None:
            return address
        self.places.join_somewhere(address, (name, 0), line)
        return (name, 0)

    def copy(self, found, line):
        target, source, length = self.address(found[1], line), self.address(found[2], line), int(found[3])
        if length >= LENGTH_LIMIT:
            self.faults.append(Fault(line, 'form', f'a length of no place: {found[0]}'))
            return
        self.places.touch(target, length, line)
        self.places.touch(source, length, line)
        self.copies.append((target, source, length, line))

    def fill(self, found, line):
        address, length = self.address(found[1], line), int(found[2])
        if length >= LENGTH_LIMIT:
            self.faults.append(Fault(line, 'form', f'a length of no place: {found[0]}'))
            return
        self.places.touch(address, length, line)

    def call(self, found, line):
        register, result, name, words = found.groups()
        arguments = [ARGUMENT.fullmatch(word) for word in words.split(', ')] if words else []
        if not all(arguments):
            self.faults.append(Fault(line, 'form', found[0]))
            return
        callee = self.functions.get(name)
        if callee is None or (callee.result, [kind for kind, _ in callee.parameters]) != (result, [a[1] or a[3] for a in arguments]):
            self.faults.append(Fault(line, 'call', found[0]))
            return
        self.calls[self.function.name].setdefault(name, line)
        if COMPARISON.fullmatch(name) and name not in self.reading():
            name = self.read_here(callee, line)
        if result.startswith('{'):
            self.pairs[register] = result, (('result', name), 0)
        for k, argument in enumerate(arguments):
            if argument[1]:
                address = self.start(self.address(argument[2], line), ('passed', self.function.name, line, k), line)
                self.places.join(address, (('parameter', name, k), 0), line)

    def reading(self):
        """The function that is read and, where it stands at a call, those around it. One that calls itself is not read anew: it is found by its calls."""
        return re.split(r', called in line \d+ of ', self.function.name)

    def read_here(self, callee, line):
        """Reads a function as if it stood at the call, with places of its own. Gives the name under which these are known."""
        name = f'{callee.name}, called in line {line} of {self.function.name}'
        outer = self.function, self.blocks, self.pointers, self.pairs
        self.read(Function(name, callee.line, False, callee.result, callee.parameters, callee.body))
        self.function, self.blocks, self.pointers, self.pairs = outer
        return name


# ── What must hold of all places, and of all calls ────────────────────────────────────────────────────────────────────


def follow_copies(places, copies):
    """Until no copy says anything new."""
    before = -1
    while before != places.changes:
        before = places.changes
        for target, source, length, line in copies:
            places.copy(target, source, length, line)


def check_numbers_only(places, faults):
    for place, reasons in places.numbers_only.items():
        at = sorted(line for use, line in places.uses[place].values() if use != NUMBERS)
        for name, line in reasons if at else ():
            faults.append(Fault(line, name, f'the pointer of line {at[0]}'))


def made_and_touched(places):
    """Each alloca with each touch that can be one of it, and the offset of the touch in it: None where it is not known."""
    for place, allocas in places.made.items():
        for start, made in allocas:
            for offset, touch in places.touched[place]:
                yield made, touch, None if offset is None else offset - start, places.steps[place]


def check_pointer_places(places, faults):
    """Of a place made by `alloca ptr` nothing is touched but the pointer itself."""
    for made, touch, offset, _ in made_and_touched(places):
        if made.is_pointer and (touch.kind, offset) != ('ptr', 0):
            faults.append(Fault(touch.line, 'place', f'the place of line {made.line}'))
    for place, allocas in places.made.items():
        for _, line in places.numbers_only[place]:
            for _, made in allocas:
                if made.is_pointer:
                    faults.append(Fault(line, 'place', f'the place of line {made.line}'))


def check_bounds(places, faults):
    for made, touch, offset, step in made_and_touched(places):
        if offset is not None and not step and not 0 <= offset <= made.length - touch.length:
            faults.append(Fault(touch.line, 'beyond', f'bytes {offset} to {offset + touch.length - 1} of the place of line {made.line}'))


def check_alignment(places, faults):
    for made, touch, offset, step in made_and_touched(places):
        if touch.alignment > made.alignment or (offset is not None and (offset % touch.alignment or step % touch.alignment)):
            faults.append(Fault(touch.line, 'alignment', f'a multiple of {touch.alignment} in the place of line {made.line}'))


def check_recursion(calls, faults):
    done, path = set(), []

    def visit(name):
        path.append(name)
        for callee, line in calls.get(name, {}).items():
            if callee in path:
                faults.append(Fault(line, 'recursion', ' calls '.join(path[path.index(callee) :] + [callee])))
            elif callee not in done:
                visit(callee)
        done.add(path.pop())

    for name in list(calls):
        if name not in done:
            visit(name)


def check(text):
    """The faults of a module, in the order of its lines, and what was counted. Where a step finds a fault, the steps after it, which rest on it, are not made."""
    faults = []
    places = Places(faults)
    functions = read_module(text, faults)
    reader = Reader(functions, places, faults)
    if not faults:
        for function in functions:
            reader.read(function)
    if not faults:
        follow_copies(places, reader.copies)
        check_numbers_only(places, faults)
        check_pointer_places(places, faults)
        check_bounds(places, faults)
        check_alignment(places, faults)
        check_recursion(reader.calls, faults)
    counts = reader.counts
    counts['functions'] = len(functions)
    counts['functions for C'] = sum(function.exported for function in functions)
    counts['copies'] = len(reader.copies)
    return sorted(set(faults)), counts


def main(words):
    if len(words) != 1:
        print(__doc__, file=sys.stderr)
        return 2
    with open(words[0], encoding='utf-8') as file:
        faults, counts = check(file.read())
    for fault in faults:
        print(f'check_ir.py: {fault}', file=sys.stderr)
    if faults:
        print(f'check_ir.py: {words[0]} is refused', file=sys.stderr)
        return 1
    print('check_ir.py: the meaning does not depend on the size of a pointer: ' + ', '.join(f'{n} {name}' for name, n in sorted(counts.items())))
    return 0


if __name__ == '__main__':
    sys.exit(main(sys.argv[1:]))
