#!/usr/bin/env python3
"""test_check_ir.py [MODULE.ll]: faults of every class that check_ir.py claims to find, each seeded alone, are refused by a message of that class.

They are seeded in a small module, and, by patterns, in the module itself (target/unit/module.ll); both are accepted without them. It prints a line for each class, with the number of its faults; the
exit status is 1 when one was not found, or was found only as another."""
import pathlib
import re
import sys
from collections import Counter
from dataclasses import dataclass

import check_ir

ROOT = pathlib.Path(__file__).resolve().parents[2]

SMALL = f'''{check_ir.LAYOUT}
{check_ir.TRIPLE}

define internal void @"m::keep"(ptr noundef %a0, ptr noundef %a1) #0 {{
start:
  store ptr %a1, ptr %a0, align 8
  ret void
}}

define internal void @"m::clear"(ptr noundef %a0) #0 {{
start:
  store i64 0, ptr %a0, align 8
  ret void
}}

define internal void @"m::follow"(ptr noundef %a0) #0 {{
start:
  %p = load ptr, ptr %a0, align 8
  %n = load i64, ptr %p, align 8
  ret void
}}

define internal noundef i64 @"m::inner"(ptr noundef %a0, i64 noundef %a1) #0 {{
start:
  %pair = alloca [16 x i8], align 8
  %other = alloca [16 x i8], align 8
  %third = alloca [24 x i8], align 8
  %one = alloca ptr, align 8
  %numbers = alloca [32 x i8], align 8
  %halves = alloca [8 x i8], align 4
  %lent = alloca [8 x i8], align 8
  store ptr %a0, ptr %pair, align 8
  %length = getelementptr i8, ptr %pair, i64 8
  store i64 %a1, ptr %length, align 8
  call void @llvm.memmove.p0.p0.i64(ptr %other, ptr %pair, i64 16, i1 false)
  call void @"m::keep"(ptr %one, ptr %a0)
  call void @"m::clear"(ptr %numbers)
  br label %next

next:                                             ; preds = %start
  %given = call {{ ptr, i64 }} @"m::lend"(ptr %lent, i64 %a1, i32 1)
  %back = extractvalue {{ ptr, i64 }} %given, 0
  %long = extractvalue {{ ptr, i64 }} %given, 1
  store i64 %long, ptr %back, align 1
  %same = call i1 @"m::PartialEq::eq"(ptr %length, ptr %numbers)
  %other_than = call i1 @"m::PartialEq::ne"(ptr %lent, ptr %numbers)
  %named = call {{ ptr, i64 }} @"m::PartialEq::lend"(ptr %numbers, i64 %a1)
  call void @"m::never"(i1 %same)
  %none = icmp eq ptr %a0, null
  call void @"m::copy_bits"(ptr %lent, ptr %a0, i64 %long)
  %r0 = load ptr, ptr %one, align 8, !noundef !1
  %r1 = getelementptr inbounds nuw i8, ptr %r0, i64 %a1
  %r2 = load i8, ptr %r1, align 1, !range !2, !noundef !1
  %r3 = zext i8 %r2 to i64
  ret i64 %r3
}}

define internal void @"m::follow_too"(ptr noundef %a0) #0 {{
start:
  %p = load ptr, ptr %a0, align 8
  %n = load i64, ptr %p, align 8
  ret void
}}

define noundef i64 @chart_outer(ptr noundef %a0, i64 noundef %a1) #0 {{
start:
  %r0 = call i64 @"m::inner"(ptr %a0, i64 %a1)
  ret i64 %r0
}}

define internal noundef {{ ptr, i64 }} @"m::lend"(ptr noundef %a0, i64 noundef %a1, i32 %a2) #0 {{
start:
  %slice = alloca [16 x i8], align 8
  store ptr %a0, ptr %slice, align 8
  %length = getelementptr i8, ptr %slice, i64 8
  store i64 %a1, ptr %length, align 8
  %r0 = load {{ ptr, i64 }}, ptr %slice, align 8
  ret {{ ptr, i64 }} %r0
}}

define internal noundef i1 @"m::PartialEq::eq"(ptr noundef %a0, ptr noundef %a1) #0 {{
start:
  %r0 = load i64, ptr %a0, align 8
  %r1 = load i64, ptr %a1, align 8
  %r2 = icmp eq i64 %r0, %r1
  ret i1 %r2
}}

define internal noundef i1 @"m::PartialEq::ne"(ptr noundef %a0, ptr noundef %a1) #2 {{
start:
  %r0 = call i1 @"m::PartialEq::eq"(ptr %a0, ptr %a1)
  %r1 = xor i1 %r0, true
  ret i1 %r1
}}

define internal noundef {{ ptr, i64 }} @"m::PartialEq::lend"(ptr noundef %a0, i64 noundef %a1) #0 {{
start:
  %slice = alloca [16 x i8], align 8
  store ptr %a0, ptr %slice, align 8
  %length = getelementptr i8, ptr %slice, i64 8
  store i64 %a1, ptr %length, align 8
  %r0 = load {{ ptr, i64 }}, ptr %slice, align 8
  ret {{ ptr, i64 }} %r0
}}

define internal void @"m::never"(i1 noundef %a0) #1 {{
start:
  br i1 %a0, label %fine, label %wrong

fine:                                             ; preds = %start
  ret void

wrong:                                            ; preds = %start
  call void @llvm.trap()
  unreachable
}}

define internal void @"m::copy_bits"(ptr noundef %a0, ptr noundef %a1, i64 noundef %a2) #0 {{
{check_ir.COPY_BITS.strip().replace('!range !', '!range !2').replace('!noundef !', '!noundef !1')}
}}

declare void @llvm.memmove.p0.p0.i64(ptr writeonly captures(none), ptr readonly captures(none), i64, i1 immarg) #3

declare void @llvm.memset.p0.i64(ptr writeonly captures(none), i8, i64, i1 immarg) #4

declare void @llvm.trap() #5

attributes #0 = {{ nounwind "probe-stack"="inline-asm" "stack-probe-size"="3072" "target-cpu"="x86-64" }}
attributes #1 = {{ alwaysinline nounwind "probe-stack"="inline-asm" "stack-probe-size"="3072" "target-cpu"="x86-64" }}
attributes #2 = {{ inlinehint nounwind "probe-stack"="inline-asm" "stack-probe-size"="3072" "target-cpu"="x86-64" }}
attributes #3 = {{ nocallback nofree nounwind willreturn memory(argmem: readwrite) }}
attributes #4 = {{ nocallback nofree nounwind willreturn memory(argmem: write) }}
attributes #5 = {{ cold noreturn nounwind memory(inaccessiblemem: write) }}

!1 = !{{}}
!2 = !{{i8 0, i8 2}}
'''

MEMMOVE = 'call void @llvm.memmove.p0.p0.i64'
MEMSET = 'call void @llvm.memset.p0.i64'

# ── Lines that stand at the end of the first block of @"m::inner" ──────────────────────────────────────────────────────────

INSERTED = {
    'form': [
        '%x = ptrtoint ptr %a0 to i64',
        '%x = inttoptr i64 %a1 to ptr',
        '%x = ptrtoaddr ptr %a0 to i64',
        '%x = addrspacecast ptr %a0 to ptr addrspace(1)',
        '%x = bitcast ptr %a0 to ptr',
        '%x = icmp eq ptr %a0, %pair',
        '%x = icmp ne ptr %a0, null',
        '%x = icmp ult ptr %a0, null',
        '%x = load { i64, ptr }, ptr %pair, align 8',
        '%x = load { ptr, i32 }, ptr %pair, align 8',
        '%x = load { ptr, ptr }, ptr %pair, align 8',
        '%x = load { ptr, i64 }, ptr %pair, align 8\nstore { ptr, i64 } %x, ptr %third, align 8',
        '%x = load { ptr, i64 }, ptr %pair, align 8\n%y = extractvalue { ptr, i64 } %x, 2',
        '%x = load { ptr, i64 }, ptr %pair, align 8\n%y = insertvalue { ptr, i64 } %x, i64 0, 1',
        '%x = select i1 true, ptr %a0, ptr %pair',
        '%x = freeze ptr %a0',
        '%x = load volatile i64, ptr %numbers, align 8',
        '%x = load atomic i64, ptr %numbers seq_cst, align 8',
        'store volatile i64 0, ptr %numbers, align 8',
        'store atomic i64 0, ptr %numbers release, align 8',
        '%x = atomicrmw add ptr %numbers, i64 1 seq_cst, align 8',
        '%x = cmpxchg ptr %numbers, i64 0, i64 1 seq_cst seq_cst, align 8',
        'fence seq_cst',
        'store ptr null, ptr %pair, align 8',
        'store ptr @"m::keep", ptr %pair, align 8',
        'store i64 undef, ptr %numbers, align 8',
        'store i64 poison, ptr %numbers, align 8',
        'store i64 ptrtoint (ptr @"m::keep" to i64), ptr %numbers, align 8',
        'store i64 0, ptr getelementptr (i8, ptr null, i64 8), align 8',
        'store i128 0, ptr %numbers, align 8',
        'store i24 0, ptr %numbers, align 4',
        'store i1 false, ptr %numbers, align 1',
        'store double 0.0, ptr %numbers, align 8',
        'store <2 x i32> zeroinitializer, ptr %numbers, align 8',
        'store { ptr, i64 } zeroinitializer, ptr %pair, align 8',
        '%x = load i128, ptr %numbers, align 8',
        '%x = load i24, ptr %numbers, align 4',
        '%x = load float, ptr %numbers, align 4',
        '%x = load <2 x ptr>, ptr %pair, align 8',
        '%x = load [2 x ptr], ptr %pair, align 8',
        '%x = load ptr, ptr %pair, align 8, !dereferenceable !3',
        '%x = load ptr, ptr %pair, align 8, !align !3',
        '%x = load ptr, ptr %pair, align 8, !nonnull !1',
        '%x = load i64, ptr %numbers, align 8, !tbaa !3',
        '%x = alloca i128, align 8',
        '%x = alloca [2 x ptr], align 8',
        '%x = alloca { ptr, i64 }, align 8',
        '%x = alloca [16 x i8], align 16',
        '%x = alloca [4294967304 x i8], align 8',
        '%x = alloca i8, i64 %a1, align 1',
        '%x = alloca inalloca i64, align 8',
        '%x = getelementptr ptr, ptr %pair, i64 1',
        '%x = getelementptr { ptr, i64 }, ptr %pair, i64 0, i32 1',
        '%x = getelementptr [16 x i8], ptr %pair, i64 1',
        '%x = getelementptr i8, ptr %length, i64 -8',
        '%x = getelementptr i8, ptr %pair, i32 8',
        '%x = getelementptr inbounds i8, ptr %pair, i64 8',
        '%x = getelementptr i8, ptr %pair, i64 2147483648',
        '%x = getelementptr i8, ptr %pair, i64 4294967304',
        f'{MEMMOVE}(ptr %numbers, ptr %halves, i64 %a1, i1 false)',
        f'{MEMMOVE}(ptr %numbers, ptr %halves, i64 8, i1 true)',
        f'{MEMMOVE}(ptr align 8 %numbers, ptr %halves, i64 8, i1 false)',
        f'{MEMMOVE}(ptr %numbers, ptr %halves, i64 4294967304, i1 false)',
        f'{MEMSET}(ptr %numbers, i8 0, i64 %a1, i1 false)',
        f'{MEMSET}(ptr %a0, i8 0, i64 4294967296, i1 false)',
        'call void @llvm.memcpy.p0.p0.i64(ptr %numbers, ptr %halves, i64 8, i1 false)',
        'call void @llvm.lifetime.start.p0(ptr %numbers)',
        '%x = call ptr @llvm.stacksave.p0()',
        'call void %a0(ptr %pair)',
        'call void asm sideeffect "nop", ""()',
        'call void @"m::keep"(ptr byval([8 x i8]) %pair, ptr %a0)',
        'call void @"m::keep"(ptr null, ptr %a0)',
        'call void (...) @"m::keep"(ptr %pair, ptr %a0)',
        'call fastcc void @"m::keep"(ptr %pair, ptr %a0)',
        'tail call void @"m::keep"(ptr %pair, ptr %a0)',
        'call void @"m::keep"(ptr %pair, ptr %a0) #1',
        'call void @"m::keep"(ptr %pair, ptr %a0) [ "deopt"() ]',
        '%x = call ptr @"m::keep"(ptr %pair, ptr %a0)',
        '%x = call i64 @"m::inner"(ptr %a0, i64 undef)',
        'invoke void @"m::keep"(ptr %pair, ptr %a0) to label %next unwind label %next',
        '%x = extractvalue { ptr, i64 } zeroinitializer, 0',
        '%x = insertvalue { ptr, i64 } zeroinitializer, ptr %a0, 0',
        '%x = extractelement <2 x i32> zeroinitializer, i32 0',
        '%x = va_arg ptr %pair, i64',
        '%x = add i128 1, 2',
        '%x = add <2 x i32> zeroinitializer, zeroinitializer',
        '%x = add i64 undef, 1',
        '%x = fadd double 0.0, 0.0',
        '%x = uitofp i64 %a1 to double',
        '%x = zext i64 %a1 to i128',
        '%x = trunc <2 x i64> zeroinitializer to <2 x i32>',
        'indirectbr ptr %a0, [label %next]',
        'ret ptr %a0',
        'an instruction of tomorrow',
    ],
    'call': [
        'call void @"m::keep"(ptr %pair, i64 %a1)',
        'call void @"m::keep"(i64 %a1, ptr %a0)',
        '%x = call i64 @"m::inner"(ptr %a0, ptr %pair)',
        'call void @"m::keep"(ptr %pair)',
        'call void @"m::keep"(ptr %pair, ptr %a0, ptr %a0)',
        '%x = call i64 @"m::keep"(ptr %pair, ptr %a0)',
        'call void @"m::nowhere"(ptr %pair)',
        '%x = call i1 @"m::PartialEq::eq"(ptr %pair, i64 %a1)',
        '%x = call i64 @"m::PartialEq::eq"(ptr %pair, ptr %pair)',
    ],
    'origin': [
        'store i64 0, ptr %later, align 8',
        'store ptr %later, ptr %pair, align 8',
        'call void @"m::keep"(ptr %pair, ptr %later)',
        f'{MEMMOVE}(ptr %pair, ptr %later, i64 8, i1 false)',
        f'{MEMSET}(ptr %later, i8 0, i64 8, i1 false)',
        '%x = getelementptr i8, ptr %later, i64 8',
        '%x = load ptr, ptr %later, align 8',
        '%x = extractvalue { ptr, i64 } %later, 0',
        '%x = load { ptr, i64 }, ptr %pair, align 8\nret { ptr, i64 } %x',
        'ret { ptr, i64 } %later',
    ],
    'bytes': [
        '%x = load i64, ptr %pair, align 8',
        '%x = load i32, ptr %pair, align 4',
        '%x = getelementptr i8, ptr %pair, i64 4\n%y = load i32, ptr %x, align 4',
        '%x = getelementptr i8, ptr %pair, i64 7\n%y = load i8, ptr %x, align 1',
        '%x = getelementptr i8, ptr %pair, i64 4\nstore i16 1, ptr %x, align 2',
        '%x = load ptr, ptr %length, align 8',
        'store ptr %a0, ptr %numbers, align 8\n',
        # after a copy, at either end, and over several copies in any order
        '%x = load i64, ptr %other, align 8',
        f'{MEMMOVE}(ptr %third, ptr %other, i64 16, i1 false)\n%x = load i64, ptr %third, align 8',
        f'{MEMMOVE}(ptr %third, ptr %numbers, i64 8, i1 false)\n{MEMMOVE}(ptr %numbers, ptr %other, i64 8, i1 false)',
        f'{MEMMOVE}(ptr %pair, ptr %numbers, i64 8, i1 false)',
        # by a pair
        '%x = load { ptr, i64 }, ptr %numbers, align 8',
        '%w = getelementptr i8, ptr %pair, i64 8\n%x = load { ptr, i64 }, ptr %w, align 8',
        '%x = load { ptr, i64 }, ptr %pair, align 8\n%y = extractvalue { ptr, i64 } %x, 0\n%z = alloca ptr, align 8\nstore ptr %y, ptr %z, align 8\ncall void @"m::clear"(ptr %z)',
        'call void @"m::copy_bits"(ptr %pair, ptr %numbers, i64 8)',
        # through a pointer that is given back
        '%x = call { ptr, i64 } @"m::lend"(ptr %numbers, i64 0, i32 1)\n%y = extractvalue { ptr, i64 } %x, 0\nstore ptr %a0, ptr %y, align 8',
        '%x = call { ptr, i64 } @"m::lend"(ptr %pair, i64 0, i32 1)',
        # by a comparison, through a pointer that one gives back, and through what another is lent by it
        '%x = call i1 @"m::PartialEq::eq"(ptr %numbers, ptr %pair)',
        '%x = call i1 @"m::PartialEq::ne"(ptr %pair, ptr %numbers)',
        '%x = call { ptr, i64 } @"m::PartialEq::lend"(ptr %pair, i64 0)\n%y = extractvalue { ptr, i64 } %x, 0\nstore i64 7, ptr %y, align 8',
        '%x = call { ptr, i64 } @"m::PartialEq::lend"(ptr %numbers, i64 0)\n%y = extractvalue { ptr, i64 } %x, 0\nstore ptr %a0, ptr %y, align 8',
        '%x = call { ptr, i64 } @"m::PartialEq::lend"(ptr %pair, i64 0)\n%y = extractvalue { ptr, i64 } %x, 0\n%z = call i1 @"m::PartialEq::ne"(ptr %y, ptr %numbers)',
        # halves of a pointer
        f'%x = getelementptr i8, ptr %pair, i64 4\n{MEMMOVE}(ptr %halves, ptr %x, i64 4, i1 false)\n%y = load i32, ptr %halves, align 4',
        f'{MEMMOVE}(ptr %halves, ptr %pair, i64 4, i1 false)\n%y = load i32, ptr %halves, align 4',
        f'%x = getelementptr i8, ptr %pair, i64 4\n{MEMMOVE}(ptr %third, ptr %x, i64 8, i1 false)\n%y = load ptr, ptr %third, align 8',
        f'%x = getelementptr i8, ptr %third, i64 4\n{MEMMOVE}(ptr %x, ptr %pair, i64 16, i1 false)\n%y = load ptr, ptr %third, align 8',
        # in another function
        'call void @"m::clear"(ptr %pair)',
        'call void @"m::keep"(ptr %numbers, ptr %a0)',
        # through a pointer that is kept in memory
        'store ptr %pair, ptr %third, align 8\n%x = load ptr, ptr %third, align 8\n%y = load i64, ptr %x, align 8',
        f'store ptr %pair, ptr %third, align 8\n%w = alloca [24 x i8], align 8\n{MEMMOVE}(ptr %w, ptr %third, i64 24, i1 false)\n%x = load ptr, ptr %w, align 8\nstore i64 0, ptr %x, align 8',
        'store ptr %length, ptr %third, align 8\n%x = load ptr, ptr %third, align 8\n%y = load ptr, ptr %x, align 8',
        'call void @"m::keep"(ptr %third, ptr %pair)\n%x = load ptr, ptr %third, align 8\n%y = load i64, ptr %x, align 8',
        # the same in a function that stands before, or behind, the one that passes the place
        'store ptr %pair, ptr %third, align 8\ncall void @"m::follow"(ptr %third)',
        'store ptr %pair, ptr %third, align 8\ncall void @"m::follow_too"(ptr %third)',
        'call void @"m::follow"(ptr %third)\nstore ptr %pair, ptr %third, align 8',
        # the same over three copies, in other orders of the lines
        *('%w = alloca [24 x i8], align 8\n%v = alloca [24 x i8], align 8\n%u = alloca [24 x i8], align 8\nstore ptr %pair, ptr %third, align 8\n'
          + ''.join(f'{MEMMOVE}(ptr %{target}, ptr %{source}, i64 24, i1 false)\n' for target, source in copies)
          + '%x = load ptr, ptr %u, align 8\n%y = load i64, ptr %x, align 8'
          for copies in ((('w', 'third'), ('v', 'w'), ('u', 'v')), (('v', 'w'), ('w', 'third'), ('u', 'v')), (('v', 'w'), ('u', 'v'), ('w', 'third')))),
    ],
    'index': [
        'call void @"m::copy_bits"(ptr %numbers, ptr %other, i64 8)',
        '%x = getelementptr i8, ptr %third, i64 %a1\n%y = load ptr, ptr %x, align 8',
        '%x = getelementptr i8, ptr %third, i64 %a1\nstore ptr %a0, ptr %x, align 8',
        '%x = getelementptr inbounds nuw i8, ptr %pair, i64 %a1\n%y = load i64, ptr %x, align 8',
        '%x = getelementptr i8, ptr %other, i64 %a1\n%y = getelementptr i8, ptr %x, i64 8\nstore i8 0, ptr %y, align 1',
        f'%x = getelementptr i8, ptr %pair, i64 %a1\n{MEMMOVE}(ptr %numbers, ptr %x, i64 8, i1 false)',
        f'%x = getelementptr i8, ptr %numbers, i64 %a1\n{MEMMOVE}(ptr %x, ptr %pair, i64 8, i1 false)',
        f'%x = getelementptr i8, ptr %pair, i64 %a1\n{MEMSET}(ptr %x, i8 0, i64 8, i1 false)',
        '%x = getelementptr i8, ptr %third, i64 %a1\ncall void @"m::keep"(ptr %x, ptr %a0)',
        '%x = getelementptr i8, ptr %pair, i64 %a1\ncall void @"m::clear"(ptr %x)',
        '%x = getelementptr i8, ptr %third, i64 %a1\nstore ptr %x, ptr %other, align 8\n%y = load ptr, ptr %other, align 8\n%z = load ptr, ptr %y, align 8',
    ],
    'distance': [
        '%x = getelementptr i8, ptr %third, i64 8\nstore ptr %x, ptr %other, align 8\nstore ptr %third, ptr %other, align 8\n%y = load ptr, ptr %third, align 8',
        '%x = getelementptr i8, ptr %third, i64 8\ncall void @"m::keep"(ptr %third, ptr %a0)\ncall void @"m::keep"(ptr %x, ptr %a0)',
    ],
    'place': [
        '%x = alloca ptr, align 8\nstore i64 0, ptr %x, align 8',
        '%x = alloca ptr, align 8\n%y = getelementptr i8, ptr %x, i64 4\nstore i32 0, ptr %y, align 4',
        '%x = alloca ptr, align 8\ncall void @"m::clear"(ptr %x)',
        '%x = alloca ptr, align 8\nstore ptr %x, ptr %third, align 8\n%y = load ptr, ptr %third, align 8\nstore i64 0, ptr %y, align 8',
        f'{MEMMOVE}(ptr %one, ptr %pair, i64 8, i1 false)',
        f'{MEMMOVE}(ptr %third, ptr %one, i64 8, i1 false)',
        f'{MEMSET}(ptr %one, i8 0, i64 8, i1 false)',
        '%x = alloca ptr, align 8\n%y = getelementptr i8, ptr %x, i64 %a1\nstore i8 0, ptr %y, align 1',
        '%x = alloca ptr, align 8\n%y = getelementptr i8, ptr %x, i64 %a1\ncall void @"m::clear"(ptr %y)',
        '%x = alloca ptr, align 8\n%y = getelementptr i8, ptr %x, i64 %a1\nstore ptr %y, ptr %third, align 8',
    ],
    'lent': [
        'store ptr %pair, ptr %a0, align 8',
        '%x = load ptr, ptr %a0, align 8',
        f'{MEMMOVE}(ptr %a0, ptr %pair, i64 16, i1 false)',
        f'{MEMMOVE}(ptr %pair, ptr %a0, i64 16, i1 false)',
        'call void @"m::keep"(ptr %a0, ptr %pair)',
        '%x = load ptr, ptr %one, align 8\n%y = load ptr, ptr %x, align 8',
    ],
    'beyond': [
        '%x = getelementptr i8, ptr %numbers, i64 32\nstore i8 0, ptr %x, align 1',
        '%x = getelementptr i8, ptr %third, i64 24\ncall void @"m::keep"(ptr %x, ptr %a0)',
        '%x = getelementptr i8, ptr %third, i64 24\n%y = load ptr, ptr %x, align 8',
        f'{MEMMOVE}(ptr %halves, ptr %numbers, i64 16, i1 false)',
        f'{MEMMOVE}(ptr %numbers, ptr %halves, i64 9, i1 false)',
        f'{MEMSET}(ptr %numbers, i8 0, i64 33, i1 false)',
        '%x = getelementptr i8, ptr %numbers, i64 32\n%y = call i1 @"m::PartialEq::eq"(ptr %x, ptr %numbers)',
        '%x = getelementptr i8, ptr %numbers, i64 32\n%y = call { ptr, i64 } @"m::PartialEq::lend"(ptr %x, i64 0)\n%z = extractvalue { ptr, i64 } %y, 0\nstore i8 0, ptr %z, align 1',
    ],
    'alignment': [
        '%x = load i64, ptr %numbers, align 16',
        '%x = load i16, ptr %numbers, align 8',
        '%x = load i32, ptr %numbers, align 3',
        'store ptr %a0, ptr %third, align 16',
        '%x = load { ptr, i64 }, ptr %pair, align 16',
        '%x = getelementptr i8, ptr %numbers, i64 18\n%y = load i32, ptr %x, align 4',
        '%x = getelementptr i8, ptr %third, i64 12\nstore ptr %a0, ptr %x, align 8',
        'store i64 0, ptr %halves, align 8',
        'call void @"m::clear"(ptr %halves)',
        '%x = getelementptr i8, ptr %numbers, i64 17\ncall void @"m::clear"(ptr %x)',
        # in a place that is passed afterwards; and in one that a pointer leads to at two distances
        '%x = getelementptr i8, ptr %third, i64 18\n%y = load i32, ptr %x, align 4\ncall void @"m::clear"(ptr %third)',
        '%s = alloca ptr, align 8\nstore ptr %third, ptr %s, align 8\n%x = getelementptr i8, ptr %third, i64 4\nstore ptr %x, ptr %s, align 8\n%y = load ptr, ptr %s, align 8\ncall void @"m::clear"(ptr %y)',
    ],
}

# ── Text of the small module that becomes another ─────────────────────────────────────────────────────────────────────

KEEP = 'define internal void @"m::keep"(ptr noundef %a0, ptr noundef %a1) #0 {'
INNER = 'define internal noundef i64 @"m::inner"(ptr noundef %a0, i64 noundef %a1) #0 {'
OUTER = 'define noundef i64 @chart_outer(ptr noundef %a0, i64 noundef %a1) #0 {'
ATTRIBUTES = 'attributes #0 = { nounwind "probe-stack"="inline-asm" "stack-probe-size"="3072" "target-cpu"="x86-64" }'
INLINED = 'attributes #1 = { alwaysinline nounwind'
TRAP = 'declare void @llvm.trap() #5'
TRAPPING = 'attributes #5 = { cold noreturn nounwind memory(inaccessiblemem: write) }'
EQ = 'define internal noundef i1 @"m::PartialEq::eq"(ptr noundef %a0, ptr noundef %a1) #0 {\nstart:\n'

REPLACED = {
    'target': [
        (check_ir.TRIPLE, 'target triple = "aarch64-unknown-linux-gnu"'),
        (check_ir.TRIPLE + '\n', ''),
        (check_ir.TRIPLE, check_ir.TRIPLE + '\n' + check_ir.TRIPLE),
        (check_ir.LAYOUT, check_ir.LAYOUT.replace('"e-', '"E-')),
        (check_ir.LAYOUT, check_ir.LAYOUT.replace('-p270:32:32', '-p:32:32-p270:32:32')),
        (check_ir.LAYOUT + '\n', ''),
    ],
    'outside': [
        (KEEP, line + '\n\n' + KEEP)
        for line in (
            '@kept = internal global i64 0, align 8',
            '@kept = internal global ptr null, align 8',
            '@kept = internal constant [2 x ptr] zeroinitializer',
            '@alias = alias void (ptr, ptr), ptr @"m::keep"',
            '%pair = type { ptr, i64 }',
            '$group = comdat any',
            'module asm "nop"',
            'declare i32 @puts(ptr)',
            'declare void @llvm.memcpy.p0.p0.i64(ptr, ptr, i64, i1 immarg)',
            'declare void @llvm.memmove.p0.p0.i32(ptr writeonly captures(none), ptr readonly captures(none), i32, i1 immarg) #1',
            '!3 = !{!4, !4, i64 0}',
            '!3 = !{i64 16}',
            '!llvm.module.flags = !{!3}',
            'attributes #3 = { noinline }',
            'a line of tomorrow',
        )
    ]
    + [
        (ATTRIBUTES, ATTRIBUTES.replace('nounwind', 'nounwind alignstack(16)')),
        *((INLINED, INLINED.replace('alwaysinline', words)) for words in ('noinline', 'optnone noinline', 'naked', 'alwaysinline inlinehint', 'alwaysinline memory(none)')),
        (TRAP, TRAP.replace('()', '(ptr)')),
        (TRAP, TRAP.replace('void', 'i64')),
        (TRAP, TRAP.replace('#5', '#1')),
        (TRAP, TRAP.replace('llvm.trap', 'llvm.debugtrap')),
        *((TRAPPING, TRAPPING.replace('memory(inaccessiblemem: write)', words)) for words in ('memory(argmem: write)', 'memory(readwrite)', 'allockind("alloc") memory(inaccessiblemem: write)')),
        (ATTRIBUTES, ATTRIBUTES.replace('x86-64', 'x86-64-v3')),
    ],
    'head': [
        (KEEP, KEEP.replace('internal', 'linkonce_odr')),
        # names of functions that a back end calls
        *((KEEP, KEEP.replace('@"m::keep"', name)) for name in ('@__aeabi_memmove', '@"__aeabi_memmove"', '@memcpy', '@__aeabi_lmul')),
        (OUTER, OUTER.replace('@chart_outer', '@__aeabi_memmove')),
        (KEEP, KEEP.replace('internal', 'internal fastcc')),
        (KEEP, KEEP.replace('#0', '#0 align 16')),
        (KEEP, KEEP.replace('#0', '#3')),
        (KEEP, KEEP.replace('ptr noundef %a1)', 'ptr noundef %a1, ...)')),
        (KEEP, KEEP.replace('ptr noundef %a1)', 'ptr noundef %a1, i128 noundef %a2)')),
        (KEEP, KEEP.replace('ptr noundef %a1)', 'ptr noundef %a1, double noundef %a2)')),
        (KEEP, KEEP.replace('ptr noundef %a1)', 'ptr noundef %a1, <2 x i32> noundef %a2)')),
        (KEEP, KEEP.replace('ptr noundef %a1)', 'ptr noundef %a1, { ptr, i64 } %a2)')),
        *((KEEP, KEEP.replace('ptr noundef %a0', f'ptr noundef {word} %a0')) for word in (
            'byval([8 x i8])', 'sret([8 x i8])', 'dereferenceable(8)', 'align 16', 'noalias', 'nonnull', 'inreg', 'nest')),
        (INNER, INNER.replace('noundef i64 @', 'noundef ptr @')),
        (KEEP, KEEP.replace('ptr noundef %a0', 'ptr %a0')),
        ('noundef { ptr, i64 } @"m::lend"', 'noundef { ptr, ptr } @"m::lend"'),
        ('noundef { ptr, i64 } @"m::lend"', 'noundef { i64, ptr } @"m::lend"'),
        (INNER, INNER.replace('noundef i64 @', 'noundef i128 @')),
        (INNER, INNER.replace('noundef i64 @', 'signext i64 @')),
        ('attributes #0', 'define internal void @open(ptr noundef %a0) #0 {\nattributes #0'),
    ],
    'exported': [
        (OUTER, OUTER.replace('i64 @', 'i32 @')),
        (OUTER, OUTER.replace('noundef i64 @', 'noundef zeroext i1 @')),
        (OUTER, OUTER.replace('%a1)', '%a1, i1 noundef zeroext %a2)')),
        (OUTER, OUTER.replace('%a1)', '%a1, i1 noundef %a2)')),
        (OUTER, OUTER.replace('%a1)', '%a1, i16 noundef zeroext %a2)')),
        ('define internal void @"m::clear"', 'define void @"m::clear"'),
        ('define internal noundef { ptr, i64 } @"m::lend"', 'define noundef { ptr, i64 } @"m::lend"'),
    ],
    'form': [
        ('  %r3 = zext', '  %x = alloca i64, align 8\n  %r3 = zext'),
        # the function that compares pointers, with another text or another head
        ('  %r11 = icmp ult i64 %r10, %r7', '  %r11 = icmp ule i64 %r10, %r7'),
        ('  %r10 = sub i64 %r8, %r9', '  %r10 = sub i64 %r9, %r8'),
        ('ptr %a0, i64 %r7, i1 false)', 'ptr %a0, i64 %r9, i1 false)'),
        ('  %r30 = add i64 %r29, 1', '  %r30 = add i64 %r29, 2'),
        ('define internal void @"m::copy_bits"(ptr noundef %a0, ptr noundef %a1, i64 noundef %a2) #0', 'define internal void @"m::copy_bits"(ptr noundef %a1, ptr noundef %a0, i64 noundef %a2) #0'),
        ('start:\n  store i64 0, ptr %a0', '  br label %second\n\nsecond:\n  %x = alloca i64, align 8\n  store i64 0, ptr %a0'),
        ('  %r0 = load ptr, ptr %one', '  %x = phi ptr [ %a0, %start ]\n  %r0 = load ptr, ptr %one'),
        ('  br label %next', '  switch i128 0, label %next [\n  ]'),
        ('  br label %next', '  br label %next, !prof !3'),
        ('start:\n  %r0 = call i64', 'start:\n  ; a comment\n  %r0 = call i64'),
        ('  call void @llvm.trap()', '  call void @llvm.debugtrap()'),
        ('  call void @llvm.trap()', '  call void @llvm.ubsantrap(i8 0)'),
        ('  call void @llvm.trap()', '  %x = call i64 @llvm.trap()'),
        ('  call void @llvm.trap()', '  call void @llvm.trap(ptr %a0)'),
        ('  call void @llvm.trap()', '  call void @llvm.trap() #5'),
    ],
    'origin': [  # the block that makes the pointer stands behind the one that uses it
        ('  store i64 0, ptr %a0, align 8\n', '  br label %second\n\nthird:\n  store i64 0, ptr %x, align 8\n  ret void\n\nsecond:\n  %x = getelementptr i8, ptr %a0, i64 0\n  br label %third\n\nlast:\n'),
    ],
    'recursion': [
        ('  br label %next', '  %x = call i64 @"m::inner"(ptr %a0, i64 %a1)\n  br label %next'),
        ('  br label %next', '  %x = call i64 @chart_outer(ptr %a0, i64 %a1)\n  br label %next'),
        # a comparison, which is gone through anew for each call: itself, and by another one
        (EQ, EQ + '  %x = call i1 @"m::PartialEq::eq"(ptr %a0, ptr %a1)\n'),
        (EQ, EQ + '  %x = call i1 @"m::PartialEq::ne"(ptr %a0, ptr %a1)\n'),
    ],
}

# ── Patterns in the module itself, and what stands in their place ─────────────────────────────────────────────────────

R = r'(%[\w.]+)'
PATTERNS = [
    ('target', r'^target triple = "[^"]*"', r'target triple = "thumbv6m-unknown-none-eabi"'),
    ('target', r'-p272:64:64-', r'-p272:64:64-p:32:32-'),
    ('outside', r'^declare void @llvm\.memset', r'declare ptr @malloc(i64)\n\ndeclare void @llvm.memset'),
    ('head', r'^(define internal noundef i64 .*)\(ptr noundef', r'\1(ptr noundef dereferenceable(16)'),
    ('exported', r'^(define noundef i64 @\w+\(.*)i16 noundef', r'\1i16 noundef zeroext'),
    # the length of a slice is read where its pointer is, and in the 4 bytes behind it
    ('bytes', rf'^  {R} = load ptr, ptr {R}, align 8, !noundef !1\n', r'\g<0>  %x = load i64, ptr \2, align 8, !noundef !1\n'),
    ('bytes', rf'^  {R} = load ptr, ptr {R}, align 8, !noundef !1\n', r'\g<0>  %x = getelementptr i8, ptr \2, i64 4\n  %y = load i32, ptr %x, align 4\n'),
    # a slice that was copied before it is read as numbers
    ('bytes', rf'^  store ptr %a0, ptr {R}, align 8\n  {R} = getelementptr i8, ptr \1, i64 8\n  store i64 %a1, ptr \2, align 8\n', r'\g<0>  %x = alloca [16 x i8], align 8\n  call void @llvm.memmove.p0.p0.i64(ptr %x, ptr \1, i64 16, i1 false)\n  %y = load i64, ptr %x, align 8\n'),
    # a pair with a pointer, which is loaded to be given back, read as a number
    ('bytes', rf'^  {R} = load {{ ptr, i64 }}, ptr {R}, align 8\n', r'\g<0>  %x = load i64, ptr \2, align 8\n'),
    # a place for a pointer: used for a number, passed to be copied, and made of what was an array
    ('place', rf'^  {R} = alloca ptr, align 8\n', r'\g<0>  %x = alloca ptr, align 8\n  store i64 0, ptr %x, align 8\n'),
    ('place', rf'^  {R} = alloca \[16 x i8\], align 8\n  call void @llvm\.memset\.p0\.i64\(ptr \1,', r'  \1 = alloca ptr, align 8\n  call void @llvm.memset.p0.i64(ptr \1,'),
    ('index', rf'^  {R} = getelementptr inbounds nuw i8, ptr {R}, i64 {R}\n', r'\g<0>  %x = load ptr, ptr \1, align 8\n'),
    # a pointer in the memory of the host: stored by a function for C, and loaded by the function that it calls
    ('lent', r'^(define noundef i64 @chart_redo_page\(ptr noundef (%\w+),.*\nstart:\n)', r'\1  store ptr \2, ptr \2, align 8\n'),
    ('lent', r'^(define internal noundef i64 @"embed::chart_\w+_on"\((?:ptr noundef %\w+, ){4}ptr noundef (%\w+),.*\nstart:\n)', r'\1  %x = load ptr, ptr \2, align 8\n'),
    ('beyond', rf'^  {R} = alloca \[16 x i8\], align 8\n(  call void @llvm\.memset\.p0\.i64\(ptr \1, i8 0, i64) 16', r'  \1 = alloca [16 x i8], align 8\n\2 24'),
    ('alignment', rf'^  {R} = load i64, ptr {R}, align 8', r'  \1 = load i64, ptr \2, align 16'),
    ('call', r'^(  %\w+ = call i64 @"embed::chart_\w+_on"\()ptr %a0', r'\1i64 %a6'),
    ('form', r'^(  call void @llvm\.memmove.*, i64) \d+,', r'\1 %r0,'),
    ('form', rf'^  {R} = load ptr, ptr {R}.*\n', r'\g<0>  %x = ptrtoint ptr \1 to i64\n'),
    ('form', rf'^  store ptr {R}, ptr {R}, align 8\n', r'  %x = icmp ult ptr \1, \2\n\g<0>'),
    ('recursion', r'^define noundef i64 (@\w+)\((ptr noundef %a0, i64 noundef %a1, ptr noundef %a2, i64 noundef %a3, i8 noundef %a4)\) #0 {\nstart:\n', r'\g<0>  %x = call i64 \1(ptr %a0, i64 %a1, ptr %a2, i64 %a3, i8 %a4)\n'),
]


@dataclass
class Seed:
    name: str  # the class of the fault
    text: str  # of the module
    what: str


def replaced_once(text, old, new):
    if text.count(old) != 1:
        sys.exit(f'test_check_ir.py: {text.count(old)} times in the small module: {old}')
    return text.replace(old, new)


def seeds(module):
    for name, faults in INSERTED.items():
        for lines in faults:
            end = '  br label %next\n'
            yield Seed(name, replaced_once(SMALL, end, ''.join(f'  {line}\n' for line in lines.splitlines()) + end), lines)
    for name, faults in REPLACED.items():
        for old, new in faults:
            yield Seed(name, replaced_once(SMALL, old, new), f'{old!r} becomes {new!r}')
    for name, pattern, new in PATTERNS:
        text, count = re.subn(pattern, new, module, count=1, flags=re.M)
        if count != 1 or text == module:
            sys.exit(f'test_check_ir.py: nothing in the module is as the pattern of a seeded fault, {name}: {pattern}')
        yield Seed(name, text, f'in the module, {pattern} becomes {new}')


def main(words):
    path = pathlib.Path(words[0]) if words else ROOT / 'target/unit/module.ll'
    module = path.read_text(encoding='utf-8')
    failed = 0
    for what, text in (('the small module', SMALL), (path, module)):
        for fault in check_ir.check(text)[0]:
            print(f'test_check_ir.py: {what} is not accepted: {fault}')
            failed = 1
    found = Counter()
    for seed in seeds(module):
        names = {fault.name for fault in check_ir.check(seed.text)[0]}
        if seed.name in names:
            found[seed.name] += 1
        else:
            print(f'test_check_ir.py: a fault of class {seed.name} is found as {", ".join(sorted(names)) or "none"}: {seed.what}')
            failed = 1
    for name, sentence in check_ir.CLASSES.items():
        print(f'{found[name]:4} {name}: {sentence}')
        if not found[name]:
            print(f'test_check_ir.py: no fault of class {name} was found')
            failed = 1
    print('test_check_ir.py: FAILED' if failed else f'test_check_ir.py: ok, {sum(found.values())} seeded faults of {len(found)} classes, each refused by its class; the module is accepted')
    return failed


if __name__ == '__main__':
    sys.exit(main(sys.argv[1:]))
