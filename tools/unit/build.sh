#!/usr/bin/env bash
# Writes target/unit/libembed-thumbv6m.a and target/unit/include/chart_store.h: the functions for C on a Cortex-M0 (ARMv6-M, AAPCS).
#
# They are compiled from the module that the proved archive for x86-64 was compiled from: with the kit's own words for clang it gives that archive byte for byte. Nothing in it is changed but the
# lines that name x86-64, and the two that take addresses for a comparison, and check_ir.py refuses it where its meaning could depend on the size of a pointer. The archive is outside the proof
# all the same: besides what is trusted for x86-64, trusted are this change of target, check_ir.py and LLVM's back end for ARM.
#
# `rt lib` proves the crate over what was proved before; from nothing that takes some minutes. The variable OPT has the level of optimisation; -O3 is that of the proved archive.
set -euo pipefail
cd "$(dirname "$0")/../.."

stop() {
    echo "build.sh: $*" >&2
    exit 1
}

for tool in rt python3 arm-none-eabi-gcc arm-none-eabi-nm arm-none-eabi-size; do command -v "$tool" >/dev/null || stop "there is no $tool on the path"; done

out=$PWD/target/unit
archive=$PWD/target/staticlib/libembed.a
kit=$(dirname "$(rt doc)")
clang=$kit/toolchain/bin/clang
ar=$kit/toolchain/bin/llvm-ar

# Runs `rt lib` for embed, as tools/archive does, with a kit of links in which clang alone is another: it keeps the module and the words that it is given, and goes on as the kit's own. (rt looks for its kit where its own file lies, so that this one is a copy.)
keep_module() {
    local room part file
    room=$(mktemp -d)
    # shellcheck disable=SC2064 # the folder as it is named now
    trap "rm -rf '$room'" EXIT
    mkdir -p "$room/kit/bin" "$room/kit/toolchain/bin"
    for part in '' /bin /toolchain /toolchain/bin; do
        for file in "$kit$part"/*; do
            case $part/${file##*/} in
                /bin | /toolchain | /toolchain/bin | /toolchain/bin/clang) ;;
                /bin/rt | /bin/rtlib.py) cp "$file" "$room/kit$part/" ;;
                *) ln -s "$file" "$room/kit$part/" ;;
            esac
        done
    done
    cat >"$room/kit/toolchain/bin/clang" <<SCRIPT
#!/bin/sh
cp module.bc '$out/module.bc'
printf '%s\n' "\$@" | sed 's,$room/kit,$kit,' >>'$out/words'
exec '$clang' "\$@"
SCRIPT
    chmod +x "$room/kit/toolchain/bin/clang"
    rm -f "$out"/module.* "$out/words"
    (cd crates/embed && "$room/kit/bin/rt" lib --cpu=x86-64) >"$out/said" 2>&1 || { cat "$out/said"; stop "rt lib failed in crates/embed"; }
    [ -s "$out/module.bc" ] || stop "rt lib gave clang no module.bc"
    cmp crates/embed/out/libembed.a "$archive" || stop "rt lib gave another archive"
    # As text, with no pass run.
    (cd "$out" && "$clang" --no-default-config -Werror -x ir -S -emit-llvm -Xclang -disable-llvm-passes -O3 module.bc -o module.ll)
}

# compile FROM TO ..: clang with the kit's words, of which each FROM, there once, becomes TO; an empty TO leaves it out.
compile() {
    local words k found
    mapfile -t words <"$out/words"
    while [ $# -gt 0 ]; do
        found=0
        for k in "${!words[@]}"; do
            [ "${words[k]}" = "$1" ] || continue
            found=$((found + 1))
            if [ -n "$2" ]; then words[k]=$2; else unset "words[k]"; fi
        done
        [ "$found" -eq 1 ] || stop "of the words that the kit gives clang, $found are $1, and one was expected: ${words[*]}"
        shift 2
    done
    printf '%s\n' "$clang" "${words[@]}" >"$out/command" # of the unit's module in the end, for mutants.py
    (cd "$out" && "$clang" "${words[@]}")
}

# change FROM TO [N]: in the module for the unit, where FROM is in one line, or in N.
change() {
    local lines
    lines=$(grep -cF -- "$1" "$out/thumbv6m.ll") || true
    [ "$lines" -eq "${3:-1}" ] || stop "$lines lines of the module have, and ${3:-1} were expected to have: $1"
    FROM=$1 TO=$2 awk 'at = index($0, ENVIRON["FROM"]) { $0 = substr($0, 1, at - 1) ENVIRON["TO"] substr($0, at + length(ENVIRON["FROM"])) } { print }' "$out/thumbv6m.ll" >"$out/changed.ll"
    mv "$out/changed.ll" "$out/thumbv6m.ll"
}

functions_of() { "$1" -g --defined-only "$2" | awk 'NF == 3 { print $3 }' | sort; } # NM FILE

mkdir -p "$out/include"
rm -f "$out/libembed-thumbv6m.a" "$out/include/chart_store.h" "$out"/*.o

# The module, and that it is the archive's.
tools/archive embed
keep_module
members=$("$ar" t "$archive")
[ "$(wc -l <<<"$members")" -eq 1 ] || stop "the proved archive has other members than one: $members"
compile module.bc module.ll module.o x86-64.o
"$ar" p "$archive" "$members" | cmp - "$out/x86-64.o" ||
    stop "target/unit/module.ll, compiled for x86-64, does not give target/staticlib/libembed.a byte for byte"
python3 tools/unit/check_ir.py "$out/module.ll"

# The change of target.
cp "$out/module.ll" "$out/thumbv6m.ll"
change 'target datalayout = "e-m:e-p270:32:32-p271:32:32-p272:64:64-i64:64-i128:128-f80:128-n8:16:32:64-S128"' \
    'target datalayout = "e-m:e-p:32:32-Fi8-i64:64-v128:64:128-a:0:32-n32-S64"'
change 'target triple = "x86_64-unknown-linux-gnu"' 'target triple = "thumbv6m-unknown-none-eabi"'
# Of the functions, of those that are always inlined, and of those with a hint.
change '"probe-stack"="inline-asm" "stack-probe-size"="3072" "target-cpu"="x86-64"' '"target-cpu"="cortex-m0"' 3
# An address has 32 bits there: `ptrtoint` puts zeros above it. (Both lines are of the one function that compares pointers, whose text check_ir.py has.)
change '%r8 = ptrtoaddr ptr %a1 to i64' '%r8 = ptrtoint ptr %a1 to i64'
change '%r9 = ptrtoaddr ptr %a0 to i64' '%r9 = ptrtoint ptr %a0 to i64'
compile --target=x86_64-unknown-linux-gnu --target=thumbv6m-none-eabi -march=x86-64 -mcpu=cortex-m0 -fPIC '' -O3 "${OPT:--O3}" module.bc thumbv6m.ll module.o thumbv6m.o

# The functions are those of the proved archive, there is no variable, and nothing is needed but functions of the ARM run-time ABI for copies, fills and arithmetic of 64 bits.
object=$out/thumbv6m.o
diff <(functions_of nm "$archive") <(functions_of arm-none-eabi-nm "$object") || stop "the functions of the archive are not those of target/staticlib/libembed.a"
read -r code data bss _ < <(arm-none-eabi-size "$object" | tail -n 1)
[ "$data $bss" = '0 0' ] || stop "the archive has variables: $data bytes of data, $bss of bss"
needs=$(arm-none-eabi-nm -u "$object" | awk '{ print $2 }')
other=$(grep -vxE '__aeabi_(mem(cpy|move|set|clr)[48]?|lmul|u?idiv(mod)?|u?ldivmod|l[al]sr|llsl)' <<<"$needs") || true
[ -z "$other" ] || stop "the archive needs a function that it is not known to need: $other"

# The header is the same: lengths are uint64_t, and no type in it has another size on another machine.
if arm-none-eabi-gcc -fpreprocessed -E -P include/chart_store.h | grep -wE 'size_t|ptrdiff_t|u?intptr_t|long'; then stop "include/chart_store.h has a type whose size is not the same on every machine"; fi
cp include/chart_store.h "$out/include/chart_store.h"

"$ar" rcsD "$out/libembed-thumbv6m.a" "$object"
echo "build.sh: target/unit/libembed-thumbv6m.a has $code bytes of code at ${OPT:--O3}, and needs ${needs//$'\n'/, }"
