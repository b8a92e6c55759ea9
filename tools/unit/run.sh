#!/usr/bin/env bash
# run.sh PROGRAM.c [WORDS ..]: builds a C program with the archive for the unit, as target/unit/PROGRAM.elf, and runs it on QEMU's Cortex-M0. WORDS go to QEMU.
# The variable DEFINES has more words for the compiler, as '-DCALLS=100', and ARCHIVE another archive or object in place of the unit's. The exit status is the program's; it is 99 where the program ended in a fault, and 124 where it did
# not end within an hour.
set -euo pipefail
[ $# -ge 1 ] || { echo "usage: run.sh PROGRAM.c [WORDS ..]" >&2; exit 2; }
program=$(readlink -f "$1")
shift
cd "$(dirname "$0")/../.."
out=target/unit
archive=${ARCHIVE:-$out/libembed-thumbv6m.a}
[ -f "$archive" ] || { echo "run.sh: there is no $archive; tools/unit/build.sh writes the archive for the unit" >&2; exit 1; }
elf=$out/$(basename "$program" .c).elf
# shellcheck disable=SC2086 # DEFINES is several words
arm-none-eabi-gcc -mcpu=cortex-m0 -mthumb -std=c11 -Wall -Wextra -Werror -O2 -ffunction-sections ${DEFINES:-} -I "$out/include" \
    "$program" tools/unit/start.c "$archive" -nostartfiles --specs=rdimon.specs -T tools/unit/unit.ld -Wl,--gc-sections,-z,noexecstack -o "$elf"
exec timeout 1h qemu-system-arm -M microbit -global nrf51-soc.sram-size=0x80000 -nographic -monitor none -serial none \
    -semihosting-config enable=on,target=native -kernel "$elf" "$@"
