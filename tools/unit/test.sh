#!/usr/bin/env bash
# The archive for the unit is made and compared with the proved one, the former on QEMU's Cortex-M0, the latter on this machine: what the example in C prints, what calls answer and leave, and the
# order of the stored writes. The variable CALLS says how many calls there are. What is printed says what was done; the exit status is 0 when all was as expected, and 77, with one line, where a
# package is missing. Nothing is installed.
set -euo pipefail
cd "$(dirname "$0")/../.."
out=target/unit

missing=()
command -v qemu-system-arm >/dev/null || missing+=(qemu-system-arm)
command -v arm-none-eabi-gcc >/dev/null || missing+=(gcc-arm-none-eabi)
# Without the C library gcc prints the name alone, which is no file here.
[ -e "$(arm-none-eabi-gcc -print-file-name=rdimon.specs 2>/dev/null)" ] || missing+=(libnewlib-arm-none-eabi)
if [ ${#missing[@]} -gt 0 ]; then
    echo "tools/unit/test.sh: left out, the archive for the unit is neither made nor tried. Debian packages that are missing: ${missing[*]}"
    exit 77
fi

tools/unit/build.sh
python3 -B tools/unit/test_check_ir.py "$out/module.ll"

"${CC:-cc}" -std=c11 -O2 -I include examples/c/chart.c target/staticlib/libembed.a -o "$out/chart"
"$out/chart" >"$out/chart.host" || { tail -n 1 "$out/chart.host"; echo "tools/unit/test.sh: examples/c/chart.c fails on this machine"; exit 1; }
tools/unit/run.sh examples/c/chart.c >"$out/chart.model" || { status=$?; tail -n 1 "$out/chart.model"; echo "tools/unit/test.sh: examples/c/chart.c fails on the model, with status $status"; exit 1; }
diff "$out/chart.host" "$out/chart.model" || { echo "tools/unit/test.sh: examples/c/chart.c prints something else on the model (>) than on this machine (<)"; exit 1; }
echo "example: $(wc -l <"$out/chart.model") lines, the same on this machine and on the model"

# The model has to fault where an access is not aligned, since the replay rests on that.
echo 'int main(void) { static int words[2]; volatile int *volatile odd = (volatile int *)((char *)words + 1); return *odd; }' >"$out/odd.c"
status=0
tools/unit/run.sh "$out/odd.c" || status=$?
[ "$status" -eq 99 ] || { echo "tools/unit/test.sh: the model does not fault where an access is not aligned"; exit 1; }

tools/unit/replay.sh
tools/unit/order.sh host
tools/unit/order.sh model
tools/unit/test_order.sh model
echo "tools/unit/test.sh: ok. The archive for the unit is made of the proved archive's own module; example, calls and order of the stored writes are the same on the model as on this machine"
