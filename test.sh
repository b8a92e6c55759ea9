#!/usr/bin/env bash
# All tests: what scripts write, what statements and contracts say, what the papers cite, the header for C beside its source, where the source stores and goes by the fuse, every proof with the wrong
# programs and the programs (`rt ci`, which refuses files that are not laid out, too), where each wrong program is refused, the example in C, the order of the stores that the archive makes, the
# archive for the unit on a model of its processor (left out, with a line that says so, where a package is missing), the comparison with the other implementations, and the workloads of the
# benchmark, whose results are compared and not measured. The last line is the prover's own count; the exit status is not 0 when anything failed.
set -uo pipefail
cd "$(dirname "$0")" || exit 1
failed=0
room=$(mktemp -d)
trap 'rm -rf "$room"' EXIT

proved=1
rt ci 2>&1 | tee "$room/ci" || failed=1 proved=0
# A wrong program that does not fit the text any more counts for nothing, and `rt ci` passes all the same.
if ! grep -q '^rt: ok;' "$room/ci"; then
    failed=1
elif grep -E '^rt: ok;.* must-fail edits: [^;]*, [1-9][0-9]* bad' "$room/ci"; then
    echo "test.sh: wrong programs do not fit the text"
    failed=1
fi

tools/generated || failed=1
tools/edits table --check docs/CLAIMS.md || failed=1
tools/believed --check docs/CLAIMS.md || failed=1
tools/contracts || failed=1
tools/test_believed || failed=1
tools/test_edits || failed=1
tools/papers || failed=1
tools/header/check.py || failed=1
tools/header/mutants.py || failed=1
tools/writes || failed=1
tools/test_writes || failed=1

# What links the store. The example writes the archive for C, which the comparison and the benchmark link too, and with which the archive for the unit is compared; the comparison links the public
# calls and runs `relog` besides, as `rt ci` built it. Other commands of rt wait for a running `rt ci`, so that this comes after it.
linked() {
    local failed=0
    examples/c/run.sh || return 1
    { tools/unit/order.sh host && tools/unit/test_order.sh host; } || failed=1
    tools/unit/test.sh || [ $? -eq 77 ] || failed=1
    (cd bench && cargo run --release --offline --quiet -- --check) || failed=1
    tools/archive public_calls || return 1
    (cd compare && cargo test --release --offline --quiet && cargo run --release --offline --quiet) || failed=1
    return "$failed"
}
if [ "$proved" -eq 1 ]; then
    linked || failed=1
    tools/costliest_logs || failed=1
    tools/edits || failed=1
else
    echo "test.sh: rt ci failed, and what runs what it proved was left out"
fi

tail -n 1 "$room/ci"
exit "$failed"
