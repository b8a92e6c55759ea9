#!/usr/bin/env bash
# test_order.sh host|model, after order.sh: would it see a wrong order? With wrong_stores.c between order.c and the archive the right bytes are stored in a wrong way, in one kind of call at a time. The
# stores that are seen have to be others then than those that should be, and the same where there is no fault. On this machine the whole run of order.c is made, and ended where the first difference
# is; on the model its first two sessions, which have to be the beginning of the whole.
set -euo pipefail
cd "$(dirname "$0")/../.."
out=target/unit
machine=${1:?host or model}
calls=(open begin change hand_over hand_over_all commit abort force flush)
wraps=("${calls[@]/#/-Wl,--wrap=chart_}")
wraps=("${wraps[@]/%/_on}")
room=$(mktemp -d)
trap 'rm -rf "$room"' EXIT
mkfifo "$room/should" "$room/stores"

# seen CALL FAULT: runs order.c and compares; the exit status is 0 where the stores are as they should be.
seen() {
    local status=0 same=0
    if [ "$machine" = host ]; then
        IN=chart_$1_on FAULT=$2 "$room/wrong" >"$room/should" 2>"$room/stores" &
        cmp -s "$room/should" "$room/stores" || same=1
        wait $! || status=$?
        [ "$status" -ne 141 ] || [ "$same" -eq 0 ] || status=0 # ended by the comparison
    else
        DEFINES="-DFIRST_SESSIONS -DIN=\"chart_$1_on\" -DFAULT=$2 tools/unit/wrong_stores.c ${wraps[*]}" tools/unit/run.sh tools/unit/order.c -plugin "$out/plugin.so,stores=$out/wrong.stores" >"$out/wrong.should" || status=$?
        head -n "$(wc -l <"$out/wrong.should")" "$out/order.model" | cmp -s - "$out/wrong.should" || { echo "test_order.sh: the first sessions are not the beginning of the whole run" >&2; exit 1; }
        cmp -s "$out/wrong.should" "$out/wrong.stores" || same=1
    fi
    [ "$status" -eq 0 ] || { echo "test_order.sh: order.c fails on the $machine, with $2 in chart_$1_on" >&2; exit 1; }
    return "$same"
}

found=0
[ "$machine" = model ] || "${CC:-cc}" -std=c11 -Wall -Wextra -Werror -O2 tools/unit/wrong_stores.c "${wraps[@]}" -I include tools/unit/order.c tools/unit/stores.c target/staticlib/libembed.a -o "$room/wrong"
faults=("${calls[@]/%/ ROWS_EXCHANGED}" "force ROWS_IN_HALVES" "commit ROW_AGAIN" "abort ROW_TOO_MANY" "begin ROW_OVERWRITTEN" "flush ROW_OVERWRITTEN" "open ROW_IN_PART"
    "flush PAGE_FIRST" "flush PAGE_FIRST_WITHOUT_FUSE" "flush PAGE_IN_HALVES" "flush PAGE_TWICE" "flush MARK_FIRST")
[ "$machine" = model ] || faults+=("open ROWS_AT_ONCE") # a Cortex-M0 has no store that reaches two rows
seen open NO_FAULT || { echo "test_order.sh: on the $machine another order is seen where there is no fault"; exit 1; }
for fault in "${faults[@]}"; do
    # shellcheck disable=SC2086 # two words
    if seen $fault; then echo "test_order.sh: on the $machine ${fault#* } in chart_${fault% *}_on is not seen"; exit 1; fi
    found=$((found + 1))
done
echo "test_order: $found seeded faults in the stores, on the $machine, each seen"
