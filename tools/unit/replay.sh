#!/usr/bin/env bash
# replay.sh: the calls of replay.c on this machine and on the model have to give the same answers and leave the same bytes. The variables CALLS and SEED say how many
# calls there are and which; from 20,000 calls on every answer has to occur.
set -euo pipefail
cd "$(dirname "$0")/../.."
out=target/unit
calls=${CALLS:-60000} seed=${SEED:-1}
[[ $calls =~ ^[1-9][0-9]{0,8}$ && $seed =~ ^(0|[1-9][0-9]{0,8})$ ]] || { echo "replay.sh: CALLS is a number from 1 to 999999999, and SEED one from 0 on" >&2; exit 2; }
export DEFINES="-DCALLS=$calls -DSEED=$seed"
# shellcheck disable=SC2086 # DEFINES is several words
"${CC:-cc}" -std=c11 -Wall -Wextra -Werror -O2 $DEFINES -I "$out/include" tools/unit/replay.c target/staticlib/libembed.a -o "$out/replay"
"$out/replay" >"$out/replay.host" || { tail -n 20 "$out/replay.host"; echo "replay.sh: failed on this machine"; exit 1; }
timeout $((60 + calls / 100)) tools/unit/run.sh tools/unit/replay.c >"$out/replay.model" || { tail -n 20 "$out/replay.model"; echo "replay.sh: failed on the model"; exit 1; }
diff "$out/replay.host" "$out/replay.model" || { echo "replay.sh: another hash on the model (>) than on this machine (<)"; exit 1; }
grep -vE '^[0-9]+ [0-9a-f]{16}$' "$out/replay.model" # what was met, without the hashes
echo "replay: $calls calls, seed $seed: the same answers and bytes after each on this machine and on the model"
