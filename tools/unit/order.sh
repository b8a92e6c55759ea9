#!/usr/bin/env bash
# order.sh host|model: on this machine or on the model every store to log and charts is seen, in the calls and openings of order.c: each call stores its rows one after another in the order of their
# numbers, and then its page, each byte of a row or page once, the half of a page that has the mark last, and comes back to none that it has left. For this machine target/staticlib/libembed.a has to
# be there (tools/archive embed); for the model the archive for the unit (build.sh), and what order.sh host left: the same has to be stored on both.
set -euo pipefail
cd "$(dirname "$0")/../.."
out=target/unit
machine=${1:?host or model}
words=(-std=c11 -Wall -Wextra -Werror -O2)
mkdir -p "$out"
if [ "$machine" = host ]; then
    "${CC:-cc}" "${words[@]}" -I include tools/unit/order.c tools/unit/stores.c target/staticlib/libembed.a -o "$out/order"
    "$out/order" >"$out/order.host" 2>"$out/stores.host"
else
    "${CC:-cc}" "${words[@]}" -shared -fPIC tools/unit/plugin.c -o "$out/plugin.so"
    tools/unit/run.sh tools/unit/order.c -plugin "$out/plugin.so,stores=$out/stores.model" >"$out/order.model"
fi || { tail -n 1 "$out/order.$machine"; echo "order.sh: failed on the $machine"; exit 1; }
cmp "$out/order.host" "$out/order.$machine"
diff -q "$out/order.$machine" "$out/stores.$machine" ||
    { diff "$out/order.$machine" "$out/stores.$machine" | cut -c 1-160 | head -n 4; echo "order.sh: not the order of the stored writes, or a byte not stored once"; exit 1; }
pages=$(grep -o p "$out/order.$machine" | wc -l)
rows=$(($(wc -w <"$out/order.$machine") - pages))
[ "$rows" -gt 0 ] && [ "$pages" -gt 0 ]
echo "order: on the $machine $(wc -l <"$out/order.$machine") calls and openings, of which $(grep -c . "$out/order.$machine") store anything, $rows rows and $pages pages: in order, each byte once; the same without a fuse as with one"
