#!/bin/sh
# Proves the store for C, writes target/staticlib/libembed.a, which calls nothing but memset and memmove, builds chart.c against it and runs it. The header must compile as C99 and as C++ with no warning.
set -eu
cd "$(dirname "$0")/../.."
tools/archive embed
needed=$(nm -u target/staticlib/libembed.a | awk '$1 == "U" && $2 != "memset" && $2 != "memmove" { print $2 }')
[ -z "$needed" ] || { echo "examples/c/run.sh: the archive calls something else than memset and memmove: $needed"; exit 1; }
mkdir -p target/c
warnings="-Wall -Wextra -Wpedantic -Wconversion -Werror"
# shellcheck disable=SC2086
"${CC:-cc}" -std=c99 $warnings -O2 -I include examples/c/chart.c target/staticlib/libembed.a -o target/c/chart
if command -v "${CXX:-c++}" >/dev/null; then
    # shellcheck disable=SC2086
    echo '#include "chart_store.h"' | "${CXX:-c++}" -x c++ $warnings -I include -fsyntax-only -
fi
./target/c/chart
