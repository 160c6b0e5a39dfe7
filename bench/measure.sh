#!/usr/bin/env bash
# Measures stack and time of every question as C asks it:  bench/measure.sh [SOURCE.did ..]
#
# Without a source: a small book, a full-size one, and those that take the most stack or time. It needs what c/build.sh needs.
set -eu
cd "$(dirname "$0")/.."
tools/build.sh exports >&2
mkdir -p target/bench
"${CC:-cc}" -std=c99 -O2 -Wall -Wextra -Wpedantic -Werror -Iinclude -Ic bench/measure.c target/staticlib/libexports.a -o target/bench/measure
if [ $# = 0 ]; then
    set -- tests/list/p01.did bench/full.did tests/layout/limit-nested-4096.did tests/check/large-merge.did tests/check/large-chain-actor.did \
        bench/chain-init.did tests/check/large-methods-import.did tests/list/large-circle.did tests/list/large-deepest.did
fi
for source in "$@"; do
    python3 tools/mkbook.py "$source" >target/bench/book
    target/bench/measure target/bench/book | sed "s|^target/bench/book|$source|"
done
