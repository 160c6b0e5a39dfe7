#!/bin/sh
# Compares the reader with the customer's Rust on random books:  oracle/compare.sh SEED COUNT [damage]
# or on all small books, or on parts of them:                    oracle/compare.sh all [PART ...]
# or on a batch that is there:                                   oracle/compare.sh BATCH
# oracle/build.sh comes first, and tools/build.sh answer_batch. The batch and the lines of both sides stay in target/oracle/run.
# If books differ, the smallest of them is made smaller still and printed, with its limits. ANSWER_BATCH names another program to compare than
# target/bin/answer_batch, such as `python3 tools/replay.py answer`, which answers by tools/answers.py.
set -eu
root=$(cd "$(dirname "$0")/.." && pwd)
oracle=$root/target/oracle/oracle
run=$root/target/oracle/run
ours=${ANSWER_BATCH:-$root/target/bin/answer_batch}
mkdir -p "$run"

compare() {
    # shellcheck disable=SC2086
    $ours <"$1" >"$run/answers"
    "$oracle" answer <"$1" >"$run/rust"
    rm -f "$run/difference"
    if "$oracle" compare "$1" "$run/answers" "$run/rust" "$run/difference"; then
        return
    fi
    if [ -s "$run/difference" ]; then
        # shellcheck disable=SC2086
        "$oracle" shrink "$run/difference" $ours >"$run/shrunk"
        python3 "$root/tools/layout.py" "$run/shrunk" || true
    fi
    exit 1
}

if [ "$1" = all ]; then
    shift
    [ $# -gt 0 ] || set -- main import init sound values type-import imports import-init
    for part in "$@"; do
        echo "$part"
        "$oracle" generate-all "$part" >"$run/batch"
        compare "$run/batch"
    done
elif [ $# -eq 1 ]; then
    compare "$1"
else
    "$oracle" generate "$@" >"$run/batch"
    compare "$run/batch"
fi
