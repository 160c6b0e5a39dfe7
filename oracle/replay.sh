#!/bin/sh
# Makes crates/answer_batch/stdout anew from the customer's Rust:  oracle/replay.sh [--check]
# oracle/build.sh comes first. A line is the Rust's, or that of tools/answers.py where the Rust has none; how many of each kind is printed.
# crates/answer_batch/stdin is as tools/mkgate.py made it from the sources. With --check nothing is written but target/oracle/run, and the
# exit status is 1 if the lines differ from crates/answer_batch/stdout.
set -eu
root=$(cd "$(dirname "$0")/.." && pwd)
run=$root/target/oracle/run
gate=$root/crates/answer_batch
mkdir -p "$run"
"$root/target/oracle/oracle" answer <"$gate/stdin" >"$run/rust"
python3 "$root/tools/replay.py" join "$gate/stdin" "$run/rust" >"$run/replayed"
if [ "${1:-}" = --check ]; then
    cmp "$run/replayed" "$gate/stdout"
else
    cp "$run/replayed" "$gate/stdout"
fi
