#!/bin/sh
# Times and measures the reader's exported functions and the customer's Rust on the same books:  bench/bench.sh [SOURCES]
# It makes the static library, and oracle/build.sh, whose SOURCES is as there, is run if it was not. The oracle is compiled anew as cargo's
# release profile does, in one unit, without the assertions that it has in comparisons; and once more with an allocator that counts, for
# measuring alone. The figures stay in target/oracle/bench: books.tsv (nanoseconds; bench/benchbooks.py; five processes, since one differs
# from another), sweep.tsv (every book of tests/check and tests/list that the Rust answers), measure.tsv (bytes of stack and heap; these books
# and all of the tests) and undefined (what the library calls). At the end bench/benchmarks.tsv is books.tsv, and
# bench/plot.py makes bench/benchmarks.svg and the tables of bench/tables.md and docs/FIGURES.md; the sentences there it does not change.
set -eu
root=$(cd "$(dirname "$0")/.." && pwd)
out=$root/target/oracle/bench
tree=$root/target/oracle/tree
"$root/tools/build.sh" exports >/dev/null
[ -d "$tree" ] || "$root/oracle/build.sh" "$@"
mkdir -p "$out"
export ORACLE_TREE=$tree
compile() {
    rustc --edition 2021 -C opt-level=3 -C codegen-units=1 -L "$out" --out-dir "$out" "$@"
}
oracle() {
    compile --check-cfg 'cfg(exports, counted)' --cfg exports -L "$root/target/staticlib" -l static=exports \
        --extern anyhow --extern stacker --extern candid "$@" "$root/oracle/src/main.rs"
}
compile --cap-lints allow --crate-type rlib --crate-name anyhow "$root/oracle/standins/anyhow.rs"
compile --cap-lints allow --crate-type rlib --crate-name stacker "$root/oracle/standins/stacker.rs"
compile --cap-lints allow --crate-type rlib --crate-name candid --extern stacker "$tree/candid/lib.rs"
oracle --crate-name oracle
oracle --crate-name measure --cfg counted
python3 "$root/bench/benchbooks.py" >"$out/books"
python3 "$root/bench/benchbooks.py" uses >"$out/books-uses"
for run in 1 2 3 4 5; do
    "$out/oracle" bench 21 1000 <"$out/books" >"$out/run-$run.tsv"
    "$out/oracle" bench-uses 7 1000 <"$out/books-uses" >"$out/uses.tsv"
    tail -n +2 "$out/uses.tsv" >>"$out/run-$run.tsv"
done
(head -n 1 "$out/run-1.tsv" && tail -q -n +2 "$out"/run-?.tsv) >"$out/books.tsv"
for tests in layout check list; do
    python3 "$root/tools/mkbatch.py" "$root/tests/$tests" "$out/books-$tests"
done
cat "$out/books-check" "$out/books-list" | "$out/oracle" bench 21 20 >"$out/sweep.tsv"
cat "$out/books-layout" "$out/books-check" "$out/books-list" "$out/books" | "$out/measure" measure >"$out/measure.tsv"
nm --undefined-only --format=just-symbols "$root/target/staticlib/libexports.a" | grep -v ':$' | sort -u | xargs >"$out/undefined"
cp "$out/books.tsv" "$root/bench/benchmarks.tsv"
python3 "$root/bench/plot.py" "$out"
