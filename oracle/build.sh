#!/bin/sh
# Builds target/oracle/oracle from the customer's Rust sources:  oracle/build.sh [SOURCES]
# SOURCES is the folder with rust/candid and rust/candid_parser; without it, shared/docs/src beside the repository or beside the folder it
# lies in. The sources are compared with oracle/SHA256SUMS and copied, since the gate wants no links. If `tools/build.sh exports` came before, the
# exported functions are linked and compared too.
set -eu
root=$(cd "$(dirname "$0")/.." && pwd)
if [ $# -gt 0 ]; then
    sources=$1
else
    sources=$root/../shared/docs/src
    [ -d "$sources" ] || sources=$root/../../shared/docs/src
fi
sources=$(cd "$sources" && pwd)
(cd "$sources" && sha256sum --quiet --strict -c "$root/oracle/SHA256SUMS")

out=$root/target/oracle
tree=$out/tree
rm -rf "$tree"
mkdir -p "$tree/candid/types" "$tree/parser/syntax" "$tree/cut"
echo "$sources" >"$out/sources"
candid=$sources/rust/candid/src
parser=$sources/rust/candid_parser/src
standins=$root/oracle/standins
cp "$standins/candid.rs" "$tree/candid/lib.rs"
cp "$standins/types.rs" "$tree/candid/types/mod.rs"
cp "$candid/types/internal.rs" "$candid/types/type_env.rs" "$tree/candid/types"
cp "$parser/typing.rs" "$tree/parser/typing.rs"
cp "$parser/bindings/analysis.rs" "$tree/parser/analysis.rs"
cp "$parser/syntax/mod.rs" "$tree/parser/syntax/mod.rs"
cp "$standins/pretty.rs" "$tree/parser/syntax/pretty.rs"
sed -n '/^pub fn idl_hash/,/^}/p' "$candid/lib.rs" >"$tree/cut/lib.rs"
sed -n -e '/^fn check_recursion_depth/,/^pub fn check_unique/{/^pub fn check_unique/!p}' -e '/^pub fn pp_num_str/,/^}/p' \
    "$candid/utils.rs" >"$tree/cut/utils.rs"

export ORACLE_TREE=$tree
compile() {
    rustc --edition 2021 -O -C debug-assertions=on -C overflow-checks=on -L "$out" --out-dir "$out" "$@"
}
compile --cap-lints allow --crate-type rlib --crate-name anyhow "$standins/anyhow.rs"
compile --cap-lints allow --crate-type rlib --crate-name stacker "$standins/stacker.rs"
compile --cap-lints allow --crate-type rlib --crate-name candid --extern stacker "$tree/candid/lib.rs"
exports=
if [ -f "$root/target/staticlib/libexports.a" ]; then
    exports="--cfg exports -L $root/target/staticlib -l static=exports"
fi
# shellcheck disable=SC2086
compile --crate-name oracle --check-cfg 'cfg(exports, counted)' $exports --extern anyhow --extern stacker --extern candid "$root/oracle/src/main.rs"
