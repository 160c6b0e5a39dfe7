#!/usr/bin/env bash
# Proves and builds the static library or programs, and puts them where the other tools look for them:  tools/build.sh CRATE ..
#
#   exports      target/staticlib/libexports.a
#   a program    target/bin/CRATE, and its own object target/obj/CRATE.o; what it writes on crates/CRATE/stdin, with the arguments that are the lines
#                of crates/CRATE/args, has to be crates/CRATE/stdout
#
# Needs the Rattle kit, which leaves what it builds in crates/CRATE/out (`rt lib`, `rt run`). What has not changed is not proved again.
set -euo pipefail
[ $# -gt 0 ] || {
    sed -n '2,/^set/{/^set/d;s/^# \{0,1\}//;p}' "$0" >&2
    exit 2
}
cd "$(dirname "$0")/.."
mkdir -p target/bin target/obj target/staticlib
for crate in "$@"; do
    out=crates/$crate/out
    if [ -f "crates/$crate/src/main.rt" ]; then
        rm -f "$out/$crate" # a program that is there was built now
        arguments=()
        [ ! -f "crates/$crate/args" ] || mapfile -t arguments <"crates/$crate/args"
        (cd "crates/$crate" && rt run -- "${arguments[@]}" </dev/null >/dev/null)
        cp "$out/$crate" target/bin/
        cp "$out/$crate.o" target/obj/
        input=crates/$crate/stdin
        [ -f "$input" ] || input=/dev/null
        "target/bin/$crate" "${arguments[@]}" <"$input" | cmp - "crates/$crate/stdout"
    else
        (cd "crates/$crate" && rt lib)
        cp "$out/lib$crate.a" target/staticlib/
    fi
done
