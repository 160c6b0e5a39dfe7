#!/usr/bin/env bash
# Builds c/list.c and c/questions.c on the static library and compares what they write with what is right:  c/build.sh
#
# Needs the Rattle kit (tools/build.sh proves what is not proved yet), Python 3 and a C compiler, `cc` or what CC names.
# All that it makes is in target/c.
set -eu
cd "$(dirname "$0")/.."
tools/build.sh exports
mkdir -p target/c
for program in list questions; do
    "${CC:-cc}" -std=c99 -O2 -Wall -Wextra -Wpedantic -Werror -Iinclude "c/$program.c" target/staticlib/libexports.a -o "target/c/$program"
done

# try PROGRAM SOURCE STATUS OUTPUT [ARGUMENT ..]
try() {
    local program=$1 source=$2 status=$3 expected=$4 found=0 output
    shift 4
    python3 tools/mkbook.py "$source" >target/c/book
    output=$("target/c/$program" target/c/book "$@") || found=$?
    if [ "$found" != "$status" ] || [ "$output" != "$expected" ]; then
        printf '%s, %s %s: status %s and\n%s\nwhere %s and\n%s\nis right\n' "$program" "$source" "$*" "$found" "$output" "$status" "$expected" >&2
        exit 1
    fi
    echo "$program, $source${*:+ $*}: right"
}

# P1's names are "" fork leaf pair put spare tree: it lists pair and tree.
try list tests/list/p01.did 0 $'check passed\nlist 2\n3\n6'
try list tests/list/p01.did 0 $'check passed\nlist 2\n3\n6' 2
try list tests/list/p01.did 1 $'check passed\nlist refused 16 needed 2' 1
try list tests/list/p01.did 1 $'check passed\nlist refused 16 needed 2' 0
try list tests/list/p10.did 0 $'check passed\nlist 0' 0
try list tests/list/p03.did 1 'check refused 7 name 1'
try list tests/list/p04.did 1 $'check passed\nlist refused 17 -'
try list tests/check/row-18-record.did 1 'check refused 18 name 2'
try list tests/check/row-18-number.did 1 'check refused 18 -'
try list tests/layout/length-0.did 1 'check refused 1 -'
try list tests/layout/length-31.did 1 'check refused 1 -'
try list tests/layout/length-65537.did 1 'check refused 1 -'

# fail OUTPUT ERROR [ARGUMENT ..]: status 2, and what failed on standard error.
fail() {
    local to=$1 expected=$2 found=0 errors
    shift 2
    errors=$(target/c/list "$@" 2>&1 >"$to") || found=$?
    if [ "$found" != 2 ] || [ "$errors" != "$expected" ]; then
        printf 'list, %s: status %s and\n%s\nwhere 2 and\n%s\nis right\n' "$*" "$found" "$errors" "$expected" >&2
        exit 1
    fi
    echo "list, $expected: right"
}

export LC_ALL=C
fail /dev/null 'usage: list BOOK [PLACES]'
fail /dev/null 'usage: list BOOK [PLACES]' target/c/book 513
fail /dev/null 'usage: list BOOK [PLACES]' target/c/book x
fail /dev/null 'usage: list BOOK [PLACES]' target/c/book 2 3
fail /dev/null 'list: target/c/missing: No such file or directory' target/c/missing
fail /dev/null 'list: target/c: Is a directory' target/c
fail /dev/full 'list: standard output: No space left on device' target/c/book

# ask SOURCE NAME METHOD PLACES [NAMES NODES DEFINITIONS]: every question, under these limits or the full ones, as the second reading answers
# it. tools/test_tools.py has its answers by hand, under limits those to some of these calls.
ask() { try questions "$1" 0 "$(python3 tools/answers.py "$@")" "${@:2}"; }

ask tests/list/p01.did 6 4 4096
ask tests/list/p01.did 5 6 4096
ask tests/list/p01.did 1024 1024 4096
ask tests/list/p01.did 65535 65535 4096
ask tests/list/p01.did 6 4 3
ask tests/list/p01.did 6 4 2
ask tests/list/p01.did 6 4 0
ask tests/list/init-own.did 0 5 4096
ask tests/list/p11-empty.did 1 1 4096
ask tests/list/class-arguments.did 2 5 4096
ask tests/list/p03.did 2 1 4096
ask tests/layout/length-0.did 0 0 4096
# Alias chains: of two names and of 512, to the name of number 0 and of 1,023; 3 for a name without definition and for numbers outside.
ask tests/list/alias-1.did 1 1 4096
ask tests/list/alias-2.did 1 1 0
ask tests/list/alias-2.did 2 1 0
ask tests/list/alias-2.did 0 1 0
ask tests/list/alias-2.did 3 1 0
ask tests/list/alias-2.did 1024 1 0
ask tests/list/alias-2.did 65535 1 0
ask tests/list/alias-last-empty.did 1 0 0
ask tests/list/alias-last-empty.did 2 0 0
ask tests/list/large-alias-names.did 0 0 0
ask tests/list/large-alias-names.did 1023 0 0
ask tests/list/large-chain.did 511 512 4096
ask tests/list/large-chain.did 0 512 4096
ask tests/list/large-chain.did 512 512 4096
ask tests/list/large-alias-descending.did 512 0 4096
ask tests/list/alias-class.did 2 1 4096
ask tests/list/alias-imports.did 2 1 4096
ask tests/list/alias-init.did 0 0 0
ask tests/list/alias-init.did 2 0 0
ask tests/list/alias-unbound.did 1 1 4096
ask tests/list/alias-circle-tail.did 1 1 4096
ask tests/list/alias-check-first.did 65535 1 4096
ask tests/list/alias-repeat.did 65535 1 4096
# Numbers of values: none, one, the largest and one less, and many; 3 for names without definition and for numbers outside; the check before.
ask tests/list/values-opts.did 1 1 0
ask tests/list/values-fixed.did 1 1 0
ask tests/list/values-fixed.did 4 1 0
ask tests/list/values-fixed.did 8 1 0
ask tests/list/values-endless.did 10 1 0
ask tests/list/values-most-product.did 3 1 4096
ask tests/list/values-most-product.did 6 1 4096
ask tests/list/values-most-sum.did 1 1 4096
ask tests/list/values-most-sum.did 2 1 4096
ask tests/list/values-most-opt.did 1 1 4096
ask tests/list/values-most-opt.did 2 1 4096
ask tests/list/values-most-opt.did 3 1 4096
ask tests/list/values-no-circle.did 1 1 4096
ask tests/list/values-no-circle.did 3 1 4096
ask tests/list/values-circle-names.did 4 1 4096
ask tests/list/values-names.did 0 1 4096
ask tests/list/values-unbound.did 0 4 4096
ask tests/list/values-unbound.did 5 4 4096
ask tests/list/values-unbound.did 9 4 4096
ask tests/list/values-unbound.did 1024 4 4096
ask tests/list/values-unbound.did 65535 4 4096
ask tests/list/values-init.did 1 1 4096
ask tests/list/values-check-first.did 65535 1 4096
ask tests/list/values-check-names.did 65535 1 4096
ask tests/list/values-broken.did 1 1 4096
ask tests/list/values-repeat.did 65535 1 4096
ask tests/list/large-values-chain.did 512 0 0
ask tests/list/large-values-circle.did 511 0 0
# Uses reports: no definition listed, one and 512, with room for all, for just as many, for one fewer and for none; more uses of a name than
# there is room for, and more than 65,535; 17 and the check before.
ask tests/list/p10.did 0 0 0
ask tests/list/uses-function.did 1 4 3
ask tests/list/uses-function.did 1 4 2
ask tests/list/uses-function.did 1 4 0
ask tests/list/uses-circle.did 4 1 4
ask tests/list/uses-circle.did 4 1 3
ask tests/list/use-counts-imports.did 1 1 3
ask tests/list/use-counts-nested.did 1 1 4
ask tests/list/use-counts-names.did 1 1 4
ask tests/list/large-use-counts.did 1024 1 512
ask tests/list/large-use-counts.did 1024 1 511
ask tests/list/large-uses-4097.did 1 1 3
ask tests/list/large-uses-many.did 0 1 1
ask tests/list/large-uses-class.did 1 1 1
ask tests/list/p04.did 1 1 0
ask tests/list/uses-repeated-method.did 1 1 4096

# The same by hand: report SOURCE PLACES OUTCOME.
report() {
    local line
    python3 tools/mkbook.py "$1" >target/c/book
    line=$(target/c/questions target/c/book 0 0 "$2" | grep '^use-counts ')
    if [ "$line" != "use-counts $3" ]; then
        printf 'questions, %s with %s places:\n%s\nwhere\nuse-counts %s\nis right\n' "$1" "$2" "$line" "$3" >&2
        exit 1
    fi
    echo "questions, $1 with $2 places, $3: right"
}
# Pair and tree: `put` takes a tree, which leads to both.
report tests/list/p01.did 2 'given 2 1 1'
report tests/list/p01.did 1 'refused 16 needs 2'
report tests/list/p01.did 0 'refused 16 needs 2'
report tests/list/p10.did 0 'given 0'
report tests/list/p04.did 4096 'refused 17 -'
report tests/list/p03.did 4096 'refused 7 1'
report tests/list/use-counts-unlisted.did 0 'given 0'
# A method's own function has no use; where it is among its own arguments it has.
report tests/list/uses-function.did 3 'given 3 1 1 0'
report tests/list/uses-function-itself.did 1 'given 1 1'
# Two class arguments, an argument and a result.
report tests/list/class-arguments.did 4 'given 4 1 1 1 1'
# A use for each argument and result, however often it refers to the name, and with all that is inside.
report tests/list/use-counts-twice.did 1 'given 1 4'
report tests/list/use-counts-nested.did 4 'given 4 3 2 2 1'
# Methods of main and of two imports.
report tests/list/use-counts-imports.did 3 'given 3 9 4 0'
# The init file's arguments do not count.
report tests/list/init-own.did 4096 'given 1 1'
# `(a) -> (c)`, `(opt b, d) -> (text)`, where a, b and c lead to each other and to d.
report tests/list/uses-circle.did 4 'given 4 4 3 3 3'
# 512 methods of a function that takes an a eight times, and a class that takes one.
report tests/list/large-uses-4097.did 3 'given 3 4097 1 0'
# 85 methods times 771, and a class argument; 32 times 4,062; 1,024 times 3,070.
report tests/list/large-use-counts-65536.did 4 'given 4 65536 65535 65535 0'
report tests/list/large-uses-many.did 1 'given 1 129984'
report bench/uses-most.did 1 'given 1 3143680'

# total SOURCE ..: counts add up to what the second reading counts from the other side, of each argument and result what it reaches.
total() {
    local source theirs ours
    for source; do
        python3 tools/mkbook.py "$source" >target/c/book
        theirs=$(PYTHONPATH=tools python3 -c 'import sys, answers
print(answers.reachable_together(answers.Book(sys.stdin.buffer.read())))' <target/c/book)
        ours=$(target/c/questions target/c/book 0 0 |
            awk '$1 == "use-counts" { for (i = 4; i <= NF; i++) sum += $i; print sum + 0 }')
        if [ "$ours" != "$theirs" ]; then
            printf 'questions, %s: %s uses where %s is right\n' "$source" "$ours" "$theirs" >&2
            exit 1
        fi
        echo "questions, $source, $ours uses from both sides: right"
    done
}
total tests/list/p01.did tests/list/use-counts-unlisted.did tests/list/use-counts-circle.did tests/list/use-counts-imports.did \
    tests/list/use-counts-nested.did tests/list/large-use-counts-65536.did tests/list/large-use-counts.did bench/full.did

# Methods that change with either of two names: with both, with one, which may be asked twice, and with none; room for all, for just as many, for one
# fewer and for none; methods of imports; arguments of a class alone; numbers outside; 17, also of numbers outside alone, and the check before.
ask tests/list/methods-two.did 1 2 3
ask tests/list/methods-two.did 2 1 2
ask tests/list/methods-two.did 1 2 0
ask tests/list/methods-two.did 1 1 2
ask tests/list/methods-two.did 1 1 1
ask tests/list/methods-two.did 2 65535 2
ask tests/list/methods-two.did 1024 65535 0
ask tests/list/methods-twice.did 2 1 2
ask tests/list/methods-imports.did 0 1 3
ask tests/list/methods-imports.did 1 1 2
ask tests/list/import-merged.did 0 3 4096
ask tests/list/methods-class.did 1 2 0
ask tests/list/methods-class-method.did 2 1 1
ask tests/list/methods-own-function.did 1 2 0
ask tests/list/methods-own-function-reached.did 1 2 2
ask tests/list/methods-unlisted.did 2 3 0
ask tests/list/methods-no-actor.did 1 2 0
ask tests/list/methods-no-actor.did 1024 65535 4096
ask tests/list/none-actor-03.did 1 65535 0
ask tests/list/large-methods-1024.did 0 1 1024
ask tests/list/large-methods-1024.did 1 1022 1023
ask tests/list/large-methods-1024.did 1022 1023 1
ask tests/list/large-use-counts.did 1024 511 64

# The same by hand: change SOURCE NAME NAME PLACES OUTCOME.
change() {
    local line
    python3 tools/mkbook.py "$1" >target/c/book
    line=$(target/c/questions target/c/book "$2" "$3" "$4" | grep '^methods ')
    if [ "$line" != "methods $5" ]; then
        printf 'questions, %s with %s, %s and %s places:\n%s\nwhere\nmethods %s\nis right\n' "$1" "$2" "$3" "$4" "$line" "$5" >&2
        exit 1
    fi
    echo "questions, $1, methods of $2 and $3 with $4 places, $5: right"
}
# Pair and tree, which `put` takes; spare, which nothing does.
change tests/list/p01.did 3 6 1 'given 1 0'
change tests/list/p01.did 3 3 4096 'given 1 0'
change tests/list/p01.did 6 5 0 'refused 16 needs 1'
change tests/list/p01.did 5 65535 0 'given 0'
change tests/list/p10.did 0 1 0 'given 0'
change tests/list/p04.did 1 1 4096 'refused 17 -'
change tests/list/p03.did 1 1 4096 'refused 7 1'
# `m : (a) -> (); n : () -> (b); o : (a) -> (b); p : (nat) -> (text)`.
change tests/list/methods-two.did 1 2 3 'given 3 0 1 2'
change tests/list/methods-two.did 2 1 4096 'given 3 0 1 2'
change tests/list/methods-two.did 2 1 2 'refused 16 needs 3'
change tests/list/methods-two.did 1 1 2 'given 2 0 2'
change tests/list/methods-two.did 2 1024 2 'given 2 1 2'
change tests/list/methods-two.did 0 3 0 'given 0'
# The name of a method's own function is no use; where its own arguments lead to it it is one.
change tests/list/methods-own-function.did 1 1 0 'given 0'
change tests/list/methods-own-function-reached.did 1 1 2 'given 2 1 2'
change tests/list/methods-own-function-reached.did 2 3 1 'given 1 1'
# What arguments of a class lead to.
change tests/list/methods-class.did 1 2 0 'given 0'
change tests/list/methods-class-method.did 1 2 1 'given 1 1'
# Main has two methods, its imports one and two.
change tests/list/methods-imports.did 0 1 3 'given 3 0 2 3'
change tests/list/methods-imports.did 1 1 1 'given 1 2'
# As many methods as there can be, and the last of them.
change tests/list/large-methods-1024.did 1 1 1024 "given 1024 $(seq -s ' ' 0 1023)"
change tests/list/large-methods-1024.did 1 1022 1023 'refused 16 needs 1024'
change tests/list/large-methods-1024.did 1022 0 1 'given 1 1023'

# The second reading stops at 4,097 uses.
right=$(python3 tools/answers.py bench/uses-most.did 1 3 4096)
try questions bench/uses-most.did 0 "${right/needs 4097/needs 3143680}" 1 3 4096

# within SOURCE NAMES NODES DEFINITIONS: under the counts of a book as limits, and each of them one lower and one higher; under none at all.
within() {
    ask "$1" 6 4 4096 "$2" "$3" "$4"
    ask "$1" 6 4 4096 $(($2 - 1)) "$3" "$4"
    ask "$1" 6 4 4096 $(($2 + 1)) "$3" "$4"
    ask "$1" 6 4 4096 "$2" $(($3 - 1)) "$4"
    ask "$1" 6 4 4096 "$2" $(($3 + 1)) "$4"
    ask "$1" 6 4 4096 "$2" "$3" $(($4 - 1))
    ask "$1" 6 4 4096 "$2" "$3" $(($4 + 1))
    ask "$1" 6 4 4096 0 0 0
}
within tests/list/p01.did 7 10 3
within tests/list/init-own.did 7 12 4
within tests/list/p03.did 3 2 2
within tests/list/alias-2.did 3 2 2
within tests/list/values-opts.did 3 35 2
within tests/list/methods-two.did 7 13 2
within tests/layout/limit-all.did 1024 4096 512
# Limits above the figures count as these, however large they are.
ask tests/list/p01.did 6 4 4096 1025 4097 513
ask tests/list/p01.did 6 4 4096 4294967295 4294967295 4294967295
ask tests/list/p01.did 6 4 4096 4294967295 10 4294967295
ask tests/list/p01.did 6 4 4096 65542 65546 65538
ask tests/list/p01.did 6 4 4096 4294967295 4294967295 2
# Each of them 0 alone.
ask tests/list/p01.did 6 4 4096 0 10 3
ask tests/list/p01.did 6 4 4096 7 0 3
ask tests/list/p01.did 6 4 4096 7 10 0
# LUDZEPIN_FULL takes the largest book.
ask tests/layout/limit-all.did 6 4 4096
# A repeated label or method is 18, after 24.
ask tests/list/repeat-every-question.did 6 4 4096
ask tests/list/repeat-none.did 65535 65535 0
ask tests/limits/repeat-label.did 6 4 4096 4 6 1
ask tests/limits/repeat-label.did 6 4 4096 3 6 1
ask tests/limits/repeat-method.did 6 4 4096 1024 4096 512
ask tests/limits/repeat-method.did 6 4 4096 3 6 0
# 24 is before 16, and within limits 16 is as ever.
ask tests/list/p01.did 6 4 0 6 10 3
ask tests/list/p01.did 6 4 0 7 10 3
# A broken book is 1 whatever the limits are.
ask tests/layout/length-0.did 0 0 4096 0 0 0
ask tests/layout/limit-names-1025.did 0 0 4096 0 0 0
ask tests/layout/limit-names-1025.did 0 0 4096 4294967295 4294967295 4294967295
ask tests/layout/limit-nodes-4097.did 0 0 4096 1024 4095 512
ask tests/layout/limit-nodes-4097.did 0 0 4096 4294967295 4294967295 4294967295
ask tests/layout/limit-definitions-513.did 0 0 4096 1024 4096 512
ask tests/layout/limit-definitions-513.did 0 0 4096 4294967295 4294967295 4294967295
