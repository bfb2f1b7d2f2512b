#!/usr/bin/env bash
# run.sh [CALL...]: the tables of docs/BENCHMARKS.md, of these calls or of all. A call's instructions are (those of 11 calls - those of 1) / 10;
# then the bytes of stack that a call writes to. Needs target/staticlib/libreedbiscuit.a (bash program/staticlib.sh), which is x86-64 code, and
# valgrind.
set -euo pipefail
cd "$(dirname "$0")"

# callgrind counts `rep stosb` once a byte, though it is one instruction; with these the C library clears and copies by vectors instead.
export GLIBC_TUNABLES=glibc.cpu.x86_rep_stosb_threshold=1000000000:glibc.cpu.x86_rep_movsb_threshold=1000000000

if [ "$(uname -m)" != x86_64 ]; then
    echo "bench: the library is x86-64 code, the kit makes no other, and this machine is $(uname -m)" >&2
    exit 1
fi
cargo build --offline --release --quiet -j1
bench=target/release/reed-bench

# instructions CALL SIDE CASE TIMES: of the whole program
instructions() {
    valgrind --tool=callgrind --callgrind-out-file=/dev/null "$bench" "$@" 2>&1 | awk '/Collected :/ { print $4; found = 1 } END { exit !found }'
}

# a_call CALL SIDE CASE
a_call() {
    local eleven one
    eleven=$(instructions "$@" 11)
    one=$(instructions "$@" 1)
    echo $(((eleven - one) / 10))
}

# each INSTRUCTIONS SIZE: of a word or node
each() {
    if [ "$2" = 0 ]; then echo -; else awk -v all="$1" -v size="$2" 'BEGIN { printf "%.2f\n", all / size }'; fi
}

# tables CALL NOUN UNIT CASE...: both tables of a call; NOUN is what a case is, UNIT what its size is counted in
tables() {
    local call=$1 noun=$2 unit=$3 case size proved second
    shift 3
    echo "| $noun | ${unit}s | \`reed_$call\` | a $unit | \`second::$call\` | a $unit |"
    echo '|---|--:|--:|--:|--:|--:|'
    for case in "$@"; do
        size=$("$bench" "$call" second "$case" size)
        proved=$(a_call "$call" reedbiscuit "$case")
        second=$(a_call "$call" second "$case")
        echo "| $case | $size | $proved | $(each "$proved" "$size") | $second | $(each "$second" "$size") |"
    done
    echo
    echo "| $noun | stack of \`reed_$call\`, bytes | of \`second::$call\` |"
    echo '|---|--:|--:|'
    for case in "$@"; do
        echo "| $case | $("$bench" "$call" reedbiscuit "$case" stack) | $("$bench" "$call" second "$case" stack) |"
    done
}

# The calls that were asked for, or all.
wanted=${*:-read compile check run watch list_run}
wants() { [[ " $wanted " == *" $1 "* ]]; }

if wants read; then tables read file word smallest three beta odd largest refused; echo; fi
if wants compile; then
    tables compile rule word small beta wide deep checks repeated most growing-32 growing-64 growing-128 growing-256 \
        refused-8 refused-9-28 refused-9-56 refused-9-112 refused-9 refused-9-one refused-10
    echo
fi
if wants check; then
    tables check code word beta most nested-bodies nested-blocks nested-both \
        {match,checks,eqi,eqi-pairs,eqi-guard,cells,blocks,pushi-body,pushi-guard}-{256,1024,4096} refused-last refused-long
    echo
fi
plans=(small beta beta-{64,512,4096} most compare-{64,512,4096} forbid-{64,512,4096})
if wants run; then
    tables run plan node "${plans[@]}" same-{64,512,4096} copy-{32,256,2048} move-{64,512,4095} keyed-{64,512,4095} \
        comb-512 comb-4096 deep abstractions bodies bodies-{symbols,cells,abstractions,deep} blocks both doubled \
        refused-16 refused-11 refused-2 refused-1 refused-3 refused-4 refused-12-first refused-12-last \
        refused-13 refused-13-bodies refused-14 refused-14-bodies refused-15
    echo
fi
if wants watch; then
    tables watch plan node "${plans[@]}" comb-4096 abstractions bodies refused-11 refused-2 refused-1 refused-3 refused-4 refused-12-first refused-12-last \
        refused-13-bodies
    echo
fi
if wants list_run; then
    tables list_run list node none-{0,1,32} near second-{tree,first} leaf-{small,first,last,deep} leaves renamed grown-{first,last} moved-{below,first} \
        beta-{200,first} nested last-{same,other} run-{small,beta,beta-4096,bodies,bodies-cells,bodies-abstractions,both} \
        refused-37 refused-16 refused-11 refused-13
fi
