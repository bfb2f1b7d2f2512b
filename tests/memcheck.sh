#!/usr/bin/env bash
# memcheck.sh [SHARE]: valgrind's memcheck over examples/apply.c, on every rule file, over examples/rewrite.c, on every list, and over the calls
# of the comparison tests (linked/), one of SHARE seeds, 100 if none is said: no error, no leak. Needs gcc, valgrind, the kit and
# target/staticlib/libreedbiscuit.a (bash program/staticlib.sh), which is x86-64 code.
set -euo pipefail
cd "$(dirname "$0")/.."

share=${1:-100}
archive=$PWD/target/staticlib/libreedbiscuit.a
made=$(mktemp -d)
trap 'rm -rf "$made"' EXIT
if [ "$(uname -m)" != x86_64 ]; then
    echo "memcheck: the library is x86-64 code, the kit makes no other, and this machine is $(uname -m)" >&2
    exit 1
fi
found=9
memcheck=(valgrind --leak-check=full --show-leak-kinds=all --errors-for-leak-kinds=all --error-exitcode=$found --log-file="$made/%p.log")

# compile NAME SOURCE
compile() { gcc -g -O2 -std=c99 -I include "$2" "$archive" -o "$made/$1"; }

# fail WHAT: says it below the logs; a valgrind that did not start has left none
fail() {
    cat "$made"/*.log >&2 || true
    echo "memcheck: $1" >&2
    exit 1
}

# no_error WHAT: of all runs since it was asked last; says how many these were
no_error() {
    local logs=("$made"/*.log)
    if ! [ -e "${logs[0]}" ] || [ -n "$(grep -L 'ERROR SUMMARY: 0 errors' "${logs[@]}")" ]; then
        fail "an error in $1"
    fi
    echo "memcheck: ${#logs[@]} runs of $1, no error, no leak"
    rm "${logs[@]}"
}

compile planted tests/planted.c
status=0
"${memcheck[@]}" "$made/planted" || status=$?
if [ $status != $found ] || ! grep -q 'ERROR SUMMARY: 2 errors' "$made"/*.log; then
    fail "valgrind does not see the errors of a program that has two"
fi
rm "$made"/*.log

compile apply examples/apply.c
for rule in examples/*.rule; do
    if ! "${memcheck[@]}" "$made/apply" <"$rule" | cmp - "${rule%.rule}.line"; then
        fail "an error or a wrong line in apply.c < $rule"
    fi
done
no_error apply.c

compile rewrite examples/rewrite.c
for line in examples/rewrite/*/line; do
    list=$(dirname "$line")
    if ! "${memcheck[@]}" "$made/rewrite" "$(cat "$list/rewrites")" "$list"/*.rule | cmp - "$line"; then
        fail "an error or a wrong line in rewrite.c on $list"
    fi
done
no_error rewrite.c

# What a call is lent is in blocks of just its length (REED_BLOCKS). The tests do not ask how a host ended: its log tells.
compile host tests/linked/host/host.c
printf '#!/bin/sh\nexec %s %s\n' "${memcheck[*]}" "$made/host" >"$made/checked_host"
chmod +x "$made/checked_host"
(cd tests/linked && REED_ENGINE=host REED_OTHER_HOST=$made/checked_host REED_BLOCKS=1 SEED_SHARE=$share \
    cargo test --offline --release --quiet -j1 --test read --test compile --test check --test run --test watch --test list_run) ||
    fail "the comparison tests fail"
no_error "the host, for one of $share seeds"
