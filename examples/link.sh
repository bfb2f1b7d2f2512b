#!/usr/bin/env bash
# link.sh: links apply.c and apply.rs with the library, runs each on every rule file here and compares its line with the one that is written
# beside the file; rewrite.c the same, on every list of rewrite/. Needs target/staticlib/libreedbiscuit.a (bash program/staticlib.sh), which is
# x86-64 code.
set -euo pipefail
cd "$(dirname "$0")/.."

folder=target/staticlib
made=$(mktemp -d)
trap 'rm -rf "$made"' EXIT

# print_lines NAME COMMAND...: compares what the command, which runs the program of this name, prints
print_lines() {
    local name=$1 count=0 rule
    shift
    for rule in examples/*.rule; do
        if ! "$@" <"$rule" | cmp - "${rule%.rule}.line"; then
            echo "link: $name < $rule does not print ${rule%.rule}.line" >&2
            exit 1
        fi
        count=$((count + 1))
    done
    echo "$name: $count rule files print what stands beside them"
}

# rewrite_lists NAME COMMAND: the same for rewrite.c on every list; what is said of a refused file stands in error, and the status is then 1
rewrite_lists() {
    local name=$1 count=0 list status
    for list in examples/rewrite/*; do
        status=0
        "$2" "$(cat "$list/rewrites")" "$list"/*.rule >"$made/line" 2>"$made/error" || status=$?
        if [ -e "$list/error" ]; then
            cmp "$made/error" "$list/error" && ! [ -s "$made/line" ] && [ $status = 1 ]
        else
            cmp "$made/line" "$list/line" && ! [ -s "$made/error" ] && [ $status = 0 ]
        fi || {
            echo "link: $name does not do on $list/*.rule what stands there" >&2
            exit 1
        }
        count=$((count + 1))
    done
    echo "$name: $count lists of rules give what stands beside them"
}

if [ "$(uname -m)" != x86_64 ]; then
    echo "link: the library is x86-64 code, the kit makes no other, and this machine is $(uname -m)" >&2
    exit 1
fi

for program in apply rewrite; do
    gcc -std=c99 -O2 -Wall -Wextra -Werror -I include "examples/$program.c" "$folder/libreedbiscuit.a" -o "$made/${program}_c"
done
print_lines apply.c "$made/apply_c"
rewrite_lists rewrite.c "$made/rewrite_c"
rustc --edition 2021 -O -D warnings -L "$folder" -l static=reedbiscuit examples/apply.rs -o "$made/apply_rs"
print_lines apply.rs "$made/apply_rs"
