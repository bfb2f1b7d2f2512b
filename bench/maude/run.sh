#!/usr/bin/env bash
# run.sh: rewrites a second of Maude (apt install maude) and of the library on the same first-order lists, by hand: not part of any gate. Needs
# what ../run.sh needs. Maude tells its rewrites and milliseconds itself, after reading the plan; the calls here are timed as a whole, with the
# check of the rules and of the plan, and the writing of the result.
set -euo pipefail
cd "$(dirname "$0")/.."
cargo build --offline --release --quiet -j1
bench=target/release/reed-bench
scratch=$(mktemp -d)
trap 'rm -rf "$scratch"' EXIT

# seconds COMMAND...: of the processor's time
seconds() {
    local TIMEFORMAT=%U
    { time "$@"; } 2>&1
}

# maude_rate LOAD KIND COMMAND TIMES: rewrites by milliseconds, over so many commands
maude_rate() {
    {
        python3 maude/make.py "$1" "$2"
        for _ in $(seq "$4"); do echo "$3"; done
        echo quit
    } >"$scratch/load.maude"
    maude -no-banner -no-wrap -batch "$scratch/load.maude" </dev/null | sed -n 's/^rewrites: \([0-9]*\) in [0-9]*ms cpu (\([0-9]*\)ms real).*/\1 \2/p' |
        awk '{ rewrites += $1; ms += $2 } END { if (ms >= 50) printf "%.2f million\n", rewrites / ms / 1e3; else print "too short" }'
}

echo '| list | rewrites of a call | the library, a second | second, a second | Maude, reduce | Maude, rewrite |'
echo '|---|--:|--:|--:|--:|--:|'
for load in moved-below:1000 renamed:1000 last-other:100; do
    name=${load%:*} rewrites=${load#*:} times=1000
    row="| $name | $rewrites |"
    for side in reedbiscuit second; do
        row+=" $(seconds "$bench" list_run $side "$name" $times | awk -v all=$((rewrites * times)) '{ printf "%.2f million", all / $1 / 1e6 }') |"
    done
    echo "$row $(maude_rate "$name" eq 'red loop(1000) .' 5) | $(maude_rate "$name" rl 'rew plan .' 200) |"
done
