#!/usr/bin/env bash
# plan_apply.sh < FILE: runs plan_apply. Proves and builds it first where it is missing or older than the crates, which takes its time the
# first time, since all that it is made of is proved.
set -euo pipefail
root=$(cd "$(dirname "$0")/.." && pwd -P)
crate=$root/crates/plan_apply
program=$crate/out/plan_apply
# When the program was last known to be what the crates say: the gate notes it too, after its rt ci. Its own time does not tell: rt leaves it alone
# where nothing that it needs changed.
known=$root/target/plan_apply.known

# What rt makes stands in the crates' out/, and changes nothing that they say.
is_older() {
    [ "$root/crates.txt" -nt "$known" ] || [ -n "$(find "$root/crates" -mindepth 2 -path '*/crates/*/out' -prune -o -newer "$known" -print -quit)" ]
}

# rt's own lines go to standard error, and nothing here reads standard input: it and standard output are plan_apply's.
if [ ! -x "$program" ] || [ ! -e "$known" ] || is_older; then
    mkdir -p "$root/target"
    touch "$known.begun"
    (cd "$crate" && rt run </dev/null 2>&1) | { grep '^\(rt\|fn\|note\|help\|logic=\)' >&2 || true; }
    mv "$known.begun" "$known"
fi

exec "$program"
