#!/usr/bin/env bash
# examples.sh: plan_apply on every rule file of examples/, each line compared with the one that is written there.
set -euo pipefail
cd "$(dirname "$0")/.."

count=0
for rule in examples/*.rule; do
    expected=${rule%.rule}.line
    if ! bash program/plan_apply.sh <"$rule" | cmp - "$expected"; then
        echo "examples: plan_apply < $rule does not print $expected" >&2
        exit 1
    fi
    count=$((count + 1))
done
echo "plan_apply: $count rule files print what stands beside them"
