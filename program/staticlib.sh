#!/usr/bin/env bash
# staticlib.sh: proves the library and writes target/staticlib/libreedbiscuit.a, which C callers link (include/reedbiscuit.h). It is x86-64 code.
# 'rt lib' begins with what checks on this machine kept, and in a clean clone of a machine without any it proves every crate below first.
set -euo pipefail
cd "$(dirname "$0")/.."

(cd crates/reedbiscuit_c && rt lib)

made=crates/reedbiscuit_c/out/libreedbiscuit_c.a
archive=target/staticlib/libreedbiscuit.a
mkdir -p "${archive%/*}"
# Where nothing changed, the archive keeps its time, and what was linked with it is not linked again.
if ! cmp -s "$made" "$archive"; then cp "$made" "$archive"; fi
