#!/bin/sh
# build.sh OUT: writes OUT/host, the tests' host program with the second implementation in the library's place, for REED_OTHER_HOST
# (tests/linked/README.md). Its LLVM code, not yet optimised, is made x86-64 code by the kit's clang, as the library is. What remains undefined is
# where a panic would go, and what only plan_apply and the seeded cases use; the calls never come there.
set -eu
out=$1
here=$(cd "$(dirname "$0")" && pwd -P)
kit=$(dirname "$(rt doc)")
tools=$kit/toolchain
target=x86_64-unknown-linux-gnu
layout=e-m:e-p270:32:32-p271:32:32-p272:64:64-i64:64-i128:128-f80:128-n8:16:32:64-S128

# x86 NAME: from OUT/NAME.ll to OUT/NAME.o
x86() {
    sed -i -e "s/^target datalayout = .*/target datalayout = \"$layout\"/" -e "s/^target triple = .*/target triple = \"$target\"/" \
        -e 's/"target-cpu"="[^"]*"//g; s/"target-features"="[^"]*"//g' "$out/$1.ll"
    "$tools/bin/clang" --target=$target -O3 -fPIC -Wno-override-module -c "$out/$1.ll" -o "$out/$1.o"
}

as_llvm="--edition 2021 --crate-type rlib -C opt-level=3 -C codegen-units=1 -C panic=abort -C no-prepopulate-passes -C embed-bitcode=no --out-dir $out"
rustc $as_llvm --emit=llvm-ir,link --crate-name second "$here/../../second/src/lib.rs"
rustc $as_llvm --emit=llvm-ir --crate-name second_in_c --extern second="$out/libsecond.rlib" "$here/lib.rs"
x86 second
x86 second_in_c
"$tools/bin/clang" --target=$target -O3 -fPIC -ffreestanding -c "$here/memory.c" -o "$out/memory.o"

nm "$out/second.o" "$out/second_in_c.o" "$out/memory.o" >"$out/names"
{
    echo .text
    awk '$1 == "U" { used[$2] } NF == 3 { made[$3] } END { for (name in used) if (!(name in made)) print ".globl \"" name "\"\n\"" name "\": ud2" }' \
        "$out/names" | grep -v _GLOBAL_OFFSET_TABLE_
} >"$out/undefined.s"
"$tools/bin/clang" --target=$target -c "$out/undefined.s" -o "$out/undefined.o"
"$tools/bin/llvm-ar" rcs "$out/second.a" "$out/second.o" "$out/second_in_c.o" "$out/memory.o" "$out/undefined.o"
sh "$here/../../program/build.sh" "$here/../../tests/linked/host/host.c" "$out/second.a" "$out"
