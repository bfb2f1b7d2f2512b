#!/bin/sh
# build.sh SOURCE ARCHIVE OUT: links a C program with the library's archive and writes OUT/NAME, a program for this machine; NAME is the source's
# name without .c. Compiler, linker and C library are the kit's own, as rt has them for a proved program; like the library they make x86-64 code,
# and no other.
set -eu
source=$1 archive=$2 out=$3
name=$(basename "$source" .c)
here=$(cd "$(dirname "$0")" && pwd -P)
kit=$(dirname "$(rt doc)")
tools=$kit/toolchain
target=x86_64-unknown-linux-gnu

if [ "$(uname -m)" != x86_64 ]; then
    echo "build.sh: the kit's tools are for x86-64, and this machine is $(uname -m)" >&2
    exit 1
fi
"$tools/bin/clang" --target=$target -std=c99 -O2 -fPIC -Wall -Wextra -Werror -nostdinc -isystem "$here/freestanding" \
    -I "$here/../include" -c "$source" -o "$out/$name.o"
"$kit/bin/rattle-link" --target $target --toolchain "$tools" -o "$out/$name" "$out/$name.o" "$archive"
