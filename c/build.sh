#!/usr/bin/env bash
# c/build.sh [ARCHIVE]: makes c/out/libninelace.a and c/out/libninelace.so from the archive that `rt lib`
# writes in crates/ninelace_c, and puts the second beside the Python package.
set -eu
here=$(cd "$(dirname "$0")" && pwd)
archive=${1:-$here/../crates/ninelace_c/out/libninelace_c.a}
[ -f "$archive" ] || { echo "no archive at $archive: run 'rt lib' in crates/ninelace_c" >&2; exit 2; }
cc=${CC:-cc}
out=$here/out
mkdir -p "$out"
"$cc" -std=c11 -O2 -fPIC -Wall -Wextra -c "$here/heap.c" -o "$out/heap.o"
cp "$archive" "$out/libninelace.a.new"
ar r "$out/libninelace.a.new" "$out/heap.o" 2>/dev/null
mv "$out/libninelace.a.new" "$out/libninelace.a"
"$cc" -shared -o "$out/libninelace.so" -Wl,--whole-archive "$out/libninelace.a" -Wl,--no-whole-archive -Wl,-z,defs \
    -Wl,-soname,libninelace.so "-Wl,--version-script=$here/ninelace.map"
cp "$out/libninelace.so" "$here/../python/ninelace/"
echo "$out/libninelace.a $out/libninelace.so"
