#!/usr/bin/env bash
# Builds the library for C over the libraries that `rt ci` left in out/: crates/fints_c/out/libfints.a has all that it needs
# but the C library; crates/fints_c/out/by-rattle/libfints.a is the same, built by Rattle's own compiler. `rt lib` would
# build each library below anew, since those that `rt ci` leaves hold only statements.
set -euo pipefail
cd "$(dirname "$0")/.."
top=$PWD
kit=$(dirname "$(rt doc)")
cd crates/fints_c
words=(--crate-name fints_c src/lib.rt --crate-type staticlib --links fints_c=
    --extern "std=$kit/rlibs/std.rlib" -L "dependency=$kit/rlibs"
    --antt-project "$kit/rattle/logic/antt-project.json" --logic-built "$kit/logic_built")
for name in $(sed -n 's/^fints_c staticlib: *//p' "$top/crates.txt"); do
    rlib=$top/crates/$name/out/rlib/$name.rlib
    [ -d "$top/crates/$name" ] || rlib=$kit/rlibs/$name.rlib
    words+=(--extern "$name=$rlib")
done
for folder in "$top"/crates/*/out/rlib; do
    words+=(-L "dependency=$folder")
done
mkdir -p out/by-rattle
checked=$(mktemp -d)
trap 'rm -rf "$checked"' EXIT
"$kit/bin/rattle" check "${words[@]}" --jobs 2 -o "$checked/checked" > "$checked/said" 2>&1 || { tail -5 "$checked/said" >&2; exit 1; }
# --logic-built is a flag of checks only.
build=()
for ((i = 0; i < ${#words[@]}; i++)); do
    [ "${words[i]}" != --logic-built ] || { i=$((i + 1)); continue; }
    build+=("${words[i]}")
done
for backend in llvm rattle; do
    to=out
    [ "$backend" = llvm ] || to=out/by-rattle
    "$kit/bin/rattle" build "${build[@]}" --crate-checked "$checked/checked" --toolchain "$kit/toolchain" --backend "$backend" \
        -o "$to/libfints_c.a" > "$checked/said" 2>&1 || { tail -5 "$checked/said" >&2; exit 1; }
    printf 'create %s\naddlib %s\naddlib %s\nsave\nend\n' "$to/libfints.a" "$to/libfints_c.a" "$kit/c/liblibc_c.a" | ar -M
done
