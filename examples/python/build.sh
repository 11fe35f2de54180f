#!/usr/bin/env bash
# Makes the shared library that fints.py loads, out/libfints.so, of the archive that tools/build-archive.sh built. It shows
# only the calls of fints.h.
set -euo pipefail
cd "$(dirname "$0")"
mkdir -p out
echo '{ global: fints_*; local: *; };' > out/exports.map
"${CC:-cc}" -shared -o out/libfints.so -Wl,--version-script=out/exports.map \
    -Wl,--whole-archive ../../crates/fints_c/out/libfints.a -Wl,--no-whole-archive
