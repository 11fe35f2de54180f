#!/usr/bin/env bash
# Packs the program that the gate built: a Debian package, an archive for any Linux, and SHA256SUMS. The same commit gives
# the same bytes. Each has the program, the library for C where the gate built it, the manual, the completion, the order
# table, examples, pages, and PROVED: the version, the commit, the kit, and the last line of `rt ci`.
#
# The archive has a static program where the gate left crates/fints/out/fints.o: it runs where glibc is older or absent. All
# rows must pass on it first. Without that file the archive has the same program as the package.
#
# Usage: tools/release.sh            writes to out/release/. It refuses a checkout with changes, a kit that isn't the one
#                                    that the program names, and a gate that failed or whose log isn't in out/gate.log
#        tools/release.sh --check    packs twice into a folder of its own, without a static program, compares both, unpacks the
#                                    package into an empty root, and runs the program there
set -euo pipefail
top=$(cd "$(dirname "$0")/.." && pwd)
program=$top/crates/fints/out/fints
library=$top/crates/fints_c/out/libfints.a
header=$top/crates/fints_c/include/fints.h
kits=$(dirname "$(dirname "$(realpath "$(command -v rt)")")")/c
epoch=$(git -C "$top" show -s --format=%ct HEAD)
commit=$(git -C "$top" rev-parse --short=8 HEAD)
export SOURCE_DATE_EPOCH=$epoch

fail() {
    echo "release: $*" >&2
    exit 1
}

command -v dpkg-deb > /dev/null || { echo "release: dpkg-deb isn't installed, so nothing is packed"; exit 0; }
[ -x "$program" ] || fail "crates/fints/out/fints isn't built"
said=$("$program" --version)
version=$(cut -d' ' -f2 <<< "$said")
kit=$(rt version | cut -d' ' -f1)
gate=$(grep -E '^[0-9]+ passed, [0-9]+ failed' "$top/out/gate.log" 2> /dev/null | tail -n 1 || true)

# Lays the files of the package below a root.
lay() {
    local root=$1 doc=$1/usr/share/doc/fints
    install -Dm755 -s "$program" "$root/usr/bin/fints"
    install -Dm644 "$top/docs/fints.1" "$root/usr/share/man/man1/fints.1"
    gzip -9n "$root/usr/share/man/man1/fints.1"
    install -Dm644 "$top/docs/fints.bash" "$root/usr/share/bash-completion/completions/fints"
    install -Dm644 "$top/examples/orders-all.toml" "$root/usr/share/fints/orders-all.toml"
    if [ -f "$library" ]; then
        install -Dm644 "$library" "$root/usr/lib/x86_64-linux-gnu/libfints.a"
        install -Dm644 "$header" "$root/usr/include/fints.h"
    fi
    mkdir -p "$doc"
    cp -r "$top/README.md" "$top/examples" "$top/docs" "$doc/"
    rm -f "$doc/docs/fints.1" "$doc/docs/fints.bash"
    printf 'version %s\ncommit %s\nkit %s\ngate %s\n' "$version" "$commit" "$kit" "${gate:-not run}" > "$doc/PROVED"
    [ ! -f "$top/LICENSE" ] || install -Dm644 "$top/LICENSE" "$doc/copyright"
    find "$root" -type d -exec chmod 755 {} +
    find "$root" -type f ! -path '*/bin/*' -exec chmod 644 {} +
}

# Writes what dpkg asks for, and makes the package.
make_deb() {
    local root=$1 to=$2
    mkdir "$root/DEBIAN"
    cat > "$root/DEBIAN/control" <<CONTROL
Package: fints
Version: $version
Architecture: amd64
Section: utils
Priority: optional
Maintainer: ${FINTS_MAINTAINER:-fints maintainers <maintainers@localhost>}
Installed-Size: $(find "$root/usr" -type f -printf '%s\n' | awk '{ sum += int(($1 + 1023) / 1024) } END { print sum }')
Depends: libc6 (>= 2.34)
Description: checks FinTS 3.0 clients against a bank's parameter data
 It reads captured BPD and UPD and a log, a message or a script, and names each
 of twelve rules (P1 to P12) that a message of the client breaks. The processor
 must be of x86-64-v2 or later (2009).
CONTROL
    (cd "$root" && find usr -type f | LC_ALL=C sort | xargs md5sum) > "$root/DEBIAN/md5sums"
    find "$root" -exec touch -hd "@$epoch" {} +
    dpkg-deb --root-owner-group -Zxz --build "$root" "$to" > /dev/null
}

# The program for the archive: static, where the gate left its object.
link_static() {
    local to=$1
    if [ -f "$program.o" ] && command -v gcc > /dev/null; then
        gcc -static -o "$to" "$program.o" "$kits/libos_c.a" "$kits/liblibc_c.a" 2> /dev/null
        strip "$to"
        "$top/tools/rows.py" --program "$to" rows tables > /dev/null || fail "a row fails on the static program"
    else
        echo "release: crates/fints/out/fints.o isn't there, so the archive's program isn't static"
        cp "$program" "$to"
        strip "$to"
    fi
}

make_tar() {
    local root=$1 static=$2 folder=$3 name=fints-$version-x86_64-linux
    mkdir "$folder/$name"
    cp "$static" "$folder/$name/fints"
    cp -r "$top/docs/fints.1" "$top/docs/fints.bash" "$root/usr/share/doc/fints/PROVED" "$top/README.md" "$top/examples" "$folder/$name/"
    [ ! -f "$top/LICENSE" ] || cp "$top/LICENSE" "$folder/$name/"
    [ ! -f "$library" ] || cp "$library" "$header" "$folder/$name/"
    (cd "$folder" && tar --sort=name --mtime="@$epoch" --owner=0 --group=0 --numeric-owner --mode=u=rwX,go=rX -cf - "$name" | gzip -9n > "$name.tar.gz")
    rm -rf "${folder:?}/$name"
}

# Writes all into a folder.
pack() {
    local folder=$1 static=$2 root=$1/root
    mkdir -p "$folder"
    lay "$root"
    make_tar "$root" "$static" "$folder"
    make_deb "$root" "$folder/fints_${version}_amd64.deb"
    rm -rf "$root"
    (cd "$folder" && sha256sum -- *.deb *.tar.gz > SHA256SUMS)
}

room=$(mktemp -d)
trap 'rm -rf "$room"' EXIT
if [ "${1:-}" = --check ]; then
    cp "$program" "$room/static"
    pack "$room/one" "$room/static"
    pack "$room/two" "$room/static"
    cmp "$room/one/SHA256SUMS" "$room/two/SHA256SUMS" || fail "two packings differ"
    dpkg-deb -x "$room/one/fints_${version}_amd64.deb" "$room/empty"
    cd "$room/empty/usr/share/doc/fints"
    told=$("$room/empty/usr/bin/fints" audit --dialogue examples/recorded.fints) && fail "the packed program finds nothing in examples/recorded.fints" || status=$?
    [ "$status" = 1 ] && [ "$(tail -n 1 <<< "$told")" = "broken 1" ] || fail "the packed program prints something else"
    "$room/empty/usr/bin/fints" orders | cmp - "$room/empty/usr/share/fints/orders-all.toml" || fail "the order table of the program isn't examples/orders-all.toml"
    if [ -f "$library" ]; then
        cc -I"$room/empty/usr/include" -o "$room/outbox" examples/c/outbox.c "$room/empty/usr/lib/x86_64-linux-gnu/libfints.a"
        "$room/outbox" examples/c.fints examples/orders-all.toml examples/balance.msg > "$room/told" || fail "the packed library holds back examples/balance.msg"
    fi
    [ "$said" = "fints $version ($kit)" ] || echo "release: the program says \"$said\", and the kit here is $kit"
    echo "release: 2 files, 0 failed"
    exit 0
fi
[ -z "$(git -C "$top" status --porcelain)" ] || fail "the checkout has changes"
[ "$said" = "fints $version ($kit)" ] || fail "the program says \"$said\", and rt version prints $kit"
case $gate in
*", 0 failed"*) ;;
*) fail "out/gate.log has no line \"N passed, 0 failed\": run .ci/run" ;;
esac
rm -rf "$top/out/release"
link_static "$room/static"
pack "$top/out/release" "$room/static"
cat "$top/out/release/SHA256SUMS"
