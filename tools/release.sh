#!/bin/sh
# Makes a built release, for those who have no Rattle kit:
#
#     tools/release.sh FOLDER
#
#     FOLDER/bigrosk-VERSION-x86_64-linux.tar.gz     to be unpacked anywhere
#     FOLDER/bigrosk_VERSION_amd64.deb               for dpkg, below /usr
#
# Both hold the programs, the C library, static and shared, with its header and what pkg-config and CMake
# read, the pages of the manual, the completions, the README with its pages and examples, a licence where the
# repository has one, and the file PROVED: which files were proved with which kit. A program or a library
# that bears no mark of a proof by this kit is refused. Made again of the same commit the two have the same
# bytes; the time that their files bear is that of the commit, or SOURCE_DATE_EPOCH.
#
# It takes what tools/install.sh and tools/c_library.sh take, GNU tar and readelf; where dpkg-deb isn't
# there, there is no package, and a line says so. Who makes the package, DEBFULLNAME and DEBEMAIL say. The
# status is 2 where no one folder is named, and else that of the step that failed.
set -eu
umask 022
LC_ALL=C
export LC_ALL
top=$(dirname "$(dirname "$(readlink -f "$0")")")
if [ $# -ne 1 ] || [ -z "$1" ]; then
    echo 'usage: tools/release.sh FOLDER' >&2
    exit 2
fi
mkdir -p -- "$1"
made=$(cd -- "$1" && pwd)
room=$(mktemp -d)
trap 'rm -rf "$room"' EXIT
version=$(sed -n 's/^#define BIGROSK_INI_VERSION "\(.*\)"$/\1/p' "$top/c/bigrosk_ini.h")
name=bigrosk-$version-x86_64-linux
stage=$room/$name
doc=$stage/share/doc/bigrosk
moment=${SOURCE_DATE_EPOCH:-$(git -C "$top" log -1 --format=%ct 2>/dev/null || echo 0)}
export SOURCE_DATE_EPOCH="$moment"

# marks FILE: the logic in which it was proved, by the mark that the kit leaves in it
marks() {
    readelf -p .comment "$1" | sed -n 's/.*rattle logic=\([0-9a-f]*\).*/\1/p' | sort -u
}

# the commit that this was made of, and whether files differ from it
commit() {
    it=$(git -C "$top" rev-parse HEAD 2>/dev/null) || it='no commit'
    [ -z "$(git -C "$top" status --porcelain 2>/dev/null)" ] || it="$it, with changes that are in no commit"
    echo "$it"
}

# what was proved with which kit
proved() {
    kit=$(rt version)
    cat <<END
Bigrosk $version for x86_64 Linux, of $(commit)

Each function of these files was proved before it was built, with $kit:

END
    for it in bin/ini_tool bin/ini_file lib/libbigrosk_ini.a "lib/libbigrosk_ini.so.$version"; do
        mark=$(marks "$stage/$it")
        case $mark in
        *" "* | '') echo "tools/release.sh: $it bears no mark of a proof" >&2 && return 1 ;;
        "${kit##* }"*) ;;
        *) echo "tools/release.sh: $it was proved with another kit" >&2 && return 1 ;;
        esac
        total=$(sha256sum <"$stage/$it" | cut -d ' ' -f 1)
        printf '    %s\n        sha256 %s\n        logic  %s\n' "$it" "$total" "$mark"
    done
    cat <<END

The logic's number stands in each file too, as the kit wrote it there: readelf -p .comment FILE. What is proved of
them, and what that rests on, README.md ("What is proved") and docs/PROOFS.md say, beside this file. Nobody has proved
what of these is plain C: the memory of the C library (malloc, realloc and free) and the functions in the header. The
shared library is the static one, linked by the system's linker.
END
}

# a folder with all that is installed
gather() {
    "$top/tools/install.sh" "$stage"
    "$top/tools/c_library.sh" "$stage"
    mkdir -p "$doc/docs"
    install -m 644 "$top/README.md" "$top/CHANGELOG.md" "$doc"
    install -m 644 "$top"/docs/*.md "$top"/docs/*.svg "$doc/docs"
    (cd "$top" && find examples -type f -exec install -D -m 644 {} "$doc/{}" \;)
    for it in "$top"/LICENSE* "$top"/LICENCE* "$top"/COPYING*; do
        [ ! -f "$it" ] || install -m 644 "$it" "$doc"
    done
    proved >"$doc/PROVED"
    find "$room" -exec touch -h -d "@$moment" {} +
}

archive() {
    tar --sort=name --owner=0 --group=0 --numeric-owner --format=gnu -C "$room" -cf "$room/it.tar" "$name"
    gzip -n9 <"$room/it.tar" >"$made/$name.tar.gz"
    echo "$made/$name.tar.gz"
}

# the newest version of glibc that a file asks for
glibc() {
    find "$stage/bin" "$stage/lib" -type f ! -name '*.a' ! -name '*.pc' ! -name '*.cmake' -exec readelf -VW {} + |
        sed -n 's/.*Name: GLIBC_\([0-9.]*\) .*/\1/p' | sort -V | tail -n 1
}

control() {
    cat <<END
Package: bigrosk
Version: $version
Architecture: amd64
Maintainer: ${DEBFULLNAME:-Bigrosk maintainers} <${DEBEMAIL:-maintainers@users.noreply.bigrosk.example}>
Installed-Size: $(du -ks --apparent-size "$1" | cut -f 1)
Depends: libc6 (>= $(glibc))
Section: utils
Priority: optional
Description: INI files, read and edited by proved code
 Programs that look values up, edit files with their comments and layout
 kept and merge settings in layers, and a C library that does the same.
 Each function of them is proved against its contract.
END
}

package() {
    root=$room/package
    mkdir -p "$root/DEBIAN"
    cp -a "$stage" "$root/usr"
    sed -i "s,^prefix=.*,prefix=/usr," "$root/usr/lib/pkgconfig/bigrosk_ini.pc"
    find "$root/usr/share/man" -type f -exec gzip -n9 {} +
    control "$root/usr" >"$root/DEBIAN/control"
    echo 'activate-noawait ldconfig' >"$root/DEBIAN/triggers"
    (cd "$root" && find usr -type f | sort | xargs md5sum) >"$root/DEBIAN/md5sums"
    find "$root" -exec touch -h -d "@$moment" {} +
    dpkg-deb -Zxz --root-owner-group --build "$root" "$made/bigrosk_${version}_amd64.deb" >"$room/log"
    echo "$made/bigrosk_${version}_amd64.deb"
}

gather
archive
if command -v dpkg-deb >/dev/null; then package; else echo 'no package: dpkg-deb is not there' >&2; fi
