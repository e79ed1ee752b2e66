#!/bin/sh
# Makes the C library and installs it below a folder:
#
#     tools/c_library.sh PREFIX [--kit-heap | --no-heap]
#
#     PREFIX/lib/libbigrosk_ini.a, PREFIX/lib/libbigrosk_ini.so, PREFIX/include/bigrosk_ini.h,
#     PREFIX/lib/pkgconfig/bigrosk_ini.pc, PREFIX/lib/cmake/bigrosk_ini, PREFIX/share/man/man3/bigrosk_ini.3
#
# libbigrosk_ini.so is a link to the library's soname, which has the first number of the version, and that one to the file,
# whose name has the whole version, as the header says it (BIGROSK_INI_VERSION). The shared library exports nothing but the
# header's calls (c/bigrosk_ini.map). What is installed may be moved: its files find each other from where they lie.
#
# The library asks for memory by three functions. By default they are those of c/heap.c, over malloc, realloc and free; with
# --kit-heap those of the Rattle kit; with --no-heap the static library has none, so that the program brings its own, and no
# shared library is made. It takes the kit's command rt, and a C compiler, CC (by default cc). The crate is proved first, where
# crates/ini_c/out has no proof of it yet. The gate, which has just proved the crates below it, names a file that it made before
# in BIGROSK_PROVED_SINCE, and they aren't proved again.
set -eu
umask 022
top=$(dirname "$(dirname "$(readlink -f "$0")")")
prefix=${1:?'usage: tools/c_library.sh PREFIX [--kit-heap | --no-heap]'}
heap=${2:-}
case $heap in '' | --kit-heap | --no-heap) ;; *) echo "unknown word: $heap" >&2; exit 2 ;; esac
cc=${CC:-cc}
cmake=lib/cmake/bigrosk_ini
mkdir -p "$prefix/lib/pkgconfig" "$prefix/$cmake" "$prefix/include" "$prefix/share/man/man3"
prefix=$(cd "$prefix" && pwd)
version=$(sed -n 's/^#define BIGROSK_INI_VERSION "\(.*\)"$/\1/p' "$top/c/bigrosk_ini.h")
soname=libbigrosk_ini.so.${version%%.*}
room=$(mktemp -d)
trap 'rm -rf "$room"' EXIT
built=$top/crates/ini_c/out/libini_c.a
# the crates below it
below='ini_multimap ini_text ini ini_view ini_check ini_edit ini_dialect ini_layers'

# the files that the library is made of, where they are newer than this one
newer_than() {
    # shellcheck disable=SC2046
    (cd "$top" && find crates.txt $(printf 'crates/%s ' $below ini_c) -name out -prune -o \
        -name must-fail -prune -o -name wrong-bodies.txt -prune -o -name tests -prune -o -name tests.rt -prune -o \
        -name '*.md' -prune -o -type f -newer "$1" -print)
}

# whether the library is there and no older than its sources and those of the crates below it
is_built() {
    [ -f "$built" ] && [ -z "$(newer_than "$built")" ]
}

# whether `rt ci` has proved the crates below since BIGROSK_PROVED_SINCE was made, or has taken them over from an earlier run, and no
# source is newer than that file. It leaves them where there was no work of `rt lib`, and without the stamp by which `rt lib` would
# take them over. What it takes over it links, so that its status changes then, and its time does not.
is_proved_below() {
    since=${BIGROSK_PROVED_SINCE:-}
    [ -n "$since" ] && [ -f "$since" ] || return 1
    for it in $below; do
        made=$top/crates/$it/out/rlib
        [ -n "$(find "$made/$it.rlib/format" -cnewer "$since" 2>/dev/null)" ] && [ ! -f "$made/stamp" ] || return 1
    done
    [ -z "$(newer_than "$since")" ]
}

# proves ini_c alone, over those crates, and builds the library: what `rt lib` does once the crates below are proved
build_over() {
    kit=$(dirname "$(rt doc)")
    set -- --crate-name ini_c src/lib.rt -L "dependency=$kit/rlibs" --extern "std=$kit/rlibs/std.rlib"
    for it in $(sed -n 's/^ini_c staticlib://p' "$top/crates.txt"); do
        if [ -d "$top/crates/$it" ]; then it=$it=$top/crates/$it/out/rlib/$it.rlib; else it=$it=$kit/rlibs/$it.rlib; fi
        set -- "$@" --extern "$it"
    done
    for it in $below; do set -- "$@" -L "dependency=$top/crates/$it/out/rlib"; done
    mkdir -p "$top/crates/ini_c/out"
    (cd "$top/crates/ini_c" && "$kit/bin/rattle" build "$@" --antt-project "$kit/rattle/logic/antt-project.json" \
        --logic-built "$kit/logic_built" --links ini_c= --crate-type staticlib --jobs "${RT_JOBS:-2}" --toolchain "$kit/toolchain" -o "$built")
}

if ! is_built; then
    echo 'proving and building the library, which takes some minutes the first time' >&2
    if ! is_proved_below || ! build_over >"$room/log" 2>&1; then
        (cd "$top/crates/ini_c" && rt lib) >"$room/log" 2>&1 || { tail -n 40 "$room/log" >&2; exit 1; }
    fi
    [ -f "$built" ] || { tail -n 40 "$room/log" >&2; exit 1; }
    touch "$built"
fi

cp "$built" "$room/libbigrosk_ini.a"
case $heap in
--no-heap) ;;
--kit-heap) (cd "$room" && ar x "$(dirname "$(rt doc)")/c/liblibc_c.a" heap.pic.o) && mv "$room/heap.pic.o" "$room/heap.o" ;;
*) "$cc" -O2 -fPIC -Wall -Wextra -c -o "$room/heap.o" "$top/c/heap.c" ;;
esac
if [ -f "$room/heap.o" ]; then
    ar r "$room/libbigrosk_ini.a" "$room/heap.o" 2>"$room/log" || { cat "$room/log" >&2; exit 1; }
    "$cc" -shared -o "$room/libbigrosk_ini.so" "-Wl,-soname,$soname" "-Wl,--version-script,$top/c/bigrosk_ini.map" -Wl,-z,defs \
        -Wl,--whole-archive "$room/libbigrosk_ini.a" -Wl,--no-whole-archive
    install -m 755 "$room/libbigrosk_ini.so" "$prefix/lib/libbigrosk_ini.so.$version"
    ln -sf "libbigrosk_ini.so.$version" "$prefix/lib/$soname"
    ln -sf "$soname" "$prefix/lib/libbigrosk_ini.so"
fi
install -m 644 "$room/libbigrosk_ini.a" "$prefix/lib/libbigrosk_ini.a"
install -m 644 "$top/c/bigrosk_ini.h" "$prefix/include/bigrosk_ini.h"
install -m 644 "$top/share/man/bigrosk_ini.3" "$prefix/share/man/man3/bigrosk_ini.3"
# written FILE FOLDER: the file of that name with the version's numbers in it, in the folder where it is looked for
written() {
    sed -e "s/@VERSION@/$version/g" -e "s/@MAJOR@/${version%%.*}/g" "$top/c/$1.in" >"$room/$1"
    install -m 644 "$room/$1" "$prefix/$2/$1"
}
written bigrosk_ini.pc lib/pkgconfig
written bigrosk_ini-config.cmake $cmake
written bigrosk_ini-config-version.cmake $cmake
