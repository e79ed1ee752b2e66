#!/bin/sh
# How programs are linked with the C library: what the shared one exports and what it needs, its soname, the
# static one, pkg-config and CMake over a folder that was moved, and the object file of a program that was
# compiled with the header of version 0.3.0 (tests/c_library/old). What is skipped, since a tool isn't there,
# is reported. The last line is 'N passed, M failed', and the status is 1 if something failed.
. "$(dirname "$0")/cases.sh"
clients=$top/tests/c_library
warnings='-O1 -g -Wall -Wextra -Werror'

# line WORD..: the words in one line
line() {
    printf '%s\n' "$@" | sed '/^$/d' | tr '\n' ' ' | sed 's/ $//'
}

has gcc 'everything that uses the C library' || finish
CC=gcc
export CC
run 'install' "$top/tools/c_library.sh" "$room/first"
run 'install without a heap' "$top/tools/c_library.sh" "$room/bare" --no-heap
[ "$failed" -eq 0 ] || finish
# its files find each other wherever the folder lies
mkdir "$room/a place"
mv "$room/first" "$room/a place/moved"
it="$room/a place/moved"
version=$(sed -n 's/^#define BIGROSK_INI_VERSION "\(.*\)"$/\1/p' "$top/c/bigrosk_ini.h")
major=${version%%.*}
shared=$it/lib/libbigrosk_ini.so

# The version is one: that of the header, of the library, of the changes.
cat >"$room/version.c" <<'END'
#include <stdio.h>
#include "bigrosk_ini.h"
int main(void)
{
    unsigned n = bigrosk_ini_version();
    printf("%u.%u.%u\n", n / 10000, n / 100 % 100, n % 100);
    return 0;
}
END
run 'compile what prints the version' gcc $warnings -I "$it/include" -o "$room/version" "$room/version.c" \
    "$it/lib/libbigrosk_ini.a"
is 'the version of the library' "$version" "$("$room/version")"
is 'the version of the changes' "$version" "$(sed -n 's/^## \([0-9.]*\)$/\1/p' "$top/CHANGELOG.md" | head -n 1)"

# The shared library: its names and its links, and the system's libraries that it needs.
is 'links' "libbigrosk_ini.so.$major libbigrosk_ini.so.$version" \
    "$(readlink "$shared") $(readlink "$shared.$major")"
calls=$(sed -n 's/^[a-z0-9_]* \(bigrosk_ini_[a-z0-9_]*\)(.*/\1/p' "$it/include/bigrosk_ini.h" | sort)
is 'number of the header'\''s calls' 61 "$(line $calls | wc -w)"
if has readelf 'soname and what is needed'; then
    said=$(readelf -dW "$shared")
    is 'soname' "libbigrosk_ini.so.$major" "$(echo "$said" | sed -n 's/.*(SONAME).*\[\(.*\)\]/\1/p')"
    is 'libraries that it needs' 'libc.so.6' "$(line $(echo "$said" | sed -n 's/.*(NEEDED).*\[\(.*\)\]/\1/p'))"
    is 'no stack that may be run' 'RW' "$(readelf -lW "$shared" | sed -n 's/.*GNU_STACK.* \(R[WE ]*[WE]\) *0x.*/\1/p')"
fi
if has nm 'exported symbols'; then
    is 'what the shared library exports' "$(line $calls)" \
        "$(line $(nm -D --defined-only "$shared" | cut -d ' ' -f 3 | sort))"
    is 'what the static library has' "$(line $calls rattle_alloc rattle_dealloc rattle_realloc)" \
        "$(line $(nm -g --defined-only "$it/lib/libbigrosk_ini.a" | sed -n 's/^[0-9a-f]* . //p' | sort))"
    # of the C library it may ask for copies and comparisons of memory alone
    is 'what the library without a heap asks for' 'rattle_alloc rattle_dealloc rattle_realloc' \
        "$(line $(nm -u "$room/bare/lib/libbigrosk_ini.a" | sed -n 's/^ *U //p' | sort -u |
            grep -v -x -e memcmp -e memcpy -e memmove -e memset))"
fi

# pkg-config and CMake: shared and static.
if has pkg-config 'pkg-config'; then
    PKG_CONFIG_PATH="$it/lib/pkgconfig"
    export PKG_CONFIG_PATH
    is 'version in pkg-config' "$version" "$(pkg-config --modversion bigrosk_ini)"
    # the folder's name has a blank, which pkg-config escapes
    run 'compile by pkg-config' sh -c 'eval "gcc $1 -o \"$2/shared\" \"$3\" $(pkg-config --cflags --libs bigrosk_ini)"' "$0" \
        "$warnings" "$room" "$clients/client.c"
    run 'client of the shared library' env LD_LIBRARY_PATH="$it/lib" "$room/shared"
    run 'link statically by pkg-config' \
        sh -c 'eval "gcc $1 -static -o \"$2/static\" \"$3\" $(pkg-config --static --cflags --libs bigrosk_ini)"' "$0" \
        "$warnings" "$room" "$clients/client.c"
    run 'client that is linked statically' "$room/static"
fi
# configures WANTED [FOLDER [VERSION]]: whether CMake takes the library of the folder in that version
configures() {
    cmake -S "$clients/cmake" -B "$room/cmake" -DCMAKE_PREFIX_PATH="$1" -DASKED="${2:-}" -DCMAKE_C_COMPILER=gcc \
        -DCMAKE_BUILD_TYPE=Debug
}
if has cmake 'find_package'; then
    run 'configure by CMake' configures "$it" "$version"
    is 'version in CMake' "-- bigrosk_ini $version" "$(grep '^-- bigrosk_ini' "$room/log")"
    run 'build by CMake' cmake --build "$room/cmake"
    for kind in shared static bigrosk_ini; do
        run "client of CMake's target $kind" "$room/cmake/$kind"
    done
    if command -v readelf >/dev/null; then
        is "what CMake's targets need" "1 0 1" "$(line $(for kind in shared static bigrosk_ini; do
            readelf -dW "$room/cmake/$kind" | grep -c "NEEDED.*libbigrosk_ini.so.$major\\]"
        done))"
    fi
    rm -rf "$room/cmake"
    for other in "$((major + 1)).0" "$major.999"; do
        configures "$it" "$other" >"$room/log" 2>&1
        is "CMake wants version $other" 'status 1, refused' \
            "status $?, $(grep -q 'compatible with requested version' "$room/log" && echo refused)"
        rm -rf "$room/cmake"
    done
fi

# A program of an older version: its object file, with the library as it is now.
run 'compile a client of version 0.3.0' gcc $warnings -I "$clients/old" -c -o "$room/old.o" "$clients/old/client.c"
run 'link it with the static library' gcc -o "$room/old_static" "$room/old.o" "$it/lib/libbigrosk_ini.a"
run 'client of version 0.3.0' "$room/old_static"
run 'link it with the shared library' gcc -o "$room/old_shared" "$room/old.o" "-L$it/lib" -lbigrosk_ini
run 'client of version 0.3.0 over the shared library' env LD_LIBRARY_PATH="$it/lib" "$room/old_shared"
for header in "$clients/old" "$it/include"; do
    gcc $warnings -I "$header" -o "$room/layout" "$clients/old/layout.c" &&
        "$room/layout" >"$room/layout.$(basename "$header")"
done
run 'numbers and layouts of version 0.3.0' diff "$room/layout.old" "$room/layout.include"
is 'how many numbers are compared' 51 "$(wc -l <"$room/layout.old" | tr -d ' ')"
finish
