#!/bin/sh
# Runs the C library's clients: it is installed in a folder of its own, and then a C program (also under AddressSanitizer with
# UBSan, and under valgrind), one that sets each choice alone, one over long texts, one that refuses each request for memory in
# turn (its own, and malloc's), a unit of C++, the program of docs/C.md and the Python module use it. Header, module and sources
# are compared, what look-ups cost is counted, and a library that is older than its sources must be built anew. What is
# skipped, since a tool isn't there, is reported. The last line is 'N passed, M failed', and the status is 1 if something failed.
. "$(dirname "$0")/cases.sh"

# look_ups SECTIONS: what 200 rounds of look-ups take among so many sections, beside their loading, in thousands of instructions
look_ups() {
    for rounds in 0 200; do
        timeout 120 valgrind --tool=cachegrind --cache-sim=no --cachegrind-out-file=/dev/null "$room/look_ups" "$1" "$rounds" \
            2>&1 | sed -n 's/^==[0-9]*== I *refs: *//p' | tr -d ,
    done | awk 'NR == 1 { first = $1 } NR == 2 { printf "%d\n", ($1 - first) / 1000 }'
}

# whether a look-up among 100,000 sections costs at most four times what one among 1,000 does
look_ups_cost_alike() {
    few=$(look_ups 1000)
    many=$(look_ups 100000)
    echo "${few:-no} thousand instructions among 1,000 sections, ${many:-none} among 100,000"
    [ "${few:-0}" -gt 0 ] && [ "${many:-0}" -gt 0 ] && [ "$many" -le $((4 * few)) ]
}

# installs_anew FILE: whether tools/c_library.sh, in a copy of the tree, builds the library once FILE is newer than it, and
# installs what was built; with no FILE, whether it builds none. Its `rt` is one that puts another file in the library's place.
installs_anew() {
    tree=$room/tree
    rm -rf "$tree"
    mkdir -p "$tree/bin"
    (cd "$top" && tar cf - --exclude=out crates.txt c share/man tools/c_library.sh crates/ini_multimap crates/ini_text crates/ini \
        crates/ini_view crates/ini_check crates/ini_dialect crates/ini_edit crates/ini_layers crates/ini_c) | (cd "$tree" && tar xf -)
    printf '#!/bin/sh\n[ "$1" = lib ] && echo new >out/libini_c.a\n' >"$tree/bin/rt"
    chmod +x "$tree/bin/rt"
    mkdir "$tree/crates/ini_c/out"
    echo old >"$tree/crates/ini_c/out/libini_c.a"
    find "$tree" -type f -exec touch -t 202001010000 {} +
    touch -t 202001020000 "$tree/crates/ini_c/out/libini_c.a"
    want=old
    [ -z "$1" ] || { touch "$tree/$1" && want=new; }
    env -u BIGROSK_PROVED_SINCE PATH="$tree/bin:$PATH" "$tree/tools/c_library.sh" "$room/anew" --no-heap || return 1
    [ "$(cat "$room/anew/lib/libbigrosk_ini.a")" = "$want" ]
}

clients=$top/tests/c_library
warnings='-O1 -g -Wall -Wextra -Werror'
checked='-fsanitize=address,undefined -fno-sanitize-recover=all'
has gcc 'everything that uses the C library' || finish
CC=gcc
export CC
# shellcheck disable=SC2016
run 'install' sh -c 'umask 000 && exec "$0" "$1"' "$top/tools/c_library.sh" "$room/it"
[ "$failed" -eq 0 ] || finish
run 'what others may not do with what is installed' test -z "$(find "$room/it" ! -type l ! -perm 755 \( -type d -o \
    -name '*.so.*' \) -o ! -perm 644 -type f ! -name '*.so.*')"
run 'install without a heap' "$top/tools/c_library.sh" "$room/bare" --no-heap
run 'install with the heap of the kit' "$top/tools/c_library.sh" "$room/kit" --kit-heap
include="-I$room/it/include"

run 'compile in C' gcc $warnings -std=c99 $include -o "$room/client" "$clients/client.c" "$room/it/lib/libbigrosk_ini.a"
run 'client' "$room/client"
run 'compile with the heap of the kit' gcc $warnings $include -o "$room/client_kit" "$clients/client.c" "$room/kit/lib/libbigrosk_ini.a"
run 'client with the heap of the kit' "$room/client_kit"
run 'compile with sanitizers' gcc $warnings $checked $include \
    -o "$room/client_checked" "$clients/client.c" "$top/c/heap.c" "$room/bare/lib/libbigrosk_ini.a"
run 'client under AddressSanitizer and UBSan' "$room/client_checked"
run 'compile the client that refuses memory' gcc $warnings $checked $include \
    -o "$room/memory" "$clients/memory.c" "$room/bare/lib/libbigrosk_ini.a"
run 'each request for memory refused' "$room/memory"
run 'compile the client that refuses malloc' gcc $warnings $checked $include -DTHROUGH_HEAP \
    -Wl,--wrap=malloc,--wrap=realloc,--wrap=free -o "$room/malloc" "$clients/memory.c" "$room/it/lib/libbigrosk_ini.a"
run 'malloc and realloc refused in turn' "$room/malloc"
run 'compile the client that refuses memory to texts' gcc $warnings $checked $include \
    -o "$room/text_memory" "$clients/text_memory.c" "$room/bare/lib/libbigrosk_ini.a"
run 'each request for memory of a text refused' "$room/text_memory"
run 'compile the client of each choice' gcc $warnings $checked -std=c99 $include -o "$room/choices" "$clients/choices.c" \
    "$room/it/lib/libbigrosk_ini.a"
run 'each choice alone' "$room/choices"
run 'compile the client of long texts' gcc $warnings $include -o "$room/large" "$clients/large.c" "$room/it/lib/libbigrosk_ini.a"
run 'long texts' "$room/large"
run 'compile the client of look-ups' gcc $warnings $include -o "$room/look_ups" "$clients/look_ups.c" \
    "$room/it/lib/libbigrosk_ini.a"
run 'compile the client of texts that stay open' gcc $warnings $checked -std=c99 $include -o "$room/text" "$clients/text.c" \
    "$room/it/lib/libbigrosk_ini.a"
run 'texts that stay open' "$room/text" "$room/text.ini"
run 'look-ups among 100,000 sections' "$room/look_ups" 100000 200
if has valgrind 'the run under valgrind'; then
    run 'client under valgrind' valgrind -q --leak-check=full --show-leak-kinds=all --error-exitcode=9 "$room/client"
    run 'compile the client of texts that stay open for valgrind' gcc $warnings -std=c99 $include -o "$room/text_plain" \
        "$clients/text.c" "$room/it/lib/libbigrosk_ini.a"
    run 'texts that stay open under valgrind' valgrind -q --leak-check=full --show-leak-kinds=all --error-exitcode=9 \
        "$room/text_plain" "$room/text.ini"
    run 'what look-ups cost' look_ups_cost_alike
fi
for it in '' crates.txt crates/ini_multimap/src/lib.rt crates/ini_text/src/lib.rt crates/ini/src/lib.rt \
    crates/ini_dialect/src/presets.rt crates/ini_edit/src/lib.rt crates/ini_layers/src/lib.rt crates/ini_c/src/lib.rt crates/ini_c/specs/Statuses.antt; do
    run "a library older than ${it:-nothing}" installs_anew "$it"
done

# the program that docs/C.md shows
sed -n '/^```c$/,/^```$/p' "$top/docs/C.md" | sed '/^```/d' >"$room/page.c"
run 'compile the program of docs/C.md' gcc $warnings $include -o "$room/page" "$room/page.c" "$room/it/lib/libbigrosk_ini.a"
cp "$top/examples/settings.ini" "$room/settings.ini"
run 'the program of docs/C.md' "$room/page" "$room/settings.ini"
sed -e 's/8080/9090/' -e 's/30/45/' -e '$a tmp = /tmp' "$top/examples/settings.ini" >"$room/wanted.ini"
run 'what it saved' diff "$room/settings.ini" "$room/wanted.ini"
# and that of the manual
sed -n '/^\.EX$/,/^\.EE$/p' "$top/share/man/bigrosk_ini.3" | sed '/^\.E/d; s/\\e/\\/g' >"$room/manual.c"
run 'compile the program of the manual' gcc $warnings $include -o "$room/manual" "$room/manual.c" "$room/it/lib/libbigrosk_ini.a"
is 'what the program of the manual writes and saves' '9090
log   = /srv/log' "$(cd "$room" && ./manual && grep log settings.ini)"

if has g++ 'the unit of C++'; then
    run 'compile in C++' g++ $warnings -std=c++11 $include -o "$room/unit" "$clients/unit.cpp" "$room/it/lib/libbigrosk_ini.a"
    run 'unit of C++' "$room/unit"
fi
if has pkg-config 'the check of pkg-config'; then
    flags=$(PKG_CONFIG_PATH=$room/it/lib/pkgconfig pkg-config --cflags --libs bigrosk_ini)
    run 'compile by pkg-config' gcc $warnings -o "$room/shared" "$clients/client.c" $flags "-Wl,-rpath,$room/it/lib"
    run 'client of the shared library' "$room/shared"
fi
if has python3 'the Python module, and the comparison of header, module and sources'; then
    run 'header, module and sources' env BIGROSK_INI_LIBRARY="$room/it/lib/libbigrosk_ini.so" PYTHONDONTWRITEBYTECODE=1 \
        PYTHONPATH="$top/python" python3 "$clients/borders.py" "$room/it/include/bigrosk_ini.h"
    run 'Python module' env BIGROSK_INI_LIBRARY="$room/it/lib/libbigrosk_ini.so" PYTHONDONTWRITEBYTECODE=1 \
        PYTHONPATH="$top/python" python3 "$clients/test_python.py"
    run 'settings of the Python module' env BIGROSK_INI_LIBRARY="$room/it/lib/libbigrosk_ini.so" PYTHONDONTWRITEBYTECODE=1 \
        PYTHONPATH="$top/python" python3 "$clients/test_python_settings.py"
    run 'options and refusals of the Python module' env BIGROSK_INI_LIBRARY="$room/it/lib/libbigrosk_ini.so" \
        PYTHONDONTWRITEBYTECODE=1 PYTHONPATH="$top/python" python3 "$clients/test_python_options.py"
    run 'compile the memory of the Python test' gcc $warnings -fPIC -shared -o "$room/refusing.so" "$clients/python_heap.c" \
        -Wl,--whole-archive "$room/bare/lib/libbigrosk_ini.a" -Wl,--no-whole-archive
    run 'memory and threads of the Python module' env BIGROSK_INI_LIBRARY="$room/refusing.so" \
        PYTHONDONTWRITEBYTECODE=1 PYTHONPATH="$top/python" python3 "$clients/test_python_memory.py"
fi
finish
