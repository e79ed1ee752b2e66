#!/bin/sh
# Texts that are edited and keep their comments, in C beside others, in one run: texts of 1 KB, 100 KB and
# 10 MB are opened, looked up in, and edited once and a hundred times (tools/speed/texts.c); in Python the
# first value of a text of 1 KB beside configparser (tools/speed/first_value.py). The others are Debian's
# libglib2.0-dev (GKeyFile), libinih-dev and libini-config-dev; what isn't there is reported.
#
#     tools/speed/texts.sh [FOLDER]
#
# FOLDER is one where the library is installed, by default one that tools/c_library.sh makes.
set -eu
top=$(cd "$(dirname "$0")/../.." && pwd)
room=$(mktemp -d)
trap 'rm -rf "$room"' EXIT
it=${1:-$room/it}
[ $# -gt 0 ] || "$top/tools/c_library.sh" "$it"

# compiled NAME FLAGS..: whether the program of a library is there, for whose name it takes no comma
compiled() {
    defined=$(echo "$1" | sed 's/,/ -D/')
    what=$1
    shift
    # shellcheck disable=SC2086
    if cc -O2 -o "$room/$what" -D$defined "$top/tools/speed/texts.c" "$@" 2>"$room/log"; then
        programs="$programs $what"
    else
        why=$(grep -m 1 error "$room/log" || tail -n 1 "$room/log")
        echo "skipped: $what, since it doesn't compile: $why"
    fi
}

programs=
compiled BIGROSK -I"$it/include" "$it/lib/libbigrosk_ini.a"
compiled BIGROSK,PASSES -I"$it/include" "$it/lib/libbigrosk_ini.a"
# shellcheck disable=SC2046
compiled GLIB $(pkg-config --cflags --libs glib-2.0 2>/dev/null || echo -lglib-2.0)
compiled INIH -linih
# shellcheck disable=SC2046
compiled INI_CONFIG $(pkg-config --cflags --libs ini_config 2>/dev/null || echo -lini_config)

for sections in 4 400 40000; do
    awk -v n="$sections" 'BEGIN { for (i = 0; i < n; i++) { printf "# part %d\n[section%d]\n", i, i
        for (k = 0; k < 10; k++) printf "key%d = value %d of %d\n", k, k, i } }' >"$room/text.ini"
    printf '\n%d bytes, milliseconds and MB:\n\n' "$(wc -c <"$room/text.ini")"
    echo '| | open | 1,000 look-ups | an edit | a hundred edits | memory of opening | peak |'
    echo '|---|---|---|---|---|---|---|'
    for program in $programs; do
        case "$program $sections" in
        'BIGROSK,PASSES 40000') ;;   # a hundred passes take a minute
        'INI_CONFIG 40000') ;;       # its time grows with the square of the sections: hours
        *) "$room/$program" "$room/text.ini" "$sections" || echo "$program was refused" ;;
        esac
    done
    [ "$sections" != 4 ] || cp "$room/text.ini" "$room/small.ini"
done

if command -v python3 >/dev/null; then
    printf '\nimport and first value in Python, milliseconds:\n\n'
    BIGROSK_INI_LIBRARY="$it/lib/libbigrosk_ini.so" PYTHONPATH="$top/python" \
        python3 "$top/tools/speed/first_value.py" "$room/small.ini"
else
    echo "skipped: Python, since python3 isn't there"
fi
