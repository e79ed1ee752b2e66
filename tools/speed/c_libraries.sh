#!/bin/sh
# The C library beside others, in one run: loading a text of 40,000 sections of ten pairs (10 MB), or of so many, 1,000,000
# look-ups and writing, the best of five; of iniparser loading a tenth of it alone, once, since its time grows with the square.
# The others are Debian's libglib2.0-dev (GKeyFile), libinih-dev and libiniparser-dev; what isn't there is reported.
#
#     tools/speed/c_libraries.sh [SECTIONS]
set -eu
top=$(cd "$(dirname "$0")/../.." && pwd)
room=$(mktemp -d)
trap 'rm -rf "$room"' EXIT
"$top/tools/c_library.sh" "$room/it"
sections=${1:-40000}
awk -v n="$sections" 'BEGIN { for (i = 0; i < n; i++) { printf "[section%d]\n", i
    for (k = 0; k < 10; k++) printf "key%d = value %d of %d\n", k, k, i } }' >"$room/text.ini"

# compare NAME FLAGS..: compiles and runs one, or tells that it can't
compare() {
    what=$1
    shift
    if cc -O2 -o "$room/$what" "-D$what" "$top/tools/speed/c_libraries.c" "$@" 2>"$room/log"; then
        "$room/$what" "$room/text.ini" 5 "$sections" || echo "$what was refused"
    else
        echo "skipped: $what, since it doesn't compile: $(grep -m 1 error "$room/log" || tail -n 1 "$room/log")"
    fi
}

ls -l "$room/text.ini" | awk '{ printf "%d bytes\n\n", $5 }'
echo '| | load | 1,000,000 look-ups, loaded once | loaded five times | write | peak memory |'
echo '|---|---|---|---|---|---|'
compare BIGROSK -I"$room/it/include" "$room/it/lib/libbigrosk_ini.a"
compare BIGROSK -DBORROWED -I"$room/it/include" "$room/it/lib/libbigrosk_ini.a"
compare GLIB $(pkg-config --cflags --libs glib-2.0 2>/dev/null || echo -lglib-2.0)
compare INIH -linih
head -n "$((sections * 11 / 10))" "$room/text.ini" >"$room/tenth.ini"
if cc -O2 -DINIPARSER -o "$room/INIPARSER" "$top/tools/speed/c_libraries.c" -liniparser 2>/dev/null; then
    echo
    echo 'a tenth of the text:'
    "$room/INIPARSER" "$room/tenth.ini" 1 "$sections" || echo 'iniparser was refused'
else
    echo 'skipped: INIPARSER, since it does not compile'
fi
