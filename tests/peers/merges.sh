# The same triples of files merged by ini_file, `git merge-file` and `diff3 -m`: read by tests/peers.sh, of which it has `is`,
# `peer`, `program` and the folder `room`. What is right was worked out by hand, setting by setting.
# shellcheck shell=sh disable=SC2154
mkdir "$room/merges"
cd "$room/merges" || exit 1

# verdict STATUS FILE: what became of a merge: it conflicts, or its settings are right, or wrong in silence
verdict() {
    if [ "$1" -ne 0 ]; then
        echo conflict
    elif [ "$right" != conflict ] && "$program" diff right.ini "$2" >/dev/null 2>&1; then
        echo right
    else
        echo wrong
    fi
}

# A row has what it is about, the base, ours and theirs, and the settings that are right, or `conflict` where both sides changed one.
triples() {
    cat <<'ROWS'
lines apart|a=1\nb=1\nc=1\nd=1\ne=1\n|a=2\nb=1\nc=1\nd=1\ne=1\n|a=1\nb=1\nc=1\nd=1\ne=2\n|a=2\nb=1\nc=1\nd=1\ne=2
lines side by side|k=1\nj=1\n|k=2\nj=1\n|k=1\nj=2\n|k=2\nj=2
a comment beside it|; old\nk=1\n|; old\nk=2\n|; new\nk=1\n|k=2
sections that change places|[a]\nk=1\n[b]\nj=1\n|[a]\nk=2\n[b]\nj=1\n|[b]\nj=1\n[a]\nk=1\n|[a]\nk=2\n[b]\nj=1
blanks around the separator|k=1\n|k=2\n|k = 1\n|k=2
quotes|k=1\n|k="1"\n|k=2\n|k=2
the same value, spelled otherwise|k=1\n|k=2\n|k = "2"\n|k=2
the same new key at two places|a=1\nb=1\nc=1\nd=1\n|n=5\na=1\nb=1\nc=1\nd=1\n|a=1\nb=1\nc=1\nd=1\nn=5\n|a=1\nb=1\nc=1\nd=1\nn=5
a new key with two values at two places|a=1\nb=1\nc=1\nd=1\n|n=5\na=1\nb=1\nc=1\nd=1\n|a=1\nb=1\nc=1\nd=1\nn=6\n|conflict
a section cut in two|[a]\nk=1\nj=1\nl=1\nm=1\n|[a]\nk=1\nj=1\nl=1\nm=1\nn=1\n|[a]\nk=1\n[b]\nj=1\nl=1\nm=1\n|[a]\nk=1\nn=1\n[b]\nj=1\nl=1\nm=1
a key gone here and changed there|k=1\nj=1\n|j=1\n|k=2\nj=1\n|conflict
a section gone here and changed there|[a]\nk=1\n[b]\nj=1\n|[b]\nj=1\n|[a]\nk=2\n[b]\nj=1\n|conflict
theirs moves what ours changes|k=1\na=1\nb=1\nc=1\nd=1\n|k=2\na=1\nb=1\nc=1\nd=1\n|a=1\nb=1\nc=1\nd=1\nk=1\n|k=2\na=1\nb=1\nc=1\nd=1
ours moves what theirs changes|k=1\na=1\nb=1\nc=1\nd=1\n|a=1\nb=1\nc=1\nd=1\nk=1\n|k=2\na=1\nb=1\nc=1\nd=1\n|k=2\na=1\nb=1\nc=1\nd=1
other line ends|k=1\nj=1\n|k=2\nj=1\n|k=1\r\nj=1\r\n|k=2\nj=1
no last line end|k=1|k=1\nj=2\n|k=1\n|k=1\nj=2
a second value above the first|[a]\nx=1\ny=1\nz=1\nk=1\n|[a]\nk=2\nx=1\ny=1\nz=1\nk=1\n|[a]\nx=1\ny=1\nz=1\nk=3\n|conflict
a section that gets another name|[a]\nk=1\nj=1\n|[a]\nk=1\nj=2\n|[z]\nk=1\nj=1\n|conflict
a key gone on both sides|; c\nk=1\nj=1\n|j=1\n|; c\nj=1\n|j=1
one new section with two keys|k=1\n|k=1\n[a]\nx=1\n|k=1\n[a]\ny=1\n|k=1\n[a]\nx=1\ny=1
one new section at two places|[p]\nx=1\n[q]\ny=1\n[r]\nz=1\n|[n]\nu=1\n[p]\nx=1\n[q]\ny=1\n[r]\nz=1\n|[p]\nx=1\n[q]\ny=1\n[r]\nz=1\n[n]\nv=1\n|[n]\nu=1\nv=1\n[p]\nx=1\n[q]\ny=1\n[r]\nz=1
a key that is commented out|k=1\nj=1\n|k=2\nj=1\n|;k=1\nj=1\n|conflict
two values of one key|k=1\n|k=2\n|k=3\n|conflict
nothing of ours|[a]\nk=1\n|[a]\nk=1\n|[a]\n; c\nk=2\n|[a]\nk=2
nothing of theirs|[a]\nk=1\n|[a]\n; c\nk=2\n|[a]\nk=1\n|[a]\nk=2
ROWS
}

# merges NAME: what it makes of the triples, one verdict a line
merges() {
    triples | while IFS='|' read -r _ base ours theirs right; do
        printf '%b' "$base" >base.ini
        printf '%b' "$ours" >ours.ini
        printf '%b' "$theirs" >theirs.ini
        printf '%b' "$right" >right.ini
        case $1 in
            ini_file) "$program" merge3 base.ini ours.ini theirs.ini >merged.ini 2>/dev/null ;;
            git) git merge-file -p ours.ini base.ini theirs.ini >merged.ini 2>/dev/null ;;
            diff3) diff3 -m ours.ini base.ini theirs.ini >merged.ini 2>/dev/null ;;
        esac
        verdict $? merged.ini
    done
}

# counted NAME: how many triples it merges right, how many conflict, and how many are wrong in silence
counted() {
    merges "$1" | sort | uniq -c | awk '{ n[$2] = $1 } END { printf "%d right, %d conflict, %d wrong", n["right"], n["conflict"], n["wrong"] }'
}

# ini_file conflicts where both sides changed a setting, and there alone.
is 'merges: those of ini_file' "$(triples | sed 's/.*|conflict$/conflict/; t; s/.*/right/')" "$(merges ini_file)"
is 'merges: how many' '18 right, 7 conflict, 0 wrong' "$(counted ini_file)"
for name in git diff3; do
    if peer "$name"; then
        echo "merges of $(triples | wc -l | tr -d ' ') triples: ini_file $(counted ini_file); $name $(counted "$name")"
    fi
done
cd "$room" || exit 1
