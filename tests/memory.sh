#!/bin/sh
# What the calls of the library ask of the memory and of the system, which no clause says: how many requests an edit makes
# where slots, links and codes run out of room, that what was taken is given back, what a program does where each request is
# refused in turn, that files are read once, left whole and closed, and that no size of some millions is refused. The calls are
# those of the program ini_replay, whose requests a small library counts that is loaded before it (tests/memory/heap.c). Without
# a C compiler, or a heap that can be counted so, these cases are skipped, and that is reported. Each case that fails is reported. The
# last line is 'N passed, M failed', and the status is 1 if a case failed.
#
#     tests/memory.sh [INI_REPLAY [INI_TOOL [INI_FILE]]]
#
# The programs are by default those that tools/run.sh builds.
#
# The size at which each call that takes or makes a text, a list or a document is asked once, here or by the script named:
#
#     ini_tool fmt, load_from_file             2,200,000 pairs, after a byte order mark too
#     ini_tool fmt                             a key, a name, a value of 3,000,000 bytes; a value of 1,500,000 escapes
#     ini_tool get, list, set, del             1,000,000 pairs
#     ini_file keys, get --all                 1,000,000 keys; 2,200,000 values of a key
#     next_item, next_element                  2,200,000 items; 4,400,000 elements
#     look-ups in what was loaded              150,000 keys and 150,000 sections; 1,000,000 sections of one name
#     append, append_unindexed, clone          2,100,000 pairs of a multimap
#     insert, remove, make_index               1,000,000; the first 1,000,000 times; 300,000
#     clone, is_plain, get_from                1,000,000 keys of a document
#     merged, clone, delete_from, layered      300,000 sections, or keys
#     set_to                                   150,000 new sections
#     remove_all, setters, Entry               70,000 (crates/ini_vectors)
#     ini_file layers                          5,000 files, and as many words
#     skip_trivia                              200 MB (tests/passing.sh)
#     ini_file get, list, rewrite, check       14 MB: a section of 1,000,000 pairs (tests/long.sh, also what follows)
#     set, add, delete, rename-key, delete-section, merge of a key    the same, by name and by a pipe
#     sections, get, set, rename-section       8 MB: 300,000 sections
#     merge                                    2,000 keys; 2,000 files
#     check                                    300,000 warnings; 2,000 files
#     a name, a key, a value                   2,100,000 bytes each in a file; 70,000 in a word (the system takes 131,071)
#     words                                    10,000 options
#     each call of the C library               4.7 MB, 200,000 pairs; a value of 3,000,000 bytes (tests/c_library/large.c)
# shellcheck disable=SC3045
. "$(dirname "$0")/cases.sh"
calls=$(program_of ini_replay "${1:-}") || exit 1
tool=$(program_of ini_tool "${2:-}") || exit 1
file=$(program_of ini_file "${3:-}") || exit 1

# at_most NAME MOST NUMBER: whether the number is one, and no larger
at_most() {
    if [ -n "$3" ] && [ "$3" -le "$2" ]; then
        passed=$((passed + 1))
    else
        failed=$((failed + 1))
        echo "FAILED: $1: ${3:-no number}, and at most $2"
    fi
}

# bounded COMMAND ..: a command that takes ten seconds of a processor at most, however busy the machine is
bounded() {
    (
        ulimit -t 10
        exec timeout 600 "$@"
    )
}

# counted COMMAND ..: the requests of a command, the blocks that it keeps and their bytes, whatever its status; nothing where a
# signal ends it
counted() {
    rm -f "$room/count"
    timeout 60 env HEAP_COUNT="$room/count" LD_PRELOAD="$room/heap.so" "$@" >"$room/out" 2>"$room/err"
    if [ -f "$room/count" ]; then cat "$room/count"; fi
}

# steps STEPS: the requests of these steps on a multimap
steps() {
    echo "$1" >"$room/in"
    counted "$calls" pairs <"$room/in" | cut -d ' ' -f 1
}

# grows MOST BEFORE CALL KEY: how many requests a call makes after these steps, but for its key
grows() {
    made=$(steps "$2 $3 1")
    own=$(steps "$2 $4 1")
    at_most "$3 after '$2', requests" "$1" "${made:+$((made - ${own:-0}))}"
}

# kept NAME COMMAND ..: a command over the file `in` keeps no block
kept() {
    name=$1
    shift
    is "$name, blocks that are kept" 0 "$(counted "$@" <"$room/in" | cut -d ' ' -f 2)"
}

# An edit of a multimap lets each of its structures grow at most once: the columns of keys and of values (2 requests, at 0, 8,
# 16, 32 and 64 slots), the links (1), the map of codes (4: its two columns, its table and the table's hashes), and the index
# itself, where it is made (1).
count_growths() {
    grows 2 'none 1' append key
    # room is asked for where none is left, so not before: the columns have 16 slots, 32, or 64
    for n in 1 7 9 10 11 12 13 14 15 21 22 23 24 42 43 44; do
        grows 0 "append $n" append key
        grows 0 "append $n" insert key
    done
    grows 2 'append 8' append key
    grows 8 'append 16' append key
    grows 8 'append 16' insert key
    for n in 15 17 18 19 20 31 33 34 35 36 37 38 39 40 63 65 72 73; do grows 5 "append $n" append key; done
    for n in 32 64; do grows 7 "append $n" append key; done
    # an index that an append makes, or make_index, of many slots that have none
    for n in 17 18 19 31 33 34 35 36 37 38 63 65 72 73 1000; do
        grows 0 "append_unindexed $n" append_unindexed key
        grows 6 "append_unindexed $n" append key
        grows 6 "append_unindexed $n" insert key
        grows 6 "append_unindexed $n" make_index none
        grows 5 "append_unindexed $n make_index 1" append key
        grows 0 "append_unindexed $n make_index 1" make_index none
    done
    for n in 16 32 64; do
        grows 2 "append_unindexed $n" append_unindexed key
        grows 8 "append_unindexed $n" append key
    done
    for n in 32 64; do grows 7 "append_unindexed $n make_index 1" append key; done
    # no room is left in the columns
    for n in 17 33 40; do grows 8 "append_unindexed $n shrink_to_fit 1" append key; done
    # after holes, which are closed or not
    for n in 16 17 32 33; do
        for gone in 1 8 9 15; do
            grows 8 "append $n remove $gone" append key
            grows 8 "append_unindexed $n remove $gone" append key
            grows 6 "append_unindexed $n remove $gone" make_index none
        done
    done
    # keys that come again: the map's room is given back
    grows 11 'append_unindexed 1 append_again 500' append key
    # what takes no memory
    for n in 8 16 17 33 100; do
        grows 0 "append $n" replace first_key
        grows 0 "append $n" remove first_key
    done
}

# What was taken is given back: by each call on a document, by each form of loading, also where it is refused, by merging, and by
# the commands of ini_file.
count_kept() {
    for shape in keys sections; do
        for it in none get_from set_there set_new append delete_from section len sections setter delete is_plain clone merged \
            layered; do
            echo "$it $shape 40 60" >"$room/in"
            kept "$it, $shape" "$calls" calls
        done
    done
    echo 'append_unindexed 40 append 9 append_again 3 replace 4 remove 30 insert 20 clone 1 make_index 1' >"$room/in"
    kept 'calls on a multimap' "$calls" pairs
    n=0
    while IFS= read -r text; do
        n=$((n + 1))
        printf '%b' "$text" >"$room/text"
        for form in load_from_file load_from_file_noescape load_from_file_opt; do
            echo "$form 3 $room/text" >"$room/in"
            kept "$form of text $n" "$calls" files
        done
        kept "layers of text $n" "$file" layers "$room/text" "$room/text"
        cp "$room/text" "$room/in"
        kept "items of text $n" "$calls" items
        kept "elements of text $n" "$calls" elements
    done <<'TEXTS'
k = "quoted" and \\t escapes \\x0041\n[a\\tb]\n"k" = 'v\\n'\n
k = "quoted\n[a]\nk\\t = w \\x00e9 and \\\\ more than a few pieces, so that they take room\nj = "a" b "c"\n= v\n
[a]\nk = v\n[b\nk = v
k = v\nj = \\x00g1\n
k = v\n\303
TEXTS
    for call in write_to_file write_to_file_policy write_to_file_opt; do
        echo "$call 3 $room/saved" >"$room/in"
        kept "$call" "$calls" files
    done
    # edits, a list of them, and the linter, over a text and over one that is refused
    n=0
    printf 'a = 2\nz = 1\n[s]\nb = 5\n[new]\nq = 1\n' >"$room/text"
    for text in 'a = 1\n[s]\nb = 2\nb = 3\n[t]\nc = "x\\ty"\n[s]\nb = 9\n' 'k = v\n[b\nx = 1\n'; do
        n=$((n + 1))
        printf '%b' "$text" >"$room/in"
        cp "$room/in" "$room/merging"
        while IFS= read -r words; do
            # shellcheck disable=SC2086
            kept "ini_file ${words%% *}, text $n" "$file" $words
        done <<WORDS
check -
get - b s
list -
rewrite -
format --separator : --indent-pairs 2 -
set - a 2
set - new v s
set - new v u
add - b 4 s
delete - b s
delete-section - s
rename-key - b d s
rename-section - s u
merge --dry-run $room/merging $room/text
WORDS
    done
}

# requests_of CALL SHAPE: how many requests sixty more calls make
requests_of() {
    echo "$1 $2 40 60" >"$room/in"
    less=$(counted "$calls" calls <"$room/in" | cut -d ' ' -f 1)
    echo "$1 $2 40 120" >"$room/in"
    more=$(counted "$calls" calls <"$room/in" | cut -d ' ' -f 1)
    [ -n "$less" ] && [ -n "$more" ] && echo $((more - less))
}

# Calls that take no memory, and commands that copy no document.
count_requests() {
    for shape in keys sections; do
        for it in get_from section len sections is_plain layered delete delete_from; do
            # the answer's own text may grow
            at_most "$it, $shape, requests of sixty calls" 2 "$(requests_of $it $shape)"
        done
        # the value's own text; set_to is given its key and value
        at_most "setter, $shape, requests of sixty calls" 120 "$(requests_of setter $shape)"
        at_most "set_there, $shape, requests of sixty calls" 120 "$(requests_of set_there $shape)"
    done
    awk 'BEGIN { for (i = 0; i < 1000; i++) print "key" i "=value" i }' >"$room/in"
    written=$(counted "$tool" fmt <"$room/in" | cut -d ' ' -f 1)
    changed=$(counted "$tool" set key7 v <"$room/in" | cut -d ' ' -f 1)
    is 'ini_tool fmt makes requests for each pair' yes "$([ "${written:-0}" -ge 1000 ] && echo yes)"
    at_most 'ini_tool set, requests more than those of fmt' 20 "${changed:+$((changed - ${written:-0}))}"
    # what is only read borrows the text
    at_most 'ini_tool get, requests over 1,000 pairs' 100 "$(counted "$tool" get key7 <"$room/in" | cut -d ' ' -f 1)"
    at_most 'ini_tool list, requests over 1,000 pairs' 100 "$(counted "$tool" list <"$room/in" | cut -d ' ' -f 1)"
    for words in 'get %s key7' 'get --all %s key7' 'keys %s' 'sections %s'; do
        # shellcheck disable=SC2046,SC2059
        at_most "ini_file $words, requests over 1,000 pairs" 100 \
            "$(counted "$file" $(printf "$words" "$room/in") | cut -d ' ' -f 1)"
    done
    # What ini_tool holds at its end is the document: no more room than its sections take.
    awk 'BEGIN { for (i = 0; i < 1020; i++) print "[" i "]" }' >"$room/in"
    less=$(counted "$tool" get k 7 <"$room/in" | cut -d ' ' -f 3)
    awk 'BEGIN { for (i = 0; i < 1030; i++) print "[" i "]" }' >"$room/in"
    more=$(counted "$tool" get k 7 <"$room/in" | cut -d ' ' -f 3)
    is 'ini_tool holds the document at its end' yes "$([ "${less:-0}" -ge 100000 ] && echo yes)"
    at_most 'bytes of 1,030 sections' "$((${less:-0} * 11 / 10))" "$more"
}

# refused NAME WANTED PROGRAM WORD ..: over the file `in`, where the request of a number and all after it are refused, a program
# tells that it is out of memory and writes nothing; so for each number up to the one with which it is done, and writes this
refused() {
    name=$1
    printf '%b' "$2" >"$room/wanted"
    shift 2
    number=0
    ended=4
    while [ "$ended" -ne 0 ] && [ "$number" -lt 500 ]; do
        number=$((number + 1))
        timeout 60 env HEAP_REFUSE=$number LD_PRELOAD="$room/heap.so" "$@" <"$room/in" >"$room/out" 2>"$room/err"
        ended=$?
        if [ "$ended" -ne 0 ]; then
            is "$name, refused from request $number on" '4, out of memory, 0 bytes' \
                "$ended, $(sed 's/.*: //' "$room/err"), $(wc -c <"$room/out") bytes"
        fi
    done
    is "$name, with memory at hand" "$(od -c "$room/wanted")" "$(od -c "$room/out")"
    is "$name asks for memory" yes "$([ "$number" -gt 1 ] && echo yes)"
}

# Each request of a run is refused in turn.
refuse_each() {
    printf 'k=v\n[a]\nx=y;\n' >"$room/in"
    refused 'ini_tool fmt' 'k=v\n\n[a]\nx=y;\n' "$tool" fmt
    refused 'ini_tool set' 'k=v\r\n\r\n[a]\r\nx=1\r\n' "$tool" --crlf set x 1 a
    refused 'ini_tool del' '[a]\nx=y\\;\n' "$tool" --policy Reserved del k
    refused 'ini_tool list' '\tk\tv\n[a]\tx\ty;\n' "$tool" list
    refused 'ini_tool get' 'y;\n' "$tool" get x a
    refused 'ini_file layers' 'k=v\n\n[a]\nx=y;\n' "$file" layers "$room/in" "$room/in"
}

if cc -shared -fPIC -O1 -o "$room/heap.so" "$top/tests/memory/heap.c" 2>/dev/null &&
    [ "$(echo 'none keys 1 1' | counted "$calls" calls | wc -l)" -eq 1 ]; then
    count_growths
    count_kept
    count_requests
    refuse_each
else
    echo 'skipped: how many requests are made, and what is given back, since there is no C compiler or no such heap'
fi

# Files: each form of loading reads a file once and leaves it whole, each closes it, and a new file has its mode by the umask.
printf '\357\273\277k = "v"\n[s]\nj = a\\tb\n' >"$room/text"
cp "$room/text" "$room/copy"
for form in load_from_file load_from_file_noescape load_from_file_opt; do
    echo "$form 1000 $room/text" >"$room/in"
    is "$form, a thousand times with 64 descriptors" "$form 1000 $room/text: 2" \
        "$(ulimit -n 64 && bounded "$calls" files <"$room/in" 2>&1)"
    is "$form leaves the file whole" "$(od -c "$room/copy")" "$(od -c "$room/text")"
    mkfifo "$room/pipe"
    timeout 60 cp "$room/text" "$room/pipe" &
    writer=$!
    is "$form of a pipe" "$form 1 $room/pipe: 2" "$(echo "$form 1 $room/pipe" | timeout 60 "$calls" files 2>&1)"
    kill "$writer" 2>/dev/null
    wait "$writer" 2>/dev/null
    rm "$room/pipe"
done
for form in write_to_file write_to_file_policy write_to_file_opt; do
    echo "$form 1000 $room/saved" >"$room/in"
    is "$form, a thousand times with 64 descriptors" "$form 1000 $room/saved: 0" \
        "$(ulimit -n 64 && bounded "$calls" files <"$room/in" 2>&1)"
    is "$form writes the document" 'k=v [s] j=w' "$(tr -s '\n' ' ' <"$room/saved" | sed 's/ $//')"
    for mask in 022 077 027; do
        rm -f "$room/new"
        (umask $mask && echo "$form 1 $room/new" | timeout 60 "$calls" files >/dev/null 2>&1)
        is "the mode of a new file by $form, umask $mask" "$(printf '%o' $((0666 & ~0$mask)))" "$(stat -c %a "$room/new")"
    done
done
mkfifo "$room/pipe"
timeout 60 cp "$room/text" "$room/pipe" &
writer=$!
is 'layers of a pipe' 'k=v [s] j=a\tb ' "$(timeout 60 "$file" layers "$room/pipe" 2>&1 | tr -s '\n' ' ')"
kill "$writer" 2>/dev/null
wait "$writer" 2>/dev/null

# Sizes: what is asked, and at which size. No one is refused, and each is done in time, which it isn't where it goes over all
# that is there for each.
sizes=0
# sized SIZE NAME WANTED COMMAND ..: a command over the file `in`; sums stand for long outputs
sized() {
    sizes=$((sizes + 1))
    name="$2 of $1"
    want=$3
    shift 3
    is "$name" "$want" "$(bounded "$@" <"$room/in" 2>&1 | head -c 400)"
}
# sums FILE: what stands for a file
sums() { cksum <"$1"; }
# sum_of COMMAND ..: what stands for what it writes
sum_of() { bounded "$@" 2>&1 | cksum; }

tab=$(printf '\t')
long() { head -c "$1" /dev/zero | tr '\0' "$2"; }
{ long 3000000 k; printf '=v\n['; long 3000000 s; printf ']\nk='; long 3000000 v; echo; } >"$room/lines"
sed 's/^\[/\n[/' "$room/lines" >"$room/in"
is 'a key, a name and a value of 3,000,000 bytes' "$(sums "$room/in")" "$(sum_of "$tool" fmt <"$room/lines")"
# each line end is an element of its own
is 'the same, elements' 6 "$(bounded "$calls" elements <"$room/lines" 2>&1)"
{ printf 'k=x'; yes '\t\\' | head -n 750000 | tr -d '\n'; echo; } >"$room/in"
is 'a value of 1,500,000 escapes' "$(sums "$room/in")" "$(sum_of "$tool" fmt <"$room/in")"
yes 'k=v' | head -n 2200000 >"$room/in"
is '2,200,000 pairs' "$(sums "$room/in")" "$(sum_of "$tool" fmt <"$room/in")"
sized 2200000 items 2200000 "$calls" items
sized 4400000 elements 4400000 "$calls" elements
is 'ini_file get --all of them' "$(yes v | head -n 2200000 | cksum)" "$(sum_of "$file" get --all - k <"$room/in")"
{ printf '\357\273\277'; cat "$room/in"; } >"$room/marked"
is '2,200,000 pairs after a mark' "$(sums "$room/in")" "$(sum_of "$tool" fmt <"$room/marked")"
is 'load_from_file of them' "load_from_file 1 $room/marked: 1" \
    "$(echo "load_from_file 1 $room/marked" | bounded "$calls" files 2>&1)"
awk 'BEGIN { for (i = 0; i < 150000; i++) print i "="; for (i = 0; i < 150000; i++) print "[" i "]" }' >"$room/numbers"
is '150,000 keys and 150,000 sections, 2,000,000 look-ups' "found 1000000 $room/numbers: 150000 keys, 150000 sections" \
    "$(echo "found 1000000 $room/numbers" | bounded "$calls" files 2>&1)"
yes '[s]' | head -n 1000000 >"$room/in"
is '1,000,000 sections of one name' 1 "$(bounded "$tool" get k s <"$room/in" >/dev/null 2>&1; echo $?)"
awk 'BEGIN { for (i = 0; i < 1000000; i++) print "k" i "=" }' >"$room/in"
sed 's/=$//' "$room/in" >"$room/keys"
is 'ini_file keys of 1,000,000' "$(sums "$room/keys")" "$(sum_of "$file" keys - <"$room/in")"
is 'ini_tool get of 1,000,000' "$(echo | cksum)" "$(sum_of "$tool" get k999999 <"$room/in")"
is 'ini_tool list of 1,000,000' "$(sed "s/.*/$tab&$tab/" "$room/keys" | cksum)" "$(sum_of "$tool" list <"$room/in")"
is 'ini_tool set of 1,000,000' "$(sed '$s/$/v/' "$room/in" | cksum)" "$(sum_of "$tool" set k999999 v <"$room/in")"
is 'ini_tool del of 1,000,000' "$(sed 1d "$room/in" | cksum)" "$(sum_of "$tool" del k0 <"$room/in")"
# of a multimap: steps, and how many pairs there are then and are found
while IFS='|' read -r line answer; do
    echo "$line" >"$room/in"
    sized 'millions of pairs' "$line" "$line: $answer" "$calls" pairs
done <<'STEPS'
append_unindexed 1050000 append_unindexed 1050000 clone 1|2100000 2100000
append_unindexed 300000 make_index 1|300000 300000
append_unindexed 300000 append 1|300001 300001
append 1000000|1000000 1000000
insert 1000000 replace 1000|1000000 1000000
append 1000000 remove 1000000|0 0
STEPS
# of documents: calls
while read -r call shape n times; do
    echo "$call $shape $n $times" >"$room/in"
    is "$call $shape $n $times" "$call $shape $n $times" "$(bounded "$calls" calls <"$room/in" 2>&1 | cut -d : -f 1)"
done <<'CALLS'
clone keys 1000000 1
clone sections 300000 1
merged sections 300000 1
is_plain keys 1000000 1
get_from keys 1000000 1000000
layered keys 300000 300000
delete_from keys 300000 300000
set_new sections 150000 150000
CALLS
# of files: each has a key of its own, and one that all of them have
mkdir "$room/files"
(cd "$room/files" && awk 'BEGIN { for (i = 10000; i < 15000; i++) { f = i ""; print "k" i "=\nk=" i > f; close(f) } }')
{ echo 'k10000='; echo 'k=14999'; awk 'BEGIN { for (i = 10001; i < 15000; i++) print "k" i "=" }'; } >"$room/merged"
is 'layers of 5,000 files with 64 descriptors' "$(sums "$room/merged")" \
    "$(cd "$room/files" && ulimit -n 64 && bounded "$file" layers ./* 2>&1 | cksum)"

finish
