#!/bin/sh
# Runs the built programs over streams that fail, and looks at each call of their output: none follows one that went wrong,
# none is made where a run is refused before it writes, and what is reported names the stream. Where strace is there it makes the
# faults and shows the calls; where it isn't, the cases that need it are skipped, and their number is reported before the last
# line. Each case that fails is reported. The last line is 'N passed, M failed', and the status is 1 if a case failed.
#
#     tests/streams.sh [INI_TOOL [INI_FILE]]
#
# The programs are by default those that tools/run.sh builds.
. "$(dirname "$0")/cases.sh"
tool=$(program_of ini_tool "${1:-}") || exit 1
file=$(program_of ini_file "${2:-}") || exit 1
skipped=0

# The files: a pair, 20,000 pairs, a text that is refused, a folder. A pair that is written like this stays as it is.
printf 'k=v\n' >"$room/pair"
awk 'BEGIN { for (i = 0; i < 20000; i++) printf "key %d=its value %d\n", i, i }' >"$room/pairs"
printf 'k=v\n=w\n' >"$room/refused"
mkdir "$room/folder"
: >"$room/nothing"

# told NAME STATUS WANTED ERROR: the last run's status, what it reported, and that it wrote the bytes of $room/wrote
told() {
    { echo "status $3, $4"; cksum <"$room/wrote"; } >"$room/want"
    { echo "status $2, $(cat "$room/err")"; cksum <"$room/out"; } >"$room/have"
    count "$1"
}

# Faults of the streams themselves.
closed='Bad file descriptor (os error 9)'
full='No space left on device (os error 28)'
folder='Is a directory (os error 21)'
refused='refused:2:1: no key stands before this
=w
^'
cd "$room" || exit 1
cp nothing wrote
cp nothing out
"$tool" fmt <pair >&- 2>err
told 'ini_tool, output closed' $? 4 "ini_tool: standard output: $closed"
"$file" layers pair pair >&- 2>err
told 'layers, output closed' $? 4 "ini_file: standard output: $closed"
"$tool" fmt <&- >out 2>err
told 'ini_tool, input closed' $? 4 "ini_tool: standard input: $closed"
"$tool" fmt <folder >out 2>err
told 'ini_tool, a folder as input' $? 4 "ini_tool: standard input: $folder"
"$tool" fmt <folder >&- 2>err
told 'ini_tool, a folder as input, output closed' $? 4 "ini_tool: standard input: $folder"
"$file" layers pair none >out 2>err
told 'layers, a file that is not there' $? 4 'ini_file: none: No such file or directory (os error 2)'
"$tool" get "$(printf '\303')" <pair >out 2>err
told 'ini_tool, a word that is no text' $? 4 'ini_tool: word 2 is not UTF-8'
"$file" layers pair pair "$(printf '\377')" >out 2>err
told 'layers, a word that is no text' $? 4 'ini_file: word 4 is not UTF-8'
if [ -c /dev/full ]; then
    for name in pair pairs; do
        "$tool" fmt <"$name" >/dev/full 2>err
        told "ini_tool, $name, a full device" $? 4 "ini_tool: standard output: $full"
        "$file" layers pair "$name" >/dev/full 2>err
        told "layers, $name, a full device" $? 4 "ini_file: standard output: $full"
    done
    "$file" layers pair refused >/dev/full 2>err
    told 'layers, a refused text, a full device' $? 3 "$refused"
fi

# whether a program can be traced, and a fault be made
can_trace() {
    command -v strace >/dev/null || return 1
    strace -o trace -e trace=write -e inject=write:error=EINTR:when=1 "$tool" fmt <pair >out 2>err
    grep -q INJECTED trace
}
if can_trace; then traced=yes; else traced=no; fi

# traced NAME STATUS CALLS ERROR FAULT INPUT OUTPUT PROGRAM WORD ..: a run with this fault made, or with none where FAULT is
# `none`; its status, how often it called its output, what it reported, and that it wrote the bytes of $room/wrote
traced() {
    if [ "$traced" = no ]; then
        skipped=$((skipped + 1))
        return
    fi
    { echo "status $2, calls $3, $4"; cksum <wrote; } >want
    name=$1 fault=$5 input=$6 output=$7
    shift 7
    if [ "$fault" = none ]; then set -- "$@"; else set -- -e "inject=$fault" "$@"; fi
    cp nothing out
    strace -o trace -e trace=write,writev,pwrite64,pwritev,sendto,sendfile,fsync,fdatasync "$@" <"$input" >"$output" 2>err
    { echo "status $?, calls $(grep -c '^[a-z0-9]*(1[,)]' trace), $(cat err)"; cksum <out; } >have
    count "$name"
}

# One call of the output, and none after the one that went wrong.
cp nothing wrote
for words in fmt list 'get k' 'set k w'; do
    for fault in 'write:error=EINTR:when=1|ini_tool: standard output: Interrupted system call (os error 4)' \
        'write:error=EIO:when=1|ini_tool: standard output: Input/output error (os error 5)' \
        'write:retval=0:when=1|ini_tool: a write took no bytes'; do
        # shellcheck disable=SC2086
        traced "$words, ${fault%%|*}" 4 1 "${fault#*|}" "${fault%%|*}" pair out "$tool" $words
    done
    # shellcheck disable=SC2086
    [ -c /dev/full ] && traced "$words, a full device" 4 1 "ini_tool: standard output: $full" none pair /dev/full "$tool" $words
done
traced 'layers, a fault' 4 1 'ini_file: standard output: Input/output error (os error 5)' write:error=EIO:when=1 nothing out \
    "$file" layers pair pair
[ -c /dev/full ] && traced 'layers, a full device' 4 1 "ini_file: standard output: $full" none nothing /dev/full "$file" layers pair

# No call where nothing is to be written, or where a run is refused before it writes.
traced 'fmt, a refused text' 3 0 'ini_tool: 2:2 missing key' none refused out "$tool" fmt
traced 'fmt, a folder as input' 4 0 "ini_tool: standard input: $folder" none folder out "$tool" fmt
traced 'get, not found' 1 0 '' none pair out "$tool" get z
traced 'fmt, no text' 0 0 '' none nothing out "$tool" fmt
traced 'layers, a refused text' 3 0 "$refused" none nothing out "$file" layers pair refused
traced 'layers, a file that is not there' 4 0 'ini_file: none: No such file or directory (os error 2)' none nothing out \
    "$file" layers pair none

# A fault at the third call of a long text: what the first two took went out, and no call follows. The lines are short, so each
# call that takes what is gathered takes more than half of 16,384 bytes.
half() {
    awk -F '= ' '/^write\(1,/ && !/INJECTED/ { size[++n] = $NF + 0 } END {
        for (i = 1; i < n; i++) if (size[i] <= 8192) small++
        print "small calls before the last: " small + 0 }' trace
}
long() {
    if [ "$traced" = no ]; then
        skipped=$((skipped + 1))
        return
    fi
    program=$1 input=$2
    shift 2
    cp nothing out
    strace -o trace -e trace=write -e inject=write:error=EIO:when=3 "$@" <"$input" >out 2>err
    echo "status $?, calls $(grep -c '^write(1,' trace), $(cat err)" >have
    size=$(wc -c <out)
    head -c "$size" pairs | cmp - out >>have 2>&1
    [ "$size" -gt 16384 ] && [ "$size" -le 32768 ] && echo 'two calls went out' >>have
    half >>have
    {
        echo "status 4, calls 3, $program: standard output: Input/output error (os error 5)"
        echo 'two calls went out'
        echo 'small calls before the last: 0'
    } >want
    count "$program, a fault at the third call"
}
long ini_tool pairs "$tool" fmt

# A reader that fails at a call, the first or the one after the last byte, isn't asked again.
reads() {
    if [ "$traced" = no ]; then
        skipped=$((skipped + 1))
        return
    fi
    cp nothing out
    # shellcheck disable=SC2086
    strace -o trace -P "$room/pair" -e trace=read -e "inject=read:error=$2:when=$1" "$tool" $4 <pair >out 2>err
    { echo "status $?, calls $(grep -c '^read(0,' trace), $(cat err)"; cksum <out; } >have
    { echo "status 4, calls $1, ini_tool: standard input: $3"; cksum <nothing; } >want
    count "ini_tool $4, $2 at read $1"
}
for call in 1 2; do
    for words in fmt list 'get k' 'set k w' 'del k'; do
        reads "$call" EINTR 'Interrupted system call (os error 4)' "$words"
        reads "$call" EIO 'Input/output error (os error 5)' "$words"
    done
done

# A file that may not grow past so many blocks of 512 bytes gets a front of that length; one of just that length is written.
limited() {
    cp nothing out
    (
        trap '' XFSZ
        ulimit -f "$1"
        exec "$tool" fmt <"$2" >out 2>err
    )
}
for blocks in 1 2 33; do
    limited "$blocks" pairs
    ended=$?
    head -c $((blocks * 512)) pairs >wrote
    told "ini_tool, $blocks blocks of room" $ended 4 'ini_tool: standard output: File too large (os error 27)'
done
printf 'k=%0509d\n' 7 >block
limited 1 block
ended=$?
cp block wrote
told 'ini_tool, just enough room' $ended 0 ''
cp nothing wrote

# What can't be reported is dropped, and the status stays.
cp nothing out
cp nothing err
"$tool" frob <pair >out 2>&-
told 'ini_tool, usage, errors closed' $? 2 ''
if [ -c /dev/full ]; then
    "$tool" frob <pair >out 2>/dev/full
    told 'ini_tool, usage, errors on a full device' $? 2 ''
fi

if [ "$skipped" -gt 0 ]; then
    echo "$skipped skipped: strace isn't here, or may trace no program"
fi
finish
