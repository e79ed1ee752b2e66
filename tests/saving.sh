#!/bin/sh
# Runs the built program ini_file where it saves: which file a run writes, with which rights and by which calls of the system,
# and that the old file stands whole, and no other is left, where one of these calls fails; then what it says of words and
# texts that it refuses. Strace makes the faults and shows the calls; where it isn't there, the cases that need it are skipped,
# and their number is reported before the last line. Each case that fails is reported. The last line is 'N passed, M failed', and the
# status is 1 if a case failed.
#
#     tests/saving.sh [INI_FILE [PART ..]]
#
# The program is by default the one that its script builds; a PART is the name of one of the functions below, or of those in
# tests/saving/meanwhile.sh, by default all.
. "$(dirname "$0")/cases.sh"
umask 022
program=$(program_of ini_file "${1:-}") || exit 1
[ $# -gt 0 ] && shift
parts=$*
skipped=0
source='; a server\nname=one\n[server]\nport=8080\n[client]\nid=7\n'
unwritable="this value can't be written so that it is read back
note: white space begins or ends it"

# a folder with a file of the source, and with another one, `other.ini`; the next case runs in it
fresh() {
    cd "$room" || exit 1
    rm -rf case
    mkdir case
    cd case || exit 1
    printf "$source" >settings.ini
    printf '[client]\nid=8\n[new]\nk=v\n' >other.ini
}

# ended NAME STATUS WORD..: a run ends with this status; its words stay in `out` and `err`
ended() {
    name=$1
    echo "status $2" >"$room/want"
    shift 2
    "$program" "$@" >"$room/out" 2>"$room/err"
    echo "status $?" >"$room/have"
    count "$name: the status"
}

# there NAME FILE TEXT ..: these files have these texts, and no other is in the folder
there() {
    name=$1
    shift
    : >"$room/names"
    : >"$room/texts"
    : >"$room/have"
    while [ $# -gt 0 ]; do
        echo "$1" >>"$room/names"
        printf -- "$2" >>"$room/texts"
        cat "$1" >>"$room/have" 2>&1
        shift 2
    done
    { cat "$room/texts"; sort "$room/names"; } >"$room/want"
    find . -type f | sed 's/^..//' | sort >>"$room/have"
    count "$name"
}

# the text that a merge of other.ini makes of the source
merged='; a server\nname=one\n[server]\nport=8080\n[client]\nid=8\n\n[new]\nk=v\n'
other='[client]\nid=8\n[new]\nk=v\n'
listed='\tname\tone\n[server]\tport\t8080\n[client]\tid\t7\n'
formatted='name=one\n\n[server]\nport=8080\n\n[client]\nid=7\n'

# which file is written
places() {
    for words in "list|$listed" "rewrite|$formatted" 'sections|server\nclient\n' 'keys|name\n'; do
        fresh
        ended "${words%%|*} --output, a new file" 0 "${words%%|*}" --output new.ini settings.ini
        there "${words%%|*} --output, a new file" settings.ini "$source" other.ini "$other" new.ini "${words#*|}"
        ended "${words%%|*} --output, a file that is there" 0 "${words%%|*}" --output other.ini settings.ini
        there "${words%%|*} --output, a file that is there" settings.ini "$source" other.ini "${words#*|}" new.ini "${words#*|}"
    done
    fresh
    ended 'get --output' 0 get --output new.ini settings.ini port server
    there 'get --output' settings.ini "$source" other.ini "$other" new.ini '8080\n'
    fresh
    ended 'merge --output, a new file' 0 merge --output new.ini settings.ini other.ini
    there 'merge --output, a new file' settings.ini "$source" other.ini "$other" new.ini "$merged"
    ended 'merge --output, a file that is there' 0 merge --output other.ini settings.ini other.ini
    there 'merge --output, a file that is there' settings.ini "$source" other.ini "$merged" new.ini "$merged"
    for words in rewrite list sections keys 'get none.ini k' 'delete none.ini k' 'delete-section none.ini s' \
        'rename-key none.ini a b' 'rename-section none.ini a b' 'set --existing none.ini k v' 'check' \
        'merge settings.ini' 'rewrite --dry-run' 'rewrite --output new.ini'; do
        case $words in *none.ini*) ;; *) words="$words none.ini" ;; esac
        fresh
        # shellcheck disable=SC2086
        ended "$words, which is not there" 4 $words
        there "$words, which is not there: none is made" settings.ini "$source" other.ini "$other"
    done
    fresh
    ended 'merge --dry-run of a file that is not there' 0 merge --dry-run new.ini other.ini
    there 'merge --dry-run of a file that is not there: none is made' settings.ini "$source" other.ini "$other"
    printf '\055-- /dev/null\n+++ new.ini\n@@ -0,0 +1,5 @@\n+[client]\n+id=8\n+\n+[new]\n+k=v\n' >"$room/want"
    cp "$room/out" "$room/have"
    count 'merge --dry-run of a file that is not there: the diff'
    ended 'merge --dry-run --output, a new file' 0 merge --dry-run --output new.ini settings.ini other.ini
    ended 'merge --dry-run --output, a file that is there' 0 merge --dry-run --output other.ini settings.ini other.ini
    ended 'merge --dry-run' 0 merge --dry-run settings.ini other.ini
    ended 'rewrite --dry-run' 0 rewrite --dry-run settings.ini
    there '--dry-run: nothing is written' settings.ini "$source" other.ini "$other"
}

# many files in one run
many() {
    fresh
    printf 'k=1\nk=2\n' >repeated.ini
    : >clean.ini
    c=clean.ini
    "$program" check $c $c $c $c $c $c $c $c repeated.ini $c repeated.ini $c repeated.ini >"$room/out"
    { echo "status $?"; cut -d : -f 1,2 "$room/out"; } >"$room/have"
    { echo 'status 1'; printf 'repeated.ini:2\nrepeated.ini:2\nrepeated.ini:2\n'; } >"$room/want"
    count 'check of thirteen files: each is looked at'
    printf 'k=\377\n' >bytes.ini
    ended 'check of thirteen files, the last refused' 3 check $c $c $c $c $c $c $c $c $c $c $c repeated.ini bytes.ini
    ended 'check of thirteen files, the last not there' 4 check $c $c $c $c $c $c $c $c $c $c $c bytes.ini none.ini
    rm -f ./*.ini
    set --
    for n in 1 2 3 4 5 6 7 8 9 10 11 12 13; do
        printf 'last=%s\nk%s=v\n' "$n" "$n" >"part$n"
        set -- "$@" "part$n"
    done
    "$program" merge --output - all.ini "$@" >"$room/have" 2>&1
    { echo last=13; printf 'k%s=v\n' 1 2 3 4 5 6 7 8 9 10 11 12 13; } >"$room/want"
    # the first file's keys come first
    count 'merge of thirteen files: each is merged, and the last one counts'
}

# what is said of what is refused
refusals() {
    fresh
    for words in "set settings.ini k|a" "get settings.ini|k" "delete settings.ini name|" "check settings.ini|" \
        "merge settings.ini other.ini|" "set|.ini"; do
        # shellcheck disable=SC2086
        ended "${words%|*} and a word that is no text" 4 ${words%|*} "$(printf '\377')${words#*|}"
        grep -c 'word [2-4] is not UTF-8$' "$room/err" >"$room/have"
        echo 1 >"$room/want"
        count "${words%|*} and a word that is no text: the words"
    done
    there 'a word that is no text: nothing is written' settings.ini "$source" other.ini "$other"
    # a value that stands neither bare nor in quotes
    printf 'a=1\nb = " \\"\047"\n' >unwritable.ini
    ends 'merge: the key of the general section is reported' 2 '' "ini_file: settings.ini: b: $unwritable" \
        merge settings.ini unwritable.ini
    { echo '[s]'; cat unwritable.ini; } >section.ini
    ends 'merge: the section and the key are reported' 2 '' "ini_file: settings.ini: [s] b: $unwritable" \
        merge settings.ini section.ini
    printf '[a]\n  junk' >no_place.ini
    ends 'a name that can not be written is reported before a place that is not there' 2 '' \
        "ini_file: no_place.ini: this name can't be written so that it is read back
note: it has ]: use --brackets" --multiline set no_place.ini k v 'a]b'
    printf 'a=1\r\n  =v\r\n' >refused.ini
    ends 'a refused line is shown without its CR' 3 '' 'refused.ini:2:3: no key stands before this
  =v
  ^' list refused.ini
    printf '\357\273\277  =v\n' >refused.ini
    ends 'a refused line is shown without the mark' 3 '' 'refused.ini:1:3: no key stands before this
  =v
  ^' list refused.ini
    printf '\357\273\277k = "v\r\nw' >refused.ini
    "$program" list refused.ini 2>&1 | head -n 3 >"$room/have"
    printf "refused.ini:1:5: this quote isn't closed\nk = \"v\n    ^\n" >"$room/want"
    count 'what has no end is looked for and shown without the mark and the CR'
    printf 'a = 1\nb = "c\n[d\n' >refused.ini
    for words in "--noquote|3:1: this bracket isn't closed|[d|^" "|2:5: this quote isn't closed|b = \"c|    ^" \
        "--multiline|2:5: this quote isn't closed|b = \"c|    ^" "--multiline --noquote|3:1: this bracket isn't closed|[d|^"; do
        options=${words%%|*}
        rest=${words#*|}
        # shellcheck disable=SC2086
        "$program" $options list refused.ini 2>"$room/err"
        head -n 3 "$room/err" >"$room/have"
        printf 'refused.ini:'"$(echo "$rest" | sed 's/|/\\n/g')"'\n' >"$room/want"
        count "what has no end is looked for by the options given: '$options'"
    done
    # the page's statuses are those of runs
    "$program" --help >"$room/help"
    "$program" list 2>/dev/null
    echo "$? wrong words" >"$room/want"
    "$program" list refused.ini 2>/dev/null
    echo "$? a refused text" >>"$room/want"
    "$program" get settings.ini z
    echo "$? not found" >>"$room/want"
    "$program" list none.ini 2>/dev/null
    echo "$? a fault of a file" >>"$room/want"
    "$program" get settings.ini name >/dev/null
    echo "$? done" >>"$room/want"
    : >"$room/have"
    for meaning in 'wrong words' 'a refused text' 'not found' 'a fault of a file' 'done'; do
        sed -n "s/^Status:/ &/; s/.*\\([0-9]\\) \\($meaning\\).*/\\1 \\2/p" "$room/help" >>"$room/have"
    done
    count '--help: the statuses'
    if [ -c /dev/full ]; then
        for word in --help --version; do
            "$program" "$word" >/dev/full 2>"$room/err"
            echo "status $?" >"$room/have"
            echo 'status 4' >"$room/want"
            count "$word, a full device: the status"
            grep -c 'No space left on device' "$room/err" >"$room/have"
            echo 1 >"$room/want"
            count "$word, a full device: the words"
        done
    fi
}

# the rights of files that are made, and of those that are replaced
modes() {
    for mask in 022 027 077 000; do
        fresh
        (
            umask "$mask"
            "$program" set set.ini k v
            "$program" add add.ini k v s
            "$program" merge merge.ini other.ini
            "$program" rewrite --output rewrite.ini settings.ini
            "$program" set --output output.ini settings.ini k v
        )
        stat -c '%a %n' set.ini add.ini merge.ini rewrite.ini output.ini >"$room/have"
        wanted=$(printf '%o' $((0666 & ~0$mask)))
        printf "$wanted %s.ini\n" set add merge rewrite output >"$room/want"
        count "files that are made under the umask $mask"
    done
    for mode in 600 640 666 604; do
        fresh
        chmod "$mode" settings.ini other.ini
        (
            umask 077
            "$program" rewrite settings.ini
            "$program" set --output other.ini settings.ini k v
            umask 000
            "$program" merge settings.ini other.ini
        )
        stat -c '%a %n' settings.ini other.ini >"$room/have"
        printf "$mode %s.ini\n" settings other >"$room/want"
        count "a file with the rights $mode keeps them"
    done
}

# files that stand beside, and links
neighbours() {
    # no name beside the file is a lock's: a file of somebody's own stands, and nothing waits for it
    for words in 'set Cargo k v' 'add Cargo k v' 'merge Cargo other.ini' 'set --output Cargo settings.ini k v'; do
        fresh
        echo mine >Cargo.lock
        # shellcheck disable=SC2086
        ended "$words, beside Cargo.lock" 0 $words
        printf 'k=old\n' >Cargo
        # shellcheck disable=SC2086
        ended "$words, Cargo is there, beside Cargo.lock" 0 $words
        { echo mine; printf '%s\n' Cargo Cargo.lock other.ini settings.ini; } >"$room/want"
        { cat Cargo.lock; ls -A; } >"$room/have" 2>&1
        count "$words: Cargo.lock stands, and no other file is left"
    done
    # names of files beside it that are taken already, as by a run that had this process's number
    for words in 'set settings.ini name two' 'set new.ini k v' 'set --in-place settings.ini name two'; do
        fresh
        # shellcheck disable=SC2016,SC2086
        sh -c 'echo mine >.ini_file.$$.0 && exec "$@"' sh "$program" $words >"$room/have" 2>&1
        { echo "status $?"; cat .ini_file.*; grep -c -e 'name=two' -e 'k=v' "$(echo "$words" | grep -o '[a-z]*\.ini')"
            ls -A | grep -c ini_file; } >>"$room/have"
        printf 'status 0\nmine\n1\n1\n' >"$room/want"
        count "$words, a name beside it is taken: that file stands, and the text is written"
    done
    fresh
    # shellcheck disable=SC2016
    sh -c 'n=0; while [ "$n" -lt 1000 ]; do : >".ini_file.$$.$n"; n=$((n + 1)); done; exec "$@"' sh "$program" \
        set settings.ini name two >"$room/have" 2>&1
    { echo "status $?"; ls -A | grep -c ini_file; cat settings.ini; } >>"$room/have"
    { echo 'ini_file: settings.ini: no name is free for a file beside it (.ini_file.*)'; echo 'status 4'; echo 1000
        printf "$source"; } >"$room/want"
    count 'a thousand names beside it are taken: the words, and the file stands'
    # by way of a link the file's own folder is written, and what stands beside the link isn't touched
    for words in 'merge link.ini other.ini' 'rewrite link.ini' 'set link.ini k v'; do
        fresh
        mkdir far
        mv settings.ini far/true.ini
        ln -s far/true.ini link.ini
        # shellcheck disable=SC2086
        ended "$words by way of a link" 0 $words
        printf '%s\n' far/true.ini true.ini far link.ini other.ini >"$room/want"
        { readlink link.ini; ls -A far; ls -A; } >"$room/have"
        count "$words by way of a link: the link stays, and no other file is left"
    done
    # a folder in which nothing but the link stands, which another file system may have
    apart=$(mktemp -d /dev/shm/bigrosk.XXXXXX 2>/dev/null)
    if [ -n "$apart" ] && [ "$(stat -c %d "$apart")" != "$(stat -c %d "$room")" ]; then
        fresh
        mv settings.ini "$apart/true.ini"
        ln -s "$apart/true.ini" link.ini
        ended 'set by way of a link to another file system' 0 set link.ini name two
        { printf "$source" | sed 's/one/two/'; echo true.ini; } >"$room/want"
        { cat "$apart/true.ini"; ls -A "$apart"; } >"$room/have"
        count 'set by way of a link to another file system'
    else
        skipped=$((skipped + 2))
    fi
    [ -n "$apart" ] && rm -rf "$apart"
    # a name that is taken by a link to no file: nothing is left
    for words in 'set link.ini k v' 'merge link.ini other.ini' 'set --output link.ini settings.ini k v' 'set --dry-run link.ini k v'; do
        fresh
        ln -s none.ini link.ini
        # shellcheck disable=SC2086
        ends "$words, a link to no file" 4 '' 'ini_file: link.ini: a symbolic link to no file' $words
        there "$words, a link to no file: no lock is left" settings.ini "$source" other.ini "$other"
    done
    for words in 'set none/new.ini k v' 'set --dry-run none/new.ini k v'; do
        fresh
        # shellcheck disable=SC2086
        ends "$words, a folder that isn't there" 4 '' 'ini_file: none/new.ini: No such file or directory (os error 2)' $words
    done
}

# limited BLOCKS WORD..: a run in which no file may be longer
limited() (
    trap '' XFSZ
    ulimit -f "$1" || exit 125
    shift
    exec "$program" "$@"
)

# A file that is full in the middle of a call: the call takes fewer bytes than it got, and the next one fails.
full() {
    fresh
    awk 'BEGIN { for (i = 0; i < 300; i++) v = v "v"; for (i = 0; i < 100; i++) print "key" i "=" v }' >long.ini
    cp long.ini "$room/long"
    for words in 'set long.ini key7 w' 'merge long.ini other.ini' 'rewrite --separator : long.ini' 'set new.ini k v' \
        'merge new.ini long.ini' 'list --output new.ini long.ini' 'set --output new.ini long.ini k v' \
        'list --output other.ini long.ini'; do
        case $words in 'set new.ini'*) words="$words$(head -c 30000 /dev/zero | tr '\0' v)" ;; esac
        # shellcheck disable=SC2086
        limited 8 $words >"$room/out" 2>"$room/err"
        { echo "status $?"; grep -c 'File too large (os error 27)$' "$room/err"; } >"$room/have"
        printf 'status 4\n1\n' >"$room/want"
        count "$(echo "$words" | cut -c 1-40), where the file is full in the middle: the status and the words"
        { cat "$room/long"; printf "$other$source"; printf '%s\n' long.ini other.ini settings.ini; } >"$room/want"
        cat long.ini other.ini settings.ini >"$room/have"
        ls -A >>"$room/have"
        count "$(echo "$words" | cut -c 1-40), where the file is full in the middle: each file stands, and no other is left"
        rm -f new.ini ./*.lock
    done
    for words in 'list long.ini' 'rewrite --output - long.ini' 'set --output - long.ini key7 w' 'check -' \
        'merge --output - long.ini other.ini' 'set --dry-run long.ini key99 w'; do
        case $words in check*) sed 's/.*/k=v/' long.ini ;; esac >"$room/in"
        case $words in *dry-run*) set -- "$(head -c 30000 /dev/zero | tr '\0' w)" ;; *) set -- ;; esac
        # shellcheck disable=SC2086
        limited 8 $words "$@" <"$room/in" >"$room/out" 2>"$room/err"
        { echo "status $?"; grep -c 'standard output: .*File too large (os error 27)$' "$room/err"; } >"$room/have"
        printf 'status 4\n1\n' >"$room/want"
        count "$words, where standard output is full in the middle"
    done
}

# whether a program can be traced, and a fault be made
can_trace() {
    command -v strace >/dev/null || return 1
    fresh
    strace -y -o "$room/trace" -e trace=fsync -e inject=fsync:error=EIO:when=1 "$program" rewrite settings.ini 2>/dev/null
    grep -q INJECTED "$room/trace"
}

# nth CALL PATTERN WORD..: of the calls of this name in a run, the number of the first one whose line has this pattern
nth() {
    call=$1 pattern=$2
    shift 2
    strace -y -o "$room/plain" -e "trace=$call" "$program" "$@" >/dev/null 2>&1
    grep "^$call(" "$room/plain" | grep -n -e "$pattern" | head -n 1 | cut -d : -f 1
}

# broken CALL PATTERN ERROR MESSAGE: the call of a run of $words with this pattern fails, and all files stand
broken() {
    fresh
    # shellcheck disable=SC2086
    at=$(nth "$1" "$2" $words)
    fresh
    # shellcheck disable=SC2086
    strace -o "$room/trace" -e "trace=$1" -e "inject=$1:error=$3:when=$at" "$program" $words >"$room/out" 2>"$room/err"
    { echo "status $?"; grep -v 'resolved' "$room/err"; } >"$room/have"
    { echo 'status 4'; echo "ini_file: $told: $4"; } >"$room/want"
    count "$words, $1 ($2) fails: the status and the words"
    there "$words, $1 ($2) fails: each file stands, and no other is left" settings.ini "$source" other.ini "$other"
}

# The calls of a save that fail. Where a file is replaced: words, the file that is reported, the calls; and where one is made.
faults() {
    told=settings.ini
    for words in 'merge settings.ini other.ini' 'set settings.ini name two' 'rewrite settings.ini' \
        'list --output settings.ini other.ini'; do
        broken openat O_EXCL EACCES "Permission denied (os error 13); $advice"
        broken openat O_EXCL EROFS "Read-only file system (os error 30); $advice"
        broken openat O_EXCL ENOSPC 'No space left on device (os error 28)'
        broken openat 'O_WRONLY|O_NOCTTY' ETXTBSY 'Text file busy (os error 26)'
        broken fchown . EIO 'Input/output error (os error 5)'
        broken fchmod . EPERM 'Operation not permitted (os error 1)'
        broken write '.ini_file.' ENOSPC 'No space left on device (os error 28)'
        broken fsync . EIO 'Input/output error (os error 5)'
        broken rename . EXDEV "Invalid cross-device link (os error 18); $advice"
        broken rename . EPERM "Operation not permitted (os error 1); $advice"
        broken rename . EBUSY "Device or resource busy (os error 16); $advice"
        broken rename . EIO 'Input/output error (os error 5)'
    done
    for words in 'set new.ini k v' 'add new.ini k v s' 'merge new.ini other.ini' 'rewrite --output new.ini settings.ini' \
        'set --output new.ini settings.ini k v' 'merge --output new.ini settings.ini other.ini'; do
        told=new.ini
        broken openat O_EXCL EACCES 'Permission denied (os error 13)'
        broken write '.ini_file.' ENOSPC 'No space left on device (os error 28)'
        broken fsync . EIO 'Input/output error (os error 5)'
        broken link . EMLINK 'Too many links (os error 31)'
        broken link . EEXIST 'File exists (os error 17)'
    done
}

# What is written already when a call fails: the folder that can't be brought to the disk, a name that can't be taken away,
# a file system without links. WORDS|FAULT|STATUS|TOLD, and whether the file stands with its new text alone.
behind() {
    lost='written, but not on the disk yet: Input/output error (os error 5)'
    kept="its folder can't be brought to the disk"
    while IFS='|' read -r words fault status told files; do
        fresh
        call=${fault%%:*}
        case $words in *settings.ini*) with='inject=fsync:error=' ;; *) with= ;; esac
        case $fault in
        folder:*)
            # shellcheck disable=SC2086
            at=$(nth fsync 'case>' $words)
            call=fsync with="inject=fsync:when=$at:"
            ;;
        open:*)
            # shellcheck disable=SC2086
            at=$(nth openat 'case", O_RDONLY\|"\.", O_RDONLY' $words)
            # the lock of a new file is the folder's too: the last such call is the one after the name
            at=$(grep '^openat(' "$room/plain" | grep -n -e 'case", O_RDONLY\|"\.", O_RDONLY' | tail -n 1 | cut -d : -f 1)
            call=openat with="inject=openat:when=$at:"
            ;;
        *) with="inject=$call:" ;;
        esac
        fresh
        # shellcheck disable=SC2086
        strace -o "$room/trace" -e "trace=$call" -e "${with}error=${fault#*:}" "$program" $words >"$room/out" 2>"$room/err"
        { echo "status $?"; sed 's/\.ini_file\.[0-9]*\./BESIDE/' "$room/err"; } >"$room/have"
        { echo "status $status"; if [ -n "$told" ]; then echo "ini_file: $told"; fi; } >"$room/want"
        count "$words, $fault: the status and the words"
        # shellcheck disable=SC2086
        { ls -A | sed 's/\.ini_file\.[0-9]*\./BESIDE/'; cat ${words#* } 2>/dev/null | grep -c '^k=v$'; } >"$room/have"
        # shellcheck disable=SC2086
        { printf '%s\n' $files other.ini settings.ini | sort; echo 1; } >"$room/want"
        count "$words, $fault: the new text stands"
    done <<END
set settings.ini k v|folder:EIO|4|settings.ini: $lost|
set new.ini k v|folder:EIO|4|new.ini: $lost|new.ini
set settings.ini k v|folder:EINVAL|0|settings.ini: note: $kept: Invalid argument (os error 22)|
set settings.ini k v|folder:EOPNOTSUPP|0|settings.ini: note: $kept: Operation not supported (os error 95)|
set settings.ini k v|fchown:EINVAL|0|settings.ini: note: its group can't be kept|
set settings.ini k v|fchown:EOPNOTSUPP|0|settings.ini: note: its group can't be kept|
set settings.ini k v|open:EACCES|0|settings.ini: note: $kept: Permission denied (os error 13)|
set new.ini k v|open:EACCES|0|new.ini: note: $kept: Permission denied (os error 13)|new.ini
set settings.ini k v|flock:ENOLCK|0|settings.ini: note: it can't be locked against other runs: No locks available (os error 37)|
set new.ini k v|link:EPERM|0||new.ini
set new.ini k v|link:EOPNOTSUPP|0||new.ini
set new.ini k v|link:ENOSYS|0||new.ini
END
    # the first name can't be taken away: a note says which file stays
    fresh
    strace -o "$room/trace" -e trace=unlink -e inject=unlink:error=EPERM "$program" set new.ini k v >"$room/out" 2>"$room/err"
    { echo "status $?"; cat "$room/err"; ls -A; cat new.ini; } 2>&1 | sed 's/\.ini_file\.[0-9]*\./BESIDE/' >"$room/have"
    printf '%s\n' 'status 4' 'ini_file: new.ini: note: it is written, but BESIDE0 stays beside it' \
        'ini_file: new.ini: Operation not permitted (os error 1)' BESIDE0 new.ini other.ini settings.ini k=v >"$room/want"
    count 'a new file whose first name stays'
    # without links: the name is reserved before the file takes it, and freed where it can't
    fresh
    strace -o "$room/trace" -e trace=link,rename,openat -e inject=link:error=EPERM -e inject=rename:error=EIO \
        "$program" set new.ini k v >"$room/out" 2>"$room/err"
    { echo "status $?"; cat "$room/err"; } >"$room/have"
    printf 'status 4\nini_file: new.ini: Input/output error (os error 5)\n' >"$room/want"
    count 'a new file without links that gets no name: the status and the words'
    there 'a new file without links that gets no name: none is left' settings.ini "$source" other.ini "$other"
}

# The calls of a run over these words from the first lock or reading on, with the files that they are about; of several calls
# of a name in a row one is reported. A file of a run's own is BESIDE.
calls_of() {
    strace -y -o "$room/trace" -e trace=flock,openat,fchown,fchmod,read,write,fsync,rename,link,unlink,ftruncate,lseek,close \
        "$program" "$@" >/dev/null 2>&1
    sed -E -n "s| += .*||
        s|$room/case|CASE|g; s|CASE/||g; s|AT_FDCWD<[^>]*>|AT|; s|\.ini_file\.[0-9]+\.|BESIDE|g
        s|^openat\(AT, \"([^\"]*)\", ([A-Z_\|]*)(, 0?([0-7]*))?\)|open \1 \2 \4|p
        s|^flock\([0-9]+<([^>]*)>, (.*)\)|flock \1 \2|p
        s|^fchown\([0-9]+<([^>]*)>, ([0-9]*), ([0-9]*)\)|fchown \1 \2 \3|p
        s|^fchmod\([0-9]+<([^>]*)>, 0?([0-7]*)\)|fchmod \1 \2|p
        s/^(read|write|fsync|ftruncate|lseek)\([0-9]+<([^>]*)>.*/\1 \2/p
        s/^(rename|link)\(\"([^\"]*)\", \"([^\"]*)\"\)/\1 \2 \3/p
        s/^unlink\(\"([^\"]*)\"\)/unlink \1/p
        s/^close\([0-9]+<([^>]*)>(\(deleted\))?\)/close \1\2/p" "$room/trace" |
        sed 's/O_NOCTTY|O_CLOEXEC//; s/| / /; s/ *$//; s|\./BESIDE|BESIDE|g' |
        grep -e settings.ini -e new.ini -e BESIDE -e CASE -e 'open \. ' | uniq
}

# Which calls are made, in order, with which flags and modes: the lock before the first byte is read, and let go after the
# last call; owner and group, then the mode, before any byte; the bytes on the disk before the name, and the folder after it.
calls() {
    for words in 'rewrite settings.ini' 'merge settings.ini other.ini' 'set settings.ini name two'; do
        for mode in 640 600; do
            fresh
            chmod "$mode" settings.ini
            chown 1000:1001 settings.ini 2>/dev/null
            # shellcheck disable=SC2086
            calls_of $words >"$room/have"
            ids=$(stat -c '%u %g' settings.ini)
            printf '%s\n' 'open settings.ini O_RDONLY' 'flock settings.ini LOCK_EX|LOCK_NB' 'open settings.ini O_RDONLY' \
                'read settings.ini' 'close settings.ini' 'open settings.ini O_WRONLY' 'open BESIDE0 O_WRONLY|O_CREAT|O_EXCL 600' \
                "fchown BESIDE0 $ids" "fchmod BESIDE0 $mode" 'write BESIDE0' 'fsync BESIDE0' 'close BESIDE0' \
                'open settings.ini O_RDONLY' 'read settings.ini' 'close settings.ini' 'rename BESIDE0 settings.ini' \
                'open CASE O_RDONLY' 'fsync CASE' 'close CASE' 'close settings.ini(deleted)' >"$room/want"
            # both the file that was opened to see whether it may be written, and the lock, are let go at the end
            count "$words, mode $mode: the calls, in order"
            echo "$mode $ids" >"$room/want"
            stat -c '%a %u %g' settings.ini >"$room/have"
            count "$words, mode $mode: the file's rights"
        done
    done
    for words in 'set new.ini k v' 'add new.ini k v' 'merge new.ini other.ini' 'rewrite --output new.ini settings.ini' \
        'delete --output new.ini settings.ini name'; do
        fresh
        # shellcheck disable=SC2086
        calls_of $words | grep -v ' settings.ini' >"$room/have"
        printf '%s\n' 'open . O_RDONLY' 'flock CASE LOCK_EX|LOCK_NB' 'open BESIDE0 O_WRONLY|O_CREAT|O_EXCL 666' 'write BESIDE0' \
            'fsync BESIDE0' 'close BESIDE0' 'link BESIDE0 new.ini' 'unlink BESIDE0' 'open . O_RDONLY' 'fsync CASE' 'close CASE' \
            >"$room/want"
        count "$words: the calls of a new file, in order"
    done
    fresh
    calls_of set --in-place settings.ini name two >"$room/have"
    printf '%s\n' 'open settings.ini O_RDONLY' 'flock settings.ini LOCK_EX|LOCK_NB' 'open settings.ini O_RDONLY' \
        'read settings.ini' 'close settings.ini' 'open settings.ini O_WRONLY' 'open BESIDE0 O_WRONLY|O_CREAT|O_EXCL 600' \
        'write BESIDE0' 'fsync BESIDE0' 'close BESIDE0' 'open CASE O_RDONLY' 'fsync CASE' 'close CASE' \
        'open settings.ini O_RDONLY' 'read settings.ini' 'close settings.ini' 'open settings.ini O_WRONLY' \
        'lseek settings.ini' 'write settings.ini' 'ftruncate settings.ini' 'fsync settings.ini' 'close settings.ini' \
        'unlink BESIDE0' 'close settings.ini' >"$room/want"
    count 'set --in-place: the calls, in order: the copy is on the disk before the file is written'
}

# Each call of a save fails in turn, and at each one in turn the run is killed: the file has its old text or its new one, and
# the next run is done at once.
turns() {
    while IFS='|' read -r words file; do
        fresh
        # shellcheck disable=SC2086
        strace -o "$room/plain" "$program" $words >/dev/null 2>&1
        cat "$file" >"$room/new"
        # from the first lock on
        sed -n 's/^\([a-z0-9]*\)(.*/\1/p' "$room/plain" | awk '{ print $1, ++n[$1] } ' |
            awk '$1 == "flock" { on = 1 } on && $1 !~ /^(exit_group|close|brk|mmap|munmap)$/' >"$room/turns"
        : >"$room/have"
        : >"$room/want"
        while read -r call at; do
            for what in error=EIO signal=KILL; do
                echo "$what $call $at: good" >>"$room/want"
                fresh
                # shellcheck disable=SC2086
                strace -o "$room/trace" -e "trace=$call" -e "inject=$call:$what:when=$at" "$program" $words >/dev/null \
                    2>"$room/err" </dev/null
                status=$?
                verdict=good
                case $what in
                error*) case $status in 0 | 4) ;; *) verdict="status $status" ;; esac ;;
                esac
                if [ "$status" -eq 0 ] && ! cmp -s "$file" "$room/new"; then verdict='done, but not its text'; fi
                case $file in
                settings.ini) if ! cmp -s "$file" "$room/new" && [ "$(cat "$file")" != "$(printf "$source")" ]; then
                    verdict='neither text'; fi ;;
                *) if [ -e "$file" ] && ! cmp -s "$file" "$room/new"; then verdict='a front of the text'; fi ;;
                esac
                case $what,$call in
                error*,unlink) ;;
                error*) ls -A | grep -q ini_file && verdict='a file is left' ;;
                esac
                # shellcheck disable=SC2086
                "$program" $words 2>/dev/null || verdict="the next run is refused"
                "$program" set --wait 0 "$file" last 1 2>"$room/err" || verdict="the next edit is refused"
                echo "$what $call $at: $verdict" >>"$room/have"
            done
        done <"$room/turns"
        count "$words: each call fails in turn, and the run is killed at each one"
        if [ "$(wc -l <"$room/turns")" -ge 10 ]; then echo many; else echo few; fi >"$room/have"
        echo many >"$room/want"
        count "$words: calls were found"
    done <<'END'
set settings.ini name two|settings.ini
merge settings.ini other.ini|settings.ini
set new.ini k v|new.ini
set --output new.ini settings.ini k v|new.ini
END
}

# The file itself is written: it is the same file with its names and rights; where it can't be, it has its old text again.
in_place() {
    for words in 'set --in-place settings.ini name two' 'merge --in-place settings.ini other.ini' 'rewrite --in-place settings.ini' \
        'list --in-place --output settings.ini other.ini' 'delete --in-place settings.ini name'; do
        fresh
        # shellcheck disable=SC2086
        "$program" $(echo "$words" | sed 's/--in-place //')
        cp settings.ini "$room/new"
        fresh
        chmod 640 settings.ini
        chown 1000:1001 settings.ini 2>/dev/null
        ln settings.ini name.ini
        stat -c '%i %a %u:%g %h' settings.ini >"$room/want"
        # shellcheck disable=SC2086
        ends "$words" 0 '' '' $words
        { stat -c '%i %a %u:%g %h' settings.ini; cat name.ini; ls -A; } >"$room/have"
        fresh_rights=$(head -n 1 "$room/have")
        { echo "$fresh_rights"; cat "$room/new"; printf '%s\n' name.ini other.ini settings.ini; } >"$room/want"
        count "$words: both names have the new text, and no other file is left"
        case $fresh_rights in *' 640 '*' 2') echo kept ;; *) echo "$fresh_rights" ;; esac >"$room/have"
        echo kept >"$room/want"
        count "$words: names and mode stay"
    done
    if ! $traces; then
        skipped=$((skipped + 8))
        return
    fi
    # the writing fails: the old text is written again, also where some bytes are written by then
    told=settings.ini
    for words in 'set --in-place settings.ini name two' 'merge --in-place settings.ini other.ini'; do
        broken write '/settings.ini>' ENOSPC 'No space left on device (os error 28)'
        broken ftruncate . EIO 'Input/output error (os error 5)'
        broken fsync '/settings.ini>' EIO 'Input/output error (os error 5)'
        broken write '.ini_file.' ENOSPC 'No space left on device (os error 28)'
    done
    # no copy can be made, or its folder not be brought to the disk: the file is written all the same
    while IFS='|' read -r call pattern error; do
        fresh
        at=$(nth "$call" "$pattern" set --in-place settings.ini name two)
        fresh
        strace -o "$room/trace" -e "trace=$call" -e "inject=$call:error=$error:when=$at" "$program" \
            set --in-place settings.ini name two >"$room/have" 2>&1
        echo "status $?" >>"$room/have"
        echo 'status 0' >"$room/want"
        count "set --in-place, $call ($pattern) fails by $error: the status"
        there "set --in-place, $call ($pattern) fails by $error: the new text stands, and no copy is left" \
            settings.ini "$(printf '%s' "$source" | sed s/one/two/)" other.ini "$other"
    done <<'END'
openat|O_EXCL|EPERM
openat|O_EXCL|EACCES
openat|O_EXCL|EROFS
fsync|case>|EINVAL
fsync|case>|EOPNOTSUPP
END
    # nor can the old text be written: the copy stays, and is reported
    fresh
    at=$(nth write '/settings.ini>' set --in-place settings.ini name two)
    fresh
    strace -o "$room/trace" -e trace=write -e "inject=write:error=EIO:when=$at..$((at + 1))" \
        "$program" set --in-place settings.ini name two >"$room/out" 2>"$room/err"
    { echo "status $?"; sed -E "s|[^ ]*/\.ini_file\.[0-9]+\.0|BESIDE|; s|$room/case/||" "$room/err"; cat .ini_file.*.0; } >"$room/have"
    { echo 'status 4'; echo "ini_file: settings.ini: note: it isn't whole; its old text is in BESIDE"
        echo 'ini_file: settings.ini: Input/output error (os error 5)'; printf "$source"; } >"$room/want"
    count 'set --in-place, neither text can be written: the copy stays, and is reported'
    # the same without a copy
    fresh
    made=$(nth openat O_EXCL set --in-place settings.ini name two)
    fresh
    strace -o "$room/trace" -e trace=write,openat -e "inject=openat:error=EACCES:when=$made" \
        -e "inject=write:error=EIO:when=$((at - 1))..$at" "$program" set --in-place settings.ini name two >"$room/out" 2>"$room/err"
    { echo "status $?"; sed "s|$room/case/||" "$room/err"; ls -A; } >"$room/have"
    printf '%s\n' 'status 4' "ini_file: settings.ini: note: it isn't whole" \
        'ini_file: settings.ini: Input/output error (os error 5)' other.ini settings.ini >"$room/want"
    count "set --in-place, neither text can be written, and there is no copy: it is reported that the file isn't whole"
}

# A call of write that takes three bytes alone, and no byte. Strace answers so in place of the system, so the three bytes are
# nowhere; what counts is that the others follow.
short() {
    for words in 'set settings.ini k v|settings.ini' 'merge settings.ini other.ini|settings.ini' 'set new.ini k v|new.ini' \
        'list --output new.ini settings.ini|new.ini'; do
        place=${words#*|}
        words=${words%|*}
        fresh
        # shellcheck disable=SC2086
        at=$(nth write '.ini_file.' $words)
        { echo 'status 0'; tail -c +4 "$place"; } >"$room/want"
        fresh
        # shellcheck disable=SC2086
        strace -o "$room/trace" -e trace=write -e "inject=write:retval=3:when=$at" "$program" $words >"$room/out" 2>"$room/err"
        { echo "status $?"; cat "$place"; } >"$room/have"
        count "$words, a write that takes three bytes: the others follow"
        fresh
        # shellcheck disable=SC2086
        strace -o "$room/trace" -e trace=write -e "inject=write:retval=0:when=$at" "$program" $words >"$room/out" 2>"$room/err"
        echo "status $?" >"$room/have"
        echo 'status 4' >"$room/want"
        count "$words, a write that takes no byte: the status"
        there "$words, a write that takes no byte: each file stands" settings.ini "$source" other.ini "$other"
    done
    # in place: the others go in from the front on, so the old text's last three bytes stay last
    fresh
    at=$(nth write '/settings.ini>' set --in-place settings.ini name two)
    { echo 'status 0'; tail -c +4 settings.ini; printf "$source" | tail -c 3; } >"$room/want"
    fresh
    strace -o "$room/trace" -e trace=write -e "inject=write:retval=3:when=$at" "$program" set --in-place settings.ini name two \
        >"$room/out" 2>"$room/err"
    { echo "status $?"; cat settings.ini; } >"$room/have"
    count 'set --in-place, a write that takes three bytes: the others follow'
    fresh
    strace -o "$room/trace" -e trace=write -e "inject=write:retval=0:when=$at" "$program" set --in-place settings.ini name two \
        >"$room/out" 2>"$room/err"
    echo "status $?" >"$room/have"
    echo 'status 4' >"$room/want"
    count 'set --in-place, a write that takes no byte: the status'
    there 'set --in-place, a write that takes no byte: the file stands' settings.ini "$source" other.ini "$other"
    for words in 'list settings.ini' 'set --output - settings.ini k v' 'merge --output - settings.ini other.ini' --help; do
        fresh
        # shellcheck disable=SC2086
        "$program" $words >"$room/whole"
        { echo 'status 0'; tail -c +4 "$room/whole"; } >"$room/want"
        # shellcheck disable=SC2086
        strace -o "$room/trace" -P "$room/out" -e trace=write -e inject=write:retval=3:when=1 "$program" $words \
            >"$room/out" 2>"$room/err"
        { echo "status $?"; cat "$room/out"; } >"$room/have"
        count "$words, a write to standard output that takes three bytes: the others follow"
    done
}

# what is reported where no file can take a file's place
advice='--in-place writes the file itself'

# what the options of a save are asked with
wanted() {
    for words in 'get --wait 5 settings.ini name' 'get --force settings.ini name' 'list --in-place settings.ini' \
        'keys --verbose settings.ini' 'check --force settings.ini' 'set --wait settings.ini' 'set --wait x settings.ini k v' \
        'set --wait 1s settings.ini k v' 'set --wait -1 settings.ini k v' 'set --wait 1234567890 settings.ini k v'; do
        fresh
        # shellcheck disable=SC2086
        ended "$words: a choice that the command has not" 2 $words
        there "$words: nothing is written" settings.ini "$source" other.ini "$other"
    done
    for words in 'get --wait 5 --verbose --force --in-place --output new.ini settings.ini name' \
        'rewrite --wait 123456789 settings.ini' 'merge --wait 0 --force settings.ini other.ini' \
        'set --wait 7 --in-place --force settings.ini k v'; do
        fresh
        # shellcheck disable=SC2086
        ended "$words: choices that it has" 0 $words
    done
}

# --verbose: one line says whether the file is another one now
verbose() {
    while IFS='|' read -r status told words; do
        fresh
        # shellcheck disable=SC2086
        "$program" ${words%% *} --verbose ${words#* } >"$room/out" 2>"$room/err"
        { echo "status $?"; cat "$room/err"; } >"$room/have"
        { echo "status $status"; if [ -n "$told" ]; then echo "$told"; fi; } >"$room/want"
        count "$words --verbose"
    done <<'END'
0|changed|set settings.ini name two
0|unchanged|set settings.ini name one
0|changed|set new.ini k v
0|changed|merge settings.ini other.ini
0|unchanged|merge other.ini other.ini
0|changed|rewrite settings.ini
0|unchanged|set --in-place settings.ini name one
0|changed|set --in-place settings.ini name two
0|changed|set --dry-run settings.ini name two
0|unchanged|set --dry-run settings.ini name one
0|changed|list --output new.ini settings.ini
0||set --output - settings.ini name two
1||delete settings.ini none
END
}

# Names as long as a file system takes them, and one byte more; a name that is longer than that with what is made beside it.
names() {
    for length in 240 251 254 255; do
        fresh
        long=$(head -c "$length" /dev/zero | tr '\0' n)
        ends "a new file with a name of $length bytes" 0 '' '' set "$long" k v
        ends "a file with a name of $length bytes" 0 '' '' set "$long" k w
        ends "a file with a name of $length bytes, in place" 0 '' '' set --in-place "$long" k x
        { echo 'k=x'; printf '%s\n' "$long" other.ini settings.ini; } >"$room/want"
        { cat "$long"; ls -A; } >"$room/have"
        count "a name of $length bytes: the text, and no other file is left"
    done
    fresh
    long=$(head -c 256 /dev/zero | tr '\0' n)
    ends 'a name of 256 bytes is refused with a reason' 4 '' "ini_file: $long: File name too long (os error 36)" set "$long" k v
}

# The lock: runs at once wait for each other, so that each edit lands; one that waits long enough is reported what to do.
locks() {
    for file in settings.ini new.ini; do
        fresh
        : >"$room/statuses"
        for n in 1 2 3 4 5 6 7 8 9 10 11 12; do
            ("$program" set --wait 60 "$file" "key$n" "$n" s 2>>"$room/statuses"; echo "$?" >>"$room/statuses") &
        done
        wait
        { sort "$room/statuses" | uniq -c | tr -s ' '; "$program" keys "$file" s | sort; ls -A | grep ini_file; } >"$room/have"
        { echo ' 12 0'; printf 'key%s\n' 1 2 3 4 5 6 7 8 9 10 11 12 | sort; } >"$room/want"
        count "twelve edits of $file at once: all twelve land, and no other file is left"
    done
    # the file is one of the texts that the fifty make one after the other: each adds its line at the end
    fresh
    cp settings.ini "$room/front"
    : >"$room/statuses"
    n=0
    while [ "$n" -lt 50 ]; do
        n=$((n + 1))
        case $((n % 3)) in
        0) ("$program" add --wait 600 settings.ini "key$n" "$n" client; echo "$?" >>"$room/statuses") & ;;
        1) ("$program" set --wait 600 settings.ini "key$n" "$n" client; echo "$?" >>"$room/statuses") & ;;
        2) ("$program" set --in-place --wait 600 settings.ini "key$n" "$n" client; echo "$?" >>"$room/statuses") & ;;
        esac
    done
    wait
    lines=$(wc -l <"$room/front")
    { sort "$room/statuses" | uniq -c | tr -s ' '; head -n "$lines" settings.ini; tail -n +$((lines + 1)) settings.ini | sort
        ls -A; } >"$room/have"
    { echo ' 50 0'; cat "$room/front"; n=0; while [ "$n" -lt 50 ]; do n=$((n + 1)); echo "key$n=$n"; done | sort
        printf '%s\n' other.ini settings.ini; } >"$room/want"
    count 'fifty edits at once: all land, one after the other, and no other file is left'
    if ! command -v flock >/dev/null; then
        skipped=$((skipped + 8))
        return
    fi
    # another process holds the lock, also of the file that a link stands for
    for words in 'set settings.ini k v' 'merge settings.ini other.ini' 'set --output settings.ini other.ini k v' 'set link.ini k v'; do
        fresh
        mkdir links
        ln -s ../settings.ini links/link.ini
        case $words in *link*) told=links/link.ini ;; *) told=settings.ini ;; esac
        flock settings.ini sleep 30 &
        holder=$!
        sleep 0.3
        # shellcheck disable=SC2046,SC2086
        ends "$words, another process has the lock" 4 '' "ini_file: $told: another run is writing it (waited 1 s); --wait SECONDS waits longer" \
            ${words%% *} --wait 1 $(echo "${words#* }" | sed s,link.ini,links/link.ini,)
        there "$words, another process has the lock" settings.ini "$source" other.ini "$other"
        pkill -P "$holder" sleep
        wait "$holder"
    done
    fresh
    flock settings.ini sleep 2 &
    sleep 0.3
    ends 'a lock that is freed within ten seconds is waited for' 0 '' '' set settings.ini name two
    wait
    # what reads alone, and what shows a change alone, waits for nobody
    fresh
    flock settings.ini sleep 30 &
    holder=$!
    sleep 0.3
    ends 'a question waits for no lock' 0 'one\n' '' get settings.ini name
    ended 'a change that is shown alone waits for no lock' 0 set --dry-run settings.ini name two
    pkill -P "$holder" sleep
    wait "$holder"
}

# as another user: setpriv of util-linux runs the program as nobody, with these groups
as_nobody() {
    groups=$1
    shift
    setpriv --reuid=65534 --regid=65534 $groups "$room/program" "$@"
}

# Owner, group and mode, as root and as a user who may not give them away.
owners() {
    if [ "$(id -u)" -ne 0 ] || ! setpriv --reuid=65534 --regid=65534 --clear-groups true 2>/dev/null; then
        skipped=$((skipped + 40))
        return
    fi
    cp "$program" "$room/program"
    chmod 755 "$room" "$room/program"
    for words in 'set settings.ini name two' 'merge settings.ini other.ini' 'rewrite settings.ini' \
        'list --output settings.ini other.ini' 'delete settings.ini name' 'rename-section settings.ini server web'; do
        for mode in 600 640 644 4750 2755; do
            fresh
            chown 1000:1001 settings.ini
            chmod "$mode" settings.ini
            # shellcheck disable=SC2086
            ends "$words, by root over another user's file of mode $mode" 0 '' '' $words
            echo "$mode 1000 1001" >"$room/want"
            stat -c '%a %u %g' settings.ini >"$room/have"
            count "$words, by root over another user's file of mode $mode: its owner, group and mode stay"
        done
    done
    # A user who may not give files away, in a folder that all may write. Groups, owner, mode; what is reported, and the new mode.
    while IFS='|' read -r groups owner mode told new; do
        fresh
        chmod 777 .
        chown "$owner" settings.ini
        chmod "$mode" settings.ini
        as_nobody "$groups" set --force settings.ini name two >"$room/have" 2>&1
        { echo "status $?"; stat -c '%a %u %g' settings.ini; } >>"$room/have"
        { if [ -n "$told" ]; then echo "ini_file: settings.ini: note: $told can't be kept"; fi; echo 'status 0'; echo "$new"; } \
            >"$room/want"
        count "by nobody, $groups, over a file of $owner and mode $mode"
    done <<'END'
--clear-groups|0:0|666|its owner and group|666 65534 65534
--clear-groups|0:0|646|its owner and group|644 65534 65534
--clear-groups|0:0|604|its owner and group|600 65534 65534
--clear-groups|0:0|664|its owner and group|644 65534 65534
--clear-groups|0:0|4666|its owner and group|666 65534 65534
--clear-groups|0:0|2666|its owner and group|666 65534 65534
--groups=1001|0:1001|660|its owner|660 65534 1001
--groups=1001|0:1001|640|its owner|640 65534 1001
--groups=1001|0:1001|4664|its owner|664 65534 1001
--clear-groups|65534:1001|660|its group|600 65534 65534
--clear-groups|65534:1001|644|its group|644 65534 65534
--groups=1001|65534:1001|640||640 65534 1001
--clear-groups|65534:65534|600||600 65534 65534
END
    # the bits that let a file run as another user: the system takes them off where this user writes, so the call is looked at
    if $traces; then
        for mode in 4664 2664; do
            fresh
            chmod 777 .
            chown 0:1001 settings.ini
            chmod "$mode" settings.ini
            strace -f -o "$room/trace" -e trace=fchmod setpriv --reuid=65534 --regid=65534 --groups=1001 "$room/program" \
                set settings.ini name two >/dev/null 2>&1
            sed -n 's/.*fchmod([0-9]*, 0*\([0-7]*\)).*/\1/p' "$room/trace" >"$room/have"
            echo 664 >"$room/want"
            count "by nobody over a file of mode $mode: no bit is asked for that lets it run as another user"
        done
    else
        skipped=$((skipped + 2))
    fi
    # write-protected: by the mode for root too, and by the user's rights
    for words in 'set settings.ini name two' 'merge settings.ini other.ini' 'rewrite settings.ini' \
        'set --in-place settings.ini name two' 'list --output settings.ini other.ini' 'set --dry-run settings.ini name two'; do
        fresh
        chmod 444 settings.ini
        # shellcheck disable=SC2086
        ends "$words, by root over a file of mode 444" 4 '' "ini_file: settings.ini: it is write-protected; --force writes it all the same" \
            $words
        there "$words, by root over a file of mode 444: it stands" settings.ini "$source" other.ini "$other"
        # shellcheck disable=SC2086
        ended "$words --force, by root over a file of mode 444" 0 ${words%% *} --force ${words#* }
        echo 444 >"$room/want"
        stat -c %a settings.ini >"$room/have"
        count "$words --force, by root over a file of mode 444: its mode stays"
    done
    fresh
    chmod 777 .
    as_nobody --clear-groups set settings.ini name two >"$room/have" 2>&1
    { echo "status $?"; cat settings.ini; } >>"$room/have"
    { echo 'ini_file: settings.ini: it is write-protected; --force writes it all the same'; echo 'status 4'; printf "$source"; } \
        >"$room/want"
    count "by nobody over root's file of mode 644"
    # a folder that the user may not write: no file can take the file's place, but the file itself can be written
    for words in 'set settings.ini name two' 'merge settings.ini other.ini'; do
        fresh
        chmod 755 .
        chown 65534:65534 settings.ini
        # shellcheck disable=SC2086
        as_nobody --clear-groups $words >"$room/have" 2>&1
        { echo "status $?"; cat settings.ini; } >>"$room/have"
        { echo "ini_file: settings.ini: Permission denied (os error 13); $advice"; echo 'status 4'; printf "$source"; } >"$room/want"
        count "$words, by nobody in root's folder"
        # shellcheck disable=SC2086
        "$program" ${words%% *} --output "$room/new" ${words#* }
        # shellcheck disable=SC2086
        as_nobody --clear-groups ${words%% *} --in-place ${words#* } >"$room/have" 2>&1
        { echo "status $?"; cat settings.ini; } >>"$room/have"
        { echo 'status 0'; cat "$room/new"; } >"$room/want"
        count "$words --in-place, by nobody in root's folder"
        rm -f "$room/new"
    done
    # a folder that can be written but not read, and so not be brought to the disk
    fresh
    chown 65534:65534 . settings.ini
    chmod 300 .
    as_nobody --clear-groups set settings.ini name two >"$room/have" 2>&1
    echo "status $?" >>"$room/have"
    printf "ini_file: settings.ini: note: its folder can't be brought to the disk: Permission denied (os error 13)\nstatus 0\n" \
        >"$room/want"
    count 'a folder that may not be read: the file is written, and a note says so'
    as_nobody --clear-groups set new.ini k v >"$room/have" 2>&1
    { echo "status $?"; cat new.ini; } >>"$room/have"
    printf "ini_file: new.ini: note: its folder can't be brought to the disk: Permission denied (os error 13)\nstatus 0\nk=v\n" \
        >"$room/want"
    count 'a folder that may not be read: a new file is written, and a note says so'
    chmod 755 .
}

# A file with two names, and one that is mounted alone.
placed() {
    fresh
    ln settings.ini name.ini
    ends 'a file with two names: a note' 0 '' \
        'ini_file: settings.ini: note: it has other names (hard links), which keep the old text; --in-place writes all' \
        set settings.ini name two
    there 'a file with two names: the other one keeps its text' name.ini "$source" other.ini "$other" \
        settings.ini "$(printf '%s' "$source" | sed s/one/two/)"
    fresh
    name=$(printf 'a\033b.ini')
    ln settings.ini "$name"
    "$program" set "$name" name two >"$room/have" 2>&1
    printf '%s\n' 'ini_file: a\x001bb.ini: note: it has other names (hard links), which keep the old text; --in-place writes all' \
        >"$room/want"
    count 'a note shows the control characters of a name by their codes'
    fresh
    if ! unshare -m sh -c 'mount --bind other.ini settings.ini' 2>/dev/null; then
        skipped=$((skipped + 4))
        return
    fi
    for words in 'set settings.ini id 9 client' 'merge settings.ini more.ini'; do
        fresh
        printf '[client]\nid=9\n' >more.ini
        # shellcheck disable=SC2016,SC2086
        unshare -m sh -c 'mount --bind other.ini settings.ini && shift && "$@"' sh sh "$program" $words >"$room/have" 2>&1
        { echo "status $?"; cat other.ini; ls -A; } >>"$room/have"
        { echo "ini_file: settings.ini: Device or resource busy (os error 16); $advice"; echo 'status 4'; printf "$other"
            printf '%s\n' more.ini other.ini settings.ini; } >"$room/want"
        count "$words, which is mounted alone: what helps is reported, and it stands"
        # shellcheck disable=SC2016,SC2086
        unshare -m sh -c 'mount --bind other.ini settings.ini && shift && "$@"' sh sh "$program" ${words%% *} --in-place ${words#* } \
            >"$room/have" 2>&1
        { echo "status $?"; cat other.ini; ls -A; } >>"$room/have"
        { echo 'status 0'; printf "$other" | sed s/8/9/; printf '%s\n' more.ini other.ini settings.ini; } >"$room/want"
        count "$words --in-place, which is mounted alone: it is written"
    done
}

# shellcheck source=tests/saving/meanwhile.sh
. "$top/tests/saving/meanwhile.sh"

traces=true
can_trace || traces=false
parts=${parts:-places many refusals modes wanted verbose names neighbours full locks owners placed in_place faults behind \
    calls turns short changes overtaken readings}
for part in $parts; do
    case $part in
    faults | behind | calls | turns | short | changes | overtaken | readings)
        if ! $traces; then
            skipped=$((skipped + 40))
            continue
        fi
        ;;
    esac
    $part
done
if [ "$skipped" -gt 0 ]; then
    echo "$skipped skipped: strace, setpriv, flock or unshare isn't here or may not be used, or there is no other file system"
fi
finish
