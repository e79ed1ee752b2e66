# What other programs do while the program saves a file: read by tests/saving.sh, of which it has `fresh`, `count`, `there`, the
# texts, the program and the folder `room`. Each part needs strace.
# shellcheck shell=sh disable=SC2154

# meanwhile CALL FAULT COMMAND WORD..: a run of the words, whose first call of this name waits, and then fails where FAULT says so
# (`error=NAME:`); and the command while it waits
meanwhile() {
    call=$1 fault=$2 command=$3
    shift 3
    : >"$room/trace"
    strace -o "$room/trace" -e "trace=$call" -e "inject=$call:${fault}delay_enter=1500000:when=1" "$program" "$@" \
        >"$room/out" 2>"$room/err" &
    run=$!
    tries=0
    while ! grep -q "^$call(" "$room/trace" && [ "$tries" -lt 400 ]; do
        sleep 0.05
        tries=$((tries + 1))
    done
    eval "$command"
    wait "$run"
    { echo "status $?"; grep -v resolved "$room/err"; } >"$room/have"
}

# what another program does to the file between the first reading and the new bytes
changes() {
    for words in 'set settings.ini k v' 'merge settings.ini other.ini' 'rewrite settings.ini'; do
        fresh
        # shellcheck disable=SC2086
        meanwhile fchmod '' 'sed s/one/two/ "$room/case/settings.ini" >"$room/new"; cp "$room/new" settings.ini' $words
        printf 'status 4\nini_file: settings.ini: changed since it was read\n' >"$room/want"
        count "$words, and a change that keeps the length meanwhile: the status and the words"
        there "$words, and a change that keeps the length meanwhile: it stands" \
            settings.ini "$(printf '%s' "$source" | sed s/one/two/)" other.ini "$other"
    done
    for change in 'echo more >>settings.ini' 'printf "; a server\n" >settings.ini'; do
        fresh
        meanwhile fchmod '' "$change; cp settings.ini $room/changed" set settings.ini k v
        printf 'status 4\nini_file: settings.ini: changed since it was read\n' >"$room/want"
        count "a change meanwhile, $change: the status and the words"
        cp "$room/changed" "$room/want"
        cp settings.ini "$room/have"
        count "a change meanwhile, $change: it stands"
    done
    # in place, once the copy is on the disk
    fresh
    meanwhile fsync '' 'printf "$other" >settings.ini' set --in-place settings.ini k v
    printf 'status 4\nini_file: settings.ini: changed since it was read\n' >"$room/want"
    count 'set --in-place, and a change meanwhile: the status and the words'
    there 'set --in-place, and a change meanwhile: it stands' settings.ini "$other" other.ini "$other"
    # more bytes than are compared at once, and a change of one at the end
    fresh
    awk 'BEGIN { for (i = 0; i < 20000; i++) print "key" i "=value" }' >settings.ini
    meanwhile fchmod '' 'printf w | dd of=settings.ini bs=1 seek=200000 conv=notrunc 2>/dev/null; cp settings.ini "$room/changed"' \
        set settings.ini k v
    printf 'status 4\nini_file: settings.ini: changed since it was read\n' >"$room/want"
    count 'a long file, and a change at its end meanwhile: the status and the words'
    cp "$room/changed" "$room/want"
    cp settings.ini "$room/have"
    count 'a long file, and a change at its end meanwhile: it stands'
    fresh
    meanwhile fchmod '' 'mv settings.ini away.ini' set settings.ini k v
    printf 'status 4\nini_file: settings.ini: No such file or directory (os error 2)\n' >"$room/want"
    count 'a file that is moved away meanwhile: the status and the words'
    there 'a file that is moved away meanwhile: no other is made' away.ini "$source" other.ini "$other"
    # a new file's name that is taken meanwhile, also where the file system has no links
    for fault in '' 'error=EPERM:'; do
        fresh
        meanwhile link "$fault" 'printf "$other" >new.ini' set new.ini k v
        printf 'status 4\nini_file: new.ini: File exists (os error 17)\n' >"$room/want"
        count "a new file's name that is taken meanwhile${fault:+, without links}: the status and the words"
        there "a new file's name that is taken meanwhile${fault:+, without links}: it stands" settings.ini "$source" \
            other.ini "$other" new.ini "$other"
    done
}

# What another program does between a run's opening and its lock: the name has another file by then, or a first one, or none, of
# which somebody else has the lock. The lock of what was opened isn't that of the name then.
overtaken() {
    if ! command -v flock >/dev/null; then
        skipped=$((skipped + 6))
        return
    fi
    while IFS='|' read -r file change locked; do
        fresh
        meanwhile flock '' "$change; flock $locked sleep 30 & holder=\$!; until ! flock -n $locked true; do sleep 0.05; done" \
            set --wait 3 "$file" k v
        pkill -P "$holder" sleep
        wait "$holder"
        echo 'status 4' >"$room/want"
        echo "ini_file: $file: another run is writing it (waited 3 s); --wait SECONDS waits longer" >>"$room/want"
        count "$change before the lock of $file: it waits for the lock of $locked"
        { cat "$room/case/"*.ini; ls -A; } >"$room/have"
        fresh
        eval "$change"
        { cat "$room/case/"*.ini; ls -A; } >"$room/want"
        count "$change before the lock of $file: each file stands"
    done <<'END'
settings.ini|cp other.ini more; mv more settings.ini|settings.ini
new.ini|cp other.ini new.ini|new.ini
settings.ini|rm settings.ini|.
END
}

# Readings of the file that fail: the first opening locks, the second reads, the third asks whether it may be written; or that are
# to be made again, since a signal came or the file was away for a moment.
readings() {
    for words in 'set|k v' 'merge|other.ini' 'rewrite|'; do
        for when in 1 2 3; do
            fresh
            file=$(pwd)/settings.ini
            # shellcheck disable=SC2086
            strace -o "$room/trace" -P "$file" -e trace=openat -e "inject=openat:error=EACCES:when=$when+" \
                "$program" "${words%|*}" "$file" ${words#*|} >"$room/out" 2>"$room/err"
            { echo "status $?"; grep -c -e 'Permission denied (os error 13)' -e 'write-protected' "$room/err"; } >"$room/have"
            printf 'status 4\n1\n' >"$room/want"
            count "${words%|*}, opening number $when fails: the status and the words"
            there "${words%|*}, opening number $when fails: the file stands, and no other is left" settings.ini "$source" \
                other.ini "$other"
        done
    done
    for fault in read:EINTR:1 read:EINTR:2 read:EINTR:3 read:EINTR:4 openat:ENOENT:1; do
        for words in 'set|name two' 'set --in-place|name two'; do
            fresh
            file=$(pwd)/settings.ini
            call=${fault%%:*}
            # shellcheck disable=SC2086
            strace -o "$room/trace" -P "$file" -e "trace=$call" -e "inject=$call:error=$(echo "${fault#*:}" | sed s/:/:when=/)" \
                "$program" ${words%|*} "$file" ${words#*|} >"$room/have" 2>&1
            { echo "status $?"; grep -c INJECTED "$room/trace"; } >>"$room/have"
            printf 'status 0\n1\n' >"$room/want"
            count "${words%|*}, $fault: the status"
            there "${words%|*}, $fault: the new text stands" settings.ini "$(printf '%s' "$source" | sed s/one/two/)" other.ini "$other"
        done
    done
}
