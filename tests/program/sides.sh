# Two files compared and three merged, by ini_file, and git with it: read by tests/program.sh, of which it has `count`, `has`,
# `is`, `told`, `wrote` and the folder `room`, with the programs in it.
# shellcheck shell=sh disable=SC2154
mkdir "$room/sides"
cd "$room/sides" || exit 1

# side FILE TEXT: the file, with the text, in which escapes are those of printf's %b
side() {
    printf '%b' "$2" >"$1"
}

# differ: a row of its input is options, two texts with escapes, the lines of what differs, and the setting of which is told
# that it has several values which differ
differ() {
    while IFS='|' read -r words from to want several; do
        side from.ini "$from"
        side to.ini "$to"
        side lines "$want"
        if [ -n "$want" ]; then status=1; else status=0; fi
        # shellcheck disable=SC2086
        "$room/bin/ini_file" $words diff from.ini to.ini >"$room/out" 2>"$room/have"
        ended=$?
        [ -z "$several" ] || echo "ini_file: $several has several values, which differ: --lists compares them all" >"$room/want"
        [ -n "$several" ] || : >"$room/want"
        count "ini_file $words diff, '$from' and '$to': what is told of several values"
        : >"$room/err"
        wrote "ini_file $words diff, '$from' and '$to'" $ended $status lines
    done
}

# Worked out by hand.
differ <<'ROWS'
|||
|k=1\n|; c\n  k = "1"\n\n|
|k=1\n|k=2\n|k: 1 -> 2\n
||[a]\nk=1\n|+ [a] k: 1\n
|k=\n[b c]\nj=2|k=\n|- [b c] j: 2\n
|z=1\n[a]\nk=1\nj=2\n|[b]\nn=5\n[a]\nj=3\nk=1\n|+ [b] n: 5\n[a] j: 2 -> 3\n- z: 1\n
|k=1\n|k=\n|k: 1 -> \n
|k=a\\tb\n|k=a\\\\b\n|k: a\\tb -> a\\\\b\n
--noescape|k=a\\tb\n|k=ab\n|k: a\\\\tb -> ab\n
|k=1\nk=2\n[a]\nj=1\n[a]\nj=2\n|k=1\nk=3\n[a]\nj=1\n||k
|k=1\nk=2\n[a]\nj=1\n|k=1\nk=2\n[a]\nj=1\n[a]\nj=3\n|
|j=1\n[a b]\nk=1\n|j=1\n[a b]\nk=2\nk=1\nk=2\n|[a b] k: 1 -> 2\n|[a b] k
--format=json|[a]\nk=1\nk=2\n|[a]\nk=1\n||[a] k
--lists|k=1\nk=2\n[a]\nj=1\n|k=1\nk=3\n[a]\nj=1\nj=2\n|k: 1\\n2 -> 1\\n3\n[a] j: 1 -> 1\\n2\n
--lists|k=1\nk=2\n[a]\nj=1\n|[a]\nj=1\nk=1\n|+ [a] k: 1\n- k: 1\\n2\n
--lists|k=1\nj=2\nk=3\n|j=2\nk=1\n; c\nk = 3\n|
--lists|k=1\nk=2\n|k=2\nk=1\n|k: 1\\n2 -> 2\\n1\n
--lists --like=git|[r "o"]\nfetch=a\n[R "o"]\nFetch=b\n|[r "o"]\nfetch=a\nfetch=b\n|
--lists --like=git|[r "o"]\nfetch=a\n[R "o"]\nFetch=b\n|[r "o"]\nfetch=a\nfetch=c\n|[r "o"] fetch: a\\nb -> a\\nc\n
--lists --format=edits|k=1\nk=2\n|k=1\n|\tk\t-1\\n2\t+1\n
--comments|; a\nk=1\n|\n; a\n k = 1\n; b\n|
--comments|; a\nk=1\n|; a\n\nk=1\n|comment of k: ; a\\n -> \n
--comments|; a\nk=1\nj=2\n|# b\n; a\nk=1\n; c\nj=3\n|j: 2 -> 3\ncomment of k: ; a\\n -> # b\\n; a\\n\ncomment of j:  -> ; c\\n\n
--comments|[a b]\n; a\nk=1\n; c\nj=1\n|[a b]\nk=1\n; d\ni=1\n|+ [a b] i: 1\n- [a b] j: 1\ncomment of [a b] k: ; a\\n -> \n
--comments|; a\nk=1\n; b\nk=2\n|; a\nk=1\n; c\nk=2\n|
--comments --like=git|[a]\n; a\nk=1\n[A]\n; b\nK=1\n|[a]\n; a\nk=1\n|comment of [a] k: ; b\\n -> ; a\\n\n|[a] k
--comments --color=always|; a\nk=1\n|k=1\n|\033[33mcomment of k: ; a\\n -> \033[m\n
|\0357\0273\0277k=1\n|k=1\n|
|k=\0303\0251\n|k=e\n|k: \0303\0251 -> e\n
--like=git|[a]\nk=1\n[A]\nK=2\n|[a]\nk=2\n||[a] k
--like=git|[a]\nK=1\n[a "B"]\nk=1\n|[A]\nk=2\nj=3\n[a "b"]\nk=1\n|[a] k: 1 -> 2\n+ [a] j: 3\n
--like=git|[a]\nk=1\n[b]\nj=1\n[a]\nk=2\ni=3\n|[b]\nj=1\n|- [a] k: 2\n- [a] i: 3\n|[a] k
--like=windows|[A]\nKey=1\nkey=2\n[a]\nj=2\n|[a]\nKEY=1\n||[a] key
--like=windows|[a]\n[A]\nj=2\n|[a]\nJ=2\n|+ [a] j: 2\n
--like=systemd|[Unit]\nAfter=a\nafter=c\nAfter=b\n|[Unit]\nAfter=b\nafter=d\n|[Unit] after: c -> d\n|[Unit] After
ROWS

# Worked out by hand. A row is words, three texts, the status, the merged text, and what is reported.
while IFS='|' read -r words base ours theirs status want err; do
    side base.ini "$base"
    side ours.ini "$ours"
    side theirs.ini "$theirs"
    { printf '%b' "$want"; printf 'told: %b' "$err"; echo "status $status"; } >"$room/want"
    # shellcheck disable=SC2086
    "$room/bin/ini_file" merge3 $words base.ini ours.ini theirs.ini >"$room/have" 2>"$room/err"
    ended=$?
    { printf 'told: '; cat "$room/err"; echo "status $ended"; } >>"$room/have"
    count "ini_file merge3 $words, '$base', '$ours', '$theirs'"
done <<'ROWS'
|k=1\n|; c\nk=1\n|; d\nk = 2|0|; d\nk = 2|
|k=1\nj=1\n|j=1\nk=2\n|; new\nk = 1\n\nj=3\n|0|; new\nk = 2\n\nj=3\n|
|k=1\n|k=2\n|k = '2'\n|0|k = '2'\n|
|k=1\nj=1\n|j=1\n|k=1\nj=1\ni=1\n|0|j=1\ni=1\n|
|k=1\nj=1\n|k=1\nj=1\n|j=1\n|0|j=1\n|
||[a]\nk=1\n|[b]\nk=1\n|0|[b]\nk=1\n\n[a]\nk=1\n|
|[a]\nk=1\n|[a]\nk=2\n|[a]\n; c\nk = 3\n|1|[a]\n; c\n; ours: 2\n; theirs: 3\nk = 2\n|conflict: [a] k: base = 1, ours = 2, theirs = 3\nnote: [a] k: base.ini:2:1, ours.ini:2:1, theirs.ini:3:1\n
|k=1\n||k=3\nj=1\n|1|; ours has none\n; theirs: 3\nk=3\nj=1\n|conflict: k: base = 1, ours has none, theirs = 3\nnote: k: base.ini:1:1, theirs.ini:1:1\n
|[a]\nk=1\n|[a]\nk=2\n|[a]\r\n# c\r\nk=3\r\n|1|[a]\r\n# c\r\n; ours: 2\r\n; theirs: 3\r\nk=2\r\n|conflict: [a] k: base = 1, ours = 2, theirs = 3\nnote: [a] k: base.ini:2:1, ours.ini:2:1, theirs.ini:3:1\n
|k=1\nj=1\ni=1\n|k=2\nj=2\ni=2\n|i=1\nj=3\nk=4\n|1|i=2\n; ours: 2\n; theirs: 3\nj=2\n; ours: 2\n; theirs: 4\nk=2\n|conflict: k: base = 1, ours = 2, theirs = 4\nconflict: j: base = 1, ours = 2, theirs = 3\nnote: k: base.ini:1:1, ours.ini:1:1, theirs.ini:3:1\nnote: j: base.ini:2:1, ours.ini:2:1, theirs.ini:2:1\n
--like=git|[a]\nk=1\n[a]\nk=2\n|[a]\nk=1\n[a]\nk=3\n|; c\n[A]\nK=1\n[A]\nk = 2\n|0|; c\n[A]\nK=1\n[A]\nk = 3\n|
--like=git|[a]\nk=1\n[a]\nk=2\n|[a]\n|[a]\nj=1\nk=1\n[A]\nK=2\n|0|[a]\nj=1\n[A]\n|
--like=git|[a]\nk=1\n|[a]\nk=1\nj=2\n|[b]\ni=1\n[a]\nk=1\n[b]\n|0|[b]\ni=1\n[a]\nk=1\nj=2\n[b]\n|
--like=git|[a]\nk=1\n|[a]\nk=2\n|[a]\nk=0\n[A]\n; c\nK=3\n|1|[a]\nk=0\n[A]\n; c\n; ours: 2\n; theirs: 3\nK=2\n|conflict: [a] k: base = 1, ours = 2, theirs = 3\nnote: [a] k: base.ini:2:1, ours.ini:2:1, theirs.ini:5:1\n
--like=git|[a]\nk=1\n|[a]\n|[a]\nk=2\nk=3\n|1|[a]\nk=2\n; ours has none\n; theirs: 3\nk=3\n|conflict: [a] k: base = 1, ours has none, theirs = 3\nnote: [a] k: base.ini:2:1, theirs.ini:3:1\n
--ours|[a]\nk=1\n|[a]\nk=2\n|[a]\nk = 3\n|1|[a]\nk = 2\n|conflict: [a] k: base = 1, ours = 2, theirs = 3\nnote: [a] k: base.ini:2:1, ours.ini:2:1, theirs.ini:2:1\n
--theirs|[a]\nk=1\n|[a]\nk=2\n|[a]\nk = 3\n|1|[a]\nk = 3\n|conflict: [a] k: base = 1, ours = 2, theirs = 3\nnote: [a] k: base.ini:2:1, ours.ini:2:1, theirs.ini:2:1\n
--ours --theirs|k=1\n||k=3\nj=1\n|1|k=3\nj=1\n|conflict: k: base = 1, ours has none, theirs = 3\nnote: k: base.ini:1:1, theirs.ini:1:1\n
--theirs --ours|k=1\n||k=3\nj=1\n|1|j=1\n|conflict: k: base = 1, ours has none, theirs = 3\nnote: k: base.ini:1:1, theirs.ini:1:1\n
|k=1\nj=1\n|k=a\\tb\nj=2\n|j=3\n|1|; ours: 2\n; theirs: 3\nj=2\n; ours: a\\tb\n; theirs has none\nk=a\\tb\n|conflict: k: base = 1, ours = a\\tb, theirs has none\nconflict: j: base = 1, ours = 2, theirs = 3\nnote: k: base.ini:1:1, ours.ini:1:1\nnote: j: base.ini:2:1, ours.ini:2:1, theirs.ini:1:1\n
||k=2\n|k=3\n|1|; ours: 2\n; theirs: 3\nk=2\n|conflict: k: base has none, ours = 2, theirs = 3\nnote: k: ours.ini:1:1, theirs.ini:1:1\n
|k=1|k=2|\0357\0273\0277k=1\r\n|0|\0357\0273\0277k=2\r\n|
--dry-run|k=1\n|k=2\n|k=1\nj=1\n|0|--- theirs.ini\n+++ theirs.ini\n@@ -1,1 +1,1 @@\n-k=1\n+k=2\n|
--policy=Nothing|k=1\n|k="a\\\\b"\n|k=1\n|2||ini_file: theirs.ini: k: this value can't be written so that it is read back\nnote: it has a backslash: use --policy Basics\n
--policy=Nothing|j=1\nk=1\n|j=2\nk="a\\\\b"\n|j=1\nk=3\n|2||ini_file: theirs.ini: k: this value can't be written so that it is read back\nnote: it has a backslash: use --policy Basics\n
--lists|k=1\nk=2\n|k=1\nk=2\nk=3\n|; c\nk=1\nk = 2\nj=1\n|0|; c\nk=1\nk = 2\nj=1\nk=3\n|
--lists|k=1\nk=2\n|k=1\nk=3\n|k=1\nk=4\n|1|; ours: 1\\n3\n; theirs: 1\\n4\nk=1\nk=3\n|conflict: k: base = 1\\n2, ours = 1\\n3, theirs = 1\\n4\nnote: k: base.ini:1:1, ours.ini:1:1, theirs.ini:1:1\n
--lists --like=git|[a]\nk=1\n[A]\nk=2\n|[a]\nk=1\n|[a]\nk=1\n[A]\nK=2\n|0|[a]\nk=1\n[A]\n|
|k="1|k=2\n|k=1\n|3||base.ini:1:3: this quote isn't closed\nk="1\n  ^\nnote: the text ends at 1:5\n
|k=1\n|[a|k=1\n|3||ours.ini:1:1: this bracket isn't closed\n[a\n^\nnote: the text ends at 1:3\n
|k=1\n|k=1\n|k\n|3||theirs.ini:1:1: this key has no = or : after it\nk\n^\nnote: the text ends at 2:1\n
ROWS

# Files: which is written, and that nothing is where something is refused.
side base.ini 'k=1\nj=1\n'
side ours.ini 'k=2\nj=2\n'
side theirs.ini '; c\nk = 1\nj = 3\n'
side "$room/merged" '; c\nk = 2\n; ours: 2\n; theirs: 3\nj = 2\n'
line='conflict: j: base = 1, ours = 2, theirs = 3
note: j: base.ini:2:1, ours.ini:2:1, theirs.ini:3:1'
for place in ours.ini theirs.ini new.ini; do
    side ours.ini 'k=2\nj=2\n'
    side theirs.ini '; c\nk = 1\nj = 3\n'
    "$room/bin/ini_file" merge3 base.ini ours.ini theirs.ini --output "$place" >"$room/out" 2>"$room/err"
    told "ini_file merge3 --output $place" $? 1 "$line"
    cp "$room/merged" "$room/want"
    cat "$room/out" "$place" >"$room/have"
    count "ini_file merge3 --output $place: what it has"
done
side ours.ini 'k=2\nj=2\n'
side theirs.ini '; c\nk = 1\nj = 3\n'
"$room/bin/ini_file" merge3 base.ini - theirs.ini <ours.ini >text 2>"$room/err"
told 'ini_file merge3, ours by standard input' $? 1 "$(echo "$line" | sed 's/ours.ini/-/')"
cp "$room/merged" "$room/want"
cp text "$room/have"
count 'ini_file merge3, ours by standard input: what is written'
printf 'l=2\n' | "$room/bin/ini_file" diff --output lines base.ini - >text 2>"$room/err"
told 'ini_file diff --output' $? 1 ''
side "$room/want" '+ l: 2\n- k: 1\n- j: 1\n'
cat text lines >"$room/have"
count 'ini_file diff --output: what the file has'
cat base.ini ours.ini theirs.ini >before
for words in 'diff base.ini none.ini' 'diff none.ini base.ini'; do
    # shellcheck disable=SC2086
    "$room/bin/ini_file" $words >"$room/out" 2>"$room/err"
    told "ini_file $words" $? 2 'ini_file: none.ini: No such file or directory (os error 2)'
done
for words in 'none.ini ours.ini theirs.ini' 'base.ini none.ini theirs.ini' 'base.ini ours.ini none.ini'; do
    # shellcheck disable=SC2086
    "$room/bin/ini_file" merge3 $words --output ours.ini >"$room/out" 2>"$room/err"
    told "ini_file merge3 $words" $? 4 'ini_file: none.ini: No such file or directory (os error 2)'
done
printf 'k\n' | "$room/bin/ini_file" diff base.ini - >"$room/out" 2>"$room/err"
status=$?
is 'ini_file diff, a refused text' '2 -:1:1: this key has no = or : after it' "$status $(head -n 1 "$room/err")"
cp before "$room/want"
cat base.ini ours.ini theirs.ini >"$room/have"
count 'ini_file merge3 and diff, refused: no file is written'

# git, whose merge takes the driver: two branches that move and change keys.
if has git 'merges of git by ini_file'; then
    (
        export HOME="$room/sides" GIT_CONFIG_NOSYSTEM=1 PATH="$room/bin:$PATH"
        git init -q repository && cd repository || exit 1
        git config user.name tester && git config user.email tester@example.org
        git config merge.ini.driver 'ini_file merge3 %O %A %B --output %A'
        printf '[server]\nport = 80\nhost = a\n[log]\nlevel = 1\n' >s.ini
        git add s.ini && git commit -q -m base
        # ours changes a port, and takes a key out
        git checkout -q -b ours
        printf '[server]\nport = 8080\nhost = a\n[log]\n' >s.ini
        git commit -q -a -m ours
        # theirs moves the sections, writes a comment above the port and changes the host
        git checkout -q -b theirs HEAD~1
        printf '[log]\nlevel = 1\n[server]\nhost = b\n; the port\nport = 80\n' >s.ini
        git commit -q -a -m theirs
        # both change the host
        git checkout -q -b other ours
        printf '[server]\nport = 8080\nhost = c\n[log]\n' >s.ini
        git commit -q -a -m other
    ) >"$room/log" 2>&1 || cat "$room/log"
    # merged BRANCH OTHER: how git ends that merges the other branch into the first, and what the file has then
    merged() {
        (
            export HOME="$room/sides" GIT_CONFIG_NOSYSTEM=1 PATH="$room/bin:$PATH"
            cd repository && git checkout -q "$1" && git merge -q -m merged "$2" >"$room/log" 2>&1
            echo "status $?"
            grep '^conflict' "$room/log"
            cat s.ini
            git reset -q --hard "$1"@{0} 2>/dev/null
            git merge --abort 2>/dev/null
            git reset -q --hard
        )
    }
    is 'git alone conflicts' 'status 1' "$(merged ours theirs | head -n 1)"
    echo '*.ini merge=ini' >repository/.git/info/attributes
    is 'git merges by ini_file' "status 0
[log]
[server]
host = b
; the port
port = 8080" "$(merged ours theirs)"
    is 'git hears of a conflict by ini_file' "status 1
conflict: [server] host: base = a, ours = c, theirs = b
[log]
[server]
; ours: c
; theirs: b
host = c
; the port
port = 8080" "$(merged other theirs)"
fi
cd "$room" || exit 1
