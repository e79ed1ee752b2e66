#!/bin/sh
# Runs the built program ini_file over real files: what its commands write, and which files stand after them
# (tests/saving.sh looks at the calls of a save). What needs a tool that isn't here is skipped, and the number of these cases is
# reported before the last line. Each case that fails is reported. The last line is 'N passed, M failed', and the status is 1 if a case
# failed.
#
#     tests/files.sh [INI_FILE]
#
# The program is by default the one that its script builds.
. "$(dirname "$0")/cases.sh"
program=$(program_of ini_file "${1:-}") || exit 1
skipped=0
# what ends the answer to a mistake in the words; tests/words.sh has the sentences before it
usage="Try 'ini_file --help'."
# a value that can't be written, since white space begins it and it has the marks of both quotes; and why
unwritable=" \"'"
edges='
note: white space begins or ends it'
# why a separator is refused
no_separator="ini_file: settings.ini: this separator can't be written so that it is read back
note: it isn't one = or : with spaces and tabs alone around it"
# bytes that are no UTF-8, and look like another encoding
latin='this byte is no UTF-8; the file looks like Latin-1: use --encoding latin1'
source='; a server\nname = one\n[server]\nport = 8080\nhost = a\\tb\nport = 9090\n[client]\n[server]\nlast = 1\n'
written='name=one\n\n[server]\nport=8080\nhost=a\\tb\nport=9090\n[client]\n\n[server]\nlast=1\n'

# case NAME STATUS OUTPUT ERRORS WORD..: a run of the program on these words
case_of() {
    name=$1
    printf -- "$3" >"$room/want"
    printf '%s\n' "$4" "status $2" >>"$room/want"
    shift 4
    "$program" "$@" >"$room/out" 2>"$room/err"
    status=$?
    if tail -n 2 "$room/want" | grep -q -x -F "$usage"; then
        tail -n 1 "$room/err" >"$room/last"
        mv "$room/last" "$room/err"
    fi
    { cat "$room/out"; printf '%s\n' "$(cat "$room/err")" "status $status"; } >"$room/have"
    count "$name"
}

# stands NAME TEXT: the file has this text, and no other file is in the folder
stands() {
    { printf "$2"; echo settings.ini; } >"$room/want"
    { cat settings.ini; ls -A; } >"$room/have"
    count "$1"
}

reading() {
    fresh
    case_of 'get of the general section' 0 'one\n' '' get settings.ini name
    case_of 'get of a section: the first value' 0 '8080\n' '' get settings.ini port server
    case_of 'get of a value with a tab: as it is' 0 'a\tb\n' '' get settings.ini host server
    case_of 'get of a key that is not there' 1 '' '' get settings.ini other server
    case_of 'get in a later section of the name' 1 '' '' get settings.ini last server
    case_of 'sections, each once' 0 'server\nclient\n' '' sections settings.ini
    case_of 'keys of the general section' 0 'name\n' '' keys settings.ini
    case_of 'keys of the first section of the name' 0 'port\nhost\nport\n' '' keys settings.ini server
    case_of 'keys of a section without any' 0 '' '' keys settings.ini client
    case_of 'keys of a section that is not there' 1 '' '' keys settings.ini nowhere
    case_of 'list' 0 '\tname\tone\n[server]\tport\t8080\n[server]\thost\ta\\tb\n[server]\tport\t9090\n[server]\tlast\t1\n' \
        '' list settings.ini
    case_of 'no words' 2 '' "$usage"
    case_of 'a command without a file' 2 '' "$usage" list
    case_of 'get without a key' 2 '' "$usage" get settings.ini
    case_of 'too many words' 2 '' "$usage" list settings.ini more
    case_of 'no command' 2 '' "$usage" fmt settings.ini
    case_of 'a file that is not there' 4 '' 'ini_file: none.ini: No such file or directory (os error 2)' list none.ini
    printf 'a=1\n  =v\n' >refused.ini
    case_of 'a refused text' 3 '' 'refused.ini:2:3: no key stands before this
  =v
  ^' get refused.ini a
    printf '\377' >refused.ini
    case_of 'bytes that are no text' 3 '' "refused.ini:1:1: $latin" get refused.ini a
    printf 'k = 1\n[a\n' >refused.ini
    case_of 'a header without an end: where it begins' 3 '' "refused.ini:2:1: this bracket isn't closed
[a
^
note: the text ends at 3:1" list refused.ini
    printf '; c\n[a]\n\nk = "b\n' >refused.ini
    case_of 'a quote without an end: where it begins' 3 '' "refused.ini:4:5: this quote isn't closed
k = \"b
    ^
note: the text ends at 5:1" list refused.ini
    case_of '--version' 0 'ini_file 0.3.0\n' '' --version
    "$program" --help >"$room/out" 2>"$room/err"
    { echo "status $?"; head -n 1 "$room/out"; cat "$room/err"; } >"$room/have"
    { echo 'status 0'; echo 'usage: ini_file [OPTION].. COMMAND [CHOICE].. [--] FILE [ARGUMENT]..'; } >"$room/want"
    count '--help'
    case_of 'rewrite of standard input' 0 'a=1\n' '' rewrite - <<END
a = 1
END
}

saving() {
    fresh
    chmod 640 settings.ini
    case_of 'rewrite' 0 '' '' rewrite settings.ini
    stands 'the document, written anew' "$written"
    stat -c %a settings.ini >"$room/have"
    echo 640 >"$room/want"
    count 'the permissions stay'
    case_of 'rewrite of a file that would not change' 0 '' '' rewrite settings.ini
    before=$(stat -c '%i %z' settings.ini)
    "$program" rewrite settings.ini
    echo "$before" >"$room/want"
    stat -c '%i %z' settings.ini >"$room/have"
    count 'a file that would not change is not written'
    fresh
    mkdir far
    mv settings.ini far/true.ini
    ln -s far/true.ini settings.ini
    case_of 'rewrite by way of a link' 0 '' '' rewrite settings.ini
    printf "far/true.ini\n$written" >"$room/want"
    { readlink settings.ini; cat far/true.ini; } >"$room/have"
    count 'the link stays, and its file is written'
    fresh
    printf 'mine' >settings.ini.lock
    "$program" rewrite settings.ini 2>"$room/err"
    { echo "status $?"; cat "$room/err" settings.ini.lock settings.ini; ls -A; } >"$room/have"
    { printf 'status 0\nmine'; printf "$written"; printf '%s\n' settings.ini settings.ini.lock; } >"$room/want"
    count 'a file of the name and .lock is nobody else than its owner: it stands, and nothing waits for it'
    fresh
    rm settings.ini
    mkfifo settings.ini
    case_of 'rewrite of a pipe' 4 '' 'ini_file: settings.ini: not a regular file' rewrite settings.ini
    [ -p settings.ini ] && echo a pipe >"$room/have"
    echo a pipe >"$room/want"
    count 'the pipe stays'
    fresh
    printf 'a = 1\n  =v\n' >settings.ini
    case_of 'rewrite of a refused text' 3 '' 'settings.ini:2:3: no key stands before this
  =v
  ^' rewrite settings.ini
    stands 'a refused text stands' 'a = 1\n  =v\n'
    fresh
    "$program" list settings.ini >/dev/full 2>"$room/have"
    echo "status $?" >>"$room/have"
    printf 'ini_file: settings.ini: standard output: No space left on device (os error 28)\nstatus 4\n' >"$room/want"
    count 'a full device'
}

# edit NAME TEXT WORD..: a run that is done and writes nothing out leaves this text, and no other file
edit() {
    name=$1
    text=$2
    shift 2
    case_of "$name: the status" 0 '' '' "$@"
    stands "$name: the file" "$text"
}

# refused NAME STATUS ERRORS WORD..: a run with this status leaves the file as it was
refused() {
    name=$1
    status=$2
    errors=$3
    shift 3
    cp settings.ini "$room/before"
    case_of "$name: the status and the words" "$status" '' "$errors" "$@"
    { cat "$room/before"; echo settings.ini; } >"$room/want"
    { cat settings.ini; ls -A; } >"$room/have"
    count "$name: the file stands"
}

editing() {
    fresh
    edit 'delete: the first pair of the key' \
        '; a server\nname = one\n[server]\nhost = a\\tb\nport = 9090\n[client]\n[server]\nlast = 1\n' \
        delete settings.ini port server
    fresh
    edit 'delete in the general section: the comment stays' \
        '; a server\n[server]\nport = 8080\nhost = a\\tb\nport = 9090\n[client]\n[server]\nlast = 1\n' \
        delete settings.ini name
    refused 'delete of a key that is not there' 1 '' delete settings.ini other server
    refused 'delete in a section that is not there' 1 '' delete settings.ini port nowhere
    refused 'delete in a later section of the name' 1 '' delete settings.ini last server
    fresh
    edit 'unset-all: each pair of the key in the first section of the name' \
        '; a server\nname = one\n[server]\nhost = a\\tb\n[client]\n[server]\nlast = 1\n' unset-all settings.ini port server
    refused 'unset-all of a key that is not there' 1 '' unset-all settings.ini port -s server
    refused 'unset-all in a later section of the name' 1 '' unset-all settings.ini last server
    edit 'unset-all in joined sections' '; a server\nname = one\n[server]\nhost = a\\tb\n[client]\n[server]\n' \
        --like php unset-all settings.ini last server
    edit 'unset-all in the general section' '; a server\n[server]\nhost = a\\tb\n[client]\n[server]\n' unset-all settings.ini name
    fresh
    edit 'set --all: its pairs one after another, and one more after them' \
        '; a server\nname = one\n[server]\nport = 1\nhost = a\\tb\nport = 2\nport = 3\n[client]\n[server]\nlast = 1\n' \
        set --all settings.ini port 1 2 3 -s server
    edit 'set --all: one value, and the others go' \
        '; a server\nname = one\n[server]\nport = 4\nhost = a\\tb\n[client]\n[server]\nlast = 1\n' \
        set settings.ini port 4 --section=server --all
    edit 'set --all in the general section' \
        '; a server\nname = a\nname = server\n[server]\nport = 4\nhost = a\\tb\n[client]\n[server]\nlast = 1\n' \
        set --all settings.ini name a server
    fresh
    edit 'set --all in joined sections: where add puts a pair' \
        '; a server\nname = one\n[server]\nhost = a\\tb\n[client]\n[server]\nlast = 1\nport = 1\nport = 2\n' \
        --like php set --all settings.ini port 1 2 -s server
    refused 'set --all without a value' 2 "$usage" set --all settings.ini port -s server
    refused 'set --all of a value that is not written' 2 "ini_file: settings.ini: this value can't be written so that it is read back$edges" \
        set --all settings.ini port 1 "$unwritable" -s server
    fresh
    edit 'comment: the first pair of the key' \
        '; a server\nname = one\n[server]\n; port = 8080\nhost = a\\tb\nport = 9090\n[client]\n[server]\nlast = 1\n' \
        comment settings.ini port server
    edit 'comment: the first one that is left' \
        '; a server\nname = one\n[server]\n; port = 8080\nhost = a\\tb\n; port = 9090\n[client]\n[server]\nlast = 1\n' \
        comment settings.ini port -s server
    refused 'comment of a key that is not there' 1 '' comment settings.ini port server
    fresh
    no_comment="ini_file: settings.ini: this pair can't be made a comment: it doesn't begin its line, or ends it in CR alone"
    edit 'comment under a rule: the last pair' \
        '; a server\nname = one\n[server]\nport = 8080\nhost = a\\tb\n; port = 9090\n[client]\n[server]\nlast = 1\n' \
        --like php comment settings.ini port server
    edit 'comment under a rule: in a later section' \
        '; a server\nname = one\n[server]\nport = 8080\nhost = a\\tb\n; port = 9090\n[client]\n[server]\n; last = 1\n' \
        --like php comment settings.ini last server
    refused 'comment under a rule of a key that is not there' 1 '' --like php comment settings.ini last client
    printf 'k=1\rj=2\n' >settings.ini
    refused 'comment of a line that CR ends' 3 "$no_comment" comment settings.ini k
    printf '[a] k = v\n' >settings.ini
    refused 'comment of a pair after a header' 3 "$no_comment" comment settings.ini k a
    case_of 'comment in standard input' 0 'j=1\n; k=2\n' '' comment - k <<END
j=1
k=2
END
    case_of 'comment in standard input of a key that is not there: the text goes on' 1 'j=1\n' '' comment - k <<END
j=1
END
    fresh
    edit 'comment, to be undone' \
        '; a server\nname = one\n[server]\nport = 8080\n; host = a\\tb\nport = 9090\n[client]\n[server]\nlast = 1\n' \
        comment settings.ini host server
    edit 'uncomment: what comment made' "$source" uncomment settings.ini host server
    no_pair="ini_file: settings.ini: this key's comment can't be made a pair: the key has one, the pair wouldn't count, or other lines \
would be read otherwise"
    printf '[a]\n# k is one\n#k=1\n; k = 2\n[b]\n;  k = 3\r\n' >settings.ini
    refused 'uncomment where no section has such a comment' 1 '' uncomment settings.ini k
    refused 'uncomment of a key that is in no comment' 1 '' uncomment settings.ini j a
    edit 'uncomment: the first comment that is a pair' '[a]\n# k is one\nk=1\n; k = 2\n[b]\n;  k = 3\r\n' uncomment settings.ini k a
    refused 'uncomment of a key that has a pair' 3 "$no_pair" uncomment settings.ini k a
    edit 'uncomment: one blank goes with the mark' '[a]\n# k is one\nk=1\n; k = 2\n[b]\n k = 3\r\n' uncomment settings.ini k b
    printf 'a = "\n;k = 1\n"\n[s]\nj = 1\n[s]\n; k = 2\n' >settings.ini
    refused 'uncomment within a value' 1 "note: settings.ini:1:5: this quote isn't closed on its line and takes in the lines up to the next one" \
        uncomment settings.ini k
    refused 'uncomment in a later section of the name' 3 "$no_pair" uncomment settings.ini k s
    edit 'uncomment in joined sections' 'a = "\n;k = 1\n"\n[s]\nj = 1\n[s]\nk = 2\n' --like php uncomment settings.ini k s
    printf 'a = 1\n; k = 2\n  x = 3\n' >settings.ini
    refused 'uncomment before a line that would be lost' 3 "$no_pair" --multiline uncomment settings.ini k
    edit 'uncomment before an indented line' 'a = 1\nk = 2\n  x = 3\n' uncomment settings.ini k
    printf '[core]\n\t# editor = vi\n\tname = x\n' >settings.ini
    edit 'uncomment after blanks, in other case' '[core]\n\teditor = vi\n\tname = x\n' --like git uncomment settings.ini Editor CORE
    case_of 'uncomment in standard input' 0 'k=2\n' '' uncomment - k <<END
;k=2
END
    case_of 'uncomment in standard input of a key that is not there: the text goes on' 1 '; j=1\n' '' uncomment - k <<END
; j=1
END
    fresh
    edit 'add-section: at the end, after an empty line' "$source\n[new]\n" add-section settings.ini new
    edit 'add-section of a name that is there' "$source\n[new]\n" add-section settings.ini client
    edit 'add-section of a name in other case' "$source\n[new]\n\n[NEW]\n" add-section settings.ini --section NEW
    edit 'add-section of a name that is there in other case' "$source\n[new]\n\n[NEW]\n" --like git add-section settings.ini Server
    refused 'add-section with a bracket' 2 "ini_file: settings.ini: this name can't be written so that it is read back
note: it has ]: use --brackets" add-section settings.ini 'a]b'
    case_of 'add-section --dry-run' 0 '--- settings.ini\n+++ settings.ini\n@@ -13,0 +14,2 @@\n+\n+[more]\n' '' \
        add-section -n settings.ini more
    rm settings.ini
    edit 'add-section makes a file' '[a]\r\n' --crlf add-section settings.ini a
    rm settings.ini
    case_of 'uncomment makes no file' 4 '' 'ini_file: settings.ini: No such file or directory (os error 2)' uncomment settings.ini k
    case_of 'comment makes no file' 4 '' 'ini_file: settings.ini: No such file or directory (os error 2)' comment settings.ini k
    fresh
    edit 'set --existing: in its place, and the later pair goes' \
        '; a server\nname = one\n[server]\nport = 443\nhost = a\\tb\n[client]\n[server]\nlast = 1\n' \
        set --existing settings.ini port 443 server
    fresh
    printf '\357\273\277# by hand\r\n\r\nk\t= "1"  \r\n# old\r\nj=2' >settings.ini
    edit 'set --existing: mark, comments, blanks, quotes and line ends stay' \
        '\357\273\277# by hand\r\n\r\nk\t= "--null"  \r\n# old\r\nj=2' set --existing -- settings.ini k --null
    edit 'set --existing: the policy escapes the value' \
        '\357\273\277# by hand\r\n\r\nk\t= "a\\;b"  \r\n# old\r\nj=2' \
        --policy Reserved set --existing settings.ini k 'a;b'
    edit 'set --existing: a value with the mark of the old one'"'"'s quotes stands bare' \
        '\357\273\277# by hand\r\n\r\nk\t= a"b  \r\n# old\r\nj=2' set --existing settings.ini k 'a"b'
    refused 'set --existing of a key that is not there' 1 '' set --existing settings.ini other 1
    refused 'set --existing of a value that would not be read back' 2 \
        "ini_file: settings.ini: this value can't be written so that it is read back$edges" set --existing settings.ini k "$unwritable"
    refused 'such a value for a key that is not there' 2 \
        "ini_file: settings.ini: this value can't be written so that it is read back$edges" set --existing settings.ini x "$unwritable"
    edit 'set --existing: white space at an end stands in quotes' \
        '\357\273\277# by hand\r\n\r\nk\t= " v"  \r\n# old\r\nj=2' set --existing settings.ini k ' v'
    refused 'too few words' 2 "$usage" set --existing settings.ini k
    refused 'too many words' 2 "$usage" delete settings.ini k a b
    printf 'k = 1\n  =v\n' >settings.ini
    refused 'delete of a refused text' 3 'settings.ini:2:3: no key stands before this
  =v
  ^' delete settings.ini k
    printf 'k = \377\n' >settings.ini
    refused 'delete in bytes that are no text' 3 "settings.ini:1:5: $latin" delete settings.ini k
    case_of 'delete in a file that is not there' 4 '' 'ini_file: none.ini: No such file or directory (os error 2)' \
        delete none.ini k
    case_of 'delete in standard input' 0 '# c\nj=2\n' '' delete - k <<END
# c
k=1
j=2
END
}

# a value set where its pair isn't there, and a pair added
adding() {
    fresh
    edit 'set: in its place, and the later pair goes' \
        '; a server\nname = one\n[server]\nport = 443\nhost = a\\tb\n[client]\n[server]\nlast = 1\n' \
        set settings.ini port 443 server
    fresh
    edit 'set: a new line after the last pair of the first section of the name' \
        '; a server\nname = one\n[server]\nport = 8080\nhost = a\\tb\nport = 9090\nlast = 2\n[client]\n[server]\nlast = 1\n' \
        set settings.ini last 2 server
    fresh
    edit 'set: a new line in the general section' \
        '; a server\nname = one\nother = x\n[server]\nport = 8080\nhost = a\\tb\nport = 9090\n[client]\n[server]\nlast = 1\n' \
        set settings.ini other x
    fresh
    edit 'set: a new section' "$source\n[new]\nk = v\n" set settings.ini k v new
    fresh
    printf '\357\273\277# by hand\r\n[a]\r\nk\t= 1  \r\n# next\r\n[b]\r\n' >settings.ini
    edit 'set: mark, comments and line ends stay' \
        '\357\273\277# by hand\r\n[a]\r\nk\t= 1  \r\nj\t= a\\;b\r\n# next\r\n[b]\r\n' \
        --policy Reserved set settings.ini j 'a;b' a
    refused 'set of a value that would not be read back' 2 \
        "ini_file: settings.ini: this value can't be written so that it is read back$edges" set settings.ini k "$unwritable"
    refused 'set of a key that would not be read back' 2 \
        "ini_file: settings.ini: this key can't be written so that it is read back
note: = or : stands in it: use --policy Reserved" set settings.ini a=b v
    refused 'set in a section that would not be read back' 2 \
        "ini_file: settings.ini: this name can't be written so that it is read back
note: it has ]: use --brackets" set settings.ini k v 'a]b'
    printf '[a]\n  junk' >settings.ini
    refused 'set where a new line has no place' 3 \
        'ini_file: settings.ini: an indented key that the text'"'"'s end cuts short leaves no place for a new line' \
        --multiline set settings.ini k v a
    fresh
    edit 'add: whatever pairs of the key are there' \
        '; a server\nname = one\n[server]\nport = 8080\nhost = a\\tb\nport = 9090\nport = 443\n[client]\n[server]\nlast = 1\n' \
        add settings.ini port 443 server
    fresh
    edit 'add: in the general section' \
        '; a server\nname = one\nname = two\n[server]\nport = 8080\nhost = a\\tb\nport = 9090\n[client]\n[server]\nlast = 1\n' \
        add settings.ini name two
    refused 'add of a key that would not be read back' 2 \
        "ini_file: settings.ini: this key can't be written so that it is read back
note: it is empty" add settings.ini '' v
    case_of 'set in standard input' 0 '# c\nk=2\n' '' set - k 2 <<END
# c
k=1
END
    case_of 'add to standard input, with CR LF' 0 'k=v\r\n' '' --crlf add - k v </dev/null
}

# files that aren't there
making() {
    fresh
    rm settings.ini
    edit 'set makes a file' 'k=v\n' set settings.ini k v
    rm settings.ini
    edit 'add makes a file, with a section and CR LF' '[a]\r\nk=v\r\n' --crlf add settings.ini k v a
    rm settings.ini
    case_of 'set --existing makes no file' 4 '' \
        'ini_file: settings.ini: No such file or directory (os error 2)' set --existing settings.ini k v
    case_of 'delete makes no file' 4 '' 'ini_file: settings.ini: No such file or directory (os error 2)' delete settings.ini k
    case_of 'set in a folder that is not there' 4 '' 'ini_file: far/new.ini: No such file or directory (os error 2)' \
        set far/new.ini k v
    case_of 'set of a value that would not be read back' 2 '' \
        "ini_file: settings.ini: this value can't be written so that it is read back$edges" set settings.ini k "$unwritable"
    ls -A >"$room/have"
    : >"$room/want"
    count 'no file is made where a run is refused'
    case_of 'set --output of a file that is not there' 0 '' '' set --output settings.ini none.ini k v
    stands 'set --output makes the other file' 'k=v\n'
    ln -s far.ini link.ini
    case_of 'set by way of a link to no file' 4 '' 'ini_file: link.ini: a symbolic link to no file' set link.ini k v
    case_of 'set --output by way of a link to no file' 4 '' 'ini_file: link.ini: a symbolic link to no file' \
        set --output link.ini settings.ini k v
    { readlink link.ini; ls -A; } >"$room/have"
    printf 'far.ini\nlink.ini\nsettings.ini\n' >"$room/want"
    count 'the link to no file stays, and no file is made'
}

# sections and keys: taken out, and under other names
renaming() {
    fresh
    edit 'delete-section: the first of the name' '; a server\nname = one\n[client]\n[server]\nlast = 1\n' \
        delete-section settings.ini server
    printf '# top\n[a]\nk = 1\n# about b\n[b]\nj = 2\n' >settings.ini
    edit 'delete-section: comments after the last pair stay' '# top\n# about b\n[b]\nj = 2\n' \
        delete-section settings.ini a
    refused 'delete-section of a section that is not there' 1 '' delete-section settings.ini nowhere
    fresh
    edit 'delete-section where sections are joined: each of the name' '; a server\nname = one\n[client]\n' \
        --like php delete-section settings.ini server
    edit 'delete-section in other case' '; a server\nname = one\n' --like git delete-section settings.ini Client
    refused 'delete-section of a section of other case' 1 '' --like php delete-section settings.ini Server
    refused 'delete-section without a section' 2 "$usage" delete-section settings.ini
    fresh
    edit 'rename-key: the first pair of the key' \
        '; a server\nname = one\n[server]\ngate = 8080\nhost = a\\tb\nport = 9090\n[client]\n[server]\nlast = 1\n' \
        rename-key settings.ini port gate server
    printf '# c\r\n  old\t=  "v" \r\n' >settings.ini
    edit 'rename-key: blanks, the value and line ends stay' '# c\r\n  a\\=b\t=  "v" \r\n' \
        --policy Reserved rename-key settings.ini old a=b
    refused 'rename-key of a key that is not there' 1 '' rename-key settings.ini other x
    printf '[a]\n# one\nk = 1\nK=2\n[A]\n\tk = "3"\n[b]\nk = 4\n' >settings.ini
    edit 'rename-key under a rule: each pair that is looked at' '[a]\n# one\nkey = 1\nkey=2\n[A]\n\tkey = "3"\n[b]\nk = 4\n' \
        --like git rename-key settings.ini K key A
    edit 'rename-key under a rule: to other case' '[a]\n# one\nKEY = 1\nKEY=2\n[A]\n\tKEY = "3"\n[b]\nk = 4\n' \
        --like git rename-key settings.ini key KEY a
    refused 'rename-key under a rule of a key that is not there' 1 '' --like php rename-key settings.ini key x a
    refused 'rename-key to a key that would not be read back' 2 \
        "ini_file: settings.ini: this key can't be written so that it is read back$edges" rename-key settings.ini other ' x'
    fresh
    edit 'rename-section: the first of the name' \
        '; a server\nname = one\n[host]\nport = 8080\nhost = a\\tb\nport = 9090\n[client]\n[server]\nlast = 1\n' \
        rename-section settings.ini server host
    refused 'rename-section of a section that is not there' 1 '' rename-section settings.ini nowhere x
    refused 'rename-section to a name that would not be read back' 2 \
        "ini_file: settings.ini: this name can't be written so that it is read back
note: it has ]: use --brackets" rename-section settings.ini nowhere 'a]b'
    refused 'rename-section with too many words' 2 "$usage" rename-section settings.ini client x y
    fresh
    edit 'rename-section where sections are joined: each of the name' \
        '; a server\nname = one\n[host]\nport = 8080\nhost = a\\tb\nport = 9090\n[client]\n[host]\nlast = 1\n' \
        --like php rename-section settings.ini server host
    printf '[ core ]\na = 1\n[Core]\nb = 2\n[other]\n[CORE]\n' >settings.ini
    edit 'rename-section to other case: what has it stays' '[Core]\na = 1\n[Core]\nb = 2\n[other]\n[Core]\n' \
        --like git rename-section settings.ini CORE Core
    refused 'rename-section to a name that would not be read back, under a rule' 2 \
        "ini_file: settings.ini: this name can't be written so that it is read back
note: it has ]: use --brackets" --like git rename-section settings.ini core 'a]b'
    refused 'rename-section under a rule of a section that is not there' 1 '' --like git rename-section settings.ini nowhere x
}

# values with backslashes, where escapes are neither read nor written
paths() {
    fresh
    unread="ini_file: settings.ini: this value can't be written so that it is read back"
    raw='--noescape --policy Nothing'
    printf "path = C:\\\\temp \nother='D:'\n" >settings.ini
    edit 'set of a path: its backslash stays' "path = C:\\\\new \nother='D:'\n" $raw set settings.ini path 'C:\new'
    edit 'set of a path in quotes' "path = C:\\\\new \nother='D:\\\\new'\n" $raw set settings.ini other 'D:\new'
    edit 'add of a path that ends in two backslashes' \
        "path = C:\\\\new \nother='D:\\\\new'\npath=E:\\\\\\\\\n" $raw add settings.ini path 'E:\\'
    case_of 'the paths are read back' 0 'C:\\new\nE:\\\\\n' '' --noescape get --all settings.ini path
    refused 'set of a path that ends in one backslash' 2 "$unread
note: a backslash at its end would take what follows: use --raw-backslash" $raw set settings.ini path 'C:\new\'
    refused 'add of a path that ends in three' 2 "$unread
note: a backslash at its end would take what follows: use --raw-backslash" $raw add settings.ini path 'C:\\\'
    refused 'set of two lines' 2 "$unread
note: it has a line end" $raw set settings.ini path 'C:\
new'
    refused 'set of a path where escapes are read' 2 "$unread
note: it has a backslash: use --policy Basics" --policy Nothing set settings.ini path 'C:\new'
    refused 'set of a path that would be escaped' 2 "$unread
note: it has a backslash: use --policy Nothing" --noescape set settings.ini path 'C:\new'
    printf 'path=F:\\new\n' >../paths.ini
    edit 'merge of a path' "path = F:\\\\new \nother='D:\\\\new'\n" $raw merge settings.ini ../paths.ini
}

# lines in which no separator follows the key, where they are refused
lone_lines() {
    fresh
    alone='this key has no = or : after it in its line'
    printf 'k = 1\n\n[a]\nj : 2\n' >settings.ini
    edit 'set where lines without separator are refused' 'k = 3\n\n[a]\nj : 2\n' --lone-lines refused set settings.ini k 3
    edit 'a new key where they are refused' 'k = 3\nnew = 4\n\n[a]\nj : 2\n' --lone-lines refused set settings.ini new 4
    printf 'k = 1\nabc\nj = 2\n' >settings.ini
    refused 'set over a line without separator' 3 "settings.ini:2:1: $alone
abc
^" --lone-lines refused set settings.ini k 3
    refused 'a key with a line end, where they are refused' 3 "settings.ini:2:1: $alone
abc
^" --lone-lines refused delete settings.ini 'abc
j'
    edit 'the same where it runs on' 'k = 3\nabc\nj = 2\n' --lone-lines refused --lone-lines runs-on set settings.ini k 3
    edit 'its key goes' 'k = 3\n' delete settings.ini 'abc
j'
    printf 'k = 1\n  abc' >settings.ini
    refused 'set over an indented key that the end cuts short' 3 "settings.ini:2:3: this key has no = or : after it
  abc
  ^
note: the text ends at 2:6" --lone-lines refused set settings.ini k 3
}

# lines in which no separator follows the key, where they are keys alone
lone_keys() {
    fresh
    alone='[mysqld]\n# net\nskip-networking\nport = 1\n\n[a]\nj\n'
    printf "$alone" >settings.ini
    case_of 'get of a key alone' 0 '\n' '' --lone-lines keys get settings.ini skip-networking mysqld
    case_of 'the same where it runs on' 3 '' 'settings.ini:7:1: this key has no = or : after it
j
^
note: the text ends at 8:1' get settings.ini skip-networking mysqld
    case_of 'list of keys alone' 0 '[mysqld]\tskip-networking\t\n[mysqld]\tport\t1\n[a]\tj\t\n' '' --lone-lines keys list settings.ini
    case_of 'list --origin of keys alone' 0 \
        'settings.ini:3:[mysqld]\tskip-networking\t\nsettings.ini:4:[mysqld]\tport\t1\nsettings.ini:7:[a]\tj\t\n' \
        '' --lone-lines keys list --origin settings.ini
    case_of 'rewrite of keys alone' 0 '[mysqld]\nskip-networking=\nport=1\n\n[a]\nj=\n' '' \
        --lone-lines keys rewrite settings.ini --output -
    edit 'set of a key alone to the empty value: it stays' "$alone" --lone-lines keys set settings.ini skip-networking '' mysqld
    edit 'set of a key alone' '[mysqld]\n# net\nskip-networking=1\nport = 1\n\n[a]\nj\n' \
        --lone-lines keys set settings.ini skip-networking 1 mysqld
    edit 'set of the last one, in quotes' '[mysqld]\n# net\nskip-networking=1\nport = 1\n\n[a]\nj=" v"\n' \
        --lone-lines keys set settings.ini j ' v' a
    printf "$alone" >settings.ini
    edit 'a new pair after a key alone' "${alone}n = 2\n" --lone-lines keys add settings.ini n 2 a
    printf "$alone" >settings.ini
    edit 'rename-key of a key alone' '[mysqld]\n# net\nskip-x\nport = 1\n\n[a]\nj\n' \
        --lone-lines keys rename-key settings.ini skip-networking skip-x mysqld
    edit 'comment of a key alone' '[mysqld]\n# net\n; skip-x\nport = 1\n\n[a]\nj\n' \
        --lone-lines keys comment settings.ini skip-x mysqld
    edit 'delete of a key alone' '[mysqld]\n# net\n; skip-x\nport = 1\n\n[a]\n' --lone-lines keys delete settings.ini j a
    printf 'k = 1\n  abc' >settings.ini
    edit 'set of a key alone at the end' 'k = 1\n  abc=2' --lone-lines keys set settings.ini abc 2
    printf 'a\\' >settings.ini
    edit 'set of a key alone with a lone backslash' 'a\\\\=v' --lone-lines keys set settings.ini 'a\' v
    printf 'j\n' >settings.ini
    printf 'j = 1\nskip-x\n' >../lone.ini
    edit 'merge of keys alone' 'j=1\nskip-x=\n' --lone-lines keys merge settings.ini ../lone.ini
    printf 'skip-x\nj = 1\n' >settings.ini
    case_of 'diff of keys alone' 0 '' '' --lone-lines keys diff settings.ini ../lone.ini
    printf 'j=1\nk\n  w\n' >settings.ini
    case_of 'a key alone has no further lines' 0 '\tj\t1\n\tk\t\n\tw\t\n' '' --multiline --lone-lines keys list settings.ini
    edit 'rename-key of an indented key alone' 'j=1\nk\n  x\n' --multiline --lone-lines keys rename-key settings.ini w x
    edit 'delete before a line that the value above would take' 'j=1\n;\n  x\n' --multiline --lone-lines keys delete settings.ini k
    edit 'a new pair after an indented key alone' 'j=1\n;\n  x\nn=2\n' --multiline --lone-lines keys set settings.ini n 2
    printf 'j=1\nk\n  w\n' >settings.ini
    edit 'comment before such a line' 'j=1\n; k\n  w\n' --multiline --lone-lines keys comment settings.ini k
    printf 'k\n  w\n' >settings.ini
    edit 'set before a line that the value would take' 'k=v\n;\n  w\n' --multiline --lone-lines keys set settings.ini k v
    printf 'k\n\n  w\n' >settings.ini
    edit 'delete with no value above' '\n  w\n' --multiline --lone-lines keys delete settings.ini k
    printf 'k\n[a]\n' >settings.ini
    edit 'a new pair before a line that it would not take' 'k\nn=1\n[a]\n' --multiline --lone-lines keys add settings.ini n 1
    printf 'k\n\n[a]\n' >settings.ini
    edit 'a new pair before a line that it would take' 'k\nn=1\n;\n\n[a]\n' --multiline --lone-lines keys add settings.ini n 1
}

# comments after blanks, and where they begin keys
indented_comments() {
    fresh
    printf 'k = 1\n  ; j = 2\n\t# note\n[a]\nx = 1\n' >settings.ini
    case_of 'the key of an indented comment' 1 '' '' --indented-comments get settings.ini '; j'
    case_of 'the same where it is one' 0 '2\n' '' get settings.ini '; j'
    case_of 'pairs and no comments' 0 '\tk\t1\n[a]\tx\t1\n' '' --indented-comments list settings.ini
    case_of 'the same as git reads them' 0 '\tk\t1\n[a]\tx\t1\n' '' --like git list settings.ini
    case_of 'an indented comment is no trap' 0 '' '' --indented-comments check settings.ini
    edit 'set above an indented comment' 'k = 3\n  ; j = 2\n\t# note\n[a]\nx = 1\n' \
        --indented-comments set settings.ini k 3
    edit 'a new pair goes before it' 'k = 3\nnew = 4\n  ; j = 2\n\t# note\n[a]\nx = 1\n' \
        --indented-comments set settings.ini new 4
    edit 'delete: it stays' 'k = 3\n  ; j = 2\n\t# note\n[a]\nx = 1\n' --indented-comments delete settings.ini new
    edit 'rename-key over a comment with that key' 'k = 3\n  ; j = 2\n\t# note\n[a]\ny = 1\n' \
        --indented-comments rename-key settings.ini x y a
    printf 'k = a\n ; c\n b\n\t# d\nj = 1\n' >settings.ini
    case_of 'among the lines of a value' 0 'a\nb\n' '' --multiline --indented-comments get settings.ini k
    case_of 'the same where it is a line of the value' 0 'a\n; c\nb\n# d\n' '' --multiline get settings.ini k
    printf '[a] ; c\nk = 1\n' >settings.ini
    refused 'set over a comment after a header' 3 "settings.ini:1:5: a comment begins only at the front of a line
[a] ; c
    ^" --indented-comments set settings.ini k 3 a
}

# comments after values and names, and where they are the values' own
inline_comments() {
    fresh
    printf 'k = 1 ; one\n[a] # two\nx = 1\t; three\n' >settings.ini
    case_of 'a value without its comment' 0 '1\n' '' --inline-comments get settings.ini k
    case_of 'pairs and no comments after them' 0 '\tk\t1\n[a]\tx\t1\n' '' --inline-comments list settings.ini
    case_of 'the same as supervisor reads them' 0 '\tk\t1\n[a]\tx\t1\n' '' --like supervisor list settings.ini
    case_of 'a comment after a value is no trap' 0 '' '' --inline-comments check settings.ini
    edit 'set before a comment' 'k = 3 ; one\n[a] # two\nx = 1\t; three\n' --inline-comments set settings.ini k 3
    edit 'set to nothing before a comment: quotes stand there' 'k = "" ; one\n[a] # two\nx = 1\t; three\n' \
        --inline-comments set settings.ini k ''
    edit 'a value with a mark is quoted' 'k = "" ; one\n[a] # two\nx = "2 # 3"\t; three\n' \
        --inline-comments set settings.ini x '2 # 3' a
    edit 'a new pair goes below the line of a comment' 'k = "" ; one\nnew = 4\n[a] # two\nx = "2 # 3"\t; three\n' \
        --inline-comments set settings.ini new 4
    edit 'delete: its comment goes with it' 'new = 4\n[a] # two\nx = "2 # 3"\t; three\n' \
        --inline-comments delete settings.ini k
    edit 'rename-section before a comment' 'new = 4\n[b] # two\nx = "2 # 3"\t; three\n' \
        --inline-comments rename-section settings.ini a b
    edit 'rename-key before a comment' 'new = 4\n[b] # two\ny = "2 # 3"\t; three\n' \
        --inline-comments rename-key settings.ini x y b
    printf 'k = v ; n\n' >settings.ini
    case_of 'a value that the mark is part of' 0 'v ; n\n' '' get settings.ini k
    edit 'set without quotes to nothing: the comment goes too' 'k =  \n' --noquote --inline-comments set settings.ini k ''
    printf 'j\nk ; n\n' >settings.ini
    edit 'set of a key alone before a comment' 'j\nk =1 ; n\n' --inline-comments --lone-lines keys set settings.ini k 1
    printf 'j\nk ; n\n' >settings.ini
    edit 'delete of a key alone before a comment' 'j\n' --inline-comments --lone-lines keys delete settings.ini k
    printf '[a]\t; n\nk = v\n' >settings.ini
    edit 'rename-section with brackets in names' '[b]\t; n\nk = v\n' --brackets --inline-comments rename-section settings.ini a b
}

# a key that begins with a byte order mark, at the front of a file that has none, and of one that has one
marks() {
    fresh
    mark=$(printf '\357\273\277')
    unread="this key can't be written so that it is read back
note: it begins with U+FEFF, which reading drops at the front of a file"
    printf 'a=1\n\357\273\277[x]\nk=2\n' >settings.ini
    refused 'delete that brings a mark to the front' 2 "ini_file: settings.ini: $unread" delete settings.ini a
    refused 'rename-key to a mark at the front' 2 "ini_file: settings.ini: $unread" \
        rename-key settings.ini a "${mark}b"
    case_of 'set of a key that begins with a mark' 2 '' "ini_file: -: $unread" set - "${mark}k" v </dev/null
    case_of 'add of a key that begins with a mark' 2 '' "ini_file: -: $unread" add - "${mark}k" v </dev/null
    printf '\357\273\277' >settings.ini
    edit 'the same after the mark of the file' '\357\273\277\357\273\277k=v\n' set settings.ini "${mark}k" v
    printf 'a=1\n' >settings.ini
    edit 'the same after another key' 'a=1\n\357\273\277k=v\n' set settings.ini "${mark}k" v
    printf '\357\273\277\357\273\277k=v\n' >../mark.ini
    case_of 'merge of a key that begins with a mark' 2 '' "ini_file: -: $unread" merge - ../mark.ini </dev/null
    printf '# c\n[a]\n' >settings.ini
    refused 'the same before a comment' 2 "ini_file: settings.ini: $unread" merge settings.ini ../mark.ini
    printf '\357\273\277' >settings.ini
    edit 'the same into a file with a mark' '\357\273\277\357\273\277k=v\n' merge settings.ini ../mark.ini
    printf 'k=\\\\ \nj = \\x0041 \n' >settings.ini
    edit 'a value that is there: a backslash and a blank stay' 'k=\\\\ \nj = \\x0041 \n' set settings.ini k '\'
    edit 'a value that is there: its escape stays' 'k=\\\\ \nj = \\x0041 \n' set settings.ini j A
}

# --output and --
placing() {
    fresh
    case_of '--output -: the file stands' 0 \
        '; a server\n[server]\nport = 8080\nhost = a\\tb\nport = 9090\n[client]\n[server]\nlast = 1\n' '' \
        delete --output - settings.ini name
    stands '--output -' "$source"
    case_of '--output: a new file' 0 '' '' delete --output new.ini settings.ini name
    { printf "$source"; printf '; a server\n[server]\nport = 8080\nhost = a\\tb\nport = 9090\n[client]\n[server]\nlast = 1\n'
      printf 'new.ini\nsettings.ini\n'; } >"$room/want"
    { cat settings.ini new.ini; ls -A; } >"$room/have"
    count '--output: the new file, and the file stands'
    echo other >new.ini
    chmod 600 new.ini
    case_of '--output: a file that is there' 0 '' '' get --output new.ini settings.ini name
    { echo one; echo 600; } >"$room/want"
    { cat new.ini; stat -c %a new.ini; } >"$room/have"
    count '--output: what was there is replaced'
    case_of '--output: a folder that is not there' 4 '' \
        'ini_file: far/new.ini: No such file or directory (os error 2)' \
        get --output far/new.ini settings.ini name
    case_of '--output: no file' 2 '' "$usage" get --output
    case_of 'an option that is none' 2 '' "$usage" get --frob settings.ini name
    printf 'k = v\n' >--odd.ini
    case_of '-- ends the options' 0 'v\n' '' get -- --odd.ini k
    case_of 'arguments may begin with -- after --' 1 '' '' get -- settings.ini --existing
    fresh
    printf 'name = two\n' >../one.ini
    for words in 'get settings.ini --existing' 'set --existing settings.ini --odd x' 'delete-section settings.ini --odd' \
        'rename-key settings.ini name --odd'; do
        # shellcheck disable=SC2086
        refused "$words: no choice after the file" 2 "$usage" $words
    done
    edit 'set: a value that begins with --' "$(printf '%s' "$source" | sed 's/one/--dry-run/')" \
        set -- settings.ini name --dry-run
    # what isn't written into the file goes where --output says, by each command
    fresh
    for words in 'get settings.ini name' 'keys settings.ini server' 'sections settings.ini' \
        'list settings.ini' 'set settings.ini name x' 'add settings.ini name x' 'delete settings.ini name' \
        'delete-section settings.ini server' 'rename-key settings.ini name x' 'rename-section settings.ini server x' \
        'merge settings.ini ../one.ini' 'rewrite settings.ini'
    do
        # shellcheck disable=SC2086
        "$program" ${words%% *} --output - ${words#* } >"$room/want"
        # shellcheck disable=SC2086
        "$program" ${words%% *} --output other.ini ${words#* } >"$room/have"
        echo "status $?" >>"$room/have"
        { echo 'status 0'; cat "$room/want"; printf "$source"; } >"$room/both"
        mv "$room/both" "$room/want"
        cat other.ini settings.ini >>"$room/have"
        count "$words: --output takes what is written, and the file stands"
        rm -f other.ini
    done
}

# edits that find nothing, and what is refused, where standard output is written
filtering() {
    fresh
    text='\357\273\277; c\r\n[a]\r\nk = 1'
    printf "$text" >filter.ini
    for words in 'delete - other a' 'delete - k' 'set --existing - other v a' 'set --existing - k v' 'delete-section - b' \
        'rename-key - other x a' 'rename-section - b x' 'delete --output - filter.ini k'
    do
        # shellcheck disable=SC2086
        case_of "$words: nothing is found, and the text is written" 1 "$text" '' $words <filter.ini
    done
    for words in 'get - other a' 'get --all - k' 'keys - b' 'delete --dry-run - k' 'set --existing --dry-run - k v' \
        'delete --output new.ini filter.ini k' 'delete --output new.ini - k'
    do
        # shellcheck disable=SC2086
        case_of "$words: nothing is found, and nothing is written" 1 '' '' $words <filter.ini
    done
    case_of 'set of standard input, with a value that would not be read back' 2 '' \
        "ini_file: -: this value can't be written so that it is read back$edges" set - k "$unwritable" a <filter.ini
    printf '=\n' >refused.ini
    case_of 'delete in standard input, of a refused text' 3 '' '-:1:1: no key stands before this
=
^' delete - k <refused.ini
    { printf "$source"; printf '%s\n' filter.ini refused.ini settings.ini; } >"$room/want"
    { cat settings.ini; ls -A; } >"$room/have"
    count 'a filter writes no file'
}

# pipes and devices: none is read that is to be written
streaming() {
    fresh
    printf '[a]\nk=1\n' >../one.ini
    for words in 'set /dev/full k v' 'set /dev/zero k v' 'set /dev/null k v' 'set --dry-run /dev/null k v' \
        'add /dev/zero k v' 'set --existing /dev/zero k v' 'delete /dev/zero k' 'rename-key /dev/zero k v' \
        'rewrite /dev/zero' 'rewrite --dry-run /dev/zero' 'merge /dev/zero ../one.ini' 'merge --dry-run /dev/null ../one.ini' \
        'delete --output pipe pipe k' 'set . k v' 'set /dev/stdin k v'
    do
        [ -p pipe ] || mkfifo pipe
        file=${words#* }
        case $words in *dry-run*) file=${words#* * } ;; *existing*) file=${words#* * } ;; *output*) file=${words#* * * } ;; esac
        # shellcheck disable=SC2086
        printf 'k = 1\n' | bounded $words >"$room/have" 2>&1
        echo "status $?" >>"$room/have"
        printf 'ini_file: %s: not a regular file\nstatus 4\n' "${file%% *}" >"$room/want"
        count "$words: refused before it is read"
    done
    rm -f pipe
    { bounded get --output /dev/stdout settings.ini name; echo "status $?"; } | cat >"$room/have"
    printf 'one\nstatus 0\n' >"$room/want"
    count '--output /dev/stdout, a pipe'
    { bounded get --output /dev/stdout settings.ini nowhere; echo "status $?"; } | cat >"$room/have"
    echo 'status 1' >"$room/want"
    count '--output /dev/stdout, where nothing is found'
    mkfifo pipe
    timeout 10 cat pipe >"$room/out" &
    bounded set --output pipe settings.ini name two >"$room/have" 2>&1
    echo "status $?" >>"$room/have"
    wait
    { cat "$room/out"; ls -A; [ -p pipe ] && echo it stays; } >>"$room/have"
    { echo 'status 0'; printf "$source" | sed 's/one/two/'; printf 'pipe\nsettings.ini\nit stays\n'; } >"$room/want"
    count '--output of a pipe'
    rm pipe
    for device in null zero; do
        bounded set --output "/dev/$device" settings.ini name two >"$room/have" 2>&1
        echo "status $?" >>"$room/have"
        echo 'status 0' >"$room/want"
        count "--output /dev/$device"
    done
    bounded get --output /dev/full settings.ini name >"$room/have" 2>&1
    echo "status $?" >>"$room/have"
    printf 'ini_file: /dev/full: No space left on device (os error 28)\nstatus 4\n' >"$room/want"
    count '--output /dev/full'
    { bounded set --dry-run --output /dev/stdout settings.ini name two; echo "status $?"; } | head -n 3 >"$room/have"
    printf '%s\n' '--- /dev/null' '+++ /dev/stdout' '@@ -0,0 +1,9 @@' >"$room/want"
    count '--dry-run --output /dev/stdout: nothing is read of it'
    printf 'a = 1\n' >"$room/text"
    bounded get /dev/stdin a <"$room/text" | cat >"$room/have"
    cat "$room/text" | bounded set --output - /dev/stdin a 2 >>"$room/have"
    cat "$room/text" | bounded merge --output - settings.ini /dev/stdin | sed -n '/^a/p' >>"$room/have"
    printf '1\na = 2\na = 1\n' >"$room/want"
    count 'a pipe is read where it is not written'
    { printf "$source"; echo settings.ini; } >"$room/want"
    { cat settings.ini; ls -A; } >"$room/have"
    count 'pipes and devices: the file stands'
}

# bounded WORD..: a run within ten seconds and two gigabytes
bounded() {
    (
        ulimit -v 2000000 2>/dev/null
        exec timeout 10 "$program" "$@"
    )
}

# texts of others, and faults of words, in messages
telling() {
    fresh
    escape=$(printf '\033')
    printf '[n%s]\nk\\x001b[2J\\nz = " \\"'"'"'"\n' "$escape" >../odd.ini
    case_of 'control characters of a key and a name' 2 '' \
        "ini_file: settings.ini: [n\\x001b] k\\x001b[2J\\x000az: this value can't be written so that it is read back$edges" \
        merge settings.ini ../odd.ini
    case_of 'control characters of a file name' 4 '' \
        'ini_file: no\x001bne\x0009.ini: No such file or directory (os error 2)' list "no${escape}ne	.ini"
    printf '[a%s]\t ; c\n' "$escape" >odd.ini
    case_of 'a caret below tabs and control characters' 3 '' "odd.ini:1:7: a comment begins only at the front of a line
[a\\x001b]	 ; c
         	 ^" list odd.ini
    printf '\t =v\r\n' >odd.ini
    case_of 'a caret below a tab' 3 '' 'odd.ini:1:3: no key stands before this
	 =v
	 ^' list odd.ini
    printf 'k = 1\n\t[n\tm' >odd.ini
    "$program" list odd.ini >"$room/have" 2>&1
    printf "odd.ini:2:2: this bracket isn't closed\n\t[n\tm\n\t^\nnote: the text ends at 2:6\n" >"$room/want"
    count 'a caret below a tab, where what has no end begins'
    bytes=$(printf '\303')
    case_of 'a word that is no text' 4 '' 'ini_file: word 2 is not UTF-8' get "$bytes" k
    case_of 'an empty file name' 4 '' 'ini_file: No such file or directory (os error 2)' get '' k
}

# choices of a command, which another doesn't take: nothing is read then
choosing() {
    fresh
    refused 'set --existing, twice, without a value' 2 "$usage" set --existing --existing settings.ini name
    for words in 'get --existing none.ini k' 'add --existing none.ini k v' 'list --existing none.ini' \
        'delete --existing none.ini k' 'rewrite --existing none.ini' 'rename-key --existing none.ini k j' \
        'keys --all none.ini' 'list --all none.ini' 'add --all none.ini k v' \
        'keys --default v none.ini' 'set --default v none.ini k v' 'delete --default v none.ini k' \
        'rewrite --null none.ini' 'set --null none.ini k v' 'delete --null none.ini k' 'rename-section --null none.ini a b'
    do
        # shellcheck disable=SC2086
        case_of "$words: no choice of this command" 2 '' "$usage" $words
    done
    case_of 'get --default: the key is there' 0 'one\n' '' get --default other settings.ini name
    case_of 'get --default: it is not' 0 'other\n' '' get --default other settings.ini port
    case_of 'get --default: the section is not' 0 'a\tb\n' '' get --default "$(printf 'a\tb')" settings.ini port nowhere
    case_of 'get --default: an empty one' 0 '\n' '' get --default '' settings.ini port
    case_of 'get --default: the last of two' 0 '2\n' '' get --default 1 --default 2 settings.ini port
    case_of 'get --default: it may begin with --' 0 '\055-null\n' '' get --default --null settings.ini port
    case_of 'get --default: no text' 2 '' "$usage" get --default
    case_of 'get --default in a file that is not there' 4 '' \
        'ini_file: none.ini: No such file or directory (os error 2)' get --default x none.ini k
    case_of 'get --all' 0 '8080\n9090\n' '' get --all settings.ini port server
    case_of 'get --all of one value' 0 'a\tb\n' '' get --all settings.ini host server
    case_of 'get --all: a later section of the name counts for nothing' 1 '' '' get --all settings.ini last server
    case_of 'get --all in a section that is not there' 1 '' '' get --all settings.ini port nowhere
    case_of 'get --all in a section without pairs' 1 '' '' get --all settings.ini port client
    case_of 'get --all --default: the key is there' 0 '8080\n9090\n' '' get --all --default 1 settings.ini port server
    case_of 'get --default --all: it is not' 0 '1\n' '' get --default 1 --all settings.ini last server
    case_of 'get --all --default: the section is not' 0 '1\n' '' get --all --default 1 settings.ini port nowhere
    printf 'a=1\n  =v\n' >refused.ini
    case_of 'get --all --default of a refused text' 3 '' 'refused.ini:2:3: no key stands before this
  =v
  ^' get --all --default x refused.ini b
}

# files laid out: what is there stays, comments too
laying_out() {
    fresh
    laid='; a server\nname = one\n\n[server]\nport = 8080\nhost = a\\tb\nport = 9090\n\n[client]\n\n[server]\nlast = 1\n'
    isnt="ini_file: settings.ini: note: it isn't laid out so"
    refused 'format --check: a file that is not so' 1 "$isnt" format --check settings.ini
    edit 'format: a blank line before each header' "$laid" format settings.ini
    refused 'format --check: a file that is so' 0 '' format --check settings.ini
    before=$(stat -c '%i %z' settings.ini)
    "$program" format settings.ini
    echo "$before" >"$room/want"
    stat -c '%i %z' settings.ini >"$room/have"
    count 'format: a file that is so is not written'
    refused 'format --check: of another layout' 1 "$isnt" format --check --separator = settings.ini
    edit 'format --separator' "$(printf '%s' "$laid" | sed 's/ = /=/g')" format --separator = settings.ini
    edit 'format --indent-pairs' "$(printf '%s' "$laid" | sed 's/ = /=/g; s/\\n\([nphl]\)/\\n  \1/g')" \
        format --indent-pairs 2 settings.ini
    edit 'format --indent-pairs: the last of two, and of two digits' \
        "$(printf '%s' "$laid" | sed 's/ = /=/g; s/\\n\([nphl]\)/\\n          \1/g')" \
        format --indent-pairs 0 --indent-pairs=10 settings.ini
    edit 'format: what indents a pair stays, where nothing else is chosen' \
        "$(printf '%s' "$laid" | sed 's/ = /: /g; s/\\n\([nphl]\)/\\n          \1/g')" \
        format --separator ': ' settings.ini
    edit 'format --indent-pairs 0' "$laid" format --indent-pairs=0 --separator ' = ' settings.ini
    printf 'k=v  \n\n\n\t\n# c \n\n\nj=w\n\n' >settings.ini
    edit 'format --blank-lines 2' 'k=v\n\n\n# c \n\n\nj=w\n' format --blank-lines 2 settings.ini
    edit 'format: one blank line at most' 'k=v\n\n# c \n\nj=w\n' format settings.ini
    edit 'format --blank-lines 0' 'k=v\n# c \nj=w\n' format --blank-lines 0 settings.ini
    printf 'a: 1\nb=2\nc=3\n[d]\ne =\n' >settings.ini
    edit 'format --separator keep' 'a: 1\nb=2\nc=3\n\n[d]\ne =\n' format --separator keep settings.ini
    edit 'format: the separator that most pairs have' 'a=1\nb=2\nc=3\n\n[d]\ne=\n' format settings.ini
    printf 'a: 1\nb=2\n' >settings.ini
    edit 'format: of as many the first one' 'a: 1\nb: 2\n' format settings.ini
    printf 'a = 1\nlong = 2\n# c\nb = 3\n' >settings.ini
    edit 'format --align' 'a    = 1\nlong = 2\n# c\nb = 3\n' format --align settings.ini
    refused 'format --check --align: a file that is so' 0 '' format --check --align settings.ini
    refused 'format --check: a file that is aligned' 1 "$isnt" format --check settings.ini
    printf 'z = 1\n# of y\ny = 2\nz = 0\n[b]\nk = 3\n# of a\n[a]\nj = 4' >settings.ini
    edit 'format --sort keys' '# of y\ny = 2\nz = 1\nz = 0\n\n[b]\nk = 3\n\n# of a\n[a]\nj = 4\n' \
        format --sort keys settings.ini
    edit 'format --sort sections' '# of y\ny = 2\nz = 1\nz = 0\n\n# of a\n[a]\nj = 4\n\n[b]\nk = 3\n' \
        format --sort sections settings.ini
    refused 'format --check --sort both: a file that is so' 0 '' format --check --sort both settings.ini
    printf '\n  port 80' >settings.ini
    case_of 'format: why a file is left as it is' 0 '' \
        "ini_file: settings.ini: note: it is left as it is: laid out it couldn't be read" format settings.ini
    stands 'format: a file is left as it is' '\n  port 80'
    printf 'k = 1\n  2\nj = 3  ' >settings.ini
    edit '--multiline format: a value that runs on stays' 'k: 1\n  2\nj: 3\n' --multiline format --separator ': ' settings.ini
    printf '\357\273\277k=v\r\n\r\n\r\n[a]\n' >settings.ini
    edit 'format: the mark stays, and each line ends as the first one' '\357\273\277k=v\r\n\r\n[a]\r\n' format settings.ini
    printf '\n\357\273\277k=v\n' >settings.ini
    edit 'format: a file that would get a mark stays' '\n\357\273\277k=v\n' format settings.ini
    printf '' >settings.ini
    edit 'format of an empty file' '' format settings.ini
    printf 'k=v\n[a]\n' >settings.ini
    preview 'format --dry-run' 0 '\055-- settings.ini\n+++ settings.ini\n@@ -1,0 +2,1 @@\n+\n' format settings.ini
    printf 'k=v\n[a]\n' >settings.ini
    case_of 'format --check --dry-run: the change too' 1 '\055-- settings.ini\n+++ settings.ini\n@@ -1,0 +2,1 @@\n+\n' "$isnt" \
        format --check -n settings.ini
    stands 'format --check --dry-run: the file stands' 'k=v\n[a]\n'
    case_of 'format --output -' 0 'k=v\n\n[a]\n' '' format --output - settings.ini
    case_of 'format -' 0 'k=v\n\n[a]\n' '' format - <settings.ini
    case_of 'format --check -' 1 '' "ini_file: -: note: it isn't laid out so" format --check - <settings.ini
    stands 'format --output -: the file stands' 'k=v\n[a]\n'
    case_of 'format --verbose' 0 '' 'changed' format --verbose settings.ini
    case_of 'format --verbose: of a file that is so' 0 '' 'unchanged' format --verbose settings.ini
    printf 'a=1\n  =v\n' >settings.ini
    refused 'format of a refused text' 3 'settings.ini:2:3: no key stands before this
  =v
  ^' format settings.ini
    refused 'format of a refused text: the separator first' 2 "$no_separator" format --separator - settings.ini
    printf '\377' >settings.ini
    refused 'format of bytes that are no text' 3 "settings.ini:1:1: $latin" \
        format settings.ini
    case_of 'format of a file that is not there' 4 '' 'ini_file: none.ini: No such file or directory (os error 2)' format none.ini
    several_laid_out
}

# several files: the largest status holds, and each is laid out that can be
several_laid_out() {
    fresh
    rm settings.ini
    mkdir many
    printf '[a]\n[b]\n' >many/one.ini
    printf 'a=1\n  =v\n' >many/refused.ini
    printf '[a]\n' >many/so.ini
    cp -r many "$room/several"
    fault='many/refused.ini:2:3: no key stands before this
  =v
  ^'
    case_of 'format --check of several files' 3 '' "ini_file: many/one.ini: note: it isn't laid out so
$fault" format --check many/one.ini many/refused.ini many/so.ini
    diff -r "$room/several" many >"$room/have"
    : >"$room/want"
    count 'format --check of several files: they stand'
    case_of 'format of several files' 3 '' "$fault" format many/refused.ini many/one.ini many/so.ini
    case_of 'format --check: of those that were laid out' 0 '' '' format --check many/one.ini many/so.ini
    printf '[a]\n\n[b]\n' >"$room/want"
    cp many/one.ini "$room/have"
    count 'format of several files: one that is not so'
    rm -r "$room/several"
}

# what stands between key and value of new lines
separating() {
    fresh
    edit 'set --separator: a new line looks like the one before it' \
        '; a server\nname = one\nother = x\n[server]\nport = 8080\nhost = a\\tb\nport = 9090\n[client]\n[server]\nlast = 1\n' \
        set --separator ' : ' settings.ini other x
    printf '[a]\n' >settings.ini
    edit 'set --separator: the first line' '[a]\nother : x\n' set --separator ' : ' settings.ini other x a
    fresh
    edit 'set --separator: the line that is there stays' \
        '; a server\nname = two\n[server]\nport = 8080\nhost = a\\tb\nport = 9090\n[client]\n[server]\nlast = 1\n' \
        set --separator ' : ' settings.ini name two
    printf '; c\n' >settings.ini
    edit 'set --separator: a new section' '; c\n\n[new]\nk\t=v\n' set --separator "$(printf '\t=')" settings.ini k v new
    printf '[a]\n' >settings.ini
    edit 'add --separator: the last of two' '[a]\nname: two\n' add --separator = --separator ': ' settings.ini name two a
    fresh
    edit 'rewrite --separator' "$(printf '%s' "$written" | sed 's/=/ = /g')" rewrite --separator ' = ' settings.ini
    fresh
    for text in '' - == ' ' '= x' "$(printf '\n=')"; do
        for words in 'set settings.ini new v' 'add settings.ini name v' 'rewrite settings.ini'; do
            # shellcheck disable=SC2086
            refused "${words%% *} --separator '$text'" 2 "$no_separator" \
                ${words%% *} --separator "$text" ${words#* }
        done
    done
    edit 'set --separator that would not be read back, where no line is new' "$(printf '%s' "$source" | sed 's/one/two/')" \
        set --separator - settings.ini name two
    printf 'a=1\n  =v\n' >settings.ini
    refused 'rewrite --separator of a refused text: the separator first' 2 "$no_separator" rewrite --separator - settings.ini
    refused 'rewrite --separator: the text' 3 'settings.ini:2:3: no key stands before this
  =v
  ^' rewrite --separator : settings.ini
    refused '--separator: no text' 2 "$usage" add --separator
    for words in 'set --existing --separator : none.ini k v' 'get --separator : none.ini k' 'list --separator : none.ini' \
        'delete --separator : none.ini k' 'rename-key --separator : none.ini k j'
    do
        # shellcheck disable=SC2086
        case_of "$words: no choice of this command" 2 '' "$usage" $words
    done
}

# names, keys and values as they stand, each with NUL
nulls() {
    fresh
    case_of 'get --null' 0 '8080\000' '' get --null settings.ini port server
    case_of 'get --null --all' 0 '8080\0009090\000' '' get --null --all settings.ini port server
    case_of 'get --null --default' 0 'x\000' '' get --null --default x settings.ini port
    case_of 'get --null: not there' 1 '' '' get --null settings.ini port
    case_of 'keys --null' 0 'port\000host\000port\000' '' keys --null settings.ini server
    case_of 'keys --null of a section without pairs' 0 '' '' keys --null settings.ini client
    case_of 'keys --null of a section that is not there' 1 '' '' keys --null settings.ini nowhere
    case_of 'sections --null' 0 'server\000client\000' '' sections --null settings.ini
    case_of 'list --null' 0 "$(printf '%s' '\000name\000one\000[server]\000port\0008080\000[server]\000host\000a\tb\000' \
        '[server]\000port\0009090\000[server]\000last\0001\000')" '' list --null settings.ini
    printf 'k =\na\\nb = x\\ny\\\\z\nk = "2\n\n"\n[s\\nt]\n= 1\n' | sed 's/^= 1$/e=/' >odd.ini
    case_of 'get --null --all: empty values, and line feeds' 0 '\0002\n\n\000' '' get --null --all odd.ini k
    case_of 'get --all: line feeds stand' 0 '\n2\n\n\n' '' get --all odd.ini k
    case_of 'get --null: what was an escape' 0 'x\ny\\z\000' '' get --null odd.ini "$(printf 'a\nb')"
    case_of 'keys --null: no escapes' 0 'k\000a\nb\000k\000' '' keys --null odd.ini
    case_of 'sections --null: no escapes' 0 's\nt\000' '' sections --null odd.ini
    case_of 'list --null: no escapes, empty values' 0 \
        '\000k\000\000\000a\nb\000x\ny\\z\000\000k\0002\n\n\000[s\nt]\000e\000\000' '' list --null odd.ini
    : >empty.ini
    case_of 'list --null of no text' 0 '' '' list --null empty.ini
    case_of 'sections --null of no text' 0 '' '' sections --null empty.ini
    if command -v xargs >/dev/null; then
        "$program" list --null odd.ini | xargs -0 -n 3 printf '<%s|%s|%s>' >"$room/have"
        printf '<|k|><|a\nb|x\ny\\z><|k|2\n\n><[s\nt]|e|>' >"$room/want"
        count 'list --null under xargs -0'
    fi
}

# what other files set, set in a file
merging() {
    fresh
    new='; a server\nname = two\n[server]\nport = 1\nhost = c\n[client]\n[server]\nlast = 1\n\n[new]\nk = v\n'
    printf '# of the users\nname = two\n[server]\nport=1\nport=2\nhost = c\n[server]\nlast = 9\n[new]\nk = v\n' \
        >../other.ini
    edit 'merge: values in their places, a new section; the first values of the first sections' "$new" \
        merge settings.ini ../other.ini
    printf '# of a user\r\n[new]\r\nk = x\r\n' >../first.ini
    printf '[new]\nk = w\n[client]\nid = 7\n' >../later.ini
    two='; a server\nname = two\n[server]\nport = 1\nhost = c\n[client]\nid = 7\n[server]\nlast = 1\n\n[new]\nk = '
    case_of 'merge of two files: the later one counts' 0 "${two}w\n" '' \
        merge --output - settings.ini ../first.ini ../later.ini
    case_of 'merge of two files, the other way round' 0 "${two}x\n" '' \
        merge --output - -- settings.ini ../later.ini ../first.ini
    stands 'merge --output: the file stands' "$new"
    printf '\357\273\277[a]\r\n; c\r\nk = 1 \r\nk = 2\r\n' >settings.ini
    printf '\357\273\277[a]\nj = 3\nk = 4\n' >../other.ini
    edit 'merge: a mark and line ends stay' '\357\273\277[a]\r\n; c\r\nk = 4 \r\nj = 3\r\n' \
        merge settings.ini ../other.ini
    printf '[a]\nk=1\n' >../one.ini
    rm settings.ini
    edit 'merge makes a file' '[a]\nk=1\n' merge settings.ini ../one.ini
    case_of 'merge: standard input goes to standard output' 0 '[b]\nj=2\n\n[a]\nk=1\n' '' merge - ../one.ini <<END
[b]
j=2
END
    case_of 'merge: another file may be standard input' 0 '[a]\nk=1\n\n[b]\nj=2\n' '' \
        merge --output - settings.ini - <<END
[b]
j=2
END
    case_of 'merge of nothing' 0 '[a]\nk=1\n' '' merge --output - settings.ini - <<END
# nothing
[c]
END
    printf "k = 'v'\n" >../quotes.ini
    case_of 'merge: options of reading' 0 "k='v'\n[a]\nk=1\n" '' --noquote merge --output - settings.ini ../quotes.ini
    rm settings.ini
    edit 'merge: options of writing' '[a]\r\nk=1\r\n' --crlf merge settings.ini ../one.ini
    rm settings.ini
    edit 'merge: the separator of the dialect' '[a]\nk = 1\n' --like python merge settings.ini ../one.ini
    fresh
    printf '[Server]\nport = 1\nlast = 2\n[client]\nID = 7\n[server]\nport = 3\nnew = 4\n' >../other.ini
    edit 'merge under a rule: the values that count, where they count' \
        '; a server\nname = one\n[server]\nport = 8080\nhost = a\\tb\nport = 3\n[client]\nID = 7\n[server]\nlast = 2\nnew = 4\n' \
        --like git merge settings.ini ../other.ini
}

# merges that are refused
unmerged() {
    fresh
    printf 'k = 1\n' >../plain.ini
    printf 'a = 1\n  =v\n' >../refused.ini
    printf '\377' >../bytes.ini
    printf "[new]\nk = ' \"'\"'\"\n" >../unplain.ini
    refused 'merge of a file that is not there' 4 'ini_file: none.ini: No such file or directory (os error 2)' \
        merge settings.ini ../plain.ini none.ini
    refused 'merge of a refused text' 3 '../refused.ini:2:3: no key stands before this
  =v
  ^' merge settings.ini ../plain.ini ../refused.ini
    refused 'merge of bytes that are no text' 3 "../bytes.ini:1:1: $latin" \
        merge settings.ini ../bytes.ini ../refused.ini
    refused 'merge of a value that would not be read back' 2 \
        "ini_file: settings.ini: [new] k: this value can't be written so that it is read back$edges" \
        merge settings.ini ../plain.ini ../unplain.ini
    refused 'merge under a rule of a value that would not be read back' 2 \
        "ini_file: settings.ini: [new] k: this value can't be written so that it is read back$edges" \
        --like php merge settings.ini ../plain.ini ../unplain.ini
    refused 'merge of no other file' 2 "$usage" merge settings.ini
    refused 'merge of standard input, twice' 2 "$usage" merge settings.ini - -
    refused 'merge of standard input into itself' 2 "$usage" merge - -
    refused 'merge --existing' 2 "$usage" merge --existing settings.ini ../plain.ini
    cp ../refused.ini settings.ini
    refused 'merge into a refused text' 3 'settings.ini:2:3: no key stands before this
  =v
  ^' merge settings.ini ../plain.ini
    cp ../bytes.ini settings.ini
    refused 'merge into bytes that are no text' 3 "settings.ini:1:1: $latin" \
        merge settings.ini ../plain.ini
    printf 'k = 1\n=\n' >settings.ini
    printf '; nothing\n[a]\n' >../nothing.ini
    refused 'merge of nothing into a refused text' 3 'settings.ini:2:1: no key stands before this
=
^' merge settings.ini ../nothing.ini
    refused 'merge of /dev/null into a refused text' 3 'settings.ini:2:1: no key stands before this
=
^' merge settings.ini /dev/null
    rm settings.ini
    case_of 'merge makes no file where another is not there' 4 '' \
        'ini_file: none.ini: No such file or directory (os error 2)' merge settings.ini none.ini
    ls -A >"$room/have"
    : >"$room/want"
    count 'no file is made where a merge is refused'
}

# the warnings of files; the traps are those of docs/TRAPS.md
checking() {
    fresh
    escape='a backslash begins an escape in this value'
    repeated='this key was there before in its section'
    printf 'one\ntwo = 2\n\t#k = v\npath = C:\\temp\n[a]\nk = v ; note\nk = 2\n[a]\n' >traps.ini
    case_of 'check: each trap, in the order of the places' 1 "\
traps.ini:1:1: warning: this line has no separator and runs on into the next
traps.ini:3:1: warning: an indented comment mark begins a key
traps.ini:4:8: warning: $escape
traps.ini:6:5: warning: a comment mark is part of this value
traps.ini:7:1: warning: $repeated
traps.ini:8:1: warning: a section of this name was there before
" '' check traps.ini
    # What the rule of a dialect makes right
    printf '[a]\nk = 1\nk = 2\nK = 3\n[b]\n[a]\n[A]\n' >rule.ini
    came='a section of this name was there before'
    case_of 'check: sections that are joined, and values of which the last counts' 1 "\
rule.ini:4:1: warning: a key was there before in its section that differs in case alone
rule.ini:7:1: warning: a section was there before whose name differs in case alone
" '' --like systemd check rule.ini
    case_of 'check: the same where case is no matter' 0 '' '' --like git check rule.ini
    case_of 'check: the first section and the first value' 1 "\
rule.ini:3:1: warning: $repeated
rule.ini:4:1: warning: a key was there before in its section that differs in case alone
rule.ini:6:1: warning: $came
rule.ini:7:1: warning: a section was there before whose name differs in case alone
" '' --like windows check rule.ini
    case_of 'check: what is right, asked for' 1 "rule.ini:3:1: warning: $repeated\n" '' --like git check --deny repeated-key rule.ini
    printf 'path = C:\\temp\n' >path.ini
    case_of 'check: options of reading apply' 0 '' '' --noescape check path.ini
    printf '\357\273\277path = C:\\temp\n' >mark.ini
    case_of 'check: columns count from after a mark' 1 "mark.ini:1:8: warning: $escape\n" '' check mark.ini
    printf '; clean\na = 1\n[b]\na = 2\n' >clean.ini
    : >empty.ini
    case_of 'check: clean files' 0 '' '' check clean.ini empty.ini
    printf 'a = 1\n  =v\n' >bad.ini
    case_of 'check: a refused file keeps none from being looked at' 3 \
        "path.ini:1:8: warning: $escape\nmark.ini:1:8: warning: $escape\n" 'bad.ini:2:3: no key stands before this
  =v
  ^' check path.ini bad.ini mark.ini
    printf 'one\ntwo = 2\n= 3\n' >late.ini
    case_of 'check: a refused file has no warnings' 3 '' 'late.ini:3:1: no key stands before this
= 3
^' check late.ini
    printf 'k = \377\n' >bytes.ini
    case_of 'check: bytes that are no text' 3 '' "bytes.ini:1:5: $latin" \
        check bytes.ini clean.ini
    case_of 'check: a file that is not there' 4 "path.ini:1:8: warning: $escape\n" \
        'ini_file: none.ini: No such file or directory (os error 2)
bad.ini:2:3: no key stands before this
  =v
  ^' check none.ini bad.ini path.ini
    case_of 'check: JSON' 1 '{"file":"path.ini","line":1,"column":8,"end":{"line":1,"column":15},"kind":"escape","level":"surprises",'\
'"message":"a backslash begins an escape in this value"}\n' '' check --format json path.ini
    case_of 'check: what the words report' 1 'traps.ini:1:1: warning: this line has no separator and runs on into the next
traps.ini:7:1: warning: this key was there before in its section
traps.ini:8:1: warning: a section of this name was there before
' '' check --allow all --deny loses-data traps.ini
    case_of 'check: nothing is reported' 0 '' '' check traps.ini --allow surprises --allow loses-data
    case_of 'check: NUL' 1 'path.ini\0001\0008\000escape\000a backslash begins an escape in this value\000' '' check --null path.ini
    odd='a "b\c,d%:
.ini'
    cp path.ini "$odd"
    case_of 'check: a name in JSON' 1 '{"file":"a \\"b\\\\c,d%%:\\u000A.ini","line":1,"column":8,"end":{"line":1,"column":15},'\
'"kind":"escape","level":"surprises","message":"a backslash begins an escape in this value"}\n' '' check --format=json "$odd"
    case_of 'check: a name in a command' 1 '::warning file=a "b\\c%%2Cd%%25%%3A%%0A.ini,line=1,endLine=1,col=8,title=escape::'\
'a backslash begins an escape in this value\n' '' check --format github "$odd"
    "$program" check --format sarif "$odd" "$odd" | "$top/tests/program/sarif.py" 'a%20%22b%5Cc%2Cd%25%3A%0A.ini' 2 >"$room/have" 2>&1
    : >"$room/want"
    count 'check: SARIF'
    "$program" check --format sarif clean.ini | "$top/tests/program/sarif.py" '' 0 >"$room/have" 2>&1
    count 'check: SARIF without results'
    case_of 'check: standard input' 1 "\055:2:1: warning: $repeated\n" '' check - clean.ini <<END
k=1
k=2
END
    printf 'k=1\nk=2\n' >--odd.ini
    case_of 'check: a file after --' 1 "\055-odd.ini:2:1: warning: $repeated\n" '' check -- --odd.ini
    case_of 'check: later files may begin with -- after --' 1 "\055-odd.ini:2:1: warning: $repeated\n" '' \
        check -- clean.ini --odd.ini
    case_of 'check: no choice after a file' 2 '' "$usage" check clean.ini --odd.ini
    case_of 'check: no file' 2 '' "$usage" check
    case_of 'check: no file after --' 2 '' "$usage" check --
    case_of 'check: no choice' 2 '' "$usage" check --output clean.ini path.ini
    "$program" check path.ini >/dev/full 2>"$room/have"
    echo "status $?" >>"$room/have"
    printf 'ini_file: standard output: No space left on device (os error 28)\nstatus 4\n' >"$room/want"
    count 'check: a full device'
    "$program" check clean.ini bad.ini >/dev/full 2>/dev/null
    echo "status $?" >"$room/have"
    echo 'status 3' >"$room/want"
    count 'check: where there are no warnings nothing is written'
    printf 'path = C:\\temp\n' >"$room/want"
    cp path.ini "$room/have"
    count 'check: no file is written'
    case_of 'check --fix: a change is shown, and nothing is written' 0 '--- path.ini
+++ path.ini
@@ -1,1 +1,1 @@
-path = C:\\temp
+path = C:\\\\temp
' '' check --fix -n path.ini clean.ini
    printf 'path = C:\\temp\n' >"$room/want"
    cp path.ini "$room/have"
    count 'check --fix: a file whose change is shown stands'
    case_of 'check --fix: what is left is reported beside a change' 1 '' "traps.ini:7:1: warning: $repeated" \
        check --fix -n --allow all --deny repeated-key traps.ini
    cp path.ini fixed.ini
    case_of 'check --fix: a file is mended' 0 '' changed check --fix --verbose fixed.ini
    case_of 'check --fix: a mended file stands' 0 '' unchanged check --fix --verbose fixed.ini
    printf 'path = C:\\\\temp\n' >"$room/want"
    cp fixed.ini "$room/have"
    count 'check --fix: the mended file'
    case_of 'check --fix: what is not reported is not mended' 0 '' unchanged check --fix --verbose --allow escape path.ini
    cp path.ini closed.ini
    chmod 444 closed.ini
    case_of 'check --fix: a write-protected file' 4 '' 'ini_file: closed.ini: it is write-protected; --force writes it all the same' \
        check --fix closed.ini
    case_of 'check --fix: standard input' 1 "path = C:\\\\\\\\temp\nk = 1\nk = 2\n" "-:3:1: warning: $repeated" \
        check --fix - <<END
path = C:\\temp
k = 1
k = 2
END
    case_of 'check --fix: a refused file stands' 3 '' 'bad.ini:2:3: no key stands before this
  =v
  ^' check --fix bad.ini
}

# preview NAME STATUS DIFF COMMAND WORD..: with --dry-run the command writes this diff of settings.ini, and the file stands; and
# patch, and git apply, make of the old file and the diff what the command writes without --dry-run
preview() {
    name=$1
    status=$2
    diff=$3
    shift 3
    command=$1
    shift
    cp settings.ini "$room/before"
    case_of "$name: the diff" "$status" "$diff" '' "$command" --dry-run "$@"
    cp "$room/out" "$room/diff"
    { cat "$room/before"; echo settings.ini; } >"$room/want"
    { cat settings.ini; ls -A; } >"$room/have"
    count "$name: the file stands"
    "$program" "$command" "$@" >/dev/null
    cp settings.ini "$room/want"
    if command -v patch >/dev/null; then
        cp "$room/before" "$room/have"
        [ -s "$room/diff" ] && patch -s -u "$room/have" <"$room/diff" >"$room/told" 2>&1
        count "$name: the diff under patch"
    else
        skipped=$((skipped + 1))
    fi
    if command -v git >/dev/null; then
        cp "$room/before" settings.ini
        [ -s "$room/diff" ] && git apply -p0 --unidiff-zero "$room/diff" >"$room/told" 2>&1
        cp settings.ini "$room/have"
        count "$name: the diff under git apply"
    else
        skipped=$((skipped + 1))
    fi
    cp "$room/before" settings.ini
}

# changes that are shown, and not written
previewing() {
    fresh
    of='\055-- settings.ini\n+++ settings.ini\n'
    preview 'set --dry-run: from the first line that changes to the last' 0 \
        "$of@@ -4,3 +4,2 @@\n-port = 8080\n-host = a\\\\tb\n-port = 9090\n+port = 443\n+host = a\\\\tb\n" \
        set settings.ini port 443 server
    preview 'set --dry-run: nothing would change' 0 '' set settings.ini name one
    preview 'set --existing --dry-run: of a key that is not there' 1 '' set --existing settings.ini other 1
    preview 'add --dry-run: a line comes' 0 "$of@@ -6,0 +7,1 @@\n+port = 443\n" add settings.ini port 443 server
    preview 'delete --dry-run: a line goes' 0 "$of@@ -4,1 +3,0 @@\n-port = 8080\n" delete settings.ini port server
    preview 'delete --dry-run: of a key that is not there' 1 '' delete settings.ini other server
    preview 'delete-section --dry-run' 0 \
        "$of@@ -3,4 +2,0 @@\n-[server]\n-port = 8080\n-host = a\\\\tb\n-port = 9090\n" \
        delete-section settings.ini server
    preview 'rename-key --dry-run' 0 "$of@@ -2,1 +2,1 @@\n-name = one\n+title = one\n" \
        rename-key settings.ini name title
    preview 'rename-section --dry-run' 0 "$of@@ -7,1 +7,1 @@\n-[client]\n+[guest]\n" \
        rename-section settings.ini client guest
    printf 'name = two\n' >../one.ini
    preview 'merge --dry-run' 0 "$of@@ -2,1 +2,1 @@\n-name = one\n+name = two\n" merge settings.ini ../one.ini
    printf 'k = 1\n\n[a]\nj=1\n' >settings.ini
    preview 'rewrite --dry-run' 0 "$of@@ -1,1 +1,1 @@\n-k = 1\n+k=1\n" rewrite settings.ini
    printf 'k=1\nj=2' >settings.ini
    preview 'set --dry-run: no newline at the end' 0 \
        "$of@@ -2,1 +2,1 @@\n-j=2\n\\\\ No newline at end of file\n+j=3\n\\\\ No newline at end of file\n" \
        set settings.ini j 3
    preview 'add --dry-run: a newline comes to the last line' 0 \
        "$of@@ -2,1 +2,2 @@\n-j=2\n\\\\ No newline at end of file\n+j=2\n+i=1\n" add settings.ini i 1
    printf 'k=v\nk=v\n' >settings.ini
    preview 'add --dry-run: among lines that are the same' 0 "$of@@ -2,0 +3,1 @@\n+k=v\n" add settings.ini k v
    printf 'k=1\r\nj=2\r\n' >settings.ini
    preview 'delete --dry-run: CR LF' 0 "$of@@ -2,1 +1,0 @@\n-j=2\r\n" delete settings.ini j
    printf '\357\273\277k=1\n[a]\n' >settings.ini
    preview 'set --dry-run: a mark' 0 "$of@@ -1,1 +1,1 @@\n-\357\273\277k=1\n+\357\273\277k=2\n" \
        set settings.ini k 2
    : >settings.ini
    preview 'set --dry-run: an empty file' 0 "$of@@ -0,0 +1,2 @@\n+[a]\n+k=v\n" set settings.ini k v a
    refused 'set --dry-run of a value that would not be read back' 2 \
        "ini_file: settings.ini: this value can't be written so that it is read back$edges" set --dry-run settings.ini k "$unwritable"
    case_of 'get --dry-run' 2 '' "$usage" get --dry-run settings.ini k
    case_of 'keys --dry-run' 2 '' "$usage" keys --dry-run settings.ini
    printf 'k=1\n' >settings.ini
    case_of 'set --dry-run of a file that is not there' 0 \
        '\055-- /dev/null\n+++ new.ini\n@@ -0,0 +1,1 @@\n+k=v\n' '' set --dry-run new.ini k v
    ls -A >"$room/have"
    echo settings.ini >"$room/want"
    count 'set --dry-run makes no file'
    if command -v patch >/dev/null; then
        patch -s -p0 <"$room/out" >"$room/told" 2>&1
        cp new.ini "$room/have"
        echo k=v >"$room/want"
        count 'set --dry-run of a file that is not there, under patch'
        rm -f new.ini
    else
        skipped=$((skipped + 1))
    fi
    case_of 'delete --dry-run of a file that is not there' 4 '' \
        'ini_file: none.ini: No such file or directory (os error 2)' delete --dry-run none.ini k
    case_of 'set --dry-run of standard input' 0 '\055-- -\n+++ -\n@@ -1,1 +1,1 @@\n-k=1\n+k=2\n' '' set --dry-run - k 2 <<END
k=1
END
    case_of 'set --dry-run --output -' 0 "$of@@ -1,1 +1,1 @@\n-k=1\n+k=2\n" '' \
        set --dry-run --output - settings.ini k 2
    printf 'other=1\n' >other.ini
    case_of 'set --dry-run --output: the change of the other file' 0 \
        '\055-- other.ini\n+++ other.ini\n@@ -1,1 +1,1 @@\n-other=1\n+k=2\n' '' \
        set --dry-run --output other.ini settings.ini k 2
    case_of 'set --dry-run --output: a file that is not there' 0 \
        '\055-- /dev/null\n+++ new.ini\n@@ -0,0 +1,1 @@\n+k=2\n' '' \
        set --output new.ini --dry-run settings.ini k 2
    printf 'k=3\n' >../one.ini
    case_of 'merge --dry-run of a file that is not there' 0 \
        '\055-- /dev/null\n+++ new.ini\n@@ -0,0 +1,1 @@\n+k=3\n' '' merge --dry-run new.ini ../one.ini
    case_of 'merge --dry-run --output' 0 '\055-- other.ini\n+++ other.ini\n@@ -1,1 +1,1 @@\n-other=1\n+k=3\n' '' \
        merge --dry-run --output other.ini settings.ini ../one.ini
    { printf 'k=1\nother=1\n'; printf 'other.ini\nsettings.ini\n'; } >"$room/want"
    { cat settings.ini other.ini; ls -A; } >"$room/have"
    count 'set --dry-run --output: nothing is written'
    "$program" set --dry-run settings.ini k 2 >/dev/full 2>"$room/have"
    echo "status $?" >>"$room/have"
    printf 'ini_file: settings.ini: standard output: No space left on device (os error 28)\nstatus 4\n' >"$room/want"
    count 'set --dry-run: a full device'
}

# with --dry-run a run ends as it does without, where it is refused before anything is written
previewing_refusals() {
    fresh
    printf 'name = two\n' >../one.ini
    printf 'other = 1\n' >other.ini
    ln -s far.ini link.ini
    chmod 444 settings.ini other.ini
    for words in 'set settings.ini name two' 'set settings.ini name one' 'rewrite settings.ini' 'merge settings.ini ../one.ini' \
        'set link.ini k v' 'set far/new.ini k v' 'set other.ini/new.ini k v' \
        'set --output other.ini settings.ini name two' \
        'set --output far/new.ini settings.ini name two' 'set --output link.ini settings.ini name two' \
        'merge --output far/new.ini settings.ini ../one.ini' 'set /dev/null k v' 'rewrite none.ini' 'delete settings.ini other'
    do
        # shellcheck disable=SC2086
        "$program" ${words%% *} --dry-run ${words#* } >"$room/told" 2>"$room/have"
        echo "status $?" >>"$room/have"
        ls -A >>"$room/have"
        cat settings.ini other.ini >>"$room/have"
        # shellcheck disable=SC2086
        "$program" $words 2>"$room/want"
        echo "status $?" >>"$room/want"
        ls -A >>"$room/want"
        cat settings.ini other.ini >>"$room/want"
        count "$words: --dry-run ends as the run does"
    done
    case_of 'set --dry-run: a write-protected file' 4 '' \
        'ini_file: settings.ini: it is write-protected; --force writes it all the same' set --dry-run settings.ini name two
    case_of 'set --dry-run: a folder that is not there' 4 '' 'ini_file: far/new.ini: No such file or directory (os error 2)' \
        set --dry-run far/new.ini k v
}

# many runs at once: each waits for the others and is done, and the file stands whole
at_once() {
    fresh
    lines=0
    while [ "$lines" -lt 2000 ]; do
        lines=$((lines + 1))
        echo "k$lines = $lines"
    done >settings.ini
    sed 's/ //g' settings.ini >"$room/want"
    : >"$room/statuses"
    runs=0
    while [ "$runs" -lt 30 ]; do
        runs=$((runs + 1))
        ("$program" rewrite --wait 100 settings.ini 2>/dev/null; echo $? >>"$room/statuses") &
    done
    wait
    { cat settings.ini; ls -A | grep -v '^settings.ini$'; } >"$room/have"
    count 'thirty runs at once: the file stands whole, and no other is left'
    grep -c '^0$' "$room/statuses" >"$room/have"
    echo 30 >"$room/want"
    count 'thirty runs at once: the statuses'
}

# files in other encodings than UTF-8, which a byte order mark tells or an option names
encodings() {
    fresh
    printf '\377\376a\000 \000=\000 \000\351\000\r\000\n\000;\000\254\040' >settings.ini
    case_of 'get in UTF-16' 0 '\303\251\n' '' get settings.ini a
    edit 'set in UTF-16, low bytes first: the mark and every other byte stay' \
        '\377\376a\000 \000=\000 \000=\330\000\336\r\000\n\000;\000\254\040' \
        set settings.ini a "$(printf '\360\237\230\200')"
    case_of 'list in UTF-16' 0 '\ta\t\360\237\230\200\n' '' list settings.ini
    printf '\376\377\000k\000=\0001\000\n' >settings.ini
    edit 'set in UTF-16, low bytes last' '\376\377\000k\000=\000\344\000\n' set settings.ini k "$(printf '\303\244')"
    edit 'a mark counts before the option' '\376\377\000k\000=\0002\000\n' set --encoding latin1 settings.ini k 2
    edit 'rewrite in UTF-16: the mark stays' '\376\377\000k\000=\0002\000\n' rewrite settings.ini
    edit 'format in UTF-16' '\376\377\000k\000:\0002\000\n' format --separator : settings.ini
    case_of 'a change in UTF-16 is shown in UTF-8' 0 \
        '\055-- settings.ini\n+++ settings.ini\n@@ -1,1 +1,1 @@\n-\357\273\277k:2\n+\357\273\277k:3\n' '' set -n settings.ini k 3
    printf '\377\376k\000=\000\000\330\n\000' >settings.ini
    refused 'half of a pair in UTF-16' 3 'settings.ini:1:3: no character of utf-16le begins here' set settings.ini k 2
    printf '\377\376k\000=\000\n\000j' >settings.ini
    refused 'half of a unit in UTF-16' 3 'settings.ini:2:1: no character of utf-16le begins here' delete settings.ini k
    printf 'k\000=\0001\000' >settings.ini
    edit 'UTF-16 that is named' 'k\000=\0002\000' set settings.ini k 2 --encoding utf-16le
    printf '; \344\nk = \366\n' >settings.ini
    case_of 'get in Latin-1' 0 '\303\266\n' '' --encoding=latin1 get settings.ini k
    edit 'set in Latin-1' '; \344\nk = \377\n' set settings.ini k "$(printf '\303\277')" --encoding latin1
    refused 'set of a character that Latin-1 lacks' 2 'settings.ini:2:5: latin1 has no U+20AC' \
        set --encoding latin1 settings.ini k "$(printf '\342\202\254')"
    refused 'the same where the change is shown' 2 'settings.ini:2:5: latin1 has no U+20AC' \
        set -n --encoding latin1 settings.ini k "$(printf '\342\202\254')"
    edit 'set in Windows-1252' '; \344\nk = \200\n' \
        set --encoding windows1252 settings.ini k "$(printf '\342\202\254')"
    printf 'k=\303\244\n' >../other.ini
    printf '\377\376k\000=\000\344\000' >../marked.ini
    case_of 'diff of two encodings: the same values' 0 '' '' diff ../other.ini ../marked.ini
    edit 'merge into Latin-1 of UTF-16' '; \344\nk = \344\n' merge --encoding latin1 settings.ini ../marked.ini
    printf 'k=1' >settings.ini
    edit 'UTF-8 that is named' 'k=\303\244' set --encoding utf-8 settings.ini k "$(printf '\303\244')"
    rm settings.ini
    edit 'a file that is made' '\000k\000=\000v\000\n' set --encoding utf-16be settings.ini k v
    printf '\376\377\000k\000=\0001' >"$room/input"
    case_of 'a stream in UTF-16' 0 '\376\377\000k\000=\0002' '' set - k 2 <"$room/input"
    printf '\377\376k\000=\0001\000' >x.desktop
    case_of 'a dialect by the name of a file in UTF-16' 0 '1\n' '' get --like auto x.desktop k
    rm -f x.desktop ../other.ini ../marked.ini
}

# the same by the other commands: what is reported, and layers, are in UTF-8, as are edits without a mark
further_encodings() {
    fresh
    printf '\377\376p\000=\000C\000:\000\134\000t\000\351\000\n\000' >settings.ini
    case_of 'check in UTF-16: the mark is no column' 1 \
        'settings.ini:1:3: warning: a backslash begins an escape in this value\n' '' check settings.ini
    edit 'check --fix in UTF-16' '\377\376p\000=\000C\000:\000\134\000\134\000t\000\351\000\n\000' check --fix settings.ini
    printf '\376\377\000k\000=\000\344\000\n' >settings.ini
    edit 'comment in UTF-16' '\376\377\000;\000 \000k\000=\000\344\000\n' comment settings.ini k
    edit 'add-section in UTF-16' '\376\377\000;\000 \000k\000=\000\344\000\n\000\n\000[\000a\000]\000\n' add-section settings.ini a
    printf '\tk\t-\303\244\t+\303\266\n' >../edits
    printf '\376\377\000k\000=\000\344\000\n' >settings.ini
    edit 'apply in UTF-16' '\376\377\000k\000=\000\366\000\n' apply settings.ini ../edits
    printf 'k=\344\n' >settings.ini
    edit 'apply in Latin-1' 'k=\366\n' apply --encoding latin1 settings.ini ../edits
    rm settings.ini
    printf '\tk\t\t+\303\266\n' >../edits
    edit 'apply makes a file' 'k=\366\n' apply --encoding latin1 settings.ini ../edits
    printf '\377\376j\000=\000\344\000' >../marked.ini
    case_of 'layers of two encodings' 0 'k=\303\266\nj=\303\244\n' '' layers --encoding latin1 settings.ini ../marked.ini
    case_of 'diff of two encodings as edits' 1 '\tj\t\t+\303\244\n\tk\t-\303\266\t\n' '' \
        diff --format edits --encoding latin1 settings.ini ../marked.ini
    printf 'k=1\n' >../base.ini
    printf 'k=1\nj=\344\n' >../ours.ini
    printf '\376\377\000k\000=\0002\000\n' >settings.ini
    edit 'merge3 of Latin-1 into UTF-16' '\376\377\000k\000=\0002\000\n\000j\000=\000\344\000\n' \
        merge3 --encoding latin1 ../base.ini ../ours.ini settings.ini --output settings.ini
    printf 'n=8080\nk=\200\n' >settings.ini
    case_of 'JSON in Windows-1252' 0 '"\342\202\254"\n' '' get --format json --encoding windows1252 settings.ini k
    case_of 'origins in Windows-1252' 0 'settings.ini:1:\tn\t8080\nsettings.ini:2:\tk\t\342\202\254\n' '' \
        list --origin settings.ini --encoding windows1252
    case_of 'an answer in a file' 0 '' '' get --encoding windows1252 --output ../told settings.ini k
    printf '\342\202\254\n' >"$room/want"
    cp ../told "$room/have"
    count 'an answer in a file is UTF-8'
    rm -f ../edits ../marked.ini ../base.ini ../ours.ini ../told
}

reading
editing
adding
making
renaming
paths
lone_lines
lone_keys
indented_comments
inline_comments
marks
encodings
further_encodings
placing
merging
unmerged
choosing
separating
laying_out
nulls
checking
previewing
previewing_refusals
filtering
streaming
telling
saving
at_once
if [ "$skipped" -gt 0 ]; then
    echo "$skipped skipped: patch or git isn't here, or may not be used"
fi
finish
