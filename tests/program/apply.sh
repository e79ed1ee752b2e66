# Changes in other forms, and edits applied to a file, by ini_file: read by tests/program.sh, of which it has `count`, `told`, `is`
# and the folder `room`, with the programs in it, and by side and differ of sides.sh.
# shellcheck shell=sh disable=SC2154
mkdir "$room/apply"
cd "$room/apply" || exit 1

# Worked out by hand.
differ <<'ROWS'
--format=edits|k=1\n|k=1\n|
--format=edits|k=1\n|k=2\n|\tk\t-1\t+2\n
--format=edits||[a]\nk=1\n|[a]\tk\t\t+1\n
--format=edits|k=\n[b c]\nj=2|k=\n|[b c]\tj\t-2\t\n
--format=edits|k=a\\tb\n|k=a\\\\b\n|\tk\t-a\\tb\t+a\\\\b\n
--format=edits|k=\0303\0251\n|k="\\x0001\\x007f"\n|\tk\t-\0303\0251\t+\\x0001\\x007f\n
--format=json|k=1\n|k=1\n|
--format=json|k=1\n[a]\nj=2\n|k=3\n|{"section":null,"key":"k","old":"1","new":"3"}\n{"section":"a","key":"j","old":"2","new":null}\n
--format=json||[a"b]\nk=c\\\\d\\te\n|{"section":"a\\"b","key":"k","old":null,"new":"c\\\\d\\u0009e"}\n
--format=json --color=always|k=1\n|k=2\n|{"section":null,"key":"k","old":"1","new":"2"}\n
--color=never|k=1\n|k=2\n|k: 1 -> 2\n
--color=auto|k=1\n|k=2\n|k: 1 -> 2\n
--color=always|k=1\nj=1\n|k=2\ni=3\n|\0033[33mk: 1 -> 2\0033[m\n\0033[32m+ i: 3\0033[m\n\0033[31m- j: 1\0033[m\n
ROWS

# Worked out by hand. A row is words, the edits, the file, the status, the file then, and what is reported.
note='note: an edit is [section], key, -old and +new, with a tab between, as diff --format edits writes it\n'
while IFS='|' read -r words edits text status want err; do
    side it.ini "$text"
    side edits "$edits"
    case $err in edits:*) err="$err$note" ;; esac
    { printf '%b' "$want"; printf 'told: %b' "$err"; echo "status $status"; } >"$room/want"
    # shellcheck disable=SC2086
    "$room/bin/ini_file" apply $words it.ini edits >"$room/out" 2>"$room/err"
    ended=$?
    { cat "$room/out" it.ini; printf 'told: '; cat "$room/err"; echo "status $ended"; } >"$room/have"
    count "ini_file apply $words, '$edits', '$text'"
done <<'ROWS'
||k=1|0|k=1|
|\tk\t-1\t+2\n|; c\nk = 1\n|0|; c\nk = 2\n|
|\tk\t-1\t+2\n|k = 7\nk = 8\n|0|k = 2\n|
|[a]\tk\t-1\t\n|[a]\n; c\nk=1\nj=2\n|0|[a]\n; c\nj=2\n|
|[a]\tk\t\t+1\n|[b]\nk=1\n|0|[b]\nk=1\n\n[a]\nk=1\n|
|\tk\t-1\t+2\n\tk\t-2\t+3\n|k=1\n|0|k=3\n|
|\tk\t-1\t+a\\tb\n|k=1\n|0|k=a\\tb\n|
|\0357\0273\0277\tk\t-1\t+2\n|\0357\0273\0277k=1\r\n|0|\0357\0273\0277k=2\r\n|
--like=git|[a]\tk\t-1\t+2\n|[A]\nK=1\nk=7\n[a]\nj=1\n|0|[A]\nK=1\nk=2\n[a]\nj=1\n|
--like=git|[a]\tk\t-1\t\n|[A]\nK=1\nj=2\n[a]\nk=7\n|0|[A]\nj=2\n[a]\n|
--like=git|[b]\tk\t\t+2\n|[a]\nj=1\n|0|[a]\nj=1\n\n[b]\nk=2\n|
--like=git|[b]\tk\t\t+2\n||0|[b]\nk = 2\n|
--like=windows|[a]\tk\t-1\t+2\n|[a]\r\nk=1\r\nK=3\r\n|0|[a]\r\nk=2\r\nK=3\r\n|
--lists|\tk\t-1\\n2\t+1\\n3\\n4\n|; c\nk = 1\nk=2\n|0|; c\nk = 1\nk=3\nk=4\n|
--lists|\tk\t-1\\n2\t\n|k=1\nj=1\nk=2\n|0|j=1\n|
--lists|\tk\t-1\t+a\\\\nb\n|k=1\n|0|k=a\\nb\n|
--lists --reverse|\tk\t-1\\n2\t+1\n|k=1\n|0|k=1\nk=2\n|
--lists --like=git|[a]\tk\t-1\\n2\t+3\n|[A]\nK=1\n[a]\nk=2\n|0|[A]\nK=3\n[a]\n|
|\tk\t-1\t+1\\n3\n|k=1\nk=2\n|0|k=1\\n3\n|
--reverse|\tk\t-1\t+2\n|k = 2\n|0|k = 1\n|
--reverse|\tk\t-1\t+2\n\tk\t-2\t+3\n|k = 3\n|0|k = 1\n|
--reverse|[a]\tk\t\t+1\n|[a]\nk=1\nj=2\n|0|[a]\nj=2\n|
--reverse|\tk\t-1\t\n|j=1\n|0|j=1\nk=1\n|
--dry-run|\tk\t-1\t+2\n|k=1\n|0|--- it.ini\n+++ it.ini\n@@ -1,1 +1,1 @@\n-k=1\n+k=2\nk=1\n|
--output -|\tk\t-1\t+2\n|k=1\n|0|k=2\nk=1\n|
--verbose|\tk\t-1\t+2\n|k=1\n|0|k=2\n|changed\n
|\tk\t-1\n|k=1\n|3|k=1\n|edits:1: this line is no edit\n
|\tk\t-1\t+2\nk=2\n|k=1\n|3|k=1\n|edits:2: this line is no edit\n
|\tk\t-1\t+2|k=1\n|3|k=1\n|edits:1: this line is no edit\n
|\tk\t-1\t+2\r\n|k=1\n|3|k=1\n|edits:1: this line is no edit\n
|a\tk\t-1\t+2\n|k=1\n|3|k=1\n|edits:1: this line is no edit\n
|[a\tk\t-1\t+2\n|k=1\n|3|k=1\n|edits:1: this line is no edit\n
|\tk\t+1\t-2\n|k=1\n|3|k=1\n|edits:1: this line is no edit\n
|\tk\t-1\t+2\t\n|k=1\n|3|k=1\n|edits:1: this line is no edit\n
|\tk\t-1\t+\\x0041\n|k=1\n|3|k=1\n|edits:1: this line is no edit\n
|\tk\t-1\t+\\x0009\n|k=1\n|3|k=1\n|edits:1: this line is no edit\n
|\tk\t-1\t+\\x001F\n|k=1\n|3|k=1\n|edits:1: this line is no edit\n
|\tk\t-1\t+\\q\n|k=1\n|3|k=1\n|edits:1: this line is no edit\n
|\tk\t-1\t+2\\\n|k=1\n|3|k=1\n|edits:1: this line is no edit\n
|\n|k=1\n|3|k=1\n|edits:1: this line is no edit\n
--policy=Nothing|\tj\t\t+1\n\tk\t-1\t+a\\\\b\n|k=1\n|2|k=1\n|ini_file: it.ini: k: this value can't be written so that it is read back\nnote: it has a backslash: use --policy Basics\n
|\tk\t-1\t+2\n|k="1\n|3|k="1\n|it.ini:1:3: this quote isn't closed\nk="1\n  ^\nnote: the text ends at 2:1\n
ROWS

# What diff writes leads from the first file to the second, and back: each control character that can be written, and what looks
# like a part of an edit.
{
    for code in 1 2 3 4 5 6 7 8 9 a d e f 10 11 12 13 14 15 16 17 18 19 1a 1b 1c 1d 1e 1f 5c 7f; do
        printf 'k%s="a\\x00%2sb"\n' "$code" "$code" | sed 's/x00 /x000/'
    done
    printf '[a [b]\n+k=-\n-k=" + "\n[\303\251 -> \360\237\230\200]\nk = "[a]"\nj=""\n'
} >other.ini
printf '; c\nk9 = 1\n\n[a [b]\n-k = "x\\ty"\nold="\\x001f[]"\n' >one.ini
for pair in 'one other' 'other one'; do
    from=${pair% *}.ini
    to=${pair#* }.ini
    cp "$from" it.ini
    "$room/bin/ini_file" diff --format edits "$from" "$to" >edits
    "$room/bin/ini_file" apply it.ini <edits >"$room/out" 2>"$room/err"
    told "edits from $from to $to are applied" $? 0 ''
    is "edits from $from to $to lead there" 'status 0' "$("$room/bin/ini_file" diff it.ini "$to"; echo "status $?")"
    "$room/bin/ini_file" apply --reverse it.ini edits >"$room/out" 2>"$room/err"
    told "edits from $from to $to are reversed" $? 0 ''
    is "edits from $from to $to lead back" 'status 0' "$("$room/bin/ini_file" diff it.ini "$from"; echo "status $?")"
done

# Files that aren't there: a file is made, edits are not.
printf '[a]\tk\t\t+1\n' >edits
"$room/bin/ini_file" apply new.ini edits >"$room/out" 2>"$room/err"
told 'ini_file apply of a file that is not there' $? 0 ''
is 'ini_file apply makes a file' '[a]
k=1' "$(cat new.ini)"
"$room/bin/ini_file" apply new.ini none >"$room/out" 2>"$room/err"
told 'ini_file apply of edits that are not there' $? 4 'ini_file: none: No such file or directory (os error 2)'
cd "$room" || exit 1
