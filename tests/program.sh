#!/bin/sh
# Runs the built programs over real streams and files. The cases are the rows of a table, the streams, the large inputs, the
# runs of `ini_file layers` and its warnings, and the commands that README.md, docs/PROGRAM.md and the manual show. Each case
# that fails is reported. The last line is 'N passed, M failed', and the status is 1 if a case failed.
#
#     tests/program.sh [INI_TOOL [INI_FILE]]
#
# Each is by default the one that tools/run.sh builds; a page's `./bigrosk` runs these too.
. "$(dirname "$0")/cases.sh"
program=$(program_of ini_tool "${1:-}") || exit 1
file=$(program_of ini_file "${2:-}") || exit 1
mkdir "$room/bin"
ln -s "$program" "$room/bin/ini_tool"
ln -s "$file" "$room/bin/ini_file"
options='[--noescape] [--noquote] [--multiline] [--indent] [--brackets] [--raw-backslash] [--indented-comments] [--inline-comments] [--lone-lines NAME] [--crlf] [--policy NAME]'
usage="usage: ini_tool $options fmt|list|get KEY [SECTION]|set KEY VALUE [SECTION]|del KEY [SECTION]"

# told NAME STATUS WANTED ERROR: the last run's status, and what it wrote on standard error
told() {
    echo "status $3, $4" >"$room/want"
    echo "status $2, $(cat "$room/err")" >"$room/have"
    count "$1"
}

# wrote NAME STATUS WANTED OUTPUT: the last run's status, that it reported nothing, and that it wrote just this file
wrote() {
    { echo "status $3"; sum <"$4"; head -c 400 "$4"; } >"$room/want"
    { echo "status $2"; cat "$room/err"; sum <"$room/out"; head -c 400 "$room/out"; } >"$room/have"
    count "$1"
}

sum() {
    cksum | cut -d ' ' -f 1,2
}

# gives NAME STATUS OUTPUT INPUT COMMAND..: over the file INPUT the command ends with that status within a minute, reports
# nothing, and writes just the file OUTPUT
gives() {
    called=$1
    wanted=$2
    output=$3
    input=$4
    shift 4
    timeout 60 "$@" <"$input" >"$room/out" 2>"$room/err"
    wrote "$called" $? "$wanted" "$output"
}

# lines N FORMAT: the format N times, each %d in it the number of the time, from 0
lines() {
    awk -v n="$1" -v format="$2" 'BEGIN { for (i = 0; i < n; i++) printf format, i, i, i }'
}

# long N CHARACTER: the character N times
long() {
    head -c "$1" /dev/zero | tr '\0' "$2"
}

# A row has the words, the input, the status, the output and standard error, parted by bars. The words are written as for a
# shell ('a b' is one, '' an empty one), or none where there are no words; escapes in the others are those of printf's %b. The
# usage line is written as USAGE.
while IFS='|' read -r words input status output error; do
    case $words in '' | '#'*) continue ;; esac
    if [ "$words" = none ]; then words=; fi
    if [ "$error" = USAGE ]; then error=$usage; fi
    printf '%b' "$input" >"$room/in"
    eval "set -- $words"
    "$program" "$@" <"$room/in" >"$room/out" 2>"$room/err"
    {
        echo "status $?"
        cat "$room/out"
        echo "told: $(cat "$room/err")"
    } >"$room/have"
    printf 'status %s\n%b' "$status" "$output" >"$room/want"
    echo "told: $error" >>"$room/want"
    count "$words"
done <<'ROWS'
# done
fmt|k = v\n; c\n[a]\nx: y|0|k=v\n\n[a]\nx=y\n|
fmt||0||
fmt|k=v|0|k=v\n|
fmt|[a]|0|[a]\n|
fmt|\0357\0273\0277[Test]Key=Value\n|0|[Test]\nKey=Value\n|
fmt|k = a\\tb\\\\\n|0|k=a\\tb\\\\\n|
--noescape fmt|path=C:\\Windows|0|path=C:\\\\Windows\n|
--noquote fmt|k="a"|0|k="a"\n|
fmt|k="a"|0|k=a\n|
--multiline fmt|k=v\n  w|0|k=v\\nw\n|
--indent fmt|  k=v|0|  k=v\n|
--brackets list|[[*]]\na = b\n|0|[[*]]\ta\tb\n|
--noescape --raw-backslash list|p=C:\\x\\\nk=v|0|\tp\tC:\\\\x\\\\\n\tk\tv\n|
--raw-backslash --noescape list|[a\\]\nb\\=c|0|[a\\\\]\tb\\\\\tc\n|
--raw-backslash list|p=a\\tb\\\nc|0|\tp\ta\\tbc\n|
--indented-comments list|  ; c\nk=v\n|0|\tk\tv\n|
--indented-comments list|\t# a=b|0||
--indent --indented-comments list|\t# a=b|0||
--indented-comments list|  \\;a=b\n|0|\t;a\tb\n|
--indented-comments fmt|k=v\r# c\rj=w\n|0|k=v\nj=w\n|
--indented-comments list|k=v\r  # c\rj=w\n|0|\tk\tv\n\tj\tw\n|
--multiline --indented-comments list|k=a\n ; c\n b\n|0|\tk\ta\\nb\n|
--indented-comments --multiline get k|k=a\n; c\n b\n|0|a\n|
--indented-comments --lone-lines refused list|  ; c\nk=v\n|0|\tk\tv\n|
--indented-comments set k w|# c\n  ; c\nk=v\n|0|k=w\n|
list|  ; c\nk=v\n|0|\t; c\\nk\tv\n|
list|k=v\r  # c\rj=w\n|0|\tk\tv\n\t# c\\rj\tw\n|
--multiline list|k=a\n ; c\n b\n|0|\tk\ta\\n; c\\nb\n|
set --indented-comments x||0|--indented-comments=x\n|
--inline-comments list|k = v ; note\n|0|\tk\tv\n|
--inline-comments list|k=a;b #c\nj\t=\ta\t;|0|\tk\ta;b\n\tj\ta\n|
--inline-comments list|k = ; note\nj =; note\n|0|\tk\t; note\n\tj\t; note\n|
--inline-comments list|k=a \\; b\nj=a\\ ; b\n|0|\tk\ta ; b\n\tj\ta ; b\n|
--inline-comments --noescape list|k=a\\ ; b\n|0|\tk\ta\\\\ ; b\n|
--inline-comments --noescape --raw-backslash list|k=a\\ ; b\n|0|\tk\ta\\\\\n|
--inline-comments list|k="a ; b" ; c\nj="a"; b\n|0|\tk\ta ; b\n\tj\ta; b\n|
--noquote --inline-comments list|k="a ; b"\n|0|\tk\t"a\n|
--inline-comments fmt|[a] ; note\nk=v\n[b];\nj=w # n\r; c\ri=u|0|[a]\nk=v\n\n[b]\nj=w\ni=u\n|
--inline-comments --brackets list|[a]\t# n\nk=v|0|[a]\tk\tv\n|
--inline-comments --lone-lines keys list|skip-x # n\n  j ;\n|0|\tskip-x\t\n\tj\t\n|
--inline-comments list|a ;b=c\n|0|\ta ;b\tc\n|
--multiline --inline-comments get k|k=a ; n\n b ; m\n|0|a\nb\n|
--multiline --inline-comments --indented-comments list|k=\n ; c\n\n b ; d\n|0|\tk\tb\n|
--inline-comments set k w|k=v ; n\n|0|k=w\n|
list|k = v ; note\n|0|\tk\tv ; note\n|
set --inline-comments x||0|--inline-comments=x\n|
--lone-lines refused fmt|; c\nk=v\n\n[a]\n  x : y\n|0|k=v\n\n[a]\nx=y\n|
--lone-lines refused list|a\\\nb=c\n|0|\tab\tc\n|
--lone-lines refused list|  \n  |0||
--lone-lines keys list|  ; c\nk=v\n|0|\t; c\t\n\tk\tv\n|
--indented-comments --lone-lines keys list|  ; c\nk=v\n|0|\tk\tv\n|
--lone-lines keys list|abc\nk=v\n|0|\tabc\t\n\tk\tv\n|
--lone-lines keys list|a\rb\r\nk=v|0|\ta\t\n\tb\t\n\tk\tv\n|
--lone-lines keys get abc|abc|0|\n|
--lone-lines keys fmt|k = v\n  abc|0|k=v\nabc=\n|
--lone-lines keys list|  \n  |0||
--lone-lines keys list|a\\=b\n|0|\ta=b\t\n|
--lone-lines keys list|skip-x # n\n|0|\tskip-x # n\t\n|
--lone-lines keys list|!include /x\n.include /a=b\n|0|\t!include /x\t\n\t.include /a\tb\n|
--multiline --lone-lines keys list|k\n  w\n|0|\tk\t\n\tw\t\n|
--multiline --lone-lines keys get k|k=v\nj\n\n  w=x\n|0|v\n|
--lone-lines keys list|a\\|0|\ta\\\\\t\n|
--noescape --lone-lines keys list|a\\\nb\\=c\\|0|\tab\\\\=c\\\\\t\n|
--noescape --raw-backslash --lone-lines keys list|a\\\nb\\=c|0|\ta\\\\\t\n\tb\\\\\tc\n|
--indent --lone-lines keys fmt|  k \n|0|  k=\n|
--lone-lines keys list|[a] b\n|0|[a]\tb\t\n|
--lone-lines keys set abc 1|abc\nk=v\n|0|abc=1\nk=v\n|
--lone-lines keys set k w|abc\nk=v|0|abc=\nk=w\n|
--lone-lines keys del abc|abc\nk=v\nabc|0|k=v\nabc=\n|
--lone-lines refused --lone-lines keys --crlf fmt|abc|0|abc=\r\n|
--lone-lines keys --lone-lines runs-on fmt|k=v\n  abc|0|k=v\n|
--lone-lines runs-on list|abc\nk=v\n|0|\tabc\\nk\tv\n|
--lone-lines refused --lone-lines runs-on list|abc\nk=v\n|0|\tabc\\nk\tv\n|
--lone-lines runs-on fmt|k=v\n  abc|0|k=v\n|
set --lone-lines refused||0|--lone-lines=refused\n|
--crlf fmt|k=1\n[a]\nx=y|0|k=1\r\n\r\n[a]\r\nx=y\r\n|
--policy Reserved fmt|k=a:b|0|k=a\\:b\n|
--policy Reserved --policy Nothing fmt|k=a:b|0|k=a:b\n|
--policy Everything fmt|k=\0303\0251|0|k=\\x00e9\n|
list|[sec1]\nkey1=val1\nkey2=377\n[sec2]foo=bar\n|0|[sec1]\tkey1\tval1\n[sec1]\tkey2\t377\n[sec2]\tfoo\tbar\n|
list|k=1\nk=a\\tb|0|\tk\t1\n\tk\ta\\tb\n|
list||0||
get key2 sec1|[sec1]\nkey1=val1\nkey2=377|0|377\n|
get k|k=1\nk=2|0|1\n|
get k|k=|0|\n|
--noescape get path|path=C:\\Windows\\Some\\Folder\\|0|C:\\Windows\\Some\\Folder\\\n|
set port 9090|port = 8080\n|0|port=9090\n|
--crlf set k 1 s||0|[s]\r\nk=1\r\n|
set --crlf fmt||0|--crlf=fmt\n|
del k p|[p]\nk=1\n[p]\nk=2\n|0|[p]\n[p]\nk=2\n|
fmt|[a]\n[b]\nk=v\n[c]\n[d]\nx=y|0|[a]\n[b]\nk=v\n[c]\n\n[d]\nx=y\n|
fmt|  k=v|0|k=v\n|
fmt|k=v\n  w=x|0|k=v\nw=x\n|
list|[a]\n[b]\n|0||
list|k=1\nk=2\n[a]\nk=\n|0|\tk\t1\n\tk\t2\n[a]\tk\t\n|
list|[a\\tb\\\\]\nk\\nj=\\0|0|[a\\tb\\\\]\tk\\nj\t\\0\n|
list|k=\0303\0251;=|0|\tk\t\0303\0251;=\n|
--multiline list|k=v\n  w|0|\tk\tv\\nw\n|
--noescape list|k=\\t|0|\tk\t\\\\t\n|
--crlf --policy Everything list|k=\0303\0251;|0|\tk\t\0303\0251;\n|
--noquote get k|k="a"|0|"a"\n|
get k|k=a\\tb\\n\\\\|0|a\tb\n\\\n|
--crlf get k|k=1|0|1\n|
get k a|k=1\n[a]\nk=2\n[a]\nk=3\n|0|2\n|
get --crlf|--crlf=1|0|1\n|
--brackets --policy Nothing --crlf get --noquote|--noquote="1"\n|0|1\n|
get "$(printf '\303\251')"|\0303\0251=1\n|0|1\n|
set k 1||0|k=1\n|
set k 9|k=1\na=2\nk=3\n|0|k=9\na=2\n|
set b 9|a=1\n[s]\nx=y\n|0|a=1\nb=9\n\n[s]\nx=y\n|
set k 9 s|[s]\na=1\n[s]\nk=2\n|0|[s]\na=1\nk=9\n\n[s]\nk=2\n|
set k 9 t|[s]\na=1\n|0|[s]\na=1\n\n[t]\nk=9\n|
set --policy list fmt||0|[fmt]\n--policy=list\n|
set k '\'||0|k=\\\\\n|
del k|k=1\na=2\nk=3\n|0|a=2\nk=3\n|
del k|k=1\n[p]\nk=2\n|0|[p]\nk=2\n|
--crlf del k|k=1\na=2\n|0|a=2\r\n|
--policy Reserved fmt|k=;\0303\0251\0360\0220\0200\0200\\\\|0|k=\\;\0303\0251\0360\0220\0200\0200\\\\\n|
--policy Nothing fmt|k=;\0303\0251\0360\0220\0200\0200\\\\|0|k=;\0303\0251\0360\0220\0200\0200\\\n|
--policy Basics fmt|k=;\0303\0251\0360\0220\0200\0200\\\\|0|k=;\0303\0251\0360\0220\0200\0200\\\\\n|
--policy BasicsUnicode fmt|k=;\0303\0251\0360\0220\0200\0200\\\\|0|k=;\\x00e9\0360\0220\0200\0200\\\\\n|
--policy BasicsUnicodeExtended fmt|k=;\0303\0251\0360\0220\0200\0200\\\\|0|k=;\\x00e9\\x10000\\\\\n|
--policy ReservedUnicode fmt|k=;\0303\0251\0360\0220\0200\0200\\\\|0|k=\\;\\x00e9\0360\0220\0200\0200\\\\\n|
--policy ReservedUnicodeExtended fmt|k=;\0303\0251\0360\0220\0200\0200\\\\|0|k=\\;\\x00e9\\x10000\\\\\n|
--policy Everything fmt|k=;\0303\0251\0360\0220\0200\0200\\\\|0|k=\\;\\x00e9\\x10000\\\\\n|
--policy Everything --policy Nothing fmt|k=;\0303\0251\0360\0220\0200\0200\\\\|0|k=;\0303\0251\0360\0220\0200\0200\\\n|
--policy Nothing --crlf --policy Reserved fmt|k=;\0303\0251\0360\0220\0200\0200\\\\|0|k=\\;\0303\0251\0360\0220\0200\0200\\\\\r\n|
--crlf --crlf --policy Nothing --crlf fmt|k=;\0303\0251\0360\0220\0200\0200\\\\|0|k=;\0303\0251\0360\0220\0200\0200\\\r\n|
--noescape --noquote --multiline --indent --crlf fmt|  k='a\\'\n  w\n|0|  k='a\\\\'\\nw\r\n|
--crlf --indent --multiline --noquote --noescape fmt|  k='a\\'\n  w\n|0|  k='a\\\\'\\nw\r\n|
--multiline --crlf --noescape --indent --noquote fmt|  k='a\\'\n  w\n|0|  k='a\\\\'\\nw\r\n|
--noquote --noquote --noescape --policy Basics --indent --crlf --multiline --noescape fmt|  k='a\\'\n  w\n|0|  k='a\\\\'\\nw\r\n|
# words with blanks, empty words, and words that a shell would change
set k 'a b'||0|k=a b\n|
set k 'a  b'||0|k=a  b\n|
set k ' v '||0|k= v \n|
set ' k ' v||0| k =v\n|
set 'a b' c||0|a b=c\n|
set k v 'a b'||0|[a b]\nk=v\n|
set k v ' a '||0|[ a ]\nk=v\n|
set k ''|k=1|0|k=\n|
set '' v||0|=v\n|
set k v ''||0|[]\nk=v\n|
set '' '' ''||0|[]\n=\n|
set k v ''|k=1\n[]\nk=2\n|0|k=1\n\n[]\nk=v\n|
set k "$(printf 'a\tb\nc')"||0|k=a\\tb\\nc\n|
set k '\n'||0|k=\\\\n\n|
set k "it's \"so\""||0|k=it's "so"\n|
set '*' '$HOME'||0|*=$HOME\n|
set -n -e||0|-n=-e\n|
set -- --||0|--=--\n|
set k "$(printf 'a\174b')"||0|k=a\0174b\n|
get 'a b'|a b = 1|0|1\n|
get k 'a b'|k=1\n[a]\nk=2\n[ a b ]\nk=3|0|3\n|
get k ''|k=1\n[]\nk=2|0|2\n|
--indent get ' k'| k = 1|0|1\n|
del 'a b'|a=1\na b=2\nb=3|0|a=1\nb=3\n|
del k ''|[]\nk=2\n[a]\nk=3|0|[]\n[a]\nk=3\n|
# not found
get 'a  b'|a b = 1|1||
get ' k'|k=1|1||
get 'k '|k=1|1||
get ' k'| k=1|1||
--indent get k| k=1|1||
get ''|k=1|1||
get k ''|k=1\n[a]\nk=2|1||
get k ' a '|k=1\n[a]\nk=2|1||
get a b|a b=1|1||
del ' k'|k=1|1||
del ''|k=1|1||
del k ''|k=1|1||
get key3 sec1|[sec1]\nkey1=val1|1||
get k a|k=1\n|1||
del z|k=1|1||
get key1|[sec1]\nkey1=val1\nkey2=377\n[sec2]foo=bar\n|1||
get key1 sec3|[sec1]\nkey1=val1\nkey2=377\n[sec2]foo=bar\n|1||
get key1 SEC1|[sec1]\nkey1=val1\nkey2=377\n[sec2]foo=bar\n|1||
get k p|[p]\na=1\n[p]\nk=2\n|1||
get k||1||
del k p|k=1\n[p]\n[p]\nk=2\n|1||
del K|k=1|1||
--crlf --policy Nothing del z|k=1|1||
# usage
none|k=v|2||USAGE
frob|k=v|2||USAGE
fmt x|k=v|2||USAGE
get|k=v|2||USAGE
set k|k=v|2||USAGE
--crlf|k=v|2||USAGE
--policy|k=v|2||USAGE
--policy basics fmt|k=v|2||USAGE
Fmt|k=v\n|2||USAGE
fmt --crlf|k=v\n|2||USAGE
list x|k=v\n|2||USAGE
get k s x|k=v\n|2||USAGE
set|k=v\n|2||USAGE
set k v s x|k=v\n|2||USAGE
del|k=v\n|2||USAGE
del k s x|k=v\n|2||USAGE
--policy Basics|k=v\n|2||USAGE
--policy fmt|k=v\n|2||USAGE
--policy --crlf fmt|k=v\n|2||USAGE
--crlf --policy Nothing|k=v\n|2||USAGE
--brackets-in fmt|k=v\n|2||USAGE
--raw-backslashes fmt|k=v\n|2||USAGE
--indented-comments|k=v\n|2||USAGE
--indented-comment fmt|k=v\n|2||USAGE
--indented-comments= fmt|k=v\n|2||USAGE
--inline-comments|k=v\n|2||USAGE
--inline-comment fmt|k=v\n|2||USAGE
--inline-comments= fmt|k=v\n|2||USAGE
--lone-lines|k=v\n|2||USAGE
--lone-lines fmt|k=v\n|2||USAGE
--lone-lines refuse fmt|k=v\n|2||USAGE
--lone-lines Refused fmt|k=v\n|2||USAGE
--lone-lines key fmt|k=v\n|2||USAGE
--lone-lines Keys fmt|k=v\n|2||USAGE
--lone-lines '' fmt|k=v\n|2||USAGE
--lone-lines --policy Basics fmt|k=v\n|2||USAGE
--lone-lines=refused fmt|k=v\n|2||USAGE
'--lone-lines refused' fmt|k=v\n|2||USAGE
-- fmt|k=v\n|2||USAGE
--CRLF fmt|k=v\n|2||USAGE
--policy Basics frob|k=v\n|2||USAGE
''|k=v|2||USAGE
'' fmt|k=v|2||USAGE
fmt ''|k=v|2||USAGE
list ''|k=v|2||USAGE
get k s ''|k=v|2||USAGE
set k v s ''|k=v|2||USAGE
del k s ''|k=v|2||USAGE
' fmt'|k=v|2||USAGE
'fmt '|k=v|2||USAGE
'get k'|k=v|2||USAGE
'--crlf fmt'|k=v|2||USAGE
' --crlf' fmt|k=v|2||USAGE
'--crlf ' fmt|k=v|2||USAGE
'--policy Basics' fmt|k=v|2||USAGE
--policy ' Basics' fmt|k=v|2||USAGE
--policy 'Basics ' fmt|k=v|2||USAGE
--policy '' fmt|k=v|2||USAGE
# refused texts
--brackets fmt|[a]x\n|3||ini_tool: 2:1 section must be ended with ']'
--indented-comments get k|k=1\n[a] ; c|3||ini_tool: 2:6 doesn't support inline comment
--inline-comments --brackets get k|k=1\n[a ;b]\n|3||ini_tool: 2:5 section must be ended with ']'
--inline-comments --lone-lines refused fmt|k=1 ; c\nab ; c\n|3||ini_tool: 2:5 no separator follows the key in its line
fmt|k=v\r# c\rj=w\n|3||ini_tool: 1:6 doesn't support inline comment
--indented-comments --lone-lines refused fmt|  ; c\nabc\nk=v\n|3||ini_tool: 3:1 no separator follows the key in its line
--lone-lines refused fmt|abc\nk=v\n|3||ini_tool: 2:1 no separator follows the key in its line
--lone-lines refused list|[a] b\n|3||ini_tool: 2:1 no separator follows the key in its line
--lone-lines refused get k|k=v\n  ; c\nk=v\n|3||ini_tool: 3:1 no separator follows the key in its line
--lone-lines refused set k v|k=1\nabc\rj=2\n|3||ini_tool: 2:5 no separator follows the key in its line
--lone-lines runs-on --lone-lines refused del k|k\n=v\n|3||ini_tool: 2:1 no separator follows the key in its line
--lone-lines refused list|k=v\n  abc|3||ini_tool: 2:6 expecting "[Some('='), Some(':')]" but found EOF.
--lone-lines refused list| =v\n|3||ini_tool: 1:3 missing key
--lone-lines keys list| =v\n|3||ini_tool: 1:3 missing key
--lone-lines keys list|\\\n\n|3||ini_tool: 3:1 missing key
--lone-lines keys list|\\\n|3||ini_tool: 2:1 expecting "[Some('='), Some(':')]" but found EOF.
--lone-lines keys list|a\\x00|3||ini_tool: 1:6 expecting "[Some('='), Some(':')]" but found EOF.
--lone-lines keys --lone-lines refused get k|abc\nk=v|3||ini_tool: 2:1 no separator follows the key in its line
fmt|k|3||ini_tool: 1:2 expecting "[Some('='), Some(':')]" but found EOF.
list|[a]\n=v|3||ini_tool: 2:2 missing key
get k|k=1\n[a] ; c|3||ini_tool: 2:6 doesn't support inline comment
fmt|k=\0303|3||ini_tool: the input is not UTF-8
set k v|\0377\0376k=v|3||ini_tool: the input is not UTF-8
fmt|\0357\0273\0277k|3||ini_tool: 1:2 expecting "[Some('='), Some(':')]" but found EOF.
list|k|3||ini_tool: 1:2 expecting "[Some('='), Some(':')]" but found EOF.
list|\0357\0273\0277k|3||ini_tool: 1:2 expecting "[Some('='), Some(':')]" but found EOF.
list|k=\0303|3||ini_tool: the input is not UTF-8
get k|k|3||ini_tool: 1:2 expecting "[Some('='), Some(':')]" but found EOF.
get k|\0357\0273\0277k|3||ini_tool: 1:2 expecting "[Some('='), Some(':')]" but found EOF.
get k|k=\0303|3||ini_tool: the input is not UTF-8
set k v|k|3||ini_tool: 1:2 expecting "[Some('='), Some(':')]" but found EOF.
set k v|\0357\0273\0277k|3||ini_tool: 1:2 expecting "[Some('='), Some(':')]" but found EOF.
set k v|k=\0303|3||ini_tool: the input is not UTF-8
del k|k|3||ini_tool: 1:2 expecting "[Some('='), Some(':')]" but found EOF.
del k|\0357\0273\0277k|3||ini_tool: 1:2 expecting "[Some('='), Some(':')]" but found EOF.
del k|k=\0303|3||ini_tool: the input is not UTF-8
--crlf --policy Nothing fmt|k|3||ini_tool: 1:2 expecting "[Some('='), Some(':')]" but found EOF.
--crlf --policy Nothing fmt|\0357\0273\0277k|3||ini_tool: 1:2 expecting "[Some('='), Some(':')]" but found EOF.
--crlf --policy Nothing fmt|k=\0303|3||ini_tool: the input is not UTF-8
ROWS

# How a fault of a stream is reported.
in_fault='ini_tool: standard input: '
out_fault='ini_tool: standard output: '
layers_fault='ini_file: standard output: '
closed='Bad file descriptor (os error 9)'
full='No space left on device (os error 28)'
broken='Broken pipe (os error 32)'
large='File too large (os error 27)'
a_folder='Is a directory (os error 21)'

# Streams that are closed, full or no file.
printf 'k=v\n' >"$room/pair"
mkdir "$room/folder"
: >"$room/nothing"
for words in fmt list 'get k' 'set k w' 'del k'; do
    # shellcheck disable=SC2086
    "$program" $words <"$room/pair" >&- 2>"$room/err"
    # del of the one pair writes nothing at all
    case $words in 'del k') told "$words, output closed" $? 0 '' ;; *) told "$words, output closed" $? 4 "$out_fault$closed" ;; esac
    # shellcheck disable=SC2086
    "$program" $words <"$room/folder" >"$room/out" 2>"$room/err"
    told "$words, a folder as input" $? 4 "$in_fault$a_folder"
    # shellcheck disable=SC2086
    "$program" $words <&- >"$room/out" 2>"$room/err"
    told "$words, input closed" $? 4 "$in_fault$closed"
done
"$program" frob <"$room/folder" >&- 2>"$room/err"
told 'usage, output closed, a folder as input' $? 2 "$usage"
"$program" get z <"$room/pair" >&- 2>"$room/err"
told 'not found, output closed' $? 1 ''
"$program" frob <"$room/pair" >"$room/out" 2>&-
wrote 'usage, standard error closed' $? 2 "$room/nothing"
# --help and --version as the first word: nothing is read, and a fault of the output is one
echo "$usage" >"$room/page"
echo 'ini_tool 0.3.0' >"$room/version"
for words in --help '--help fmt'; do
    # shellcheck disable=SC2086
    "$program" $words <"$room/folder" >"$room/out" 2>"$room/err"
    wrote "$words" $? 0 "$room/page"
done
"$program" --version <"$room/folder" >"$room/out" 2>"$room/err"
wrote --version $? 0 "$room/version"
"$program" --crlf --help <"$room/pair" >"$room/out" 2>"$room/err"
told '--help after an option' $? 2 "$usage"
"$program" --help >&- 2>"$room/err"
told '--help, output closed' $? 4 "$out_fault$closed"
"$program" get "$(printf '\303')" <"$room/pair" >"$room/out" 2>"$room/err"
told 'a word that is no text' $? 4 'ini_tool: word 2 is not UTF-8'
"$program" set k v "$(printf 'a\377')" <"$room/folder" >"$room/out" 2>"$room/err"
told 'a word that is no text, the last; nothing is read' $? 4 'ini_tool: word 4 is not UTF-8'
if [ -c /dev/full ]; then
    for words in fmt list 'get k' 'set k w'; do
        # shellcheck disable=SC2086
        "$program" $words <"$room/pair" >/dev/full 2>"$room/err"
        told "$words, a full device" $? 4 "$out_fault$full"
    done
    "$program" del z <"$room/pair" >/dev/full 2>"$room/err"
    told 'not found, a full device' $? 1 ''
    "$program" fmt <"$room/pair" >"$room/out" 2>/dev/full
    wrote 'fmt, standard error full' $? 0 "$room/pair"
fi

# A usage error reads nothing: the input is a pipe that stays open and empty.
mkfifo "$room/pipe"
exec 3<>"$room/pipe"
for words in '' frob 'fmt x' get 'get k s x' 'set k' del --crlf '--policy none fmt' '--policy Basics'; do
    # shellcheck disable=SC2086
    timeout 20 "$program" $words <"$room/pipe" >"$room/out" 2>"$room/err" 3<&-
    told "'$words', an input that stays empty" $? 2 "$usage"
done
timeout 20 "$file" layers <"$room/pipe" >"$room/out" 2>"$room/err" 3<&-
told 'layers without files, an input that stays empty' $? 2 "ini_file: FILE is missing: layers takes FILE ..
Try 'ini_file --help'."
exec 3>&-

# A line of 20 MB.
{ printf 'k='; long 20000000 x; } >"$room/line"
{ cat "$room/line"; echo; } >"$room/lined"
tail -c +3 "$room/lined" >"$room/value"
{ printf '\tk\t'; cat "$room/value"; } >"$room/listed"
gives 'a line of 20 MB, fmt' 0 "$room/lined" "$room/line" "$program" fmt
gives 'a line of 20 MB, get' 0 "$room/value" "$room/line" "$program" get k
gives 'a line of 20 MB, list' 0 "$room/listed" "$room/line" "$program" list
gives 'a line of 20 MB, with its line end' 0 "$room/lined" "$room/lined" "$program" fmt
(
    ulimit -v 30000 && "$program" fmt <"$room/line" >"$room/out" 2>"$room/err"
)
told 'a line of 20 MB, too little memory' $? 4 'ini_tool: out of memory'
: >"$room/err"
wrote 'a line of 20 MB, too little memory: nothing is written' 4 4 "$room/nothing"
if [ -c /dev/full ]; then
    "$program" fmt <"$room/line" >/dev/full 2>"$room/err"
    told 'a line of 20 MB, a full device' $? 4 "$out_fault$full"
fi

# 100,000 sections.
lines 100000 '[s%d]\nk=%d\n\n' | sed '$d' >"$room/many"
lines 100000 '[s%d]\tk\t%d\n' >"$room/listed"
{ cat "$room/many"; printf '\n[new]\nk=v\n'; } >"$room/more"
sed '2d;3d' "$room/many" >"$room/fewer"
echo 99999 >"$room/value"
gives '100,000 sections, fmt' 0 "$room/many" "$room/many" "$program" fmt
gives '100,000 sections, list' 0 "$room/listed" "$room/many" "$program" list
gives '100,000 sections, get in the last' 0 "$room/value" "$room/many" "$program" get k s99999
gives '100,000 sections, get in none' 1 "$room/nothing" "$room/many" "$program" get k s100000
gives '100,000 sections, set in one more' 0 "$room/more" "$room/many" "$program" set k v new
gives '100,000 sections, del in the first' 0 "$room/fewer" "$room/many" "$program" del k s0

# An output that nobody reads on.
{
    "$program" fmt <"$room/many" 2>"$room/err"
    echo $? >"$room/status"
} | head -c 1 >"$room/out"
told 'an output that nobody reads on' "$(cat "$room/status")" 4 "$out_fault$broken"

# is_cut NAME STATUS ERROR TEXT: the last run ended so since its output was full, and wrote a front of the file TEXT
is_cut() {
    told "$1" "$2" 4 "$3"
    head -c "$(wc -c <"$room/out")" "$4" | sum >"$room/want"
    sum <"$room/out" >"$room/have"
    count "$1: what is written is a front of it"
}

# An output that is full after its first pieces: a file may have 100 blocks, and only the last call fails.
lines 5000 'k%d=%d\n' >"$room/some"
(
    trap '' XFSZ
    ulimit -f 100 && "$program" fmt <"$room/some" >"$room/out" 2>"$room/err"
)
is_cut 'an output that is full before the end' $? "$out_fault$large" "$room/some"

# Large texts, and by ini_file layers, warnings, and merges of both sides.
. "$top/tests/program/large.sh"
. "$top/tests/program/layers.sh"
. "$top/tests/program/check.sh"
. "$top/tests/program/sides.sh"
. "$top/tests/program/apply.sh"

# The commands that a page shows: in its blocks marked `console`, or of the manual between .EX and .EE, each line that begins with
# '$ ' is a command, and what follows it, up to the next one, is what the shell then shows. A page's commands run in turn, in a
# folder with the examples.
examples() {
    page=$1
    here=$room/$(basename "$page" .md)
    mkdir -p "$here/shown"
    cp -r "$top/examples" "$here/examples"
    printf '#!/bin/sh\nexec "$@"\n' >"$here/bigrosk"
    chmod +x "$here/bigrosk"
    awk -v to="$here/shown" -v manual="${page%%*.md}" '
        /^```console$|^\.EX$/ { inside = 1; next }
        /^```|^\.EE$/ { inside = 0 }
        manual { gsub(/\\-/, "-"); gsub(/\\e/, "\\") }
        inside && /^\$ / { n++; print substr($0, 3) > (to "/" n ".command"); printf "" > (to "/" n ".output"); next }
        inside { print > (to "/" n ".output") }
        END { print n + 0 > (to "/count") }
    ' "$page"
    total=$(cat "$here/shown/count")
    if [ "$total" -eq 0 ]; then
        failed=$((failed + 1))
        echo "FAILED: $page shows no command"
    fi
    n=1
    while [ "$n" -le "$total" ]; do
        (cd "$here" && PATH=$room/bin:$PATH sh "shown/$n.command") >"$room/have" 2>&1 </dev/null
        cp "$here/shown/$n.output" "$room/want"
        count "$(basename "$page"): $(cat "$here/shown/$n.command")"
        n=$((n + 1))
    done
}
examples "$top/README.md"
examples "$top/docs/PROGRAM.md"
examples "$top/share/man/ini_tool.1"
examples "$top/share/man/ini_file.1"

finish
