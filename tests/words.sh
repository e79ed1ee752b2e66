#!/bin/sh
# Runs the built program ini_file over words as people type them: where options and choices may stand, their short forms, the
# answer to each mistake, which names the word that is wrong and what was expected, the help of each command, and what is reported of
# texts that are refused: each kind of refusal at the place where the mistake begins. Each case that fails is reported. The last
# line is 'N passed, M failed', and the status is 1 if a case failed.
#
#     tests/words.sh [INI_FILE]
#
# The program is by default the one that its script builds.
. "$(dirname "$0")/cases.sh"
program=$(program_of ini_file "${1:-}") || exit 1
source='; a server\nname=one\n[server]\nport=8080\n[client]\nid=7\n'
dialects='crate git systemd desktop python php mysql samba windows kde supervisor fail2ban aws editorconfig npm qt hg'
dialects="$dialects pulseaudio odbc freetds sssd openssl uwsgi xrdp openttd strict"
policies='Nothing Basics BasicsUnicode BasicsUnicodeExtended Reserved ReservedUnicode ReservedUnicodeExtended Everything'
traps='unclosed-bracket, unclosed-quote, joined-line, runs-on, comment-runs-on, dropped-line, lone-cr, header-in-value'
traps="$traps, pair-in-value, repeated-key, repeated-section, after-header, empty-name, section-case, key-case"
traps="$traps, mark-begins-key, colon-separates, escape-in-name, escape-in-key, escape, mark-in-value, text-after-quote"
traps="$traps, half-quote, odd-space, not-plain"
commands='get keys sections list set add delete unset-all comment uncomment add-section delete-section rename-key rename-section merge layers diff apply merge3 rewrite format check'

# Each mistake is reported by one sentence, and where help is; nothing is read or written. WORDS|TOLD
mistakes() {
    while IFS='|' read -r words told; do
        fresh
        # shellcheck disable=SC2086
        ends "a mistake: '$words'" 2 '' "ini_file: $told
Try 'ini_file --help'." $words
        { printf "$source"; echo settings.ini; } >"$room/want"
        { cat settings.ini; ls -A; } >"$room/have"
        count "a mistake: '$words': nothing is written"
    done <<END
|a command is missing: one of $commands
frob|frob is no command; one of $commands
fmt settings.ini|fmt is no command; did you mean format?
lst settings.ini|lst is no command; did you mean list?
del settings.ini name|del is no command; did you mean delete?
rename settings.ini a b|rename is no command; did you mean rename-key?
get|FILE is missing: get takes FILE KEY [SECTION]
get settings.ini|KEY is missing: get takes FILE KEY [SECTION]
set settings.ini k|VALUE is missing: set takes FILE KEY VALUE [SECTION]
merge settings.ini|OTHER is missing: merge takes FILE OTHER ..
delete-section settings.ini|SECTION is missing: delete-section takes FILE SECTION
get settings.ini k s more|more is one word too many: get takes FILE KEY [SECTION]
get settings.ini k s -s t|s is one word too many: get takes FILE KEY [SECTION]
list settings.ini more|more is one word too many: list takes FILE
list --policy Basic settings.ini|Basic is no policy; --policy takes one of $policies
list settings.ini --policy=basics|basics is no policy; --policy takes one of $policies
list settings.ini --policy|--policy takes NAME
list settings.ini --indented-comments=yes|--indented-comments takes no text
list settings.ini --inline-comments=yes|--inline-comments takes no text
list settings.ini --lone-lines refuse|refuse is no word on lone lines; --lone-lines takes refused, keys or runs-on
list settings.ini --lone-lines Keys|Keys is no word on lone lines; --lone-lines takes refused, keys or runs-on
list settings.ini --lone-lines=--policy --policy Basics|--policy is no word on lone lines; --lone-lines takes refused, keys or runs-on
--lone-lines= list settings.ini| is no word on lone lines; --lone-lines takes refused, keys or runs-on
list settings.ini --lone-lines refused --policy --lone-lines|--lone-lines is no policy; --policy takes one of $policies
list settings.ini --lone-lines|--lone-lines takes NAME
list settings.ini --like Git|Git is no dialect; --like takes auto or one of $dialects
--like= list settings.ini --policy x| is no dialect; --like takes auto or one of $dialects
check settings.ini --like fish|fish is no dialect; --like takes auto or one of $dialects
list settings.ini --like|--like takes NAME
list settings.ini --encoding latin-1|latin-1 is no encoding; --encoding takes one of utf-8 utf-16le utf-16be latin1 windows1252
check --encoding= settings.ini| is no encoding; --encoding takes one of utf-8 utf-16le utf-16be latin1 windows1252
list settings.ini --encoding|--encoding takes NAME
get settings.ini k --default|--default takes VALUE
get settings.ini k --type|--type takes NAME
get --last --all settings.ini k|--all gets each value, so --last has no place
keys --last settings.ini|keys doesn't take --last, but --null --section --output --in-place --force --wait --verbose
get settings.ini k --type boolean|boolean is no type; --type takes bool, int, size, float, duration or path
keys --type int settings.ini|keys doesn't take --type, but --null --section --output --in-place --force --wait --verbose
set settings.ini k v --wait|--wait takes SECONDS
set settings.ini k v --output|--output takes FILE
set settings.ini k v --separator|--separator takes TEXT
get settings.ini k -s|--section takes NAME
set settings.ini k v --wait=x|x is no number of seconds; --wait takes one, as 10
set settings.ini k v --wait 1234567890|1234567890 is no number of seconds; --wait takes one, as 10
get settings.ini k --frob|--frob is no option; after -- it is an argument
get settings.ini k -x|-x is no option; after -- it is an argument
get --frob=1 settings.ini k|--frob=1 is no option; after -- it is an argument
get -sserver settings.ini port|-sserver is no option; after -- it is an argument
get --all=1 settings.ini k|--all takes no text
set --dry-run=yes settings.ini k v|--dry-run takes no text
list --all settings.ini|list doesn't take --all, but --origin --null --format --output --in-place --force --wait --verbose
check --all settings.ini|check doesn't take --all, but --null --format --allow --deny --fix --suggest --dry-run --in-place --force --wait --verbose
check --force settings.ini|check takes --force with --fix alone
check settings.ini -n|check takes --dry-run with --fix alone
check --fix=1 settings.ini|--fix takes no text
check --fix --suggest settings.ini|check takes --suggest without --fix, --null and --format
check settings.ini --suggest --format json|check takes --suggest without --fix, --null and --format
check --fix --wait x settings.ini|x is no number of seconds; --wait takes one, as 10
check --format xml settings.ini|xml is no form; --format takes json, sarif or github
check --format sh settings.ini|sh is no form; --format takes json, sarif or github
list --format github settings.ini|github is no form; --format takes lines, json, sh or ini
get --format ini settings.ini k|ini is no form; --format takes lines, json or sh
keys --format json settings.ini|keys doesn't take --format, but --null --section --output --in-place --force --wait --verbose
get --format json --null settings.ini k|--format writes one form, so --null, --origin, --type and --comments have no place
list --format json --origin settings.ini|--format writes one form, so --null, --origin, --type and --comments have no place
get --format sh --type int settings.ini k|--format writes one form, so --null, --origin, --type and --comments have no place
rewrite settings.ini more|more is one word too many: rewrite takes FILE
rewrite --check settings.ini|rewrite doesn't take --check, but --separator --dry-run --output --in-place --force --wait --verbose
format|FILE is missing: format takes FILE ..
format --all settings.ini|format doesn't take --all, but --separator --indent-pairs --blank-lines --align --sort --check --dry-run --output --in-place --force --wait --verbose
format --indent-pairs x settings.ini|x is no number of one or two digits
format --blank-lines=100 settings.ini|100 is no number of one or two digits
format --blank-lines= settings.ini| is no number of one or two digits
format settings.ini --indent-pairs|--indent-pairs takes N
format --sort names settings.ini|names is nothing to sort; --sort takes keys, sections or both
format settings.ini --sort|--sort takes WHAT
format --align=2 settings.ini|--align takes no text
rewrite --align settings.ini|rewrite doesn't take --align, but --separator --dry-run --output --in-place --force --wait --verbose
format --check --output o settings.ini|--check writes no file, so --output has no place
format --wait 3 settings.ini --check|--check writes no file, so --wait has no place
format --output o settings.ini other.ini|--output takes what is made of one file alone
format - -|- is standard input, which can't be read twice
list --blank-lines 1 settings.ini|list doesn't take --blank-lines, but --origin --null --format --output --in-place --force --wait --verbose
check --allow frob settings.ini|frob is no warning; they are all, loses-data, surprises, $traps
check settings.ini --deny|--deny takes NAME
list --allow escape settings.ini|list doesn't take --allow, but --origin --null --format --output --in-place --force --wait --verbose
get -n settings.ini name|get doesn't take --dry-run, but --all --last --default --type --null --format --section --output --in-place --force --wait --verbose
get --force settings.ini name|get takes --force with --output alone
keys --wait 5 settings.ini|keys takes --wait with --output alone
merge settings.ini - -|- is standard input, which can't be read twice
set --existing --separator : settings.ini name v|--existing writes no new line, so --separator has no place
merge - -|- is standard input, which can't be read twice
unset-all settings.ini|KEY is missing: unset-all takes FILE KEY [SECTION]
uncomment settings.ini|KEY is missing: uncomment takes FILE KEY [SECTION]
unset-all settings.ini --all k|unset-all doesn't take --all, but --section --dry-run --output --in-place --force --wait --verbose
add-section settings.ini|SECTION is missing: add-section takes FILE SECTION
add-section settings.ini a b|b is one word too many: add-section takes FILE SECTION
comment settings.ini a b c|c is one word too many: comment takes FILE KEY [SECTION]
layers|FILE is missing: layers takes FILE ..
layers - settings.ini -|- is standard input, which can't be read twice
layers -n settings.ini|layers doesn't take --dry-run, but --origin --null --separator --output --in-place --force --wait --verbose
layers --null settings.ini|layers takes --null with --origin alone
layers --origin --separator : settings.ini|--origin writes no document, so --separator has no place
keys --origin settings.ini|keys doesn't take --origin, but --null --section --output --in-place --force --wait --verbose
diff --origin settings.ini other.ini|diff doesn't take --origin, but --format --color --lists --comments --output --in-place --force --wait --verbose
layers --force settings.ini|layers takes --force with --output alone
layers -s server settings.ini|layers has no section, so --section server has no place
diff settings.ini|OTHER is missing: diff takes FILE OTHER
diff - -|- is standard input, which can't be read twice
diff -n settings.ini settings.ini|diff doesn't take --dry-run, but --format --color --lists --comments --output --in-place --force --wait --verbose
diff --verbose settings.ini settings.ini|diff takes --verbose with --output alone
diff settings.ini settings.ini more|more is one word too many: diff takes FILE OTHER
diff --format xml settings.ini settings.ini|xml is no form; --format takes lines, json or edits
diff --format sh settings.ini settings.ini|sh is no form; --format takes lines, json or edits
list --format edits settings.ini|edits is no form; --format takes lines, json, sh or ini
set --format lines settings.ini k v|set doesn't take --format, but --all --existing --separator --section --dry-run --output --in-place --force --wait --verbose
diff --color=red settings.ini settings.ini|red is no colour; --color takes auto, always or never
diff settings.ini settings.ini --color|--color takes WHEN
diff --comments --format json settings.ini settings.ini|--format writes one form, so --null, --origin, --type and --comments have no place
diff --lists=1 settings.ini settings.ini|--lists takes no text
apply --comments settings.ini|apply doesn't take --comments, but --lists --reverse --dry-run --output --in-place --force --wait --verbose
merge --lists settings.ini settings.ini|merge doesn't take --lists, but --dry-run --output --in-place --force --wait --verbose
list --color always settings.ini|list doesn't take --color, but --origin --null --format --output --in-place --force --wait --verbose
apply|FILE is missing: apply takes FILE [EDITS]
apply -|- is standard input, which can't be read twice
apply - -|- is standard input, which can't be read twice
apply settings.ini edits more|more is one word too many: apply takes FILE [EDITS]
apply --format edits settings.ini|apply doesn't take --format, but --lists --reverse --dry-run --output --in-place --force --wait --verbose
merge3 settings.ini - -|- is standard input, which can't be read twice
merge3 settings.ini settings.ini|THEIRS is missing: merge3 takes BASE OURS THEIRS
merge3 --force settings.ini settings.ini settings.ini|merge3 takes --force with --output alone
merge --ours settings.ini settings.ini|merge doesn't take --ours, but --dry-run --output --in-place --force --wait --verbose
merge3 --ours=1 settings.ini settings.ini settings.ini|--ours takes no text
list -s server settings.ini|list has no section, so --section server has no place
END
}

# Options, choices and sections wherever they stand before --, in each form. WORDS|OUTPUT
places() {
    while IFS='|' read -r words output; do
        fresh
        # shellcheck disable=SC2086
        ends "$words" 0 "$output" '' $words
    done <<'END'
get settings.ini port server|8080\n
get settings.ini port -s server|8080\n
get -s server settings.ini port|8080\n
-s server get settings.ini port|8080\n
get settings.ini --section server port|8080\n
get settings.ini --section=server port|8080\n
--section=server get settings.ini port|8080\n
keys settings.ini -s client|id\n
get --default=5 settings.ini none|5\n
get settings.ini none --default 5|5\n
get settings.ini --default= none|\n
get settings.ini --default -x none|-x\n
get settings.ini --default -- none|--\n
--all get settings.ini name|one\n
get settings.ini name --all --null --crlf|one\0
list settings.ini --noquote --policy=Reserved|\tname\tone\n[server]\tport\t8080\n[client]\tid\t7\n
get -- settings.ini name|one\n
get settings.ini -- name|one\n
get settings.ini name --|one\n
set settings.ini name two -n|\055-- settings.ini\n+++ settings.ini\n@@ -2,1 +2,1 @@\n-name=one\n+name=two\n
--dry-run set settings.ini name two|\055-- settings.ini\n+++ settings.ini\n@@ -2,1 +2,1 @@\n-name=one\n+name=two\n
--diff set settings.ini name two|\055-- settings.ini\n+++ settings.ini\n@@ -2,1 +2,1 @@\n-name=one\n+name=two\n
-n set settings.ini name -5|\055-- settings.ini\n+++ settings.ini\n@@ -2,1 +2,1 @@\n-name=one\n+name=-5\n
-n set settings.ini name -- -x|\055-- settings.ini\n+++ settings.ini\n@@ -2,1 +2,1 @@\n-name=one\n+name=-x\n
-n set settings.ini -- name --x|\055-- settings.ini\n+++ settings.ini\n@@ -2,1 +2,1 @@\n-name=one\n+name=--x\n
-n set settings.ini port 1 -s server|\055-- settings.ini\n+++ settings.ini\n@@ -4,1 +4,1 @@\n-port=8080\n+port=1\n
-n delete settings.ini id -s client|\055-- settings.ini\n+++ settings.ini\n@@ -6,1 +5,0 @@\n-id=7\n
-n delete-section settings.ini -s client|\055-- settings.ini\n+++ settings.ini\n@@ -5,2 +4,0 @@\n-[client]\n-id=7\n
-n rename-key settings.ini id key -s client|\055-- settings.ini\n+++ settings.ini\n@@ -6,1 +6,1 @@\n-id=7\n+key=7\n
get settings.ini name --indented-comments|one\n
get --indented-comments settings.ini name|one\n
get settings.ini name --inline-comments|one\n
get --inline-comments settings.ini name|one\n
get settings.ini name --lone-lines refused|one\n
get settings.ini --lone-lines=refused name|one\n
--lone-lines=refused get settings.ini name --lone-lines runs-on|one\n
get settings.ini name --lone-lines=keys|one\n
list --lone-lines keys settings.ini|\tname\tone\n[server]\tport\t8080\n[client]\tid\t7\n
set settings.ini k v --output=- --separator=:|; a server\nname=one\nk=v\n[server]\nport=8080\n[client]\nid=7\n
set none.ini k v --output=- --separator=:|k:v\n
--like git get settings.ini NAME|one\n
get settings.ini PORT --like=windows -s SERVER|8080\n
--like git get settings.ini name --like crate|one\n
set none.ini k v --output=- --like git|k = v\n
set none.ini k v --output=- --like git --separator=:|k:v\n
set none.ini k v --output=- --like windows|k=v\r\n
set none.ini k a\b --output=- --like samba|k = a\\b\n
set none.ini k a\b --output=- --policy Basics --like kde|k=a\\\\b\n
set none.ini k a\b --output=- --like kde --noescape --policy Nothing|k=a\\b\n
set none.ini k a\ --output=- --like samba --raw-backslash|k = a\\\n
END
}

# Questions and edits by the rules of dialects. WORDS|STATUS|OUTPUT
likes() {
    while IFS='|' read -r words status output; do
        fresh
        printf '[A]\nk=1\nK=2\n[b]\nx=3\n[a]\nk=4\n[B]\nj=5\nx=6\n[a]\nk=7\nm=8\n' >rules.ini
        # shellcheck disable=SC2086
        ends "$words" "$status" "$output" '' $words
    done <<'END'
get rules.ini k a|0|4\n
get rules.ini m a|1|
get rules.ini k a --last|0|4\n
get rules.ini m a --last --default 0|0|0\n
sections rules.ini|0|A\nb\na\nB\n
sections rules.ini --all|0|A\nb\na\nB\na\n
sections --all --null rules.ini|0|A\000b\000a\000B\000a\000
--like git sections rules.ini --all|0|A\nb\na\nB\na\n
--like windows get rules.ini k a --last|0|2\n
--like systemd get rules.ini k a --last|0|7\n
--like systemd get rules.ini k a|0|7\n
--like systemd get rules.ini m a|0|8\n
--like systemd get rules.ini K a|1|
--like systemd get rules.ini K A|0|2\n
--like systemd get rules.ini k a --all|0|4\n7\n
--like systemd get rules.ini n a --all --default x|0|x\n
--like systemd get rules.ini k c|1|
--like systemd keys rules.ini a|0|k\nm\n
--like systemd keys rules.ini c|1|
--like systemd keys rules.ini|0|
--like systemd sections rules.ini|0|A\nb\na\nB\n
--like git get rules.ini k a|0|7\n
--like git get rules.ini K a --all --null|0|1\0002\0004\0007\000
--like git get rules.ini J b|0|5\n
--like git get rules.ini x B|0|6\n
--like git keys rules.ini A|0|k\nm\n
--like git keys rules.ini b --null|0|x\0j\0
--like git sections rules.ini|0|A\nb\n
--like windows get rules.ini K a|0|1\n
--like windows get rules.ini k a --all|0|1\n2\n
--like windows get rules.ini m a|1|
--like windows keys rules.ini a|0|k\n
--like windows sections rules.ini|0|A\nb\n
--like openttd get rules.ini k a|0|4\n
--like strict get rules.ini k a|0|4\n
--like strict get rules.ini k a --last --lone-lines runs-on|0|4\n
--like strict get rules.ini k a --lone-lines keys|0|4\n
--like openttd keys rules.ini A|0|k\nK\n
--like openttd set rules.ini k v A -n|0|--- rules.ini\n+++ rules.ini\n@@ -2,1 +2,1 @@\n-k=1\n+k=v\n
--like windows set rules.ini K v a -n|0|--- rules.ini\n+++ rules.ini\n@@ -2,1 +2,1 @@\n-k=1\n+k=v\n
--like systemd set rules.ini k v a -n|0|--- rules.ini\n+++ rules.ini\n@@ -12,1 +12,1 @@\n-k=7\n+k=v\n
--like git set rules.ini x v b -n|0|--- rules.ini\n+++ rules.ini\n@@ -10,1 +10,1 @@\n-x=6\n+x=v\n
--like systemd set rules.ini new v a -n|0|--- rules.ini\n+++ rules.ini\n@@ -13,0 +14,1 @@\n+new=v\n
--like systemd add rules.ini x v b -n|0|--- rules.ini\n+++ rules.ini\n@@ -5,0 +6,1 @@\n+x=v\n
--like git set --existing rules.ini new v a|1|
--like systemd delete rules.ini k a --output -|0|[A]\nk=1\nK=2\n[b]\nx=3\n[a]\n[B]\nj=5\nx=6\n[a]\nm=8\n
--like git delete rules.ini K a --output -|0|[A]\n[b]\nx=3\n[a]\n[B]\nj=5\nx=6\n[a]\nm=8\n
--like git delete rules.ini new a|1|
END
    INI_LIKE=git
    export INI_LIKE
    fresh
    ends 'a dialect of the environment' 0 '8080\n' '' get settings.ini PORT SERVER
    ends 'a dialect of the environment, and --like' 1 '' '' --like crate get settings.ini PORT SERVER
    INI_LIKE=fish
    ends 'a dialect of the environment that is none' 2 '' "ini_file: fish is no dialect; --like takes auto or one of $dialects
Try 'ini_file --help'." list settings.ini
    INI_LIKE=
    ends 'an empty dialect of the environment' 1 '' '' get settings.ini PORT SERVER
    unset INI_LIKE
}

# Values with types, as git writes those that it has; what a value is not is reported at its place. WORDS|STATUS|OUTPUT|TOLD
types() {
    HOME=/home/ada
    export HOME
    while IFS='|' read -r words status output told; do
        fresh
        printf '[a]\nb = yes\nb = Off\nn = 16k\nm = -3\n\tg = +2G\nf = 1.50\ne = 1e3\nt = 90\nu = 1500ms\n' >types.ini
        printf 'h = 2h\np = ~/x\nq = /etc\nr = ~root/x\ns = ~\no =\nl = 1\nl = "x" \n[A]\nn = 7\n' >>types.ini
        # shellcheck disable=SC2086
        ends "$words" "$status" "$output" "${told:+types.ini:$told}" $words
    done <<'END'
get types.ini b a --type bool|0|true\n|
get types.ini b a --all --type=bool|0|true\nfalse\n|
get types.ini b a --all --type bool --null|0|true\000false\000|
--like systemd get types.ini b a --type bool|0|false\n|
get types.ini b a --last --type bool|0|false\n|
get types.ini n a --type int|0|16384\n|
get types.ini m a --type int|0|-3\n|
get types.ini g a --type int|0|2147483648\n|
get types.ini g a --type size|0|2147483648\n|
--like git get types.ini n a --type int|0|7\n|
get types.ini f a --type float|0|1.5\n|
get types.ini e a --type float|0|1000\n|
get types.ini t a --type duration|0|90\n|
get types.ini u a --type duration|0|1.500000\n|
get types.ini h a --type duration|0|7200\n|
get types.ini p a --type path|0|/home/ada/x\n|
get types.ini s a --type path|0|/home/ada\n|
get types.ini q a --type path|0|/etc\n|
get types.ini o a --type path|0|\n|
get types.ini x a --type int|1||
get types.ini x a --type int --default 1k|0|1024\n|
get types.ini n a --type int --default x|0|16384\n|
END
    while IFS='~' read -r words told line caret; do
        fresh
        printf '[a]\nb = yes\nn = 16kb\n\tm = -3\nl = 1\nl = "x" \n[a]\nk=\n[A]\nb=7\nr = ^root/x\n[a]\nm=5s\n' | tr '^' '~' >types.ini
        # shellcheck disable=SC2086
        ends "no such value: $words" 2 '' "types.ini:$told
$(printf "$line")
$(printf "$caret")" $words
    done <<'END'
get types.ini n a --type int~3:5: expected a whole number, as 8080 or 16k~n = 16kb~    ^
get types.ini m a --type size~4:6: expected a number of bytes, as 512 or 16k~\tm = -3~\t    ^
get types.ini m a --last --type size~4:6: expected a number of bytes, as 512 or 16k~\tm = -3~\t    ^
get types.ini b a --type float~2:5: expected a number, as 0.5~b = yes~    ^
get types.ini b a --type duration~2:5: expected a span of time, as 90, 500ms or 1h~b = yes~    ^
get types.ini l a --all --type int~6:5: expected a whole number, as 8080 or 16k~l = "x" ~    ^
get types.ini l a --last --type int~6:5: expected a whole number, as 8080 or 16k~l = "x" ~    ^
--like systemd get types.ini l a --type int~6:5: expected a whole number, as 8080 or 16k~l = "x" ~    ^
--like systemd get types.ini k a --type int~8:3: expected a whole number, as 8080 or 16k~k=~  ^
--like git get types.ini b a --type bool~10:3: expected a bool: true, yes, on, 1, false, no, off or 0~b=7~  ^
END
    ends 'another user'"'"'s home folder' 2 '' "types.ini:11:5: expected a file's name; ~ is the folder of HOME, before / alone
r = ~root/x
    ^" get types.ini r A --type path
    printf 'a\n  k \nj\n' >lone.ini
    ends 'no such value: a key alone' 2 '' "lone.ini:2:5: expected a whole number, as 8080 or 16k
  k 
    ^" --lone-lines keys get lone.ini k --type int
    ends 'a key alone as a path' 0 '\n' '' --lone-lines keys get lone.ini k --type path
    ends 'a default that is none' 2 '' 'ini_file: types.ini: --default: expected a whole number, as 8080 or 16k' \
        get types.ini x a --type int --default x
    printf 'p = ~/x\nh = 1\n' >types.ini
    (unset HOME; ends 'no home folder' 2 '' "types.ini:1:5: expected a file's name; ~ is the folder of HOME, before / alone
p = ~/x
    ^" get types.ini p --type path; echo "$passed $failed" >"$room/counts")
    read -r passed failed <"$room/counts"
    printf 'k = "v\n' >types.ini
    ends 'a type in a text that is refused' 3 '' "types.ini:1:5: this quote isn't closed
k = \"v
    ^
note: the text ends at 2:1" get types.ini k --type int
    ends 'a type of a file that is not there' 4 '' 'ini_file: none.ini: No such file or directory (os error 2)' \
        get none.ini k --type int
    printf 'foo\nport = 80\n' >types.ini
    ends 'a type of a pair that a line hides' 1 '' 'note: types.ini:1:1: this line has no separator and runs on into the next' \
        get types.ini port --type int
    ends 'a type, into a file' 0 '' 'changed' get types.ini x --default 1k --type int --output out.txt --verbose
    is 'a type, into a file: the file' 1024 "$(cat out.txt)"
}

# Each pair with its file and its line, also of values of several lines and of a pair after others on its line.
origins() {
    fresh
    printf 'k = 1\n\n; a note\n[a b]\n\tj = "x\ny"\nm = 2\n  n=\n' >o.ini
    ends 'origins' 0 'o.ini:1:\tk\t1\no.ini:5:[a b]\tj\tx\\ny\no.ini:7:[a b]\tm\t2\no.ini:8:[a b]\tn\t\n' '' list --origin o.ini
    ends 'origins, as they stand' 0 'o.ini\0001\000\000k\0001\000o.ini\0005\000[a b]\000j\000x\ny\000o.ini\0007\000[a b]\000m\0002\000o.ini\0008\000[a b]\000n\000\000' '' \
        list --origin --null --output - o.ini --like crate
    printf 'k = v\r\nlong = a\r\n  b\r\nn = 1\r\n' >"an ini.ini"
    ends 'origins after a value of several lines' 0 'an ini.ini:1:\tk\tv\nan ini.ini:2:\tlong\ta\\nb\nan ini.ini:4:\tn\t1\n' '' \
        --multiline list "an ini.ini" --origin
    printf '\357\273\277k = 1\n' >o.ini
    ends 'origins after a mark' 0 'o.ini:1:\tk\t1\n' '' --origin list o.ini
    : >o.ini
    ends 'no origins' 0 '' '' list --origin o.ini
    printf 'k = 1\n = 2\n' >o.ini
    ends 'origins of a text that is refused' 3 '' "o.ini:2:2: no key stands before this
 = 2
 ^" list --origin o.ini
    ends 'origins of bytes of standard input' 0 '-:1:\tk\t1\n' '' list --origin - <<'END'
k = 1
END
}

# Pairs and values for programs. A shell that evaluates the assignments has the values.
forms() {
    fresh
    printf 'k = 1\n[a b]\nj = it'"'"'s "q"\\\\ \\tz\nJ = 2\n[\303\251]\nx =\n[a b]\nj = 3\n[9]\nx.y = $(echo no)`no`\\n$k\n' >f.ini
    ends 'JSON of all pairs' 0 '{"":{"k":"1"},"a b":{"j":["it'"'"'s \\"q\\"\\\\ \\u0009z","3"],"J":"2"},"\303\251":{"x":""},"9":{"x.y":"$(echo no)`no`\\u000A$k"}}\n' \
        '' list --format json f.ini
    ends 'JSON of all pairs in any case' 0 '{"":{"k":"1"},"a b":{"j":["it'"'"'s \\"q\\"\\\\ \\u0009z","2","3"]},"\303\251":{"x":""},"9":{"x.y":"$(echo no)`no`\\u000A$k"}}\n' \
        '' --like git list f.ini --format=json
    ends 'assignments' 0 '_k='"'1'"'\na_b_j='"'it'\\\\''s"' "q"\\ \tz'"'"'\na_b_J='"'2'"'\n___x='"''"'\na_b_j='"'3'"'\n_9_x_y='"'"'$(echo no)`no`\n$k'"'"'\n' \
        '' list --format sh f.ini
    "$program" list --format sh f.ini >assignments
    is 'the values that a shell has' "1 3 2  \$(echo no)\`no\`
\$k" "$(eval "$(cat assignments)"; printf '%s %s %s %s %s' "$_k" "$a_b_j" "$a_b_J" "$___x" "$_9_x_y")"
    is 'a value with an apostrophe in a shell' "it's \"q\"\\ $(printf '\t')z" \
        "$(eval "$("$program" get --format sh f.ini j 'a b')"; printf %s "$a_b_j")"
    "$program" rewrite --output - f.ini >"$room/want"
    "$program" list --format ini f.ini >"$room/have" 2>&1
    count 'the document, written anew'
    "$program" list f.ini >"$room/want"
    "$program" list f.ini --format lines >"$room/have" 2>&1
    count 'the form of lines'
    : >none.ini
    ends 'JSON of no text' 0 '{"":{}}\n' '' list --format json none.ini
    while IFS='|' read -r words status output; do
        # shellcheck disable=SC2086
        ends "$words" "$status" "$output" '' $words
    done <<'END'
get --format json f.ini k|0|"1"\n
get --format json f.ini x.y 9 --all|0|"$(echo no)`no`\\u000A$k"\n
--like systemd get --format json f.ini x \303\251|1|
--like systemd get --format json --default a"b f.ini none|0|"a\\"b"\n
get --format json f.ini none|1|
get --format sh f.ini k|0|_k='1'\n
get --format sh --default it's f.ini none 9|0|_9_none='it'\\''s'\n
get --format sh f.ini none|1|
get --format lines f.ini k|0|1\n
END
    ends 'JSON of several values' 0 '["it'"'"'s \\"q\\"\\\\ \\u0009z","3"]\n' '' --like kde get --all --format json f.ini j 'a b'
    ends 'assignments of several values' 0 'a_b_j='"'it'\\\\''s"' "q"\\ \tz'"'"'\na_b_j='"'3'"'\n' '' \
        --like kde get --all --format sh f.ini j 'a b'
    printf 'k = 1\n = 2\n' >f.ini
    for form in json sh ini; do
        ends "a text that is refused: $form" 3 '' "f.ini:2:2: no key stands before this
 = 2
 ^" list --format $form f.ini
    done
}

# The dialect that a file's name tells, else its text. WORDS|STATUS|OUTPUT|TOLD
autos() {
    others='several dialects read it as well; name one by --like'
    while IFS='|' read -r words status output told; do
        fresh
        mkdir sub
        printf '[A]\nk = 1\n[a]\nK = 2\n' >.gitconfig
        cp .gitconfig sub/.gitmodules
        cp .gitconfig sub/app.gitconfig
        printf '[U]\nk = "a\\b"\n[U]\nk = 2\n' >app.service
        printf '[*.c]\nk = 1\n[[ab].c]\nk = 2\n' >x.ini
        printf 'k = C:\\temp\n[s]\nj = 1\n' >path.ini
        printf '[a\n' >none.ini
        printf '[a]\nk = 1\n' >my.cnf
        # shellcheck disable=SC2086
        ends "auto: $words" "$status" "$output" "$(echo "$told" | tr '~' '\n')" $words
    done <<END
--like auto get .gitconfig k a|0|2\\n|
get ./sub/.gitmodules k A --like=auto|0|2\\n|
--like auto get sub/app.gitconfig k a|1||note: sub/app.gitconfig: read as crate
--like auto get app.service k U|0|2\\n|
--like auto get path.ini k|0|C:\\\\temp\\n|note: path.ini: read as systemd
--like auto get x.ini k [ab].c|0|2\\n|note: x.ini: read as kde
--like auto set my.cnf j 2 a --output -|0|[a]\\nk = 1\\nj = 2\\n|
--like auto set .gitconfig k 3 a --output -|0|[A]\\nk = 1\\n[a]\\nK = 3\\n|
--like auto set settings.ini name two|2||ini_file: settings.ini: $others
--like auto delete path.ini k|2||ini_file: path.ini: $others
--like auto check path.ini --fix|2||ini_file: path.ini: $others
--like auto check path.ini|0||note: path.ini: read as systemd
--like auto diff settings.ini settings.ini|0||note: settings.ini: read as crate
--like auto get settings.ini name|0|one\\n|note: settings.ini: read as crate
--like auto get - name|2||ini_file: -: --like auto reads no standard input
--like auto get gone.ini name|4||ini_file: gone.ini: No such file or directory (os error 2)
--like auto get|2||ini_file: FILE is missing: get takes FILE KEY [SECTION]~Try 'ini_file --help'.
END
}

# The dialects that read a file, those first under which a backslash is a character like others.
suggests() {
    fresh
    printf 'path = C:\\temp\n' >path.ini
    printf '[a\n' >none.ini
    want=
    for name in systemd python mysql samba windows supervisor fail2ban aws editorconfig npm hg sssd; do
        want="${want}path.ini: $name: 0\\n"
    done
    for name in crate git desktop php kde qt pulseaudio odbc freetds openssl uwsgi xrdp openttd strict; do
        want="${want}path.ini: $name: 1\\n"
    done
    ends 'the dialects of a path' 0 "$want" '' check --suggest path.ini
    ends 'a text of no dialect' 1 '' '' check --suggest none.ini
    printf 'one\ntwo = 2\n' >runs.ini
    "$program" check --suggest runs.ini | cut -d ' ' -f 2 | tr -d : | sort >"$room/have"
    # shellcheck disable=SC2086
    printf '%s\n' $dialects | grep -v -x strict | sort >"$room/want"
    count 'each dialect but strict reads a line without separator'
}

# Help, of the program and of each command: status 0, on standard output.
helps() {
    fresh
    "$program" --help >"$room/help"
    for words in -h help --help '--crlf -h' '--help get'; do
        cp "$room/help" "$room/want"
        # shellcheck disable=SC2086
        "$program" $words >"$room/have" 2>&1
        count "$words: the help"
    done
    for command in $commands; do
        for words in "$command --help" "$command -h" "-h $command" "--crlf $command -h" "$command settings.ini --help" \
            "help $command"; do
            # shellcheck disable=SC2086
            "$program" $words >"$room/out" 2>"$room/err"
            { echo "status $?"; head -n 1 "$room/out"; sed -n 3p "$room/out" | tr -s ' ' | cut -c 1-60; cat "$room/err"; } >"$room/have"
            line=$(grep "^  $command " "$room/help")
            takes=$(echo "$line" | sed 's/^ *\([^ ]* .*[^ ]\)   *[a-zA-Z].*/\1/; s/  .*//')
            { echo 'status 0'; echo "usage: ini_file [OPTION].. $command [CHOICE].. [--] ${takes#* }"
                echo "$line" | tr -s ' ' | cut -c 1-60; } >"$room/want"
            count "$words: the help of the command"
        done
    done
    ends 'the help of no command' 2 '' "ini_file: frob is no command; one of $commands
Try 'ini_file --help'." frob -h
    "$program" set -h | grep -o '^  --[a-z-]*' | sort -u >"$room/have"
    printf '  %s\n' -- --all --dry-run --existing --force --in-place --output --section --separator --verbose --wait >"$room/want"
    count 'set -h: its choices'
}

# Texts that are refused: OPTIONS|TEXT|PLACE AND WORDS|LINE|CARET|WHAT FOLLOWS
refused() {
    while IFS='~' read -r options text told line caret more; do
        fresh
        printf "$text" >settings.ini
        # shellcheck disable=SC2086
        "$program" $options list settings.ini >"$room/have" 2>&1
        echo "status $?" >>"$room/have"
        { echo "settings.ini:$told"; if [ -n "$line" ]; then printf '%s\n' "$line" "$caret"; fi
            if [ -n "$more" ]; then echo "$more"; fi; echo 'status 3'; } >"$room/want"
        count "a refused text: $options '$text'"
    done <<'END'
~k = "v\n\nw\n~1:5: this quote isn't closed~k = "v~    ^~note: the text ends at 4:1
~a = 1\n  k='v~2:5: this quote isn't closed~  k='v~    ^~note: the text ends at 2:7
~a\\=b = "c\\"~1:8: this quote isn't closed~a\=b = "c\"~       ^~note: the text ends at 1:12
--noescape~a\\="c~1:1: this key has no = or : after it~a\="c~^~note: the text ends at 1:6
--noescape --raw-backslash~a\\="c~1:4: this quote isn't closed~a\="c~   ^~note: the text ends at 1:6
~a = 1\n[b\nc = 2\n~2:1: this bracket isn't closed~[b~^~note: the text ends at 4:1
~a = 1\n\n  [b\n~3:3: this bracket isn't closed~  [b~  ^~note: the text ends at 4:1
--brackets~a = 1\n[b~2:1: this bracket isn't closed~[b~^~note: the text ends at 2:3
~a = 1\nkey\n~2:1: this key has no = or : after it~key~^~note: the text ends at 3:1
~k = v\\x12~1:6: this escape has no end~k = v\x12~     ^~note: the text ends at 1:10
--noquote~k = "v\\x1~1:7: this escape has no end~k = "v\x1~      ^~note: the text ends at 1:10
~a = 1\n  = 2\n~2:3: no key stands before this~  = 2~  ^~
~: 2\n~1:1: no key stands before this~: 2~^~
~[s] ; a\n~1:5: a comment begins only at the front of a line~[s] ; a~    ^~
~k = \\x12\\z4\n~1:10: a backslash stands among the four digits after \x~k = \x12\z4~         ^~
~k = \\xd800\n~1:10: no character has these four digits after \x~k = \xd800~         ^~
--brackets~[a]x\nk=v\n~1:5: the line of a section's name doesn't end in ]~[a]x~    ^~
--indented-comments~[s] ; a\n~1:5: a comment begins only at the front of a line~[s] ; a~    ^~
--indented-comments~  ; a\n  = 2\n~2:3: no key stands before this~  = 2~  ^~
--indented-comments~k = v\r;a\r[b\n~1:10: this bracket isn't closed~k = v\x000d;a\x000d[b~                   ^~note: the text ends at 2:1
--indented-comments --lone-lines refused~  ; a\nabc\nk = v\n~2:1: this key has no = or : after it in its line~abc~^~
--inline-comments~[s] ; a\n = 2\n~2:2: no key stands before this~ = 2~ ^~
--inline-comments~k = v ; a\n[b\n~2:1: this bracket isn't closed~[b~^~note: the text ends at 3:1
--inline-comments~k = "v ; a~1:5: this quote isn't closed~k = "v ; a~    ^~note: the text ends at 1:11
--inline-comments --lone-lines refused~a = 1 ; b\nabc\n~2:1: this key has no = or : after it in its line~abc~^~
--like supervisor~[s] ; a\n[b~2:1: this bracket isn't closed~[b~^~note: the text ends at 2:3
--like git~\t; a\nkey\n~2:1: this key has no = or : after it~key~^~note: the text ends at 3:1
--lone-lines refused~a = 1\nabc\nk = v\n~2:1: this key has no = or : after it in its line~abc~^~
--lone-lines=refused~[a] b c\r\nk = v\n~1:5: this key has no = or : after it in its line~[a] b c~    ^~
--lone-lines refused~k = v\n  ; c\n[b\n~2:3: this key has no = or : after it in its line~  ; c~  ^~
--lone-lines refused~a\\\nb\nk = v\n~1:1: this key has no = or : after it in its line~a\~^~
--lone-lines refused~k = v\n  abc~2:3: this key has no = or : after it~  abc~  ^~note: the text ends at 2:6
--like strict~a = 1\nabc\nk = v\n~2:1: this key has no = or : after it in its line~abc~^~
--lone-lines refused --like strict~abc\n~1:1: this key has no = or : after it in its line~abc~^~
--lone-lines keys~abc\na\\x00~2:2: this escape has no end~a\x00~ ^~note: the text ends at 2:6
--lone-lines keys~\\x0020\\x00~1:7: this escape has no end~\x0020\x00~      ^~note: the text ends at 1:11
--lone-lines keys~k\n  \\\n~2:3: no key stands here~  \~  ^~note: the text ends at 3:1
--lone-lines keys~\\x0020~1:1: no key stands here~\x0020~^~note: the text ends at 1:7
--lone-lines keys~k\n\\\n\n~3:1: no key stands before this
--lone-lines keys~k\n = 2\n~2:2: no key stands before this~ = 2~ ^~
--lone-lines keys~abc\nk = "v\n~2:5: this quote isn't closed~k = "v~    ^~note: the text ends at 3:1
--lone-lines keys~abc\nk = v\\x1~2:6: this escape has no end~k = v\x1~     ^~note: the text ends at 2:9
--lone-lines keys~abc\n[b\n~2:1: this bracket isn't closed~[b~^~note: the text ends at 3:1
--like strict --lone-lines keys~abc\n[b] ; c\n~2:5: a comment begins only at the front of a line~[b] ; c~    ^~
--lone-lines refused~k\n\n= v\n~1:1: this key has no = or : after it in its line~k~^~
END
    # among the lines of a value: CR without LF
    fresh
    printf 'k = a\n\r b' >settings.ini
    "$program" --multiline list settings.ini >"$room/have" 2>&1
    grep -c 'settings.ini:2:[12]: among the lines of a value a CR has no LF after it' "$room/have" >"$room/found"
    mv "$room/found" "$room/have"
    echo 1 >"$room/want"
    count 'a refused text: CR without LF among the lines of a value'
    # check says the same
    printf 'k = "v\n' >settings.ini
    "$program" list settings.ini >"$room/want" 2>&1
    "$program" check settings.ini >"$room/have" 2>&1
    count 'check tells a refused text as list does'
    # a mark is no part of the text
    printf '\357\273\277k = "v\n' >settings.ini
    "$program" check settings.ini >"$room/have" 2>&1
    count 'a mark is no part of the text'
    # no caret stands below nothing
    printf '\n\n' >settings.ini
    printf 'k\n\n\n' >>settings.ini
    "$program" list settings.ini 2>&1 | grep -c -x '' >"$room/have"
    echo 0 >"$room/want"
    count 'no empty line is shown'
}

# Bytes that are no UTF-8: their place, and what they look like. BYTES|WHAT IS REPORTED
bytes() {
    while IFS='|' read -r bytes told; do
        fresh
        printf "$bytes" >settings.ini
        for command in list check 'set -n'; do
            set --
            if [ "$command" = 'set -n' ]; then set -- k v; fi
            # shellcheck disable=SC2086
            ends "$command of bytes that are no UTF-8: '$bytes'" 3 '' "settings.ini:$told" $command settings.ini "$@"
        done
    done <<'END'
k\000=\000\344\000|1:5: this byte is no UTF-8; the file looks like UTF-16: use --encoding utf-16le or utf-16be
name = caf\351\n|1:11: this byte is no UTF-8; the file looks like Latin-1: use --encoding latin1
a = 1\r\n\n\tb = \303\251t\351\n|3:8: this byte is no UTF-8; the file looks like Latin-1: use --encoding latin1
\357\273\277k = \344|1:5: this byte is no UTF-8, of which the file has the byte order mark
k = \303\n|1:5: this byte is no UTF-8; the file looks like Latin-1: use --encoding latin1
k = \200\n|1:5: this byte is no UTF-8; the file looks like Windows-1252: use --encoding windows1252
\n\001\377|2:2: this byte is no UTF-8; --encoding names another encoding
END
}

# unwritten WORDS WHAT, over lines of OPTIONS|WORD|WHY: the word can't be written, and why
unwritten() {
    what=$1
    shift
    while IFS='|' read -r options word told; do
        fresh
        word=$(printf -- "$word.")
        { printf '%s\n' "ini_file: settings.ini: this $what can't be written so that it is read back" "note: $told"
            echo 'status 2'; } >"$room/want"
        words=$options
        # shellcheck disable=SC2086
        set_words "$what" "${word%.}" $words >"$room/have" 2>&1
        count "a $what that can't be written: $options '$word'"
    done
}

# set_words WHAT WORD OPTION..: a run that would write the word
set_words() {
    what=$1
    word=$2
    shift 2
    case $what in
        value) "$program" "$@" set -- settings.ini k "$word" ;;
        key) "$program" "$@" add -- settings.ini "$word" v ;;
        name) "$program" "$@" set -- settings.ini k v "$word" ;;
        separator) "$program" "$@" add --separator "$word" -- settings.ini k v ;;
    esac
    echo "status $?"
}

# Each reason why a word can't be written, and the option that helps, with which it is written. OPTIONS|WORD|WHY
reasons() {
    unwritten value <<'END'
| "'|white space begins or ends it
--noquote| v|white space begins or ends it
--noquote|v\t|white space begins or ends it
|"v'|a quote begins it: use --noquote
--policy Nothing|'v"|a quote begins it: use --noquote
--noquote --policy Nothing|a\nb|it has a line end: use --policy Basics
--noescape|a\nb|it has a line end
--policy Nothing|a\\b|it has a backslash: use --policy Basics
--noescape|a\\b|it has a backslash: use --policy Nothing
--noescape --policy Nothing|a\\|a backslash at its end would take what follows: use --raw-backslash
--noescape|a\001b|it has a character that is written as an escape, and --noescape reads none: use --policy Nothing
--noescape --policy Reserved|a=b|it has a character that is written as an escape, and --noescape reads none: use --policy Basics
|a\013b|it has U+000B or U+000C, whose escapes aren't read: use --policy Nothing
|a\013b\nc|it has U+000B or U+000C, whose escapes aren't read
--policy Everything|\360\237\230\200|it has a character above U+FFFF, whose escape isn't read: use --policy Basics
END
    unwritten key <<'END'
||it is empty
|[k|[ begins it
| k|white space begins or ends it: use --indent
--multiline| k|white space begins or ends it
--indent --indented-comments|  ;k|white space begins or ends it: use --policy Reserved
|k |white space begins or ends it
|;k|; or # begins it: use --policy Reserved
|#k|; or # begins it: use --policy Reserved
--noescape|#k|; or # begins it
|a=b|= or : stands in it: use --policy Reserved
|a:b|= or : stands in it: use --policy Reserved
--policy Nothing|a\nb|it has a line end: use --policy Basics
--noescape|a\\b|it has a backslash
--noescape --policy Nothing|a\\b|it has a backslash: use --raw-backslash
END
    unwritten name <<'END'
| s|white space begins or ends it
|s]|it has ]: use --brackets
--policy Nothing|a\nb|it has a line end: use --policy Basics
--noescape|a\tb|it has a character that is written as an escape, and --noescape reads none: use --policy Nothing
END
    unwritten separator <<'END'
|-|it isn't one = or : with spaces and tabs alone around it
|==|it isn't one = or : with spaces and tabs alone around it
END
    # each option that helps does
    while IFS='|' read -r options what word; do
        fresh
        word=$(printf -- "$word.")
        # shellcheck disable=SC2086
        set_words "$what" "${word%.}" $options >"$room/have" 2>&1
        echo 'status 0' >"$room/want"
        count "a $what that $options helps to write: '$word'"
    done <<'END'
--noquote|value|"v'
--noquote --policy Basics|value|a\nb
--noescape --policy Nothing|value|a\\b
--noescape --policy Nothing --raw-backslash|value|a\\
--noescape --policy Nothing --raw-backslash|key|a\\b
--policy Nothing|value|a\013b
--indent|key| k
--indent --indented-comments --policy Reserved|key|  ;k
--policy Reserved|key|;k
--policy Reserved|key|a=b
--brackets|name|s]
END
    # others: of a merge, of another key's or section's name, of a rewrite, and of what would be a file's mark
    fresh
    printf "[new]\nk = ' \"'\"'\"\n" >other.ini
    ends 'a value of another file' 2 '' "ini_file: settings.ini: [new] k: this value can't be written so that it is read back
note: white space begins or ends it" merge settings.ini other.ini
    ends "another key that can't be written" 2 '' "ini_file: settings.ini: this key can't be written so that it is read back
note: = or : stands in it: use --policy Reserved" rename-key settings.ini name a=b
    ends "another key that a space begins" 2 '' "ini_file: settings.ini: this key can't be written so that it is read back
note: white space begins or ends it" rename-key settings.ini name ' a'
    ends "another key that a tab begins" 2 '' "ini_file: settings.ini: this key can't be written so that it is read back
note: white space begins or ends it: use --indent" rename-key settings.ini name '	a'
    ends "another name that can't be written" 2 '' "ini_file: settings.ini: this name can't be written so that it is read back
note: it has ]: use --brackets" rename-section settings.ini server 'a]'
    printf 'a=1\n%sk=2\n' "$(printf '\357\273\277')" >settings.ini
    ends 'a key that a deletion would leave at the front' 2 '' "ini_file: settings.ini: this key can't be written so that it is read back
note: it begins with U+FEFF, which reading drops at the front of a file" delete settings.ini a
    ends 'a separator of rewrite' 2 '' "ini_file: settings.ini: this separator can't be written so that it is read back
note: it isn't one = or : with spaces and tabs alone around it" rewrite --separator - settings.ini
    mark=$(printf '\357\273\277')
    ends 'a key that would be a mark' 2 '' "ini_file: new.ini: this key can't be written so that it is read back
note: it begins with U+FEFF, which reading drops at the front of a file" set new.ini "${mark}k" v
    printf '; a note\n%sk = 2\n' "$mark" >other.ini
    ends 'a key of another file that would be a mark' 2 '' \
        "ini_file: new.ini: this key can't be written so that it is read back
note: it begins with U+FEFF, which reading drops at the front of a file" merge new.ini other.ini
}

# What may have hidden the pair that isn't found, or that is put in anew. WORDS|STATUS|OUTPUT|NOTE
hints() {
    runs="this line has no separator and runs on into the next"
    mark="an indented comment mark begins a key"
    while IFS='|' read -r words status output note; do
        fresh
        printf 'a = 1\nfoo\nport = 80\n  ; old = 2\n[s]\nb = 3\n' >settings.ini
        # shellcheck disable=SC2086
        ends "a hint: $words" "$status" "$output" "$note" $words
    done <<END
get settings.ini port|1||note: settings.ini:2:1: $runs
get settings.ini port --default 5|0|5\\n|note: settings.ini:2:1: $runs
get settings.ini a --default 5|0|1\\n|
get settings.ini a|0|1\\n|
get settings.ini none -s s|1||note: settings.ini:2:1: $runs
set settings.ini port 81|0||note: settings.ini:2:1: $runs
set settings.ini a 2|0||
set settings.ini b 2 s|0||
set --existing settings.ini port 81|1||note: settings.ini:2:1: $runs
delete settings.ini port|1||note: settings.ini:2:1: $runs
add settings.ini port 81|0||
list settings.ini --null --output none|0||
END
    fresh
    printf 'a = 1\n  ; port = 2\n' >settings.ini
    ends 'a hint: a comment mark that begins a key' 1 '' "note: settings.ini:2:1: $mark" get settings.ini port
    ends 'a hint: standard input' 1 '' "note: -:2:1: $mark" get - port <settings.ini
    printf 'a = 1\na = 2\nb = x ; y\n' >settings.ini
    ends 'a hint: no other trap' 1 '' '' get settings.ini port
}

mistakes
places
likes
types
origins
forms
autos
suggests
helps
refused
bytes
reasons
hints
finish
