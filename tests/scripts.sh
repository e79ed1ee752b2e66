#!/bin/sh
# Runs bigrosk and tools/run.sh over crates of a few lines and an `rt` of the test's own: one that makes a
# program which shows its words, one that fails, one that stops the script. Each case that fails is reported. The last line is
# 'N passed, M failed', and the status is 1 if a case failed.
#
#     tests/scripts.sh [TOP]
#
# TOP is the folder whose scripts are run, by default this repository.
. "$(dirname "$0")/cases.sh"
from=$(cd "${1:-"$(dirname "$0")/.."}" && pwd)
top="$room/a checkout"
calls=$room/calls

# The `rt` of the test: it writes down its words and its folder, and does what the file `mode` says. The program that it makes
# shows which build it is, its words, and its input, and ends with status 3.
mkdir "$room/bin" "$room/tmp" "$room/seen"
cat >"$room/bin/rt" <<'RT'
#!/bin/sh
room=$(dirname "$(dirname "$0")")
{
    printf '%s' "$(basename "$PWD")"
    printf ' <%s>' "$@"
    echo
} >>"$room/calls"
cat >/dev/null
echo 'so far: 1 of 2 functions'
echo 'a line that only a failure shows' >&2
: >"${TMPDIR:-/tmp}/left_by_rt"
program=out/$(basename "$PWD")
mkdir -p out
make() {
    n=$(wc -l <"$room/calls")
    {
        echo '#!/bin/sh'
        echo "echo 'build $((n))'"
        echo 'for word; do printf "<%s>\n" "$word"; done'
        echo 'cat'
        echo 'exit 3'
    } >"$program"
    chmod +x "$program"
}
read -r mode argument <"$room/mode"
case $mode in
makes) make ;;
fails) echo 'error: a contract is not proved' && exit 1 ;;
fails_late) make && exit 1 ;;
makes_nothing | finds_nothing_new) ;;
is_edited) sleep 0.1 && touch "$argument" && make ;;
# half a program, and then the signal to the script, or to all, as a terminal sends it
is_stopped)
    : >"$program" && chmod +x "$program"
    echo $$ >"$room/builder"
    kill -s "$argument" "$PPID"
    exec sleep 60
    ;;
is_stopped_by_ctrl_c)
    : >"$program" && chmod +x "$program"
    echo $$ >"$room/builder"
    kill -s INT 0
    exec sleep 60
    ;;
esac
RT
chmod +x "$room/bin/rt"
PATH=$room/bin:$PATH
TMPDIR=$room/tmp
export PATH TMPDIR

# what the next builds do
mode() {
    echo "$*" >"$room/mode"
}

# A checkout of the scripts, and of crates of one file: the program ini_tool uses `first` and, through it, `second`; the crate
# `other` uses the program's libraries and is used by none.
checkout() {
    [ ! -e "$top" ] || chmod -R u+w "$top"
    rm -rf "$top"
    mkdir -p "$top/tools"
    cp "$from/bigrosk" "$top"
    cp "$from/tools/run.sh" "$top/tools"
    cat >"$top/crates.txt" <<'CRATES'
# first: other
other: second ini_tool
first staticlib: of_the_kit second # third
ini_tool: thiserror first
second:
third:
ini_file: second
CRATES
    for crate in other first second third; do
        mkdir -p "$top/crates/$crate/src" "$top/crates/$crate/proofs/tests" "$top/crates/$crate/specs"
        : >"$top/crates/$crate/src/lib.rt"
    done
    for crate in ini_tool ini_file; do
        mkdir -p "$top/crates/$crate/src/tests" "$top/crates/$crate/specs" "$top/crates/$crate/must-fail"
        : >"$top/crates/$crate/src/main.rt"
        : >"$top/crates/$crate/src/a.rt"
        : >"$top/crates/$crate/src/tests.rt"
        : >"$top/crates/$crate/src/tests/rows.rt"
        : >"$top/crates/$crate/specs/Lib.antt"
        : >"$top/crates/$crate/README.md"
    done
    find "$top" -exec touch -t 202001010000 {} +
    : >"$calls"
    mode makes
}

# runs a program of the checkout on no input, and keeps what it writes and its status
script() {
    "$top/bigrosk" "$@" </dev/null >"$room/out" 2>"$room/err"
    status=$?
}

# built NAME N: the last script ran the program of the Nth build with no words
built() {
    is "$1" "status 3, build $2" "status $status, $(cat "$room/out")"
}

# refused NAME WORDS: no program ran; the last line of standard error begins so
refused() {
    is "$1" "status 125, nothing on standard output, told: tools/run.sh: $2" \
        "status $status, $([ -s "$room/out" ] && echo something || echo nothing) on standard output, told: $(tail -n 1 "$room/err" | cut -c "1-$((${#2} + 14))")"
}

# The words of a script are the program's, whatever they hold, and its input, output and status are the program's own.
shown="<set>
<a b>
< k >
<>
<it's \"so\">
<*>
<\$HOME \`x\` \\t \\>
<two
lines>
<-n>
<-->
<a=b;c|d>
<>
an input"

# runs a script with words that a careless one would change
with_odd_words() {
    lines='two
lines'
    # shellcheck disable=SC2016,SC1003
    printf 'an input\n' | "$top/bigrosk" "$1" set 'a b' ' k ' '' "it's \"so\"" '*' '$HOME `x` \t \' "$lines" -n -- 'a=b;c|d' '' \
        >"$room/out" 2>"$room/err"
    status=$?
}
checkout
for it in ini_tool ini_file; do
    for run in 'the run that builds' 'a later run'; do
        with_odd_words "$it"
        is "$it, $run: the words, the input and the status go through as they are" "$shown
status 3" "$(tail -n +2 "$room/out")
status $status"
    done
    is "$it: a program that is built tells nothing" '' "$(cat "$room/err")"
done
is 'one build each, by a run that asks nothing of a file' 'ini_tool <run> <--> <fmt>
ini_file <run> <--> <--version>' "$(cat "$calls")"
checkout
script ini_tool
is 'a build tells how far it is, and no more' 'so far: 1 of 2 functions' "$(tail -n +2 "$room/err")"
is 'a build leaves no log' '' "$(ls "$TMPDIR")"
"$top/tools/run.sh" ini_tool 'a b' </dev/null >"$room/have" 2>&1
printf 'build 1\n<a b>\n' >"$room/want"
count 'tools/run.sh by itself'
ln -s "$top/bigrosk" "$room/a link"
(cd "$room" && './a link' ini_tool 'a b' </dev/null >"$room/have" 2>&1)
count 'through a link, from another folder'
checkout
"$top/bigrosk" ini_tool </dev/null >"$room/out" 2>&-
status=$?
built 'a build with standard error closed' 1

# A program that is only built.
checkout
script --build ini_tool
is 'only built: status 0, and the program did not run' 'status 0, ' "status $status, $(cat "$room/out")"
is 'what the first build costs is reported, and then how far it is' "building $top/crates/ini_tool/out/ini_tool: each function is proved\
 first, which the first time takes about 23 minutes of processor time (some 8 minutes on four cores), up to 4 GB of memory and\
 2.5 GB of disk
so far: 1 of 2 functions" "$(cat "$room/err")"
script --build ini_tool
is 'only built, where it is built: nothing is reported' 'status 0, ' "status $status, $(cat "$room/out" "$room/err")"
script ini_tool
built 'a run of what was only built' 1
touch "$top/crates/second/src/lib.rt"
mode fails
script --build ini_tool
refused 'only built, and the build fails' 'ini_tool could not be built: mend '
script --build
refused 'only built, without a name' 'which program? '
script --build ini_tool fmt
refused 'only built, with words' 'words for a program '
script --build first
refused 'only built: a library' 'first is no program of crates.txt'

# What makes a program too old, and what does not.
for it in ini_tool/src/main.rt ini_tool/src/new.rt ini_tool/specs/Lib.antt first/src/lib.rt second/src/lib.rt second/proofs/new.antt; do
    checkout
    script ini_tool
    sleep 0.02
    touch "$top/crates/$it"
    script ini_tool
    built "$it is newer" 2
    script ini_tool
    built "$it was newer once" 2
done
checkout
script ini_tool
rm "$top/crates/ini_tool/src/a.rt"
script ini_tool
built 'a source was removed' 2
mkdir "$room/kept"
cp -p "$top/crates/second/src/lib.rt" "$room/kept/old"
mv "$room/kept/old" "$top/crates/second/src/lib.rt"
script ini_tool
built 'an old file stands in the place of a source' 3
touch -t 203001010000 "$top/crates/first/src/lib.rt"
script ini_tool
built 'a source from the future' 4
checkout
script ini_tool
mkdir -p "$top/crates/mine/src"
echo 'mine: ini_tool first' >>"$top/crates.txt"
for it in mine/src/lib.rt other/src/lib.rt third/src/lib.rt ini_file/src/main.rt ini_tool/README.md ini_tool/must-fail/an.edit \
    ini_tool/src/tests.rt ini_tool/src/tests/rows.rt ini_tool/stdin second/proofs/tests/Answers.antt; do
    touch "$top/crates/$it"
done
script ini_tool
built "another crate's files, tests, pages and a line of crates.txt" 1
sed 's/^ini_tool:.*/& third/' "$top/crates.txt" >"$room/crates.txt"
cp "$room/crates.txt" "$top/crates.txt"
script ini_tool
built 'a library that the program came to use' 2
checkout
mode is_edited src/main.rt
script ini_tool
built 'a source that changes while it is built' 1
mode makes
script ini_tool
built 'is built in the next run' 2
touch "$top/crates/second/src/lib.rt"
mode finds_nothing_new
script ini_tool
script ini_tool
built 'a source that says what it said' 2
is 'rt looks at it once' 3 "$(grep -c . "$calls")"
checkout
script ini_tool
rm -r "$top/crates/second"
script ini_tool
refused 'a library that is not there' 'ini_tool is not built, and there is no folder crates/second/src'

# The crates of this repository: a library below it makes a program too old, a crate of tests does not.
checkout
cp "$from/crates.txt" "$top"
sed -n 's/^\([a-z_0-9]*\).*:.*/\1/p' "$from/crates.txt" | while read -r it; do
    mkdir -p "$top/crates/$it/src"
    : >"$top/crates/$it/src/lib.rt"
    touch -t 202001010000 "$top/crates/$it/src/lib.rt" "$top/crates/$it/src"
done
script ini_tool
script ini_file
built 'this crates.txt' 2
for it in ini_examples ini_cases ini_hostile; do
    touch "$top/crates/$it/src/lib.rt"
done
script ini_tool
built 'a crate of tests is newer than ini_tool' 1
script ini_file
built 'a crate of tests is newer than ini_file' 2
touch "$top/crates/ini_layers/src/lib.rt"
script ini_tool
built 'ini_layers is newer than ini_tool' 1
script ini_file
built 'ini_layers is newer than ini_file' 3
touch "$top/crates/ini_multimap/src/lib.rt"
script ini_tool
built 'ini_multimap is newer than ini_tool' 4
script ini_file
built 'ini_multimap is newer than ini_file' 5

# A build that fails: status 125, and the old program does not run.
for it in fails fails_late makes_nothing; do
    checkout
    mode "$it"
    script ini_tool get k
    refused "the first build $it" 'ini_tool could not be built: mend '
    script ini_file a b
    refused "the first build $it, ini_file" 'ini_file could not be built: mend '
    is "the first build $it: all that it said is shown" 1 "$(grep -c '^a line that only a failure shows$' "$room/err")"
    is "the first build $it: no log is left" '' "$(ls "$TMPDIR")"
done
for it in fails fails_late; do
    checkout
    script ini_tool
    touch "$top/crates/second/src/lib.rt"
    mode "$it"
    script ini_tool
    refused "a build that $it after one that did not" 'ini_tool could not be built: '
done
checkout
script ini_tool
touch "$top/crates/second/src/lib.rt"
mode fails
script ini_tool
script ini_tool
refused 'a build that fails again' 'ini_tool could not be built: '
mode makes
script ini_tool
built 'a build that was mended' 4
checkout
for it in sh dirname readlink awk find grep tail cut ls cat; do
    ln -s "$(command -v "$it")" "$room/seen/$it"
done
(export PATH="$room/seen" && "$top/bigrosk" ini_tool </dev/null >"$room/out" 2>"$room/err")
status=$?
refused 'no rt' 'ini_tool is not built, and there is no command rt '
TMPDIR=$room/none "$top/bigrosk" ini_tool </dev/null >"$room/out" 2>"$room/err"
status=$?
refused 'no folder for temporary files' 'ini_tool is not built, and there is no room for its log: '
script
refused 'no name' 'which program? '
for it in none '' . first ../crates/ini_tool 'ini_tool ini_file'; do
    script "$it"
    refused "no program: '$it'" "$it is no program of crates.txt"
done
is 'none of these was built' '' "$(cat "$calls")"

# A checkout that can't be written to, as someone who may not write everywhere.
as=
if [ "$(id -u)" -eq 0 ]; then as='setpriv --reuid=65534 --regid=65534 --clear-groups'; fi
checkout
chmod -R a+rX "$room"
chmod -R a-w "$top"
chmod a+w "$room/tmp" "$calls"
# shellcheck disable=SC2086
if [ -n "$as" ] && ! $as test -r "$top/bigrosk" 2>/dev/null; then
    echo 'skipped: a checkout that can not be written to (root may write everywhere, and no other user can run it here)'
else
    # in turn one folder more may be written to, at last all that are needed
    for crate in '' ini_tool second first; do
        [ -z "$crate" ] || chmod a+w "$top/crates/$crate"
        $as "$top/bigrosk" ini_tool get k </dev/null >"$room/out" 2>"$room/err"
        status=$?
        [ "$crate" = first ] || refused "a checkout that can't be written to, '$crate' the last that can" 'ini_tool is not built, and '
    done
    is 'rt is called only where all may be written to' 'ini_tool <run> <--> <fmt>' "$(cat "$calls")"
    chmod -R a-w "$top"
    $as "$top/bigrosk" ini_tool </dev/null >"$room/out" 2>"$room/err"
    status=$?
    built "a built program in a checkout that can't be written to" 1
fi

# An interrupted build: it ends, and leaves nothing after but what `rt` keeps in out/.
for signal in HUP INT TERM ctrl_c; do
    checkout
    find "$top" "$TMPDIR" | sort >"$room/want"
    case $signal in
    ctrl_c) mode is_stopped_by_ctrl_c ;;
    *) mode is_stopped "$signal" ;;
    esac
    # by timeout, for a group of its own, and since a build that goes on must not hang the test
    timeout 20 "$top/bigrosk" ini_tool get k </dev/null >"$room/out" 2>"$room/err"
    status=$?
    find "$top" "$TMPDIR" | sort | grep -v '/ini_tool/out$' >"$room/have"
    count "an interrupted build ($signal) leaves no file"
    case $signal in HUP) wanted=129 ;; TERM) wanted=143 ;; *) wanted=130 ;; esac
    is "an interrupted build ($signal) ends by the signal" "status $wanted, " "status $status, $(cat "$room/out")"
    kill -0 "$(cat "$room/builder")" 2>/dev/null
    is "an interrupted build ($signal) is ended" 1 $?
    mode makes
    script ini_tool
    built "the run after an interrupted build ($signal)" 2
done

finish
