#!/bin/sh
# What a program's surroundings are used to: the pages of the manual, the completions of bash, zsh and fish, and the script
# that installs them. Pages are read by man and mandoc, completions are asked of bash, and options, commands
# and statuses are compared wherever they are documented; what has no such tool here is skipped and reported. Each
# case that fails is reported. The last line is 'N passed, M failed', and the status is 1 if a case failed.
. "$(dirname "$0")/cases.sh"

# Pages.
programs='ini_tool ini_file'
if has man 'pages under man'; then
    for name in $programs; do
        is "man $name" '' "$(man --warnings -E UTF-8 -l -Tutf8 -Z "$top/share/man/$name.1" 2>&1 >/dev/null)"
    done
fi
if has mandoc 'pages under mandoc'; then
    for name in $programs; do
        is "mandoc $name" '' "$(mandoc -T lint "$top/share/man/$name.1" 2>&1)"
    done
fi

# offered WANTED WORD ..: what bash offers for the last of these words
offered() {
    want=$1
    shift
    # shellcheck disable=SC2016
    is "completion of '$*'" "$want" "$(cd "$room/files" && bash -c '
        . "$0" || exit
        COMP_WORDS=("$@")
        COMP_CWORD=$(($# - 1))
        _bigrosk
        printf "%s\n" "${COMPREPLY[@]}" | sort | tr "\n" " "
    ' "$top/share/completions/bigrosk" "$@")"
}
mkdir "$room/files"
: >"$room/files/one.ini"
: >"$room/files/one two"
options='--brackets --crlf --indent --indented-comments --inline-comments --lone-lines --multiline --noescape --noquote --policy --raw-backslash '
if has bash completions; then
    offered 'del fmt get list set ' ini_tool ''
    offered 'get ' ini_tool g
    offered 'get ' /usr/bin/ini_tool --crlf --policy Basics g
    offered "$options" ini_tool -
    offered '--noescape --noquote ' ini_tool --crlf --no
    offered '--indented-comments ' ini_tool --crlf --indented
    offered '--inline-comments ' ini_tool --crlf --inl
    offered 'Nothing ' ini_tool --policy N
    offered 'refused ' ini_tool --lone-lines re
    offered 'keys refused runs-on ' ini_file --crlf --lone-lines ''
    offered 'Reserved ReservedUnicode ReservedUnicodeExtended ' ini_file --policy Res
    offered ' ' ini_tool get ''
    offered 'one two one.ini ' ini_file layers ''
    offered 'one.ini ' ini_file --crlf layers one.ini one.
    offered 'add add-section apply check comment delete delete-section diff format get keys layers list merge merge3 rename-key rename-section rewrite sections set uncomment unset-all ' ini_file ''
    offered 'one two one.ini ' ini_file get ''
    offered '--existing ' ini_file set --e
    offered '-- --color --comments --force --format --in-place --lists --output --verbose --wait ' ini_file diff --
    offered 'edits json lines ' ini_file diff --format ''
    offered 'always auto never ' ini_file diff --color ''
    offered 'both keys sections ' ini_file format --sort ''
    offered '--reverse ' ini_file apply --r
    offered 'one.ini ' ini_file apply one.ini one.
    offered '--ours --output ' ini_file merge3 --o
    offered 'one.ini ' ini_file merge3 one.ini one.ini one.
    offered '--dry-run ' ini_file delete --d
    offered '-- --allow --deny --dry-run --fix --force --format --in-place --null --suggest --verbose --wait ' ini_file check --
    offered 'github json sarif ' ini_file check --format ''
    offered 'samba sssd strict supervisor systemd ' ini_file --like s
    offered 'utf-16be utf-16le utf-8 ' ini_file list --encoding u
    offered '-- --all --default --force --format --in-place --last --null --output --section --type --verbose --wait ' ini_file get --
    offered '--null ' ini_file --crlf list --n
    offered '-- --dry-run --force --in-place --output --separator --verbose --wait ' ini_file rewrite --
    offered '-- --align --blank-lines --check --dry-run --force --in-place --indent-pairs --output --separator --sort --verbose --wait ' \
        ini_file format --
    offered '-- --dry-run --force --in-place --output --section --verbose --wait ' ini_file delete --
    offered ' ' ini_file set --wait ''
    offered ' ' ini_file get --default ''
    offered 'one.ini ' ini_file set --existing --output one.
    offered 'one.ini ' ini_tool get key '<' one.
    offered 'one.ini ' ini_file layers one.ini '>' one.
    offered '-- --force --in-place --null --origin --output --separator --verbose --wait ' ini_file layers --
    is 'completions are registered' "$programs" "$(bash -c '. "$0" && for name; do complete -p "$name"; done' \
        "$top/share/completions/bigrosk" $programs | sed 's/^complete -F _bigrosk //' | tr '\n' ' ' | sed 's/ $//')"
fi

# The same where the words are typed at a terminal: bash puts what is offered into the line. Each row is a
# line that a tab follows, and the line that it becomes.
cat >"$room/rows" <<'ROWS'
ini_tool ge|ini_tool get |
ini_file ge|ini_file get |
ini_file get on|ini_file get on|
ini_file get one|ini_file get one\ two |
ini_file get one\ |ini_file get one\ two |
ini_file get "one |ini_file get "one two" |
ini_file set --output 'one|ini_file set --output 'one two' |
ini_file get a|ini_file get a\ folder/|
ini_file get a\ folder/i|ini_file get a\ folder/in/|
ini_file --crlf list a\ folder/in/|ini_file --crlf list a\ folder/in/x.ini |
ini_file check i|ini_file check it\'s |
ini_file layers \$|ini_file layers \$HOME |
ini_file --policy Basics layers ~/a|ini_file --policy Basics layers ~/a\ folder/|
ini_tool get k <one|ini_tool get k <one\ two |
ini_tool fmt >a|ini_tool fmt >a\ folder/|
ROWS
mkdir -p "$room/typed/a folder/in" "$room/typed/only" "$room/typed/get"
: >"$room/typed/one two"
: >"$room/typed/a folder/in/x.ini"
: >"$room/typed/it's"
: >"$room/typed/\$HOME"
if has bash 'completions at a terminal' && has python3 'completions at a terminal'; then
    cut -d '|' -f 1 "$room/rows" |
        python3 "$top/tests/habits/typed.py" "$top/share/completions/bigrosk" "$room/typed" >"$room/became" 2>&1
    is 'lines as they are completed' "$(cut -d '|' -f 2 "$room/rows" | sed 's/$/./')" "$(
        sed 's/$/./' "$room/became"
    )"
fi

# The sections and keys of the file that is named, and what else depends on where a word stands: the same in each shell. Each
# row is words, and what is offered for the next one.
cat >"$room/rows" <<'ROWS'
ini_file get x.ini |last two keys|one|top
ini_file get -s c x.ini |last two keys
ini_file get x.ini -s |a b|c
ini_file get x.ini one |a b|c
ini_file keys x.ini |a b|c
ini_file delete-section x.ini |a b|c
ini_file rename-key x.ini one two |a b|c
ini_file rename-key x.ini one |
ini_file set x.ini |last two keys|one|top
ini_file set x.ini one |
ini_file set x.ini one 1 |a b|c
ini_file get none.ini |
ini_file list x.ini |
ini_file get |x.ini
ini_file merge x.ini |x.ini
ini_file get x.ini --output |x.ini
ini_file set x.ini --wait |
ini_file check --policy |Basics|BasicsUnicode|BasicsUnicodeExtended|Everything|Nothing|Reserved|ReservedUnicode|ReservedUnicodeExtended
ini_file get --lone-lines |keys|refused|runs-on
ini_tool --lone-lines |keys|refused|runs-on
ini_tool --lone-lines refused |del|fmt|get|list|set
ini_tool |del|fmt|get|list|set
ini_tool get |
ini_file layers x.ini |x.ini
ROWS
mkdir "$room/asked" "$room/bin"
printf 'top = 1\n[a b]\none = 1\n[c]\nlast two keys = 3\n' >"$room/asked/x.ini"

# asked SHELL WORDS: what the shell offers after these words
asked() {
    # shellcheck disable=SC2086
    set -- "$1" $2
    shell=$1
    shift
    cd "$room/asked" || exit
    case $shell in
        bash) PATH=$room/bin:$PATH bash -c '. "$0"; COMP_WORDS=("$@" "") COMP_CWORD=$#; _bigrosk
            for word in "${COMPREPLY[@]}"; do eval "echo $word"; done' "$top/share/completions/bigrosk" "$@" ;;
        zsh) PATH=$room/bin:$PATH zsh -f -c 'compadd() { shift; print -l -- $@ }; _files() { print x.ini }; fpath=(${0:h} $fpath)
            words=("$@" ""); CURRENT=$#words; autoload -U _bigrosk; _bigrosk' "$top/share/completions/_bigrosk" "$@" ;;
        fish) PATH=$room/bin:$PATH fish --no-config -c "source $top/share/completions/bigrosk.fish; complete -C '$* '" | cut -f 1 ;;
    esac | sort -u | tr '\n' '|' | sed 's/^|*//; s/|*$//'
}
"$top/tools/run.sh" --build ini_file || exit 1
ln -s "$top/crates/ini_file/out/ini_file" "$room/bin/ini_file"
for shell in bash zsh fish; do
    has "$shell" "sections and keys in $shell" || continue
    while IFS= read -r row; do
        is "$shell: '${row%%|*}'" "${row#*|}" "$(asked "$shell" "${row%%|*}")"
    done <"$room/rows"
done

# What is documented of the programs, beside what they do.
if has bash 'what is documented of the programs' && has python3 'what is documented of the programs'; then
    for name in $programs; do
        "$top/tools/run.sh" --build "$name" || exit 1
    done
    is 'what is documented of the programs' '' "$(python3 "$top/tests/habits/documented.py" "$top" 2>&1)"
fi

# Installing, over a copy whose run.sh writes down what is built. The programs there are of a line.
copy=$room/copy
mkdir -p "$copy/tools"
cp -R "$top/share" "$copy"
cp "$top/tools/install.sh" "$copy/tools"
printf '#!/bin/sh\necho "$*" >>"%s"\n[ "$2" != "$(cat "%s")" ]\n' "$room/built" "$room/broken" >"$copy/tools/run.sh"
chmod +x "$copy/tools/run.sh"
: >"$room/broken"
for name in $programs; do
    mkdir -p "$copy/crates/$name/out"
    printf '#!/bin/sh\necho %s\n' "$name" >"$copy/crates/$name/out/$name"
done
"$copy/tools/install.sh" "$room/a place" >"$room/told" 2>&1
is 'installing' 'status 0, ' "status $?, $(cat "$room/told")"
is 'programs are built' '--build ini_tool --build ini_file' "$(tr '\n' ' ' <"$room/built" | sed 's/ $//')"
for name in $programs; do
    is "$name runs where it was installed" "$name" "$("$room/a place/bin/$name")"
    cmp -s "$top/share/man/$name.1" "$room/a place/share/man/man1/$name.1"
    is "the page of $name" 0 $?
    cmp -s "$top/share/completions/bigrosk" "$room/a place/share/bash-completion/completions/$name"
    is "the completions of $name for bash" 0 $?
    cmp -s "$top/share/completions/bigrosk.fish" "$room/a place/share/fish/vendor_completions.d/$name.fish"
    is "the completions of $name for fish" 0 $?
done
cmp -s "$top/share/completions/_bigrosk" "$room/a place/share/zsh/site-functions/_bigrosk"
is 'the completions for zsh' 0 $?
is 'nothing else is installed' 9 "$(find "$room/a place" -type f | wc -l | tr -d ' ')"
for mask in 000 077; do
    (umask "$mask" && "$copy/tools/install.sh" "$room/under $mask" 2>/dev/null)
    wanted=$(printf '644 file in share\n755 file in bin\n755 folder')
    is "what each may do with what is installed under $mask" "$wanted" "$(
        cd "$room/under $mask" || exit
        {
            find . -type f -exec stat -c '%a file in %n' {} +
            find . -type d -exec stat -c '%a folder' {} +
        } | sed 's,\./\([a-z]*\)/.*,\1,' | sort -u
    )"
done
echo ini_file >"$room/broken"
"$copy/tools/install.sh" "$room/nothing" >/dev/null 2>&1
is 'a program that is not built' 'status 1, nothing there' "status $?, $([ -e "$room/nothing" ] || echo nothing there)"
"$copy/tools/install.sh" >"$room/told" 2>&1
is 'no folder' 'status 2, usage: tools/install.sh PREFIX' "status $?, $(cat "$room/told")"

finish
