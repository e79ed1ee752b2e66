#!/bin/sh
# Runs ini_file beside crudini, `git config` and toml_edit on the same files: what each of them reads, and what stands in the file
# after an edit, by its values, and by its bytes where both keep the layout; and beside the merges of git and diff3, which are counted.
# A peer that isn't here is skipped and reported, and so is a command that the program hasn't. Each case that fails is reported. The
# last line is 'N passed, M failed', and the status is 1 if a case failed.
#
#     tests/peers.sh [INI_FILE]
#
# The program is by default the one that tools/run.sh builds.
. "$(dirname "$0")/cases.sh"
program=$(program_of ini_file "${1:-}") || exit 1

# peer NAME: whether it is here
peer() {
    has "$1" "what is compared with $1"
}

# answer COMMAND..: what it writes, and whether it found what it was asked for
answer() {
    if "$@" 2>/dev/null; then echo found; else echo not found; fi
}

tab=$(printf '\t')
cd "$room" || exit 1
printf '; the fleet\n[server]\nport = 8080\nhost=a.example\n\n# where\n[paths]\nlog   = /var/log/app\ncache = /var/cache/app data\n[none]\n' \
    >settings.ini

# The words of each program for: the value of KEY in SECTION, the keys of SECTION, the sections.
value() { answer "$program" get settings.ini "$2" "$1"; }
keys() { answer "$program" keys settings.ini "$1"; }
crudini_value() { answer crudini --get settings.ini "$1" "$2"; }
crudini_keys() { answer crudini --get settings.ini "$1"; }
git_value() { answer git config -f settings.ini "$1.$2"; }

if peer crudini; then
    is 'crudini: sections' "$(crudini --get settings.ini)" "$("$program" sections settings.ini)"
    for section in server paths none; do
        is "crudini: keys of $section" "$(crudini_keys $section)" "$(keys $section)"
    done
    for pair in 'server port' 'server host' 'paths cache' 'paths port'; do
        # shellcheck disable=SC2086
        is "crudini: $pair" "$(crudini_value $pair)" "$(value $pair)"
    done
fi
# The texts after one another by NUL, which a shell can't hold.
shown() { tr '\0' '|'; }

if peer git; then
    printf '[a]\nk = 1\nj = 2\nk = x y\n[b]\nk = 3\n' >repeated.ini
    is 'git: --get-all' "$(answer git config -f repeated.ini --get-all a.k)" "$(answer "$program" get --all repeated.ini k a)"
    is 'git: --get-all of no value' "$(answer git config -f repeated.ini --get-all b.j)" \
        "$(answer "$program" get --all repeated.ini j b)"
    is 'git: -z --get-all' "$(git config -f repeated.ini -z --get-all a.k | shown)" \
        "$("$program" get --null --all repeated.ini k a | shown)"
    is 'git: -z --get' "$(git config -f repeated.ini -z --get b.k | shown)" "$("$program" get --null repeated.ini k b | shown)"
    for key in b.k b.j c.k; do
        is "git: --default of $key" "$(answer git config -f repeated.ini --default d --get $key)" \
            "$(answer "$program" get --default d repeated.ini ${key#*.} ${key%.*})"
    done
    is 'git: -z --list' "$(git config -f repeated.ini -z --list | tr '\n' '|' | shown)" \
        "$("$program" list --null repeated.ini | shown | sed 's/\[\([a-z]*\)\]|/\1./g')"
fi
if peer git; then
    is 'git: list' "$(git config -f settings.ini --list)" \
        "$("$program" list settings.ini | sed "s/^\[\(.*\)\]$tab\(.*\)$tab/\1.\2=/")"
    for pair in 'server port' 'server host' 'paths cache' 'paths port'; do
        # shellcheck disable=SC2086
        is "git: $pair" "$(git_value $pair)" "$(value $pair)"
    done
fi

# edited NAME WANTED COMMAND..: runs the edit on a copy of the file, which then stands in $room/NAME
edited() {
    cp settings.ini "$1"
    file=$1
    shift
    "$@" "$file" 2>/dev/null || echo "status $?" >"$file"
}

set_ours() { "$program" set --existing "$3" "$2" 'new value' "$1"; }
set_crudini() { crudini --set --existing "$3" "$1" "$2" 'new value'; }
set_git() { git config -f "$3" "$1.$2" 'new value'; }
delete_ours() { "$program" delete "$3" "$2" "$1"; }
delete_crudini() { crudini --del --existing "$3" "$1" "$2"; }
delete_git() { git config -f "$3" --unset "$1.$2"; }

# same_bytes NAME THEIRS OURS, and same_pairs
same_bytes() {
    is "$1, bytes" "$(od -c <"$2")" "$(od -c <"$3")"
}
same_pairs() {
    is "$1, pairs" "$("$program" list "$2")" "$("$program" list "$3")"
}

# edits COMMAND PEER PAIR..: the edit of each pair by both
edits() {
    edit=$1 by=$2
    shift 2
    for pair; do
        # shellcheck disable=SC2086
        edited theirs "${edit}_$by" $pair
        # shellcheck disable=SC2086
        edited ours "${edit}_ours" $pair
        same_pairs "$by: $edit $pair" theirs ours
        # git lays out anew the line that it sets
        [ "$edit,$by" = set,git ] || same_bytes "$by: $edit $pair" theirs ours
    done
}

if peer crudini; then
    printf '# of the machine\nname = one\n[server]\nport = 81\nuser=ada\n[paths]\nlog = /srv/log\n[new]\nk = v\n' >other.ini
    cp settings.ini theirs && crudini --merge theirs <other.ini
    cp settings.ini ours && "$program" merge ours other.ini
    same_pairs 'crudini: --merge' theirs ours
    cp settings.ini ours && "$program" merge --output - ours - <other.ini >from_input
    same_pairs 'crudini: --merge of standard input' theirs from_input
fi

for edit in 'set' delete; do
    cp settings.ini tried
    "${edit}_ours" server port tried 2>/dev/null
    if [ $? -eq 2 ]; then
        echo "skipped: $edit (ini_file hasn't it)"
        continue
    fi
    for name in crudini git; do
        command -v "$name" >/dev/null && edits "$edit" "$name" 'server port' 'server host' 'paths log' 'paths cache'
    done
done

# toml_edit keeps a file's layout too. A file whose values are numbers is one for both.
printf '# the fleet\nname = 1\n\n[server]\nport = 8080\nhost=7\n\n# where\n[paths]\nlog   = 1\n# the cache\ncache = 2\n[none]\n' \
    >base.toml
library=/usr/share/cargo/registry

# toml_edit_is_built: whether $edits is there, a program over the toml_edit that the system has
toml_edit_is_built() {
    has cargo 'what is compared with toml_edit' || return 1
    cp -r "$top/tests/peers/toml_edit" built && mkdir built/.cargo
    printf '[source.crates-io]\nreplace-with = "system"\n[source.system]\ndirectory = "%s"\n' "$library" >built/.cargo/config.toml
    edits=$room/built/target/debug/toml_edit_edits
    (cd built && CARGO_TARGET_DIR=target cargo build --quiet --offline >log 2>&1) && return 0
    echo "skipped: what is compared with toml_edit, since $library has none, or another: $(head -n 1 built/log)"
    return 1
}

# toml_edits EDIT WORD..: the edit by both, in theirs.toml and ours.toml
toml_edits() {
    edit=$1
    shift
    cp base.toml theirs.toml
    cp base.toml ours.toml
    "$edits" "$edit" theirs.toml "$@"
    "$program" "$edit" ours.toml "$@"
}

# differ EDIT THEIRS OURS: the lines that each takes out or puts in
differ() {
    # shellcheck disable=SC2086
    toml_edits $1
    is "toml_edit: $1, theirs" "$(printf "$2")" "$(diff base.toml theirs.toml | grep '^[<>]')"
    is "toml_edit: $1, ours" "$(printf "$3")" "$(diff base.toml ours.toml | grep '^[<>]')"
}

if toml_edit_is_built; then
    for row in 'set port 443 server' 'set log 5 paths' 'set name 2' 'set other 4' 'set user 5 paths' 'set user 5 none' 'set k 1 new' \
        'delete port server' 'delete host server' 'delete log paths' 'delete-section server' 'delete-section none'; do
        # shellcheck disable=SC2086
        toml_edits $row
        same_bytes "toml_edit: $row" theirs.toml ours.toml
    done
    # No blanks come where there were none, and a new pair has those of the pair above it
    differ 'set host 9 server' '< host=7\n> host= 9' '< host=7\n> host=9'
    differ 'set user 5 server' '> user = 5' '> user=5'
    # A comment stays that stands above what is taken out
    differ 'delete cache paths' '< # the cache\n< cache = 2' '< cache = 2'
    differ 'delete-section paths' '< \n< # where\n< [paths]\n< log   = 1\n< # the cache\n< cache = 2' \
        '< [paths]\n< log   = 1\n< # the cache\n< cache = 2'
fi

# What small texts say to the programs of five dialects; GKeyFile is read by a program in C.
small_texts() {
    run "$1: values of small texts, and edits" python3 "$top/tests/program/dialects.py" "$program" "$@"
}

for name in git python3 php crudini; do
    if peer "$name" && has python3 "what is compared with $name"; then
        small_texts "${name%3}"
    fi
done
if has cc 'what is compared with GKeyFile' && has pkg-config 'what is compared with GKeyFile'; then
    # shellcheck disable=SC2046
    if cc -o key_file "$top/tests/program/key_file.c" $(pkg-config --cflags --libs glib-2.0) 2>log; then
        small_texts desktop "$room/key_file"
    else
        echo "skipped: what is compared with GKeyFile, since glib-2.0 isn't there"
    fi
fi
echo "skipped: what is compared with systemd, since it tells of no file what it reads there, but of units that run"

. "$top/tests/peers/merges.sh"

finish
