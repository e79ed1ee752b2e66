#!/bin/sh
# A built release as others get it: tools/release.sh makes the archive and the package of Debian. Each is
# unpacked in an empty folder, the package is installed by dpkg below one too, and there the commands of the
# README and a client of the C library run, with no kit in PATH. What is skipped, since a tool isn't there,
# is reported. The last line is 'N passed, M failed', and the status is 1 if something failed.
. "$(dirname "$0")/cases.sh"
# where no kit is
system=/usr/bin:/bin
programs='ini_file ini_tool'

# without PREFIX COMMAND..: runs it with the release's programs in PATH, and no kit
without() {
    prefix=$1
    shift
    env -i HOME="$room" PATH="$prefix/bin:$system" LC_ALL=C "$@"
}

# the README's commands, one a line, each with the number of the line of the README
commands() {
    awk '/^```console$/ { shown = 1; next } /^```$/ { shown = 0 } shown && /^\$ / { print NR " " substr($0, 3) }' \
        "$top/README.md"
}

# what the README shows after the line of that number
shown_after() {
    awk -v line="$1" 'NR > line { if (/^\$ / || /^```$/) exit; print }' "$top/README.md"
}

# readme_runs NAME PREFIX: each command of the README writes what is shown there, in the release's folder of
# pages
readme_runs() {
    commands | while read -r number command; do
        # the programs that were installed, in place of the scripts
        command=$(printf '%s\n' "$command" | sed 's,\./bigrosk ,,g')
        is "$1: $command" "$(shown_after "$number")" "$(cd "$2/share/doc/bigrosk" && without "$2" sh -c "$command" 2>&1)"
        echo "$passed $failed" >"$room/counts"
    done
    read -r passed failed <"$room/counts"
}

# what else holds of a release that is unpacked: NAME PREFIX [SUFFIX of the pages of the manual]
looked_at() {
    what=$1 prefix=$2 suffix=${3:-}
    is "$what: no kit in PATH" '' "$(without "$prefix" sh -c 'command -v rt')"
    is "$what: where the programs are" "$(for it in $programs; do echo "$prefix/bin/$it"; done)" \
        "$(without "$prefix" sh -c "for it in $programs; do command -v \$it; done")"
    for it in $programs; do
        is "$what: the page of $it" 1 "$(find "$prefix/share/man/man1" -name "$it.1$suffix" | wc -l | tr -d ' ')"
        is "$what: completions of $it" 2 \
            "$(find "$prefix/share" -name "$it" -path '*bash*' -o -name "$it.fish" | wc -l | tr -d ' ')"
        if command -v readelf >/dev/null; then
            is "$what: what $it is linked with" 'libc.so.6' \
                "$(readelf -dW "$prefix/bin/$it" | sed -n 's/.*(NEEDED).*\[\(.*\)\]/\1/p')"
        fi
    done
    is "$what: the version of ini_tool" "ini_tool $version" "$(without "$prefix" ini_tool --version)"
    is "$what: the library" "libbigrosk_ini.a libbigrosk_ini.so libbigrosk_ini.so.${version%%.*} libbigrosk_ini.so.$version" \
        "$(find "$prefix/lib" -name 'libbigrosk*' -printf '%f\n' | sort | tr '\n' ' ' | sed 's/ $//')"
    is "$what: its page" 1 "$(find "$prefix/share/man/man3" -name "bigrosk_ini.3$suffix" | wc -l | tr -d ' ')"
    is "$what: completions for zsh" 1 "$(find "$prefix/share/zsh" -name _bigrosk | wc -l | tr -d ' ')"
    is "$what: pages" '' "$(cd "$top" && for it in README.md CHANGELOG.md docs/*.md examples/*.ini examples/*/*.ini; do
        cmp "$it" "$prefix/share/doc/bigrosk/$it" 2>&1
    done)"
    # PROVED names each program and each library with its sum, and the kit
    is "$what: files of PROVED" "$({
        for it in $programs; do echo "bin/$it"; done
        printf '%s\n' lib/libbigrosk_ini.a "lib/libbigrosk_ini.so.$version"
    } | sort)" "$(sed -n 's/^    \([bl]i[nb]\/.*\)$/\1/p' "$prefix/share/doc/bigrosk/PROVED" | sort)"
    is "$what: sums of PROVED" "$(set -- $programs; echo $(($# + 2)))" \
        "$(grep -c '^        sha256 ' "$prefix/share/doc/bigrosk/PROVED")"
    is "$what: their sums" '' "$(cd "$prefix" && awk '/^    [bl]i[nb]\// { it = $1 } /^ *sha256 / { print $2 "  " it }' \
        share/doc/bigrosk/PROVED | sha256sum -c --quiet 2>&1)"
    is "$what: its kit" 1 "$(grep -c "with $(rt version):\$" "$prefix/share/doc/bigrosk/PROVED")"
    is "$what: what others may do" '' "$(find "$prefix" ! -type l \( -type d ! -perm 755 -o \
        -type f -path '*/bin/*' ! -perm 755 -o -type f -path '*/share/*' ! -perm 644 \))"
    readme_runs "$what" "$prefix"
}

# a client of the library, by what pkg-config says: NAME PREFIX [ROOT]
client_runs() {
    has gcc "$1: a client of the C library" && has pkg-config "$1: a client of the C library" || return 0
    flags=$(PKG_CONFIG_PATH=$2/lib/pkgconfig PKG_CONFIG_SYSROOT_DIR=${3:-} pkg-config --cflags --libs bigrosk_ini)
    # shellcheck disable=SC2086
    run "$1: compile a client" gcc -o "$room/client" "$top/tests/c_library/client.c" $flags
    run "$1: the client" env LD_LIBRARY_PATH="$2/lib" "$room/client"
}

has readelf 'a release' || finish
version=$(sed -n 's/^#define BIGROSK_INI_VERSION "\(.*\)"$/\1/p' "$top/c/bigrosk_ini.h")
release=bigrosk-$version-x86_64-linux
"$top/tools/release.sh" >"$room/told" 2>&1
is 'no folder' 'status 2, usage: tools/release.sh FOLDER' "status $?, $(cat "$room/told")"
run 'making a release' "$top/tools/release.sh" "$room/made"
[ "$failed" -eq 0 ] || finish
# once more, from another folder with another umask, at another time
(cd / && umask 077 && "$top/tools/release.sh" "$room/again" >/dev/null 2>&1)
run 'the same bytes when it is made again' diff -r "$room/made" "$room/again"
is 'how many commands the README has' 6 "$(commands | wc -l | tr -d ' ')"

mkdir "$room/an empty folder"
run 'unpacking the archive' tar -xzf "$room/made/$release.tar.gz" -C "$room/an empty folder" --no-same-owner
prefix="$room/unpacked"
mv "$room/an empty folder/$release" "$prefix"
is 'nothing else in the archive' '' "$(ls "$room/an empty folder")"
looked_at archive "$prefix"
client_runs archive "$prefix"

if has dpkg-deb 'the package'; then
    package=$room/made/bigrosk_${version}_amd64.deb
    is 'what the package is' "bigrosk $version amd64" \
        "$(dpkg-deb -f "$package" Package Version Architecture | sed 's/.*: //' | tr '\n' ' ' | sed 's/ $//')"
    is 'what it depends on' 1 "$(dpkg-deb -f "$package" Depends | grep -c '^libc6 (>= 2\.[0-9]*)$')"
    run 'unpacking the package' dpkg-deb -x "$package" "$room/package"
    looked_at package "$room/package/usr" .gz
    client_runs package "$room/package/usr" "$room/package"
    dpkg-deb --ctrl-tarfile "$package" | tar -xO ./md5sums >"$room/sums"
    run 'its sums' sh -c 'cd "$1" && md5sum -c --quiet "$2"' sh "$room/package" "$room/sums"
    is 'how many sums' "$(find "$room/package" -type f | wc -l | tr -d ' ')" "$(wc -l <"$room/sums" | tr -d ' ')"
    is 'whose its files are' 'root/root' "$(dpkg-deb -c "$package" | awk '{ print $2 }' | sort -u)"
    if [ "$(id -u)" != 0 ]; then
        echo "skipped: installing the package, since root alone does that"
    elif has dpkg 'installing the package'; then
        mkdir -p "$room/root/var/lib/dpkg/info" "$room/root/var/lib/dpkg/updates"
        : >"$room/root/var/lib/dpkg/status"
        # what it depends on is in no package there
        PATH=$PATH:/usr/sbin:/sbin
        run 'installing below a folder' dpkg --root="$room/root" --force-depends --force-script-chrootless \
            --install "$package"
        is 'that it is installed' 'install ok installed' \
            "$(dpkg-query --admindir="$room/root/var/lib/dpkg" -W -f '${Status}' bigrosk 2>&1)"
        readme_runs 'installed package' "$room/root/usr"
        run 'taking it out again' dpkg --root="$room/root" --force-depends --purge bigrosk
        is 'what is left' '' "$(find "$room/root/usr" -type f 2>/dev/null)"
    fi
fi
finish
