#!/bin/sh
# Installs ini_tool and ini_file, their pages and the completions of bash, zsh and fish:
#
#     tools/install.sh PREFIX
#
# The programs go to PREFIX/bin, the pages to PREFIX/share/man/man1, and the completions to where each shell looks
# for them under PREFIX/share, for bash and fish under each program's name. All may read what is installed, and its
# owner alone may write to it, whatever the umask is. Programs are built first where they have to be (tools/run.sh).
# The status is 2 where no one folder is named, and else that of the step that failed.
set -eu
top=$(dirname "$(dirname "$(readlink -f "$0")")")
if [ $# -ne 1 ] || [ -z "$1" ]; then
    echo 'usage: tools/install.sh PREFIX' >&2
    exit 2
fi
programs='ini_tool ini_file'
for name in $programs; do
    "$top/tools/run.sh" --build "$name"
done
umask 022
bash=$1/share/bash-completion/completions
fish=$1/share/fish/vendor_completions.d
zsh=$1/share/zsh/site-functions
mkdir -p -- "$1/bin" "$1/share/man/man1" "$bash" "$fish" "$zsh"
install -m 644 -- "$top/share/completions/_bigrosk" "$zsh/_bigrosk"
for name in $programs; do
    install -m 755 -- "$top/crates/$name/out/$name" "$1/bin/$name"
    install -m 644 -- "$top/share/man/$name.1" "$1/share/man/man1/$name.1"
    install -m 644 -- "$top/share/completions/bigrosk" "$bash/$name"
    install -m 644 -- "$top/share/completions/bigrosk.fish" "$fish/$name.fish"
done
