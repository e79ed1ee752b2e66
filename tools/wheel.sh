#!/bin/sh
# Makes the wheel of the Python package, with the shared library in it, so that who installs it needs neither
# kit nor compiler:
#
#     tools/wheel.sh FOLDER
#
#     FOLDER/bigrosk_ini-VERSION-py3-none-linux_x86_64.whl
#
# It takes what tools/c_library.sh takes, and python3 with its standard library. Its last line is the wheel's
# name. With BIGROSK_INI_LIBRARY, the file of a shared library that is there already, that one goes in.
set -eu
umask 022
top=$(dirname "$(dirname "$(readlink -f "$0")")")
if [ $# -ne 1 ] || [ -z "$1" ]; then
    echo 'usage: tools/wheel.sh FOLDER' >&2
    exit 2
fi
exec python3 "$top/python/make_wheel.py" "$1"
