#!/bin/sh
# The Python package as others get it: the wheel is made, its list of files is checked, and it is installed
# in a fresh environment, where its tests run without compiler and kit. Type hints are looked at, by mypy too
# where that is there. What is skipped, since a tool isn't there, is reported. The last line is 'N passed, M
# failed', and the status is 1 if something failed.
. "$(dirname "$0")/cases.sh"
LC_ALL=C.UTF-8
export LC_ALL
# a library of the caller's is none of the wheel's
unset BIGROSK_INI_LIBRARY
clients=$top/tests/c_library

has python3 'the wheel' && has gcc 'the wheel' || finish
CC=gcc
export CC
version=$(sed -n 's/^#define BIGROSK_INI_VERSION "\(.*\)"$/\1/p' "$top/c/bigrosk_ini.h")
file=bigrosk_ini-$version-py3-none-linux_x86_64.whl
wheel=$room/made/$file
run 'the wheel' "$top/tools/wheel.sh" "$room/made"
is 'its name' "$file" "$(tail -n 1 "$room/log")"
[ "$failed" -eq 0 ] || finish
# from another folder, with another umask
(cd / && umask 077 && "$top/tools/wheel.sh" "$room/again" >/dev/null 2>&1)
run 'the same bytes when it is made again' cmp "$wheel" "$room/again/$file"
run 'its list of files' python3 "$clients/wheel_files.py" "$wheel" "$version"

# installed in an environment of its own, with no other program in PATH
environment=$room/environment
if python3 -c 'import ensurepip' 2>/dev/null; then
    run 'an environment' python3 -m venv "$environment"
    run 'installing by pip' env -i HOME="$room" PATH="$environment/bin" "$environment/bin/python3" -m pip install -q \
        --no-index --no-deps --disable-pip-version-check "$wheel"
else
    echo "skipped: installing by pip, since ensurepip isn't there; the wheel is unpacked"
    run 'an environment' python3 -m venv --without-pip "$environment"
    run 'unpacking' python3 -m zipfile -e "$wheel" \
        "$("$environment/bin/python3" -c 'import site; print(site.getsitepackages()[0])')"
fi
# there COMMAND..: runs it in the environment, from an empty folder, where nothing of the repository is found
mkdir "$room/empty"
there() {
    (cd "$room/empty" && exec env -i HOME="$room" PATH="$environment/bin" LC_ALL=C.UTF-8 "$environment/bin/python3" -I "$@")
}
is 'no compiler and no kit there' '' "$(env -i PATH="$environment/bin" /bin/sh -c 'for it in cc gcc clang rt; do command -v $it; done')"
found=$(cd "$environment" && find "$PWD/lib" -name bigrosk_ini -type d)
is 'where the package and its library are' "$found libbigrosk_ini.so" "$(there -c '
import bigrosk_ini, bigrosk_ini._calls, os
folder = os.path.dirname(bigrosk_ini.__file__)
print(folder, os.path.relpath(bigrosk_ini._calls.library._name, folder))')"
is 'its version' "$version" "$(there -c 'import importlib.metadata; print(importlib.metadata.version("bigrosk_ini"))')"
for it in test_python test_python_options test_python_settings test_python_words; do
    # what is isolated has no folder of its own in its path
    run "$it" there "$clients/$it.py"
done
# the programs of docs/C.md, one after another
sed -n '/^```python$/,/^```$/p' "$top/docs/C.md" | sed '/^```/d' >"$room/page.py"
echo 'print(open("settings.ini").read())' >>"$room/page.py"
cp "$top/examples/settings.ini" "$room/empty"
is 'what the programs of docs/C.md print' "$(printf '%s\n' '8080' 'None port 8080' 'None timeout 30' 'paths log /srv/log' \
    'paths cache /var/cache/app data' 'pool workers 4' '1 2 missing key' '; the fleet' 'port = 8080' 'timeout: 30' '' \
    '[paths]' 'log   = /srv/log' 'cache = "/var/cache/app data"' '' '[pool]' '; one for each core' 'workers = 4')" \
    "$(there "$room/page.py" 2>&1)"
run 'type hints' there "$clients/test_python_hints.py"
if python3 -m mypy --version >/dev/null 2>&1; then
    run 'mypy' env MYPYPATH="$top/python" python3 -m mypy --strict --cache-dir "$room/mypy" "$top/python/bigrosk_ini" \
        "$clients/hints_used.py"
else
    echo "skipped: mypy, since it isn't there"
fi

# by pip, from the folder of sources
if "$environment/bin/python3" -m pip --version >/dev/null 2>&1; then
    "$top/tools/c_library.sh" "$room/library" >"$room/log" 2>&1
    run 'a wheel by pip' env PYTHONDONTWRITEBYTECODE=1 BIGROSK_INI_LIBRARY="$room/library/lib/libbigrosk_ini.so" \
        "$environment/bin/python3" -m pip wheel -q --no-index --no-deps --disable-pip-version-check -w "$room/by_pip" \
        "$top/python"
    run 'the same bytes by pip' cmp "$wheel" "$room/by_pip/$file"
fi
finish
