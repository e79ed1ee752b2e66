#!/bin/sh
# Fuzzes the C library by c/fuzz: the inputs that stand in its corpus, under sanitizers; wrong bodies of the
# calls (tests/c_library/wrong.c), each of which these inputs must find; and new inputs by libFuzzer, where
# clang has it, for 60 seconds:
#
#     tests/fuzz.sh [SECONDS]
#
# What is skipped, since a tool isn't there, is reported. An input that breaks a promise is kept in the
# folder that is named then. The last line is 'N passed, M failed', and the status is 1 if something failed.
. "$(dirname "$0")/cases.sh"
seconds=${1:-60}

# finds WRONG: counts whether the corpus finds the wrong body
finds() {
    WRONG=$1 "$room/wrong" "$top"/c/fuzz/corpus/* >"$room/log" 2>&1
    status=$?
    if [ "$status" -gt 128 ] && grep -q 'a promise is broken' "$room/log"; then
        passed=$((passed + 1))
    else
        failed=$((failed + 1))
        echo "FAILED: the corpus finds no wrong answer of $1 (status $status)"
    fi
}

has gcc 'the fuzz target' || finish
CC=gcc
export CC
run 'install' "$top/tools/c_library.sh" "$room/it"
[ "$failed" -eq 0 ] || finish
target="$top/c/fuzz/fuzz.c $top/c/fuzz/listing.c $top/c/fuzz/look_ups.c $top/c/fuzz/edits.c"
library=$room/it/lib/libbigrosk_ini.a
warnings='-g -Wall -Wextra -Werror'
checked='-fsanitize=address,undefined -fno-sanitize-recover=all'

# The inputs of the corpus.
run 'compile with sanitizers' gcc -O1 $warnings -std=c99 $checked "-I$room/it/include" -o "$room/replay" $target "$top/c/fuzz/replay.c" \
    "$library"
run 'the corpus' "$room/replay" "$top"/c/fuzz/corpus/*
[ "$failed" -eq 0 ] || finish

# Wrong bodies of the calls.
calls=$(sed -n 's/^uint32_t __wrap_\([a-z_]*\)(.*/\1/p; s/^bool __wrap_\([a-z_]*\)(.*/\1/p' "$top/tests/c_library/wrong.c" | sort -u)
wraps=
for call in $calls; do wraps="$wraps -Wl,--wrap=$call"; done
run 'compile with wrong bodies' gcc -O1 $warnings "-I$room/it/include" $wraps -o "$room/wrong" $target "$top/c/fuzz/replay.c" \
    "$top/tests/c_library/wrong.c" "$library"
run 'the corpus with no body wrong' "$room/wrong" "$top"/c/fuzz/corpus/*
for wrong in $(grep -o 'is_wrong("[a-z0-9_]*")' "$top/tests/c_library/wrong.c" | cut -d '"' -f 2); do
    finds "$wrong"
done

# New inputs.
if [ "$seconds" -eq 0 ]; then
    echo 'skipped: new inputs, since 0 seconds were asked for'
elif ! command -v clang >/dev/null; then
    echo "skipped: new inputs, since clang isn't there"
elif ! echo 'int LLVMFuzzerTestOneInput(const char *d, unsigned long n) { (void)d; return (int)(n & 0); }' |
    clang -fsanitize=fuzzer,address -x c -o "$room/has" - 2>/dev/null; then
    echo "skipped: new inputs, since this clang has no libFuzzer"
else
    kept=$(mktemp -d)
    mkdir "$room/corpus"
    run 'compile for libFuzzer' clang -O1 $warnings $checked -fsanitize=fuzzer "-I$room/it/include" -o "$room/fuzz" $target "$library"
    run 'new inputs' "$room/fuzz" "-max_total_time=$seconds" -max_len=400 -timeout=10 -rss_limit_mb=2048 -print_final_stats=1 \
        "-dict=$top/c/fuzz/ini.dict" "-artifact_prefix=$kept/" "$room/corpus" "$top/c/fuzz/corpus"
    sed -n 's/^stat::number_of_executed_units: *\([0-9]*\)$/\1 inputs were tried/p' "$room/log"
    rmdir "$kept" 2>/dev/null || echo "what breaks a promise: $(echo "$kept"/*)"
fi
finish
