#!/bin/sh
# Every proof and every test: `rt ci`, and then the programs that it built, over real streams, files and long texts
# (tests/program.sh, tests/files.sh, tests/saving.sh, tests/words.sh, tests/long.sh, tests/streams.sh, tests/passing.sh), the
# scripts that build and run them (tests/scripts.sh), what the programs cost (tests/costs.sh) and ask of memory (tests/memory.sh),
# the pages that are made by scripts and the edits that the gate leaves out (tests/pages.sh), pages of the manual, completions
# and installing (tests/habits.sh), ini_file beside its peers (tests/peers.sh), clients of the C library (tests/c_library.sh), how
# they are linked (tests/linking.sh), the Python package (tests/wheel.sh), a built release (tests/release.sh), and the C library
# fuzzed for BIGROSK_FUZZ_SECONDS, by default 60 (tests/fuzz.sh). Each step ends with the time that it took. The last line is
# 'N passed, M failed' over all, and the status is 1 if anything failed.
set -u
cd "$(dirname "$0")/.." || exit 1
log=$(mktemp)
start=$(mktemp)
trap 'rm -f "$log" "$start"' EXIT

# run COMMAND..: shows what it writes, and adds the numbers of its last line to those of the commands before it
passed=0
failed=0
run() {
    began=$(date +%s)
    { "$@" 2>&1 || echo "$* ended with status $?"; } | tee "$log"
    numbers=$(sed -n 's/^\([0-9][0-9]*\) passed, \([0-9][0-9]*\) failed$/\1 \2/p' "$log" | tail -n 1)
    ended=$(tail -n 1 "$log" | grep -c 'ended with status')
    # a command that failed, and counted no failure, is one itself
    case $numbers in
        '') passed_here=0 failed_here=1 ;;
        *) passed_here=${numbers% *} failed_here=${numbers#* } ;;
    esac
    [ "$ended" -gt 0 ] && [ "$failed_here" -eq 0 ] && failed_here=1
    passed=$((passed + passed_here))
    failed=$((failed + failed_here))
    echo "$*: $passed_here passed, $failed_here failed, in $(($(date +%s) - began)) s"
}

# By its own guess of memory `rt ci` would prove the two largest crates alone, one after the other; they take a third of that. So it
# is given how many checks go side by side: one a processor, and 5 GB of memory for each.
if [ -z "${RT_JOBS:-}" ]; then
    RT_JOBS=$({
        awk '/^MemAvailable:/ { print int($2 / 5000000) }' /proc/meminfo
        cat /sys/fs/cgroup/memory.max /sys/fs/cgroup/memory/memory.limit_in_bytes | awk '/^[0-9]+$/ { print int($1 / 5000000000) }'
        nproc
    } 2>/dev/null | sort -n | head -n 1)
    [ "${RT_JOBS:-0}" -ge 1 ] || RT_JOBS=1
    export RT_JOBS
fi
run rt ci
# what it proved, the library for C goes over
if [ "$failed" -eq 0 ]; then
    BIGROSK_PROVED_SINCE=$start
    export BIGROSK_PROVED_SINCE
fi
run tests/program.sh
run tests/files.sh
run tests/saving.sh
run tests/words.sh
run tests/long.sh
run tests/streams.sh
run tests/passing.sh
run tests/scripts.sh
run tests/costs.sh
run tests/memory.sh
run tests/pages.sh
run tests/habits.sh
run tests/peers.sh
run tests/c_library.sh
run tests/linking.sh
run tests/wheel.sh
run tests/release.sh
run tests/fuzz.sh "${BIGROSK_FUZZ_SECONDS:-60}"
echo "$passed passed, $failed failed"
[ "$failed" -eq 0 ]
