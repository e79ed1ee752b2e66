#!/bin/sh
# Counts the instructions of the built programs, by valgrind, since neither a clause nor an output shows what something costs:
# a text, a section or a document of twice the size costs twice as much, a call on a document eight times as large hardly more
# (or eight times as much, where it goes over all of it), and long lines and escapes cost few instructions a byte. Where there
# is no valgrind it says that it skipped all. Each case that fails is reported. The last line is 'N passed, M failed', and the
# status is 1 if a case failed.
#
#     tests/costs.sh [INI_TOOL [INI_REPLAY [INI_FILE]]]
#
# The programs are by default those that tools/run.sh builds.
. "$(dirname "$0")/cases.sh"
has valgrind all || finish
tool=$(program_of ini_tool "${1:-}") || exit 1
calls=$(program_of ini_replay "${2:-}") || exit 1
file=$(program_of ini_file "${3:-}") || exit 1

# instructions STATUS COMMAND ..: how many the command takes over the file `in`, in thousands; nothing where it
# ends otherwise, or takes two minutes
instructions() {
    wanted=$1
    shift
    timeout 120 valgrind --tool=cachegrind --cache-sim=no --cachegrind-out-file=/dev/null "$@" \
        <"$room/in" >"$room/out" 2>"$room/err"
    [ $? -eq "$wanted" ] && sed -n 's/^==[0-9]*== I *refs: *//p' "$room/err" | tr -d , | awk '{ printf "%d\n", $1 / 1000 }'
}

# What the program itself takes: it is taken off each count.
: >"$room/in"
own=$(instructions 0 "$tool" fmt)

# What ini_replay itself takes.
calls_own=$(instructions 0 "$calls" elements)

# grows_no_faster NAME MAKE N WORD: of the text that MAKE gives for twice N ini_replay takes at most 2.5 times what it takes for N
grows_no_faster() {
    "$2" "$3" >"$room/in"
    one=$(instructions 0 "$calls" "$4")
    "$2" $((2 * $3)) >"$room/in"
    two=$(instructions 0 "$calls" "$4")
    at_most "$1, twice the size" "${two:+$((two - calls_own))}" "${one:+$(((one - calls_own) * 5 / 2))}"
}

# grows NAME TIMES STATUS MAKE N WORD ..: of the text that MAKE gives for N so many times the program takes at most 1.25 times as
# many times what it takes for N
grows() {
    name=$1 times=$2 status=$3 make=$4 n=$5
    shift 5
    "$make" "$n" >"$room/in"
    one=$(instructions "$status" "$tool" "$@")
    "$make" $((times * n)) >"$room/in"
    more=$(instructions "$status" "$tool" "$@")
    at_most "$name, $times times the size" "${more:+$((more - own))}" "${one:+$(((one - own) * times * 5 / 4))}"
}

# doubles NAME STATUS MAKE N WORD ..: the same of twice N
doubles() {
    called=$1
    shift
    grows "$called" 2 "$@"
}

pairs() { awk -v n="$1" 'BEGIN { for (i = 0; i < n; i++) printf "key%d = value %d\n", i, i }'; }
sections() { awk -v n="$1" 'BEGIN { for (i = 0; i < n; i++) printf "[section %d]\nkey = %d\n", i, i }'; }
repeated() { awk -v n="$1" 'BEGIN { for (i = 0; i < n; i++) printf "[s]\nk = %d\n", i }'; }
quoted() { awk -v n="$1" 'BEGIN { printf "k = \""; for (i = 0; i < n; i++) printf "line %d\n", i % 10; print "\"" }'; }
comments() { awk -v n="$1" 'BEGIN { for (i = 0; i < n; i++) printf "; %d\n", i % 10; print "k = v" }'; }
refused() { pairs "$1"; echo '= v'; }
escapes() { awk -v n="$1" 'BEGIN { printf "k = "; for (i = 0; i < n; i++) printf "a\\tb\\x0041"; print "" }'; }
notes() { awk -v n="$1" 'BEGIN { for (i = 0; i < n; i++) printf "key%d = value ; note %d\n", i, i }'; }
# and beside them, in `other`, the same with each hundredth value changed
compared() { pairs "$1" && pairs "$1" | awk 'NR % 100 == 0 { $0 = $0 "!" } 1' >"$room/other"; }
# and the changes that lead there, in `edits`
changed() { compared "$1" | tee "$room/from" && "$file" diff --format edits "$room/from" "$room/other" >"$room/edits"; }
repeated_key() { pairs "$1" | sed 's/^key[0-9]*/k/'; pairs $(($1 + 1)) | sed 's/^key[0-9]*/k/' >"$room/other"; }
joined() { repeated "$1" && repeated $(($1 + 1)) >"$room/other"; }
marks() { awk -v n="$1" 'BEGIN { printf "k = "; for (i = 0; i < n; i++) printf "a;b\\;"; print "" }'; }

doubles 'pairs of one section' 0 pairs 20000 fmt
doubles 'sections' 0 sections 10000 fmt
doubles 'sections of one name' 0 repeated 10000 fmt
doubles 'a quoted value over many lines' 0 quoted 150000 fmt
doubles 'comments' 0 comments 150000 fmt
doubles 'a value full of escapes' 0 escapes 50000 fmt
doubles 'notes after values' 0 notes 20000 --inline-comments fmt
doubles 'a value full of comment marks' 0 marks 100000 --inline-comments fmt
doubles 'pairs of one section, one set' 0 pairs 20000 set key7 v
doubles 'pairs of one section, listed' 0 pairs 20000 list
doubles 'a text that is refused at its end' 3 refused 20000 fmt
# A file laid out and sorted, and compared with another, by the program for files.
: >"$room/in"
own_of_tool=$own own=$(instructions 0 "$file" format -) of_texts=$tool tool=$file
doubles 'separators below each other' 0 pairs 4000 format --align -
doubles 'pairs sorted by key' 0 pairs 4000 format --sort keys -
doubles 'sections sorted by name' 0 sections 4000 format --sort sections -
grows 'what differs' 10 1 compared 10000 diff - "$room/other"
grows 'values changed in a section' 10 0 changed 10000 apply - "$room/edits"
doubles 'which lists differ' 1 compared 4000 diff --lists - "$room/other"
doubles 'which lists of one key differ' 1 repeated_key 4000 diff --lists - "$room/other"
doubles 'which comments differ' 1 compared 4000 diff --comments - "$room/other"
doubles 'what differs, by a rule' 1 compared 4000 --like git diff - "$room/other"
doubles 'what differs where sections are joined' 1 joined 4000 --like git diff - "$room/other"
own=$own_of_tool tool=$of_texts
grows_no_faster 'items' pairs 20000 items
grows_no_faster 'elements' pairs 20000 elements

# What so many calls take, beside what half as many do, so without the making of the document.
call() {
    echo "$1 $2 $3 $(($4 / 2))" >"$room/in"
    first=$(instructions 0 "$calls" calls)
    echo "$1 $2 $3 $4" >"$room/in"
    second=$(instructions 0 "$calls" calls)
    [ -n "$first" ] && [ -n "$second" ] && echo $((second - first))
}
# A call on a document of 8,000 keys or sections costs at most four times what it costs on one of 1,000.
for shape in keys sections; do
    for it in get_from set_there set_new append section setter len layered; do
        small=$(call $it $shape 1000 4000)
        large=$(call $it $shape 8000 4000)
        at_most "$it, $shape, eight times as many" "$large" "${small:+$((small * 4))}"
    done
done
# What goes over the whole document costs at most twelve times as much.
for it in is_plain clone merged; do
    for shape in keys sections; do
        small=$(call $it $shape 500 4)
        large=$(call $it $shape 4000 4)
        at_most "$it, $shape, eight times as many" "$large" "${small:+$((small * 12))}"
    done
done

# Few instructions a pair.
pairs 40000 >"$room/in"
short=$(instructions 0 "$tool" fmt)
at_most '40,000 pairs' "${short:+$((short - own))}" 120000

# Few instructions a byte, where lines are long.
awk 'BEGIN { for (i = 0; i < 4000; i++) x = x "x"; for (i = 0; i < 250; i++) print "key" i "=" x }' >"$room/in"
long=$(instructions 0 "$tool" fmt)
at_most 'lines of 4,000 bytes, a megabyte' "${long:+$((long - own))}" 7500

# Few instructions an escape.
escapes 50000 >"$room/in"
short=$(instructions 0 "$tool" fmt)
at_most '100,000 escapes' "${short:+$((short - own))}" 44000

finish
