#!/bin/sh
# Runs the built program ini_file over long texts, long words and many files, and compares each byte with what a few lines of
# Python make of the same lines; each run under a bound of time, of memory and of stack. Then, by valgrind, that four times the
# text takes at most six times the instructions. Where there is no python3, or no valgrind, it says what it skipped. Each case
# that fails is reported. The last line is 'N passed, M failed', and the status is 1 if a case failed.
#
#     tests/long.sh [INI_FILE [PART]]
#
# The program is by default the one that its script builds. The texts' sizes are divided by PART, for a build that is slow.
#
# tests/memory.sh has the size at which each call is asked once, PART being 1, beside those of 2 MB and 100,000 lines.
. "$(dirname "$0")/cases.sh"
has python3 all || finish
program=$(program_of ini_file "${1:-}") || exit 1
part=${2:-1}
cd "$room" || exit 1

# bounded WORD..: the program within $bound kilobytes of memory, a megabyte of stack and half a minute
bounded() (
    ulimit -v "$bound" && ulimit -s 1024 || exit 125
    exec timeout 30 "$program" "$@"
)

# what the program itself takes, by steps of a megabyte
: >empty
bound=3000
while [ "$bound" -lt 200000 ] && ! bounded list empty >out 2>&1; do
    bound=$((bound + 1000))
done
own=$bound
# what a check, edits, and readers, which make a document, may take of 2 MB: some one and a half times what they take
checking=$((own + 16000))
editing=$((own + 58000))
reading=$((own + 32000))
most=$((own + 450000))

# counts a case, which is passed where its status and the two files are the same
count() {
    if [ "$2" = "$3" ] && cmp -s "$4" "$5"; then
        passed=$((passed + 1))
    else
        failed=$((failed + 1))
        echo "FAILED: $1: status $3, and $2 is wanted; $(cmp "$4" "$5" 2>&1 | head -c 200)"
        head -c 400 err
    fi
}

# leaves WANTED TEXT WORD..: the run changes a copy of the file TEXT, `it.ini`, to the bytes of the file WANTED, and writes
# nothing else
leaves() {
    expected=$1
    cp "$2" it.ini
    shift 2
    bounded "$@" >out 2>err
    status=$?
    called="$label: $(echo "$*" | cut -c 1-80)"
    count "$called" 0 "$status" "$expected" it.ini
    cat err >>out
    count "$called, nothing is written out" 0 0 empty out
}

# writes STATUS WANTED WORD..: the run ends so and writes the bytes of the file WANTED
writes() {
    ends=$1
    expected=$2
    shift 2
    bounded "$@" >out 2>err
    status=$?
    count "$label: $(echo "$*" | cut -c 1-80)" "$ends" "$status" "$expected" out
}

# pipes WANTED TEXT WORD..: the run reads the file TEXT by a pipe, and writes the bytes of the file WANTED
pipes() {
    expected=$1
    input=$2
    shift 2
    cat "$input" | bounded "$@" >out 2>err
    status=$?
    count "$label, by a pipe: $(echo "$*" | cut -c 1-80)" 0 "$status" "$expected" out
}

# The texts, and what is to come of them. In `many` there are sections of eight pairs, and a comment in front of each and at the
# end; in `wide` one section of many pairs. New lines stand directly after a section's last pair.
python3 - "$part" <<'END' || exit 1
import sys
part = int(sys.argv[1])
def put(name, lines, end="\n", mark=""):
    with open(name, "wb") as file:
        file.write((mark + "".join(line + end for line in lines)).encode())

def many(n):
    lines = ["name=the first", "last=of none", "; about section 0"]
    for i in range(n):
        lines.append(f"[section {i}]")
        lines += [f"key {j}=value {j} of section {i}" for j in range(8)]
        lines.append(f"; about section {i + 1}")
    return lines

def edits(name, lines, header, pairs, end="\n", mark=""):
    """what each edit makes of the section at this line, which has so many pairs, by the name of the edit"""
    last = header + 1 + pairs
    key, value = lines[header + 4].split("=")
    def make(edit, front, new, rest):
        put(f"{name}.{edit}", front + new + rest, end, mark)
    make("set", lines[:header + 4], [key + "=other"], lines[header + 5:])
    make("new", lines[:last], ["new=v"], lines[last:])
    make("add", lines[:last], [key + "=more"], lines[last:])
    make("delete", lines[:header + 4], [], lines[header + 5:])
    make("delete-last", lines[:last - 1], [], lines[last:])
    make("rename-key", lines[:header + 4], ["another=" + value], lines[header + 5:])
    make("rename-section", lines[:header], ["[another name]"], lines[header + 1:])
    # comments stay that stand directly above the next header
    make("delete-section", lines[:header], [], lines[last:] if any(line[0] == "[" for line in lines[last:]) else [])

def reads(name, lines, section, key):
    """what each reader answers, by the name of the command; keys of one section, and one value"""
    pairs, sections, at = [], [], ""
    for line in lines:
        if line[0] == "[":
            at = line
            sections.append(line[1:-1])
        elif line[0] != ";":
            pairs.append((at, *line.split("=")))
    put(name + ".list", ["\t".join(pair) for pair in pairs])
    put(name + ".list0", ["\0".join(pair) for pair in pairs], "\0")
    put(name + ".sections", sections)
    put(name + ".keys", [pair[1] for pair in pairs if pair[0] == section])
    put(name + ".get", [pair[2] for pair in pairs if pair[:2] == (section, key)][:1])
    written, at = [], ""
    for pair in pairs:
        if pair[0] != at:
            at = pair[0]
            written += ["", at] if written else [at]
        written.append(f"{pair[1]}={pair[2]}")
    put(name + ".format", written)

n = 10000 // part
lines = many(n)
put("many", lines)
reads("many", lines, f"[section {n - 1}]", "key 7")
for i in (0, n // 2, n - 1):
    edits(f"many.{i}", lines, 3 + 10 * i, 8)
put("many.new-section", lines + ["", "[no such section]", "new=v"])
put("many.general-set", ["name=other"] + lines[1:])
put("many.general-new", lines[:2] + ["new=v"] + lines[2:])
put("many.general-delete", lines[1:])
put("many.refused", lines + ["=v"])
put("other.ini", ["name=two", f"[section {n - 1}]", "key 0=x", "new=y", "[none]", "k=v", "[section 1]", "key 7=z"])
merged = ["name=two"] + lines[1:] + ["", "[none]", "k=v"]
merged[3 + 10 * (n - 1) + 1] = "key 0=x"
merged[3 + 10 + 8] = "key 7=z"
merged.insert(3 + 10 * (n - 1) + 9, "new=y")
put("many.merge", merged)
at = 3 + 10 * (n // 2) + 4
put("many.diff", ["--- it.ini", "+++ it.ini", f"@@ -{at + 1},1 +{at + 1},1 @@", "-" + lines[at], "+key 3=other"])
# the same after a mark, with CR LF
put("crlf", lines, "\r\n", "\ufeff")
edits("crlf", lines, 3 + 10 * (n // 2), 8, "\r\n", "\ufeff")
put("crlf.new-section", lines + ["", "[no such section]", "new=v"], "\r\n", "\ufeff")
# a section of many pairs
n = 100000 // part
lines = ["; the only one", "[s]"] + [f"key {i}=value {i}" for i in range(n)] + ["; at the end"]
put("wide", lines)
reads("wide", lines, "[s]", f"key {n - 1}")
edits("wide", lines, 1, n)
put("wide.set-last", lines[:-2] + [f"key {n - 1}=other"] + lines[-1:])
# long words
for size in (300, 70000):
    name, key, value = "n" * size, "k" * size, "v" * size
    lines = ["; c", "[a]", "x=1", f"[{name}]", "a=0", "b=0", "c=0", f"{key}={value}", "; d", "[z]", "y=2"]
    put(f"words.{size}", lines)
    reads(f"words.{size}", lines, f"[{name}]", key)
    edits(f"words.{size}", lines, 3, 4)
    put(f"words.{size}.other", [f"[{name}]", key + "=" + value[1:]])
    put(f"words.{size}.merge", lines[:7] + [key + "=" + value[1:]] + lines[8:])
# a list of edits, and warnings of two kinds
n = 2000
put("list", [f"key {i}=old" for i in range(0, n, 2)])
put("list.other", [f"key {i}=new" for i in range(n)])
put("list.merge", [f"key {i}=new" for i in range(0, n, 2)] + [f"key {i}=new" for i in range(1, n, 2)])
n = 1000
put("warned", ["[a]"] + ["k=1", "j=C:\\temp"] * (n + 1))
there = "this key was there before in its section"
escape = "a backslash begins an escape in this value"
places = [f"warned:3:3: warning: {escape}"]
for i in range(1, n + 1):
    places += [f"warned:{2 * i + 2}:1: warning: {there}"]
    places += [(f"warned:{2 * i + 3}:1: warning: {there}", f"warned:{2 * i + 3}:3: warning: {escape}")]
put("warned.places", [line for at in places for line in (at if isinstance(at, tuple) else (at,))])
# millions
n = 1000000 // part
lines = ["[s]"] + [f"k{i}={i}" for i in range(n)]
put("million", lines)
put("million.list", [f"[s]\tk{i}\t{i}" for i in range(n)])
put("million.get", [f"{n - 1}"])
put("million.set", lines[:-1] + [f"k{n - 1}=w"])
put("million.add", lines + ["k0=w"])
put("million.delete", lines[:1] + lines[2:])
put("million.rename-key", lines[:-1] + [f"another={n - 1}"])
put("million.other", ["[s]", f"k{n - 1}=w"])
n = 300000 // part
lines = [line for i in range(n) for line in (f"[s{i}]", f"k={i}")]
put("sections", lines)
put("sections.sections", [f"s{i}" for i in range(n)])
put("sections.get", [f"{n - 1}"])
put("sections.set", lines[:-1] + ["k=w"])
put("sections.rename-section", lines[:-2] + ["[another]"] + lines[-1:])
put("repeated", ["k=v"] * (n + 1))
put("repeated.check", [f"repeated:{i}:1: warning: {there}" for i in range(2, n + 2)])
put("repeated.set", ["k=w"])
name, key, value = (c * (2100000 // part) for c in "nkv")
put("longest", [f"[{name}]", f"{key}={value}", "[z]", "y=2"])
put("longest.list", [f"[{name}]\t{key}\t{value}", "[z]\ty\t2"])
put("longest.sections", [name, "z"])
put("longest.format", [f"[{name}]", f"{key}={value}", "", "[z]", "y=2"])
put("longest.set", [f"[{name}]", f"{key}={value}", "[z]", "y=3"])
# texts of which one is four times the other
for n in (250, 1000):
    put(f"cost.many.{n}", many(n))
    put(f"cost.wide.{n}", ["[section]"] + [f"key {i}=value {i}" for i in range(10 * n)])
for n in (2000, 20000):
    put(f"cost.repeated.{n}", ["[section]"] + ["; about the key", "key=value"] * n)
put("cost.many.other", ["name=w", "[section 9]", "key 7=w", "new=w"])
put("cost.wide.other", ["name=w", "[section]", "key 7=w", "new=w"])
# many files
n = 2000
for i in range(n):
    put(f"f{i}", [f"k{i % 10}={i}", f"k{i % 10}=x"])
put("files.check", [f"f{i}:2:1: warning: {there}" for i in range(n)])
put("files.merge", [f"k{i}={n - 10 + i}" for i in range(10)])
# a pair on its header's line, with empty lines after it; values go on over indented lines
put("tail", ["; a"] * 1000 + ["[a]key=v"] + [""] * 100 + ["; b", "[b]", "k=v"], "\r\n")
put("tail.delete", ["; a"] * 1000 + ["[a]"] + [""] * 100 + ["; b", "[b]", "k=v"], "\r\n")
END
n=$((10000 / part))
mid=$((n / 2))
last=$((n - 1))
wide=$((100000 / part - 1))

# edited LABEL TEXT WANTED SECTION KEY LAST: each edit in this section of the text: of its fourth pair, of its last one, of the section
edited() {
    label=$1
    text=$2
    wanted=$3
    section=$4
    bound=$editing
    leaves "$wanted.set" "$text" set it.ini "$5" other "$section"
    leaves "$wanted.set" "$text" set --existing it.ini "$5" other "$section"
    leaves "$wanted.new" "$text" set it.ini new v "$section"
    leaves "$wanted.add" "$text" add it.ini "$5" more "$section"
    leaves "$wanted.delete" "$text" delete it.ini "$5" "$section"
    leaves "$wanted.delete-last" "$text" delete it.ini "$6" "$section"
    leaves "$wanted.rename-key" "$text" rename-key it.ini "$5" another "$section"
    leaves "$wanted.rename-section" "$text" rename-section it.ini "$section" 'another name'
    leaves "$wanted.delete-section" "$text" delete-section it.ini "$section"
}

# read LABEL TEXT SECTION KEY: each reader of the text
read_all() {
    label=$1
    text=$2
    section=$3
    key=$4
    bound=$reading
    writes 0 "$text.list" list "$text"
    writes 0 "$text.list0" list --null "$text"
    writes 0 "$text.sections" sections "$text"
    writes 0 "$text.keys" keys "$text" "$section"
    writes 0 "$text.get" get "$text" "$key" "$section"
    writes 0 "$text.get" get --all "$text" "$key" "$section"
    writes 1 empty get "$text" none "$section"
    writes 0 "$text.format" rewrite --output - "$text"
    leaves "$text.format" "$text" rewrite it.ini
    writes 0 empty check "$text"
}

read_all 'many sections' many "section $last" 'key 7'
for i in 0 "$mid" "$last"; do
    edited 'many sections' many "many.$i" "section $i" 'key 3' 'key 7'
done
leaves many.new-section many set it.ini new v 'no such section'
leaves many.new-section many add it.ini new v 'no such section'
leaves many.general-set many set it.ini name other
leaves many.general-new many set it.ini new v
leaves many.general-delete many delete it.ini name
leaves many.merge many merge it.ini other.ini
bound=$checking
writes 0 empty check many
bound=$editing
cp many it.ini
writes 0 many.diff set --dry-run it.ini 'key 3' other "section $mid"
writes 1 empty delete it.ini none "section $last"
writes 1 empty delete-section it.ini 'no such section'
bound=$reading
cp many.refused it.ini
for words in 'get it.ini name' 'keys it.ini' 'list it.ini' 'set it.ini name v' 'delete it.ini name' 'check it.ini' \
    'merge it.ini other.ini' 'rewrite it.ini'; do
    # shellcheck disable=SC2086
    writes 3 empty $words
    head -n 1 err >told
    echo "it.ini:$((10 * n + 4)):1: no key stands before this" >fault
    count "$label, refused at its end: $words" 3 3 fault told
done
count "$label, refused at its end: it stands" 0 0 many.refused it.ini
label='many sections'
pipes many.list many list -
pipes many.get many get - 'key 7' "section $last"
bound=$editing
pipes "many.$mid.set" many set - 'key 3' other "section $mid"
pipes "many.$last.new" many add - new v "section $last"
pipes "many.$mid.delete" many delete - 'key 3' "section $mid"
pipes many.format many rewrite -
pipes many.merge many merge - other.ini
bound=$reading
pipes empty many check -
edited 'many sections, a mark and CR LF' crlf crlf "section $mid" 'key 3' 'key 7'
leaves crlf.new-section crlf set it.ini new v 'no such section'
label='a pair on the line of its header, CR LF'
cp tail it.ini
bounded --multiline delete it.ini key a >out 2>err
status=$?
count "$label: delete" 0 "$status" tail.delete it.ini
read_all 'many pairs' wide s "key $wide"
edited 'many pairs' wide wide s 'key 3' 'key '"$wide"
# the fourth pair stands after the header, the second line
leaves wide.set-last wide set it.ini "key $wide" other s
for size in 300 70000; do
    section=$(printf "%${size}s" '' | tr ' ' n)
    key=$(printf "%${size}s" '' | tr ' ' k)
    value=$(printf "%${size}s" '' | tr ' ' v)
    read_all "words of $size bytes" "words.$size" "$section" "$key"
    edited "words of $size bytes" "words.$size" "words.$size" "$section" "$key" "$key"
    cp "words.$size.rename-section" named
    leaves "words.$size" named rename-section it.ini 'another name' "$section"
    sed "s/^k*=/another=/" "words.$size" >named
    leaves "words.$size" named rename-key it.ini another "$key" "$section"
    leaves named "words.$size" rename-key it.ini "$key" another "$section"
    grep -v '^kk*=' "words.$size" >named
    leaves "words.$size" named set it.ini "$key" "$value" "$section"
    leaves "words.$size.merge" "words.$size" set it.ini "$key" "${value#v}" "$section"
    leaves "words.$size.merge" "words.$size" merge it.ini "words.$size.other"
done
bound=$editing
label='a list of edits'
leaves list.merge list merge it.ini list.other
label='warnings'
writes 1 warned.places check warned
label='many files'
# shellcheck disable=SC2046
writes 1 files.check check $(seq -f f%.0f 0 1999)
# shellcheck disable=SC2046
writes 0 files.merge merge --output - none.ini $(seq -f f%.0f 0 1999)


bound=$most
label='a million pairs'
n=$((1000000 / part - 1))
writes 0 million.list list million
writes 0 million.get get million "k$n" s
writes 0 empty check million
leaves million.set million set it.ini "k$n" w s
leaves million.add million add it.ini k0 w s
leaves million.delete million delete it.ini k0 s
leaves million.rename-key million rename-key it.ini "k$n" another s
leaves empty million delete-section it.ini s
leaves million.set million merge it.ini million.other
pipes million.set million set - "k$n" w s
label='many sections of a pair'
n=$((300000 / part - 1))
writes 0 sections.sections sections sections
writes 0 sections.get get sections k "s$n"
leaves sections.set sections set it.ini k w "s$n"
leaves sections.rename-section sections rename-section it.ini "s$n" another
label='many warnings'
writes 1 repeated.check check repeated
label='a key many times'
leaves repeated.set repeated set it.ini k w
label='a name, a key and a value of two million bytes'
writes 0 longest.list list longest
writes 0 longest.sections sections longest
writes 0 empty check longest
leaves longest.set longest set it.ini y 3 z
leaves longest.format longest rewrite it.ini
writes 0 longest.format merge --output - none.ini longest
label='many options'
# shellcheck disable=SC2046
writes 0 many.list $(yes -- --crlf | head -n $((10000 / part))) list many

# instructions WORD ..: how many, in thousands, the program takes beside its own; nothing where it does not end with status 0
instructions() {
    timeout 60 valgrind --tool=cachegrind --cache-sim=no --cachegrind-out-file=/dev/null --log-file=counted "$program" "$@" \
        >out 2>err || return 1
    sed -n 's/^==[0-9]*== I *refs: *//p' counted | tr -d , | awk -v own="${own_count:-0}" '{ printf "%d\n", $1 / 1000 - own }'
}

# four_times SHAPE WORD ..: of four times the text the run takes at most six times the instructions; the word TEXT stands for
# the text, SECTION for the name of the last section, KEY for the last key
four_times() {
    shape=$1
    shift
    small=
    for n in 250 1000; do
        case $shape in many) section="section $((n - 1))" key='key 7' ;; *) section=section key="key $((10 * n - 1))" ;; esac
        words=
        for word in "$@"; do
            case $word in TEXT) word=cost.$shape.$n ;; SECTION) word=$section ;; KEY) word=$key ;; esac
            words="$words '$word'"
        done
        eval "large=\$(instructions $words)"
        [ "$n" -eq 250 ] && small=$large
    done
    at_most "$shape, four times the text: $*" "$large" "${small:+$((small * 6))}"
}

if command -v valgrind >/dev/null 2>&1; then
    own_count=0
    own_count=$(instructions list empty)
    for shape in many wide; do
        four_times $shape get TEXT KEY SECTION
        four_times $shape keys TEXT SECTION
        four_times $shape sections TEXT
        four_times $shape list TEXT
        four_times $shape rewrite --output - TEXT
        four_times $shape format --output - TEXT
        four_times $shape check TEXT
        four_times $shape set --output - TEXT KEY w SECTION
        four_times $shape set --output - TEXT new w SECTION
        four_times $shape set --output - TEXT new w none
        four_times $shape add --output - TEXT KEY w SECTION
        four_times $shape delete --output - TEXT KEY SECTION
        four_times $shape rename-key --output - TEXT KEY new SECTION
        four_times $shape rename-section --output - TEXT SECTION new
        four_times $shape delete-section --output - TEXT SECTION
        four_times $shape set --dry-run TEXT KEY w SECTION
        four_times $shape merge --output - TEXT cost.$shape.other
    done
    # later pairs of a key go at about the same cost a pair
    few=$(instructions set --output - cost.repeated.2000 key w section)
    at_most 'a key ten times as often, set' \
        "$(instructions set --output - cost.repeated.20000 key w section)" "${few:+$((few * 12))}"
    # the text isn't gone over more often than needs be
    existing=$(instructions set --existing --output - cost.many.1000 'key 7' w 'section 999')
    at_most 'set of a key that is there, beside set --existing' \
        "$(instructions set --output - cost.many.1000 'key 7' w 'section 999')" "${existing:+$((existing * 3 / 2))}"
else
    echo "skipped: 34 counts of instructions, since valgrind isn't there"
fi

finish
