# Numbers, lengths and sizes past those at which a body might stop, and the memory that a long text takes: read by
# tests/program.sh, of which it has `gives`, `lines`, `long`, the programs and the folder `room`.
# shellcheck shell=sh disable=SC2154

# Numbers and lengths past those at which a body might stop.
for n in 20 300 70000 1100000; do
    last=$((n - 1))
    lines "$n" 'k%d = "%d" \n' >"$room/text"
    lines "$n" 'k%d=%d\n' >"$room/lined"
    lines "$n" '\tk%d\t%d\n' >"$room/listed"
    echo "$last" >"$room/value"
    sed "s/^k$((n / 2))=.*/k$((n / 2))=w/" "$room/lined" >"$room/changed"
    { cat "$room/lined"; echo new=w; } >"$room/more"
    tail -n +2 "$room/lined" >"$room/fewer"
    gives "$n pairs, fmt" 0 "$room/lined" "$room/text" "$program" fmt
    gives "$n pairs, list" 0 "$room/listed" "$room/text" "$program" list
    gives "$n pairs, get the last" 0 "$room/value" "$room/text" "$program" get "k$last"
    gives "$n pairs, get none" 1 "$room/nothing" "$room/text" "$program" get "k$n"
    gives "$n pairs, set one" 0 "$room/changed" "$room/text" "$program" set "k$((n / 2))" w
    gives "$n pairs, set one more" 0 "$room/more" "$room/text" "$program" set new w
    gives "$n pairs, del the first" 0 "$room/fewer" "$room/text" "$program" del k0
done
for n in 20 300 70000; do
    last=$((n - 1))
    echo "$last" >"$room/value"
    echo 0 >"$room/first"
    lines "$n" '[ s%d ]\n k : %d\n' >"$room/text"
    lines "$n" '[s%d]\nk=%d\n\n' | sed '$d' >"$room/lined"
    { cat "$room/lined"; printf '\n[t]\nk=w\n'; } >"$room/more"
    gives "$n sections, fmt" 0 "$room/lined" "$room/text" "$program" fmt
    gives "$n sections, get in the last" 0 "$room/value" "$room/text" "$program" get k "s$last"
    gives "$n sections, set in one more" 0 "$room/more" "$room/text" "$program" set k w t
    # one key, and one name, again and again
    lines "$n" 'k = %d\n' >"$room/text"
    lines "$n" 'k=%d\n' >"$room/lined"
    lines "$n" '\tk\t%d\n' >"$room/listed"
    tail -n +2 "$room/lined" >"$room/fewer"
    echo 'k=w' >"$room/changed"
    gives "a key $n times, fmt" 0 "$room/lined" "$room/text" "$program" fmt
    gives "a key $n times, list" 0 "$room/listed" "$room/text" "$program" list
    gives "a key $n times, get" 0 "$room/first" "$room/text" "$program" get k
    gives "a key $n times, set" 0 "$room/changed" "$room/text" "$program" set k w
    gives "a key $n times, del" 0 "$room/fewer" "$room/text" "$program" del k
    lines "$n" '[s]\nk=%d\n\n' | sed '$d' >"$room/lined"
    gives "a section $n times, fmt" 0 "$room/lined" "$room/lined" "$program" fmt
    gives "a section $n times, get" 0 "$room/first" "$room/lined" "$program" get k s
    # a mark in front, and both line ends
    { printf '\357\273\277'; lines "$n" 'k%d=%d\r\n'; } >"$room/text"
    lines "$n" 'k%d=%d\r\n' >"$room/lined"
    gives "a mark and $n pairs, CR LF" 0 "$room/lined" "$room/text" "$program" --crlf fmt
    # a value of many lines, and one of many escapes
    { printf 'k=v\n'; lines "$n" '  w%d\n'; } >"$room/text"
    { printf 'k=v'; lines "$n" '\\nw%d'; echo; } >"$room/lined"
    gives "a value of $n lines" 0 "$room/lined" "$room/text" "$program" --multiline fmt
    { printf 'k=v'; lines "$n" '\\t\\x0041'; } >"$room/text"
    { printf 'v'; lines "$n" '\tA'; echo; } >"$room/value"
    gives "a value of $n escapes" 0 "$room/value" "$room/text" "$program" get k
done
for n in 255 256 300 65535 65536 70000; do
    long "$n" s >"$room/name"
    long "$n" k >"$room/key"
    { long "$n" v; echo; } >"$room/value"
    name=$(cat "$room/name")
    key=$(cat "$room/key")
    { printf '[%s]\n%s=' "$name" "$key"; cat "$room/value"; } >"$room/lined"
    { printf '[%s]\t%s\t' "$name" "$key"; cat "$room/value"; } >"$room/listed"
    gives "a name, a key and a value of $n bytes, fmt" 0 "$room/lined" "$room/lined" "$program" fmt
    gives "a name, a key and a value of $n bytes, list" 0 "$room/listed" "$room/lined" "$program" list
    gives "a name, a key and a value of $n bytes, get" 0 "$room/value" "$room/lined" "$program" get "$key" "$name"
    gives "a name, a key and a value of $n bytes, set" 0 "$room/lined" "$room/nothing" "$program" set "$key" "$(cat "$room/value")" "$name"
done

# What is kept in memory: 100,000 short values out of 40 MB, once with blanks after them and once with comments between them.
# The bound, in KB, is twice what that takes, and less than it takes where the text is kept too.
blanks=$(printf '%380s' '')
lines 100000 'key%d=value %d\n' >"$room/lined"
lines 100000 "key%d = value %d $blanks\n" >"$room/text"
lines 100000 ";$blanks\nkey%d = value %d\n" >"$room/commented"
(
    ulimit -v 48000 || exit
    gives '100,000 values in 40 MB, after them blanks' 0 "$room/lined" "$room/text" "$program" fmt
    gives '100,000 values in 40 MB, comments between them' 0 "$room/lined" "$room/commented" "$program" fmt
    echo "passed=$passed failed=$failed" >"$room/counts"
)
. "$room/counts"
