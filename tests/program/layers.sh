# `ini_file layers`: read by tests/program.sh, of which it has `told`, `wrote`, `is_cut`, `lines`, the words of faults, the program
# and the folder `room`.
# shellcheck shell=sh disable=SC2154

# The files that its words name, whatever their names and their number.
here=$room/here
mkdir "$here" "$here/folder"
printf 'k=1\n[s]\na = "x"\n' >"$here/one.ini"
printf 'j=2\nk=2\n[t]\nb=y\n[s]\nc=z\n' >"$here/two.ini"
printf 'k=2\nj=2\n\n[s]\na=x\nc=z\n\n[t]\nb=y\n' >"$room/merged"
printf 'k=v\n[s]\n=v\n' >"$here/broken.ini"
printf 'k=\303\n' >"$here/bytes.ini"
: >"$here/empty"

# layers NAME STATUS OUTPUT WORD..: it gives this, over these options and files
layers() {
    called=$1
    wanted=$2
    output=$3
    shift 3
    (cd "$here" && timeout 60 "$file" layers "$@" </dev/null >"$room/out" 2>"$room/err")
    wrote "layers, $called" $? "$wanted" "$output"
}

# refuses NAME STATUS ERROR WORD..: it tells this, and writes nothing
refuses() {
    called=$1
    wanted=$2
    error=$3
    shift 3
    (cd "$here" && "$file" layers "$@" </dev/null >"$room/out" 2>"$room/err")
    told "layers, $called" $? "$wanted" "$error"
    : >"$room/err"
    wrote "layers, $called: nothing is written" 0 0 "$room/nothing"
}

layers 'two files' 0 "$room/merged" one.ini two.ini
layers 'an empty file' 0 "$room/nothing" empty
layers 'empty files between' 0 "$room/merged" empty one.ini empty two.ini empty
# shellcheck disable=SC2016,SC1003
set -- a.ini ' a.ini' 'a.ini ' ' a.ini ' a b 'a b' "it's" '"a.ini"' '*.ini' '$HOME' '\' "$(printf 'a\nb')"
n=0
for name; do
    n=$((n + 1))
    echo "k=$n" >"$here/$name"
done
n=0
for name; do
    n=$((n + 1))
    echo "k=$n" >"$room/merged"
    layers "a file named '$name'" 0 "$room/merged" "$name"
    layers "a file named '$name', the last of three" 0 "$room/merged" a 'a b' "$name"
done
# Options, over the file `in`: the words, what the file holds, and what is written. Words and escapes are as in the rows above.
while IFS='|' read -r words input output; do
    printf '%b' "$input" >"$here/in"
    printf '%b' "$output" >"$room/merged"
    eval "set -- $words"
    layers "$words" 0 "$room/merged" "$@"
done <<'ROWS'
in|k = a\\tb\n|k=a\\tb\n
--noescape in|k=C:\\temp|k=C:\\\\temp\n
--noescape --policy Nothing in|k=C:\\temp|k=C:\\temp\n
--noquote in|k="a"|k="a"\n
--multiline in|k=v\n  w|k=v\\nw\n
--indent in|  k=v|  k=v\n
--brackets in|[[*]]\nk=v|[[*]]\nk=v\n
--noescape --raw-backslash --policy Nothing in|p=C:\\x\\\nk=v|p=C:\\x\\\nk=v\n
--indented-comments in|  ; c\nk=1|k=1\n
--multiline --indented-comments in|k=1\n ; c\n 2\n|k=1\\n2\n
--inline-comments in|k=1 ; c\n[a];\nx=y|k=1\n\n[a]\nx=y\n
--lone-lines refused in|k=1\n[a]\nx=y|k=1\n\n[a]\nx=y\n
--lone-lines keys in|abc\nk=1|abc=\nk=1\n
--lone-lines runs-on in|abc\nk=1|abc\\nk=1\n
--crlf in|k=1\n[a]\nx=y|k=1\r\n\r\n[a]\r\nx=y\r\n
--policy Reserved in|k=a:b|k=a\\:b\n
--policy Everything in|k=\0303\0251|k=\\x00e9\n
--policy Everything --policy Nothing in|k=\0303\0251|k=\0303\0251\n
--crlf --crlf --noquote --policy Reserved --indent in|  k="a:b"|  k="a\\:b"\r\n
-- in|k=1|k=1\n
--crlf -- in|k=1|k=1\r\n
--crlf in in|k=1\nk=2|k=1\r\n
in|\0357\0273\0277k=1\n|k=1\n
--brackets --noquote --noescape --policy Reserved -- in|k="a=b"\n[[*]]\npath=C:\\temp\n|k="a\\=b"\n\n[[*]]\npath=C\\:\\\\temp\n
--crlf --policy Nothing --noescape --brackets -- in|k="a=b"\n[[*]]\npath=C:\\temp\n|k=a=b\r\n\r\n[[*]]\r\npath=C:\\temp\r\n
in|k=1\nk=2\n[p]\nj=1\n[p]\nj=2\n[e]|k=1\n\n[p]\nj=1\n
ROWS
echo 'k=1' >"$here/in"
echo 'k=3' >"$here/--crlf"
echo 'k=3' >"$room/merged"
layers 'a file named as an option, after --' 0 "$room/merged" -- --crlf
refuses 'a file named as an option, which is not there' 4 'ini_file: --none.ini: No such file or directory (os error 2)' --crlf -- --none.ini
layers 'a file named as an option, after another' 0 "$room/merged" -- in --crlf
(cd "$here" && "$file" layers in "$(printf 'a\377')" >"$room/out" 2>"$room/err")
told 'layers, a name that is no text' $? 4 'ini_file: word 3 is not UTF-8'
for n in 12 20 300 2000; do
    # each file has a key of its own, and one that all have
    set --
    i=0
    while [ "$i" -lt "$n" ]; do
        printf 'all = %d\nown%d = %d\n' "$i" "$i" "$i" >"$here/$i"
        set -- "$@" "$i"
        i=$((i + 1))
    done
    { echo "all=$((n - 1))"; lines "$n" 'own%d=%d\n'; } >"$room/merged"
    layers "$n files" 0 "$room/merged" "$@"
    refuses "$n files, and one that is not there" 4 'ini_file: none.ini: No such file or directory (os error 2)' "$@" none.ini
done
for n in 20 300 70000; do
    # the second file has every third key again and others, the third a section
    lines "$n" 'k%d = a%d\n' >"$here/first"
    { awk -v n="$n" 'BEGIN { for (i = 0; i < n; i += 3) printf "k%d = b%d\n", i, i }'; lines "$n" 'm%d = %d\n'; } >"$here/second"
    { echo '[s]'; lines "$n" 'k%d = c%d\n'; } >"$here/third"
    {
        awk -v n="$n" 'BEGIN { for (i = 0; i < n; i++) printf "k%d=%s%d\n", i, i % 3 ? "a" : "b", i }'
        lines "$n" 'm%d=%d\n'
        printf '\n[s]\n'
        lines "$n" 'k%d=c%d\n'
    } >"$room/merged"
    layers "three files of $n pairs" 0 "$room/merged" first second third
    awk -v n="$n" 'BEGIN {
        for (i = 0; i < n; i++)
            if (i % 3) printf "first:%d:\tk%d\ta%d\n", i + 1, i, i
            else printf "second:%d:\tk%d\tb%d\n", i / 3 + 1, i, i
        for (i = 0; i < n; i++) printf "second:%d:\tm%d\t%d\n", int((n + 2) / 3) + i + 1, i, i
        for (i = 0; i < n; i++) printf "third:%d:[s]\tk%d\tc%d\n", i + 2, i, i
    }' >"$room/merged"
    layers "places in three files of $n pairs" 0 "$room/merged" --origin first second third
done
refuses 'an empty name' 4 'ini_file: No such file or directory (os error 2)' one.ini ''
refuses 'a file that is not there' 4 'ini_file: none.ini: No such file or directory (os error 2)' one.ini none.ini two.ini
broken_file='broken.ini:3:1: no key stands before this
=v
^'
refuses 'a broken file' 3 "$broken_file" broken.ini
refuses 'a broken file, the last' 3 "$broken_file" one.ini two.ini broken.ini
refuses 'a broken file, the first of two' 3 "$broken_file" one.ini broken.ini bytes.ini
refuses 'a file that is no text' 3 'bytes.ini:1:3: this byte is no UTF-8; the file looks like Latin-1: use --encoding latin1' one.ini bytes.ini
(cd "$here" && "$file" layers one.ini two.ini >&- 2>"$room/err")
told 'layers, output closed' $? 4 "$layers_fault$closed"
(cd "$here" && "$file" layers empty >&- 2>"$room/err")
told 'layers, output closed, nothing to write' $? 0 ''
(cd "$here" && "$file" layers one.ini broken.ini >&- 2>"$room/err")
told 'layers, output closed, a broken file' $? 3 "$broken_file"
: >"$room/err"
(cd "$here" && "$file" layers broken.ini >"$room/out" 2>&-)
wrote 'layers, a broken file, standard error closed' $? 3 "$room/nothing"
if [ -c /dev/full ]; then
    (cd "$here" && "$file" layers one.ini two.ini >/dev/full 2>"$room/err")
    told 'layers, a full device' $? 4 "$layers_fault$full"
    (cd "$here" && "$file" layers first second third >/dev/full 2>"$room/err")
    told 'layers, a full device and a long text' $? 4 "$layers_fault$full"
fi
{
    (cd "$here" && "$file" layers first second third 2>"$room/err")
    echo $? >"$room/status"
} | head -c 1 >"$room/out"
told 'layers, an output that nobody reads on' "$(cat "$room/status")" 4 "$layers_fault$broken"
# A folder stands for what ends with .conf in it, by the bytes of the names; the words' order stays.
mkdir "$here/app.d" "$here/none.d"
printf 'k=b\n[s]\nx=1\n' >"$here/app.d/b.conf"
printf 'k=a\n' >"$here/app.d/a.conf"
printf 'k=B\nj=B\n' >"$here/app.d/B.conf"
for name in .c.conf c.ini c.conf~ conf; do echo 'k=c' >"$here/app.d/$name"; done
printf 'k=b\nj=B\n\n[s]\nx=1\n' >"$room/merged"
layers 'a folder' 0 "$room/merged" app.d
layers 'a folder with a slash, and one without drop-ins' 0 "$room/merged" none.d app.d/ none.d
printf 'k=1\nj=B\n\n[s]\nx=1\na=x\n' >"$room/merged"
layers 'a folder before a file' 0 "$room/merged" app.d one.ini
printf 'k=b\nj=B\n\n[s]\na=x\nx=1\n' >"$room/merged"
layers 'a folder after a file' 0 "$room/merged" one.ini app.d
layers 'a folder without drop-ins' 0 "$room/nothing" none.d
mkdir "$here/app.d/d.conf"
refuses 'a folder among the drop-ins' 4 "ini_file: app.d/d.conf: $a_folder" app.d
rmdir "$here/app.d/d.conf"
printf '=v\n' >"$here/app.d/d.conf"
refuses 'a broken drop-in' 3 'app.d/d.conf:1:1: no key stands before this
=v
^' one.ini app.d
rm "$here/app.d/d.conf"
# What is read and looked up as a program does it is written as it does, and may go to a file, one of those that were read too.
printf 'k = b\nj = B\n\n[s]\nx = 1\n' >"$room/merged"
layers 'a dialect' 0 "$room/merged" --like php app.d
# Each file is looked up by the dialect's rule, and the document's names and keys are those that come first.
printf '[s]\nx=1\n[S]\ny=2\n[s]\nx=2\nz=3\n' >"$here/joined.ini"
printf '[S]\nX=9\n[e]\n' >"$here/case.ini"
printf '[s]\nx=1\n\n[S]\ny=2\nX=9\n' >"$room/merged"
layers 'the first sections and values' 0 "$room/merged" joined.ini case.ini
printf '[s]\nx = 2\nz = 3\n\n[S]\ny = 2\nX = 9\n' >"$room/merged"
layers 'joined sections and last values' 0 "$room/merged" --like php joined.ini case.ini
printf '[s]\nx = 9\ny = 2\nz = 3\n' >"$room/merged"
layers 'no notice of case' 0 "$room/merged" --like git joined.ini case.ini
printf 'k: b\nj: B\n\n[s]\nx: 1\n' >"$room/merged"
layers 'a separator' 0 "$room/merged" --separator ': ' app.d
refuses 'a separator that is not read back' 2 "ini_file: this separator can't be written so that it is read back
note: it isn't one = or : with spaces and tabs alone around it" --separator x app.d
# Each pair with the file and the line that its value is from: of the last file that has the key, the pair that counts there.
printf 'k = 1\nj = 0\n[s]\na = x\na = "y\n"\n[e]\n' >"$here/first.ini"
printf '\357\273\277; note\r\nk = 2\r\n[s]\r\nb = z\r\n[t]\r\nc = 1\r\n[s]\r\na = w\r\n' >"$here/second.ini"
printf 'second.ini:2:\tk\t2\nfirst.ini:2:\tj\t0\nfirst.ini:4:[s]\ta\tx\nsecond.ini:4:[s]\tb\tz\nsecond.ini:6:[t]\tc\t1\n' >"$room/merged"
layers 'places' 0 "$room/merged" --origin first.ini second.ini
printf 'first.ini:1:\tk\t1\nfirst.ini:2:\tj\t0\nsecond.ini:4:[s]\tb\tz\nfirst.ini:4:[s]\ta\tx\nsecond.ini:6:[t]\tc\t1\n' >"$room/merged"
layers 'places, the files the other way round' 0 "$room/merged" --origin second.ini first.ini
printf 'second.ini:2:\tk\t2\nfirst.ini:2:\tj\t0\nsecond.ini:8:[s]\ta\tw\nsecond.ini:4:[s]\tb\tz\nsecond.ini:6:[t]\tc\t1\n' >"$room/merged"
layers 'places, joined sections and last values' 0 "$room/merged" --like php --origin first.ini second.ini
printf 'first.ini:1:\tk\t1\nfirst.ini:2:\tj\t0\nfirst.ini:5:[s]\ta\ty\\n\n' >"$room/merged"
layers 'places, the last value of one file' 0 "$room/merged" --like php --origin first.ini
printf 'case.ini:2:[s]\tx\t9\njoined.ini:4:[s]\ty\t2\njoined.ini:7:[s]\tz\t3\n' >"$room/merged"
layers 'places, no notice of case' 0 "$room/merged" --like git --origin joined.ini case.ini
printf 'app.d/b.conf:1:\tk\tb\napp.d/B.conf:2:\tj\tB\napp.d/b.conf:3:[s]\tx\t1\n' >"$room/merged"
layers 'places, a folder' 0 "$room/merged" --origin app.d
printf 'first.ini\0001\000\000k\0001\000first.ini\0002\000\000j\0000\000first.ini\0004\000[s]\000a\000x\000' >"$room/merged"
layers 'places, as they stand' 0 "$room/merged" --origin --null first.ini
layers 'places, of nothing' 0 "$room/nothing" --origin empty none.d
refuses 'places, a broken file' 3 "$broken_file" --origin one.ini broken.ini bytes.ini
refuses 'places, a file that is no text' 3 'bytes.ini:1:3: this byte is no UTF-8; the file looks like Latin-1: use --encoding latin1' --origin one.ini bytes.ini
cp "$here/one.ini" "$here/both.ini"
layers 'into a file' 0 "$room/nothing" --output both.ini both.ini two.ini
printf 'k=2\nj=2\n\n[s]\na=x\nc=z\n\n[t]\nb=y\n' >"$room/merged"
cp "$here/both.ini" "$room/out"
wrote 'layers, the file that was written' 0 0 "$room/merged"
printf 'k=9\n' >"$room/in"
printf 'k=9\n\n[s]\na=x\n' >"$room/merged"
(cd "$here" && "$file" layers one.ini - <"$room/in" >"$room/out" 2>"$room/err")
wrote 'layers, standard input' $? 0 "$room/merged"
(
    trap '' XFSZ
    ulimit -f 100 && "$file" layers "$room/some" >"$room/out" 2>"$room/err"
)
is_cut 'layers, an output that is full before the end' $? "$layers_fault$large" "$room/some"
