# Warnings of the format's traps, by ini_file: read by tests/program.sh, of which it has `count` and the folder `room`, with the
# programs in it.
# shellcheck shell=sh disable=SC2154

# traps: the warnings that `check --null` writes as places and names, in one line
traps() {
    tr '\0' '\n' | paste -d '|' - - - - - | sed 's/^-|\([0-9]*\)|\([0-9]*\)|\([a-z-]*\)|.*$/\1:\2 \3/' | tr '\n' ';'
}

# Worked out by hand. A row is options, a text with escapes, and its warnings, each with line and column; or where it is refused.
while IFS='|' read -r words text want; do
    printf '%b' "$text" >"$room/in"
    # shellcheck disable=SC2086
    "$room/bin/ini_file" $words check --null - <"$room/in" >"$room/out" 2>"$room/err"
    ended=$?
    case $want in
        '') echo 'status 0, ' ;;
        refused*) echo "status 3, $want" ;;
        *) echo "status 1, $want" ;;
    esac >"$room/want"
    if [ -s "$room/err" ]; then
        echo "status $ended, refused at $(head -n 1 "$room/err" | grep -o '[0-9][0-9]*:[0-9][0-9]*' | head -n 1)$(cat "$room/out")"
    else
        echo "status $ended, $(traps <"$room/out")"
    fi >"$room/have"
    count "ini_file check, $words, '$text'"
done <<'ROWS'
||
|; c\nport = 8080\n[paths]\nlog: /var\n|
|one\ntwo = 2\n|1:1 runs-on;
|a=b\none\r\n= 2|2:1 runs-on;
|one=1\ntwo = 2\n|
--lone-lines keys|one\ntwo = 2\n|
--lone-lines keys|a\\\nb\n|1:1 runs-on;
--lone-lines keys|[a] k\n|1:5 after-header;
--lone-lines keys|k\nk\n|2:1 repeated-key;
--lone-lines keys|a=1\n  port 80|
--lone-lines keys|  ; note\nk = v|1:1 mark-begins-key;
--lone-lines keys --indented-comments|  ; note\nk = v|
--lone-lines keys --multiline|k\n  w\n|
|  ; note\nk = v|1:1 comment-runs-on;
|; note\nk = v|
|a=b\n\t#k = v\n|2:1 mark-begins-key;
|a=b\n#k = v\n|
|[server\nport=80\n[client]\n|1:1 unclosed-bracket;
|[server]\nport=80\n[client]\n|
--brackets|[a[b]]\nk=1\n|
|a = 'tis\nport = 80\nb = don't\n|1:5 unclosed-quote;3:9 text-after-quote;
|a = 'tis'\nport = 80\nb = don't\n|
|a = 'tis\nport = 80\nb = dogs'\n|1:5 unclosed-quote;
|k = "a\\\nb"\n|1:5 unclosed-quote;
|k = "a" "b\n|1:9 text-after-quote;
--noquote|a = 'tis\nport = 80\nb = don't\n|
|a=1\n  port 80|2:1 dropped-line;
|a=1\n  port = 80|
|a=1\n  ; port 80\n|
|a=1\n  ; one\n  port 80|2:1 dropped-line;
|a=1\n  |
|[C:\\temp]\n|1:1 escape-in-name;
|[C:\\\\temp]\n[a\\]b]\n|2:1 not-plain;
|a\\tb = 1\n|1:1 escape-in-key;
|a\\\\tb = 1\n|
|a\\=b = 1\n|1:1 not-plain;
--noescape|a\\tb = 1\n[C:\\temp]\n|
|12:30 = job\n|1:3 colon-separates;
|12.30 = job\n|
|C:/x = 1\n|1:2 colon-separates;
|http://h = x\n|1:5 colon-separates;
|note : this = 1\n|1:6 colon-separates;
|command: FOO=bar run\n|
|k:"a=b"\nl=12:30\n|
--multiline|k = v\n  port = 80\n|2:3 pair-in-value;
|k = v\n  port = 80\n|
--multiline|k = v\n\n  port: 80\n  host = x\n|3:3 pair-in-value;4:3 pair-in-value;
--multiline|k = v\n  port 80\n|
--multiline|k = v\n  [b]\n|2:3 header-in-value;
--multiline|k = v\n\n  [b]\n|3:3 header-in-value;
--multiline|k = v\n\n[b]\n|
--multiline|k = v\n  [b], c\n|
--multiline|  k =\n  port = 80\n|2:3 pair-in-value;
--multiline|k =\n  port = 80\n|
--multiline|k = a\n  pytest==3\n  --cov=x\n  http://h\n  a>=1\n|
|; c\rk=v|1:4 lone-cr;
|; c\rk=v\rj=w|1:4 lone-cr;
|; c\r\nk=v|
|; c\r; d\rk=v\r|1:8 lone-cr;
|; c\r; d\r|
|k=v\rj=w\r|
--noescape|p=C:\\\nq=1\n|1:5 joined-line;
--noescape|p=C:\\ \nq=1\n|
|p=C:\\\nq=1\n|1:5 joined-line;
|p=C:\\\r\nq=1\n|1:3 escape;
--noescape|p=C:\\\r\nq=1\n|
|p=C:\\\\\nq=1\n|
|Port=1\nport=2\n|2:1 key-case;
|Port=1\nports=2\n[a]\nport=3\n|
|[a]\n[A]\n|2:1 section-case;
|[a]\n[b]\n|
|k=1\nK=2\nk=3\nk=4|2:1 key-case;3:1 repeated-key;4:1 repeated-key;
|k=1\n[a]\nk=2\n k=3\n[b]\nk=4\n|4:1 repeated-key;
|[a]\n[b]\nk=1\n [ a ]\nk=2\n|4:2 repeated-section;
|k="a"b\n|1:6 text-after-quote;
|k="a" b\n|1:7 text-after-quote;
|k="a"\nl="a""b"\n|
|k="a", "b"\n|1:6 text-after-quote;
|k=a"\n|1:3 half-quote;
--noquote|k=a"\nl="a"b\n|
|k=don't\nl=say "hi"\n|
|k=5\\"\n|
|[a] k=v\n|1:5 after-header;
|[a][b]\n|1:4 after-header;
|[a] \nk=v\n|
|[]\nk=v\n[ ]|1:1 empty-name;3:1 empty-name;3:1 repeated-section;
|k=\0302\0240v\n|1:4 odd-space;
|k=v\0302\0240\n|1:3 odd-space;
|k= \tv \t\n|
|k = v ; note|1:5 mark-in-value;
|k = v;note|
|k="a" ; b\n|1:3 mark-in-value;
|k="a ; b" \n|
|color = #fff|
|k = ; note|1:5 mark-in-value;
|k=;note\nj =\t#|1:3 mark-in-value;2:5 mark-in-value;
|password = # set me\n|1:12 mark-in-value;
|k = '; note'\nj = #a;b|
--multiline|k = v\n  # note\n|1:5 mark-in-value;
--multiline|k = "v\n  # note"\n|1:5 unclosed-quote;
|path = C:\\temp|1:8 escape;
|path = C:\\\\temp|
|path = "say \\"hi\\""|
--noescape|path = C:\\temp|
|\0303\0251 =\0302\0240\\\0303\0251|1:5 escape;1:5 odd-space;
|k = " a "|1:1 not-plain;
--allow=escape|path = C:\\temp\nk = 1 ; a|2:5 mark-in-value;
--allow=all --deny=escape|path = C:\\temp\nk = 1 ; a|1:8 escape;
--allow surprises|path = C:\\temp\none\ntwo = 2|2:1 runs-on;
--deny escape --allow all|path = C:\\temp|
|one\ntwo = 2\n= 3|refused at 3:1
|k = "v|refused at 1:5
|[a|refused at 1:1
ROWS

# Worked out by hand. A row is options, a text with escapes, and the text with its traps mended. Of a mended text nothing is
# mended again.
while IFS='|' read -r words text want; do
    printf '%b' "$want" >"$room/want"
    for given in "$text" "$want"; do
        printf '%b' "$given" >"$room/in"
        # shellcheck disable=SC2086
        "$room/bin/ini_file" $words check --fix - <"$room/in" >"$room/have" 2>"$room/err"
        count "ini_file check --fix, $words, '$given'"
    done
done <<'ROWS'
|path = C:\\temp\n|path = C:\\\\temp\n
|path = C:\\\\temp\n|path = C:\\\\temp\n
|say = \\"hi\\" to C:\\new\n|say = \\"hi\\" to C:\\\\new\n
--noescape|path = C:\\temp\n|path = C:\\temp\n
|a\\tb = 1\n[C:\\temp]\n|a\\\\tb = 1\n[C:\\\\temp]\n
|[a\\]b] \n|[a\\]b] \n
|a = 'tis\nport = 80\nb = don't\n|a = 'tis'\nport = 80\nb = don't\n
|a = 'tis \t\r\nport = 80\r\nb = don't\r\n|a = 'tis' \t\r\nport = 80\r\nb = don't\r\n
|a = "one\nb = two"\n|a = "one\nb = two"\n
|a = "one\ntwo"\nb = 1\n|a = "one\ntwo"\nb = 1\n
|a = "one\n  two"\nb = 1\n|a = "one\n  two"\nb = 1\n
--noquote|a = 'tis\nport = 80\nb = don't\n|a = 'tis\nport = 80\nb = don't\n
|a = 'x\na = 'y\nb = don't\n|a = 'x\na = 'y\nb = don't\n
|[server\nport=80\n[client]\n|[server]\nport=80\n[client]\n
|[server \r\nport=80\r\n[client]\r\n|[server] \r\nport=80\r\n[client]\r\n
|[a\nb]\nk=1\n|[a\nb]\nk=1\n
|[a\\\nb]\nk=1\n|[a\\\nb]\nk=1\n
|p=C:\\\nq=1\n|p=C:\\\\\nq=1\n
--noescape|p=C:\\\nq=1\n|p=C:\\ \nq=1\n
|run = a \\\n--b\n|run = a \\\n--b\n
|run = a \\\n  --b\nk = v\n|run = a \\\n  --b\nk = v\n
|p=C:\\\nq=D:\\\nr=1\n|p=C:\\\\\nq=D:\\\\\nr=1\n
|  ; note\nk = v|; note\nk = v
|a=1\n  ; one\n\t# two\n  k = v\n|a=1\n; one\n# two\n  k = v\n
|a=b\n\t#k = v\n|a=b\n#k = v\n
|  #k = v\rj = w\n|  #k = v\rj = w\n
|; note\n\t; at the end\n|; note\n\t; at the end\n
--multiline|k = v\n  ; note\n|k = v\n  ; note\n
--multiline|  ; note\nk = v\n|; note\nk = v\n
--lone-lines keys|a\n  ; note\nk\n|a\n; note\nk\n
--lone-lines keys|a\\tb\n|a\\\\tb\n
|; c\rk=v\n|; c\r\nk=v\n
|; c\r; d\rk=v\r|; c\r; d\r\nk=v\r
|; 10%\r20%\n|; 10%\r20%\n
|one\ntwo = 2\n  port 80|one\ntwo = 2\n  port 80
|k=1\nk=2\n[a] [A]\n[a]\nk="a"b\nj=a"\n|k=1\nk=2\n[a] [A]\n[a]\nk="a"b\nj=a"\n
--multiline|k = v\n  port = 80\n  [b]\n|k = v\n  port = 80\n  [b]\n
--allow escape|path = C:\\temp\n[a\\b]\n|path = C:\\temp\n[a\\\\b]\n
--allow all --deny escape|path = C:\\temp\n[a\\b]\n|path = C:\\\\temp\n[a\\b]\n
--allow loses-data|p=C:\\\nq=C:\\temp\n|p=C:\\\nq=C:\\\\temp\n
|a = 'tis\n  ; note\nb = don't\n|a = 'tis'\n; note\nb = don't\n
|a\\tb=1\na\\\\tb=2\n|a\\\\tb=1\na\\\\tb=2\n
|\0357\0273\0277  ; c\nk=C:\\y\n|\0357\0273\0277; c\nk=C:\\\\y\n
ROWS
