#!/bin/sh
# Makes the pages anew that are made of the sources, and compares them: docs/API.md, LEMMAS.md and TRAPS.md, the tables of
# docs/PROGRAM.md and CONTRACTS.md, by the scripts of these names in tools/pages; and, by names.py there, the names in the pages of
# the manual and in completions, of the programs' help. What differs is shown. Then the edits of must-fail and wrong-bodies.txt
# are read: whether each can be made still. The last line is 'N passed, M failed', and the status is 1 if anything failed.
. "$(dirname "$0")/cases.sh"
has python3 'the pages made of the sources and the edits of wrong bodies' || finish
for file in man/ini_file.1 man/ini_tool.1 completions/bigrosk completions/_bigrosk completions/bigrosk.fish; do
    maker="tools/pages/names.py share/$file"
    is "share/$file; $maker > NEW && mv NEW share/$file makes it" '' \
        "$("$top/tools/pages/names.py" "share/$file" 2>&1 | diff "$top/share/$file" - 2>&1)"
done
for page in API LEMMAS TRAPS PROGRAM CONTRACTS; do
    maker=tools/pages/$(echo "$page" | tr A-Z a-z).py
    is "docs/$page.md; $maker > NEW && mv NEW docs/$page.md makes it" '' "$({ "$top/$maker" || echo "refused: status $?"; } | diff "$top/docs/$page.md" - 2>&1)"
done
run 'edits of must-fail and wrong-bodies.txt that can be made' "$top/tools/wrong_bodies.py" --read
finish
