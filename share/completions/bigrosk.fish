# Completions of fish for ini_tool and ini_file. fish finds this file under each program's name. tools/pages/names.py makes what
# stands between marks, of the programs' help.

# made: lists
set -g bigrosk_tool_commands fmt list get set del
set -g bigrosk_both_options --noescape --noquote --multiline --indent --brackets --raw-backslash --indented-comments \
    --inline-comments --lone-lines --crlf --policy
set -g bigrosk_file_options --like --encoding
set -g bigrosk_text_options --like --lone-lines --policy --encoding --default --type --separator --indent-pairs --blank-lines \
    --sort --section -s --wait --format --color --allow --deny --output
set -g bigrosk_policies Nothing Basics BasicsUnicode BasicsUnicodeExtended Reserved ReservedUnicode ReservedUnicodeExtended \
    Everything
set -g bigrosk_lone_lines runs-on refused keys
set -g bigrosk_dialects auto crate git systemd desktop python php mysql samba windows kde supervisor fail2ban aws editorconfig \
    npm qt hg pulseaudio odbc freetds sssd openssl uwsgi xrdp openttd strict
set -g bigrosk_encodings utf-8 utf-16le utf-16be latin1 windows1252
set -g bigrosk_types bool int size float duration path
set -g bigrosk_sorts keys sections both
set -g bigrosk_colors auto always never
set -g bigrosk_of_files merge layers diff apply merge3 format check
set -g bigrosk_key_places get,2 set,2 add,2 delete,2 unset-all,2 comment,2 uncomment,2 rename-key,2
set -g bigrosk_section_places get,3 keys,2 set,4 add,4 delete,3 unset-all,3 comment,3 uncomment,3 delete-section,2 \
    rename-key,4 rename-section,2
# end

# The words before the one that is typed: those that are no options and no option's text come to `bigrosk_arguments`, the section
# that is named by itself to `bigrosk_section`, the option whose text is typed to `bigrosk_option`.
function __bigrosk_sort
    set -g bigrosk_arguments
    set -g bigrosk_section
    set -g bigrosk_option
    for word in (commandline -opc)[2..]
        if test -n "$bigrosk_option"
            contains -- $bigrosk_option --section -s; and set bigrosk_section $word
            set bigrosk_option
        else if contains -- "$word" $bigrosk_text_options
            set bigrosk_option $word
        else
            switch "$word"
                case -
                    set -a bigrosk_arguments $word
                case '-*'
                case '*'
                    set -a bigrosk_arguments $word
            end
        end
    end
end

# The lines of the help that begin with this, as words and what they mean.
function __bigrosk_help
    $argv[2..] 2>/dev/null | string match -r -g -- "^  ($argv[1]\S*)(?: [A-Z].*?)?(?:  +| (?=[a-z]))(\S.*)" | while read -l word
        read -l meaning
        printf '%s\t%s\n' $word $meaning
    end
end

# The sections of the file that is named.
function __bigrosk_sections
    test -f "$bigrosk_arguments[2]"; and ini_file sections --null -- $bigrosk_arguments[2] 2>/dev/null | string split0
end

# The keys of the file that is named, of the section that is named by itself, if one is.
function __bigrosk_keys
    test -f "$bigrosk_arguments[2]"; or return
    if test -n "$bigrosk_section"
        ini_file keys --null --section $bigrosk_section -- $bigrosk_arguments[2] 2>/dev/null | string split0
    else
        set -l fields (ini_file list --null -- $bigrosk_arguments[2] 2>/dev/null | string split0)
        for at in (seq 2 3 (count $fields))
            echo $fields[$at]
        end
    end
end

function __bigrosk_ini_file
    __bigrosk_sort
    set -l command $bigrosk_arguments[1]
    set -l count (count $bigrosk_arguments)
    switch "$bigrosk_option"
        case --policy
            printf '%s\n' $bigrosk_policies
            return
        case --lone-lines
            printf '%s\n' $bigrosk_lone_lines
            return
        case --like
            printf '%s\n' $bigrosk_dialects
            return
        case --encoding
            printf '%s\n' $bigrosk_encodings
            return
        case --output
            __fish_complete_path
            return
        case --section -s
            __bigrosk_sections
            return
        case --format
            # made: forms
            switch "$command"
                case get
                    printf '%s\n' lines json sh
                case list
                    printf '%s\n' lines json sh ini
                case diff
                    printf '%s\n' lines json edits
                case '*'
                    printf '%s\n' json sarif github
            end
            # end
            return
        case --color
            printf '%s\n' $bigrosk_colors
            return
        case --sort
            printf '%s\n' $bigrosk_sorts
            return
        case --type
            printf '%s\n' $bigrosk_types
            return
        case ''
        case '*'
            return
    end
    if string match -q -- '-*' (commandline -ct)
        printf '%s\n' $bigrosk_file_options $bigrosk_both_options
        test $count -gt 0; and __bigrosk_help -- ini_file $command --help
        return
    end
    if test $count -eq 0
        __bigrosk_help '[a-z]' ini_file --help
    else if test $count -eq 1; or contains -- "$command" $bigrosk_of_files
        __fish_complete_path
    else if contains -- "$command,$count" $bigrosk_key_places
        __bigrosk_keys
    else if contains -- "$command,$count" $bigrosk_section_places
        __bigrosk_sections
    end
end

function __bigrosk_ini_tool
    __bigrosk_sort
    if test "$bigrosk_option" = --policy
        printf '%s\n' $bigrosk_policies
    else if test "$bigrosk_option" = --lone-lines
        printf '%s\n' $bigrosk_lone_lines
    else if test (count $bigrosk_arguments) -eq 0
        if string match -q -- '-*' (commandline -ct)
            printf '%s\n' $bigrosk_both_options
        else
            printf '%s\n' $bigrosk_tool_commands
        end
    end
end

for program in ini_tool ini_file
    complete -c $program -f -a "(__bigrosk_$program)"
end
